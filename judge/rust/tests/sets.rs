//! Judges the set that the variable SET names, with the options in HOW, such as "threads=4 runs=2". Judges the set
//! once, or TESTS times. Prints the result and its kind.
use std::collections::{BTreeMap, BTreeSet};
use std::sync::atomic::{AtomicU32, Ordering::SeqCst};
use std::sync::{Arc, Mutex};
use std::thread::{sleep, spawn, yield_now};
use std::time::{Duration, SystemTime, UNIX_EPOCH};

use listset_judge::{judge, judge_keys, Failure, Options, Verdict};

struct Right<K>(Mutex<BTreeSet<K>>);

impl<K: Ord + Clone> Right<K> {
    fn new() -> Self {
        Right(Mutex::new(BTreeSet::new()))
    }
    fn add(&self, key: &K) -> bool {
        self.0.lock().unwrap().insert(key.clone())
    }
    fn remove(&self, key: &K) -> bool {
        self.0.lock().unwrap().remove(key)
    }
    fn contains(&self, key: &K) -> bool {
        self.0.lock().unwrap().contains(key)
    }
}

/// Returns the name of the set's bug in the variable SET. `E later` stands for the bug E if the file `judged` exists,
/// otherwise for `finds all`.
fn error() -> String {
    let name = std::env::var("SET").unwrap();
    match name.strip_suffix(" later") {
        Some(error) if std::path::Path::new("judged").exists() => error.to_string(),
        Some(_) => "finds all".to_string(),
        None => name,
    }
}

/// A set that is correct except for the bug that `error` returns.
struct Set {
    is: String,
    keys: Right<u32>,
    calls: AtomicU32,
    parts: Mutex<BTreeMap<u32, Arc<Right<u32>>>>,
}

impl Set {
    fn new() -> Self {
        let is = error();
        assert_ne!(is, "not made", "no room");
        if is == "ends" {
            let time = SystemTime::now().duration_since(UNIX_EPOCH).unwrap().subsec_nanos();
            spawn(move || {
                sleep(Duration::from_micros(u64::from(time % 40_000)));
                std::process::exit(3)
            });
        }
        let keys = if is == "opens" { BTreeSet::from([1, 3]) } else { BTreeSet::new() };
        Set { is, keys: Right(Mutex::new(keys)), calls: AtomicU32::new(0), parts: Mutex::default() }
    }

    /// Makes a call. With "first use", each key has its own set, created by the first call with the key. The bug: two
    /// overlapping calls can both create a set for the key. With "collides", keys with the same remainder modulo 64 are
    /// treated as one key.
    fn call(&self, call: fn(&Right<u32>, &u32) -> bool, key: u32) -> bool {
        if self.is != "first use" {
            return call(&self.keys, &if self.is == "collides" { key % 64 } else { key });
        }
        let found = self.parts.lock().unwrap().get(&key).cloned();
        let part = found.unwrap_or_else(|| {
            let made = Arc::new(Right::new());
            self.parts.lock().unwrap().insert(key, made.clone());
            made
        });
        call(&part, &key)
    }

    /// Makes a call. With "not known" or "again", loses one reply in fifty. With "not known", the outcome of the call
    /// is then unknown; with "again", the call is repeated.
    fn called(&self, call: fn(&Right<u32>, &u32) -> bool, key: u32) -> Option<bool> {
        let reply = self.call(call, key);
        let is_lost = ["not known", "again"].contains(&&*self.is) && self.calls.fetch_add(1, SeqCst) % 50 == 49;
        match (is_lost, &*self.is) {
            (true, "again") => Some(self.call(call, key)),
            (true, _) => None,
            _ => Some(reply),
        }
    }

    /// Hangs, crashes, exits, panics or naps in a late `remove`. The variable SET selects which. The lock is held
    /// except in a panic, because a poisoned lock would make other threads panic too.
    fn stop(&self) {
        let _held = (self.is != "throws").then(|| self.keys.0.lock().unwrap());
        match (&*self.is, self.calls.fetch_add(1, SeqCst)) {
            ("hangs", 29) => sleep(Duration::from_secs(3600)),
            ("crashes", 29) | ("crashes late", 9999) => std::process::abort(),
            ("exits", 29) => std::process::exit(3),
            ("throws", 29) => panic!("no memory"),
            ("naps", 29) => sleep(Duration::from_millis(1200)),
            _ => {}
        }
    }

    fn add(&self, key: u32) -> Option<bool> {
        if self.is != "check then act" {
            return self.called(Right::add, key);
        }
        let is_new = self.contains(key) == Some(false);
        yield_now();
        if is_new {
            self.keys.add(&key);
        }
        Some(is_new)
    }

    fn remove(&self, key: u32) -> Option<bool> {
        if ["hangs", "naps", "crashes", "crashes late", "exits", "throws"].contains(&&*self.is) {
            self.stop();
        }
        self.called(Right::remove, key)
    }

    fn contains(&self, key: u32) -> Option<bool> {
        let is_late = self.is == "finds all late" && self.calls.fetch_add(1, SeqCst) >= 8000;
        (self.is != "loses contains").then(|| self.is == "finds all" || is_late || self.call(Right::contains, key))
    }
}

impl Drop for Set {
    /// Ends the process when the set is dropped, if the variable SET requests an exit.
    fn drop(&mut self) {
        if self.is == "ends when deleted" {
            std::process::exit(3);
        }
    }
}

fn judged(set: &str, how: Options) -> Result<Verdict, Failure> {
    let texts = |key: fn(u32) -> String| judge_keys(Right::new, key, Right::add, Right::remove, Right::contains, how.clone());
    match set {
        "texts" => texts(|number| format!("key {number}")),
        "twice" => texts(|number| format!("key {}", number / 2)),
        _ => judge!(Set, how),
    }
}

fn how_of(words: &str) -> Options {
    let mut how = Options::default();
    for (name, given) in words.split_whitespace().filter_map(|it| it.split_once('=')) {
        let number = given.parse().unwrap_or(0);
        match name {
            "threads" => how.threads = number,
            "calls" => how.calls = number,
            "keys" => how.keys = number,
            "pauses" => how.pauses = number,
            "runs" => how.runs = number,
            "seed" => how.seed = number,
            "seconds" => how.seconds = number,
            "within" => how.within = number,
            "at_least" => how.at_least = number,
            "adds" => how.shares[0] = number,
            "removes" => how.shares[1] = number,
            "finds" => how.shares[2] = number,
            "own_process" => how.own_process = number == 1,
            "opens_with_keys" => how.opens_with_keys = number == 1,
            "record" => how.record = Some(given.into()),
            _ => panic!("there is no option {name}"),
        }
    }
    how
}

#[test]
#[ignore = "the tests of listset_judge itself"]
fn set() {
    let tests = std::env::var("TESTS").map_or(1, |it| it.parse().unwrap());
    (0..tests).for_each(|_: u32| print());
}

fn print() {
    let (kind, text) = match judged(&std::env::var("SET").unwrap(), how_of(&std::env::var("HOW").unwrap())) {
        Ok(verdict) => ("ok", verdict.to_string()),
        Err(why @ Failure::NotLinearizable(_)) => ("refused", why.to_string()),
        Err(why @ Failure::CutShort(_)) => ("cut short", why.to_string()),
        Err(why @ Failure::TooFew(_)) => ("too few", why.to_string()),
        Err(why) => ("none", why.to_string()),
    };
    println!("verdict: {kind}\n{text}");
}

static COUNTED: Mutex<u64> = Mutex::new(0);

/// Judges a correct set whose `add` needs a lock that a second test holds nearly all the time.
#[test]
#[ignore = "the tests of listset_judge itself"]
fn another_test_holds_a_lock() {
    let holder = std::thread::spawn(|| {
        for _ in 0..40 {
            let _held = COUNTED.lock().unwrap();
            sleep(Duration::from_millis(25));
        }
    });
    let add = |it: &Right<u32>, key| {
        *COUNTED.lock().unwrap() += 1;
        it.add(&key)
    };
    let how = Options { calls: 100, runs: 2, seconds: 5, ..Options::default() };
    println!("{}", judge(Right::new, add, |it, key| it.remove(&key), |it, key| it.contains(&key), how).unwrap());
    holder.join().unwrap();
}
