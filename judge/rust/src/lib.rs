//! Tests whether your own concurrent set is linearizable, in one line of a test:
//!
//! ```ignore
//! #[test]
//! fn is_linearizable() {
//!     println!("{}", listset_judge::judge!(MySet).unwrap());
//! }
//! ```
//!
//! `MySet` has `new`, `add`, `remove` and `contains`; for any other set, pass closures to [`judge`]. Threads call new
//! sets. The start and the end of each call are recorded. A judge decides whether some order of the calls explains
//! their replies.
//!
//! The judge is `liblistset` if `build.rs` finds it. Otherwise it is the program named by the environment variable
//! `LISTSET` or, if that is not set, `listset` in `PATH`. If `LISTSET` names a `listset.js`, node runs the file. If
//! `LISTSET` is `skip`, nothing is judged.
//!
//! On Unix, the sets are called in a separate process. The process runs the test again up to its call to `judge`. If a
//! set crashes or hangs in the process, the calls made so far are judged.

mod area;
mod child;
mod judges;
mod memory;
mod partners;
mod recording;
mod stops;
mod words;

use std::collections::HashMap;
use std::fmt::{self, Debug};
use std::hash::Hash;
use std::io::Write;
use std::path::PathBuf;
use std::time::{Duration, Instant, SystemTime, UNIX_EPOCH};

use child::Runner;
use judges::Judge;
use recording::{Fault, Outcome, Recording};
use words::*;

/// Options of a test. All of them are checked before the first set is created. The runs of a test cycle through seven
/// presets (built-in numbers of threads, calls and keys).
#[derive(Clone, Debug)]
pub struct Options {
    /// The number of threads that call a set at the same time: 1 to 64. 0 selects the preset's number.
    pub threads: u32,
    /// The number of calls of each thread: at least 1, and at most 1,000,000,000 for all threads together. 0 selects
    /// the preset's number. After every 20,000 calls of all threads together, the threads wait until the calls are
    /// written to the recording's file.
    pub calls: u32,
    /// The number of keys: 1 to 1,048,576. 0 selects the preset's number. With more than eight keys, half of the calls
    /// use the first four.
    pub keys: u32,
    /// How often a thread pauses before a call, in percent: 0 to 100. A pause lasts at most a few microseconds. If
    /// `pauses` is not 0 and the set has its own process, the signal SIGURG also interrupts threads during calls.
    pub pauses: u32,
    /// The number of runs: 1 to 1,000,000. A run uses one set, or several new sets one after another. Run `i` uses the
    /// seed `seed + i`.
    pub runs: u32,
    /// The random seed for the calls, keys and pauses of the first run. If the first seed is not 1, no further runs follow a
    /// refusal.
    pub seed: u32,
    /// A run is considered hung, and is cut short, if no call begins or ends for this many seconds: 1 to 3,600.
    pub seconds: u32,
    /// The time limit for the test in seconds: 1 to 604,800. No run starts after the limit.
    pub within: u32,
    /// The minimum percentage of calls that must overlap a call that adds or removes the same key. If fewer do, the
    /// test fails with `TooFew`.
    pub at_least: u32,
    /// The relative frequencies of `add`, `remove` and `contains`.
    pub shares: [u32; 3],
    /// If `false`, sets are called in the test's process. The process then crashes or hangs with a set. Useful for
    /// debuggers, for coverage, and for sets that need threads of the test's process.
    pub own_process: bool,
    /// If `true`, the opening keys are recorded: before all other calls, `contains` is called for each key.
    pub opens_with_keys: bool,
    /// The folder for the recordings of all runs. If `None`, only the recording of a failed run is kept, in the folder that
    /// the variable `LISTSET_RECORD` names, or else in the folder for temporary files.
    pub record: Option<PathBuf>,
}

impl Default for Options {
    fn default() -> Self {
        Options {
            threads: 0,
            calls: 0,
            keys: 0,
            pauses: 20,
            runs: 20,
            seed: 1,
            seconds: 30,
            within: WITHIN,
            at_least: 0,
            shares: [1, 1, 1],
            own_process: true,
            opens_with_keys: false,
            record: None,
        }
    }
}

pub(crate) struct Range {
    name: &'static str,
    least: u64,
    most: u64,
}

/// The sizes of a run: the number of threads, of new sets used one after another, of calls per thread and set, and of
/// keys. The keys are the multiples of `times`. Threads wait for each other after every `MEET` calls or, if
/// `meets_once`, only at the beginning.
#[derive(Clone, Copy)]
pub(crate) struct Shape {
    name: &'static str,
    threads: u32,
    sets: u32,
    calls: u32,
    keys: u32,
    times: u32,
    meets_once: bool,
}

impl Shape {
    /// Returns the sizes of a run with `LONGER` times as many calls. A run of several sets gets more sets.
    fn longer(mut self) -> Shape {
        if self.sets > 1 {
            self.sets *= LONGER;
        } else {
            self.calls *= LONGER;
        }
        self
    }

    /// Returns the maximum number of calls of a thread between two saves of the recording.
    fn rows(&self) -> u32 {
        self.calls.min(PART / self.threads)
    }

    fn parts(&self) -> u32 {
        (self.calls - 1) / self.rows() + 1
    }

    fn all_calls(&self) -> u64 {
        u64::from(self.threads) * u64::from(self.sets) * u64::from(self.calls)
    }
}

impl Options {
    fn check(&self) -> Result<(), Failure> {
        let [threads, calls, keys] = [self.threads, self.calls, self.keys].map(|it| u64::from(it.max(1)));
        let others = [self.pauses, self.runs, self.seconds, self.within, self.at_least].map(u64::from);
        let shares = self.shares.iter().copied().map(u64::from).sum();
        let given = [threads, threads * calls, keys].into_iter().chain(others).chain([shares]);
        match RANGES.iter().zip(given).find(|(its, given)| !(its.least..=its.most).contains(given)) {
            Some((its, given)) => no_verdict(say(RANGE, &[&its.name, &given, &its.least, &its.most])),
            None => Ok(()),
        }
    }

    /// Returns the preset that belongs to `seed`, modified by the options.
    fn shape_of(&self, seed: u64) -> Shape {
        let mut it = PRESETS[(seed as usize + PRESETS.len() - 1) % PRESETS.len()];
        if self.threads > 0 {
            it.threads = self.threads;
        }
        if self.keys > 0 {
            (it.keys, it.times) = (self.keys, 1);
        }
        if self.calls > 0 {
            (it.calls, it.sets) = (self.calls, 1);
        }
        if self.opens_with_keys {
            (it.calls, it.sets) = (it.sets * it.calls, 1);
        }
        it
    }

    /// Returns the part of the message that names the presets of the earlier runs, which all passed.
    fn passed_before(&self, seed: u64) -> String {
        let earlier = (u64::from(self.seed)..seed).take(PRESETS.len());
        let names: Vec<&str> = earlier.map(|it| self.shape_of(it).name).collect();
        if names.is_empty() {
            String::new()
        } else {
            say(PASSED_BEFORE, &[&names.join(", ")])
        }
    }

    /// Returns the part of the message about a run whose sizes were changed because few calls overlapped. Returns an
    /// empty string if the run has the sizes of its preset.
    fn made_harder(&self, seed: u64, it: Shape) -> String {
        let first = self.shape_of(seed);
        let is_same = (it.threads, it.calls, it.keys) == (first.threads, first.calls, first.keys);
        if is_same {
            String::new()
        } else {
            MADE_HARDER.to_string()
        }
    }

    /// Applies the environment variables. If `LISTSET_SECONDS` is set, runs are repeated for that many seconds, with
    /// seeds that count up from the current time. `LISTSET_SEED` is the first seed.
    fn by_environment(&self) -> Result<Options, Failure> {
        let mut it = self.clone();
        let seconds = number_of("LISTSET_SECONDS", 0, 1, RANGES[6].most as u32)?;
        if seconds > 0 {
            let now = SystemTime::now().duration_since(UNIX_EPOCH).unwrap_or_default();
            (it.within, it.runs, it.seed) = (seconds, RANGES[4].most as u32, now.as_secs() as u32);
        }
        it.seed = number_of("LISTSET_SEED", it.seed, 0, u32::MAX)?;
        Ok(it)
    }

    /// Returns whether the test repeats a run: its seed is from `LISTSET_SEED`, or the option `seed` is not 1.
    fn is_replay(&self) -> bool {
        is_set("LISTSET_SEED") || self.seed != Options::default().seed && !is_set("LISTSET_SECONDS")
    }

    /// Returns the part of the message about runs that were not performed because time ran out. Returns an empty string
    /// if all runs were performed, or if `LISTSET_SECONDS` is set (the number of runs is then not fixed).
    fn fewer_runs(&self, made: u64) -> String {
        if made == u64::from(self.runs) || is_set("LISTSET_SECONDS") {
            String::new()
        } else {
            say(FEWER_RUNS, &[&made, &self.runs, &self.within])
        }
    }

    /// Returns the sizes of a run with more overlapping calls: more threads (possibly more than processors), fewer
    /// keys, and twice as many calls in total. Does not change numbers that the options set. The threads wait for each
    /// other only at the beginning, because on a busy machine a waiting thread is not interrupted during a call.
    fn harder(&self, it: Shape) -> Shape {
        let processors = std::thread::available_parallelism().map_or(1, |it| it.get()) as u32;
        let threads = if self.threads == 0 { (2 * it.threads).max(processors + 2).min(64) } else { it.threads };
        let calls = if self.calls == 0 { 2 * it.calls * it.threads / threads + 1 } else { it.calls };
        let keys = if self.keys == 0 { (it.keys / 2).max(1) } else { it.keys };
        Shape { threads, calls, keys, meets_once: true, ..it }
    }

    /// Returns the sizes of all presets, modified by the options.
    fn shapes(&self) -> impl Iterator<Item = Shape> + '_ {
        (1..=PRESETS.len() as u64).map(|it| self.shape_of(it))
    }
}

/// The result of a successful test: some order explains each run. `Display` formats the result.
#[derive(Clone, Debug)]
#[non_exhaustive]
pub struct Verdict {
    pub calls: u64,
    /// The number of calls that overlapped a change of their key, as counted by the judge.
    pub overlapped: u64,
    /// The name of the judge, and whether the judge states that it is proved.
    pub judge: String,
    /// The part of the message about runs that were not performed because of the time limit `within`. Empty if all runs
    /// were performed.
    pub fewer_runs: String,
}

impl Verdict {
    fn of_no_run(judge: String) -> Verdict {
        Verdict { calls: 0, overlapped: 0, judge, fewer_runs: String::new() }
    }

    /// Returns `true` if so few calls overlapped that the verdict `ok` means little.
    fn is_few(&self) -> bool {
        is_few(self.overlapped, self.calls)
    }
}

fn is_few(overlapped: u64, calls: u64) -> bool {
    overlapped * 100 < calls * u64::from(ENOUGH)
}

impl fmt::Display for Verdict {
    fn fmt(&self, f: &mut fmt::Formatter<'_>) -> fmt::Result {
        if self.judge.is_empty() {
            return write!(f, "{SKIPPED}");
        }
        let text = if self.is_few() { FEW } else { OK };
        write!(f, "{}{}; judge: {}", say(text, &[&self.calls, &self.overlapped]), self.fewer_runs, self.judge)
    }
}

/// A failed run.
#[derive(Clone, Debug)]
#[non_exhaustive]
pub struct Failed {
    pub seed: u64,
    /// The name of the run's preset.
    pub name: String,
    /// The judge's output. If the run was cut short, the reason precedes the output.
    pub said: String,
    /// The file with the run's recording.
    pub file: PathBuf,
    pub judge: String,
    /// The complete message about the failed run.
    pub text: String,
}

/// The reason why a test failed. `Display` and `unwrap` print the complete message.
#[non_exhaustive]
pub enum Failure {
    /// No order explains the run.
    NotLinearizable(Failed),
    /// The set crashed, hung or panicked. The run's earlier calls were judged.
    CutShort(Failed),
    /// Fewer calls than `at_least` requires overlapped a change of their key.
    TooFew(String),
    /// Nothing is known about the set: an option is out of range, no set could be created, or no judge was found.
    NoVerdict(String),
}

impl fmt::Display for Failure {
    fn fmt(&self, f: &mut fmt::Formatter<'_>) -> fmt::Result {
        match self {
            Failure::NotLinearizable(it) | Failure::CutShort(it) => write!(f, "{}", it.text),
            Failure::TooFew(why) | Failure::NoVerdict(why) => write!(f, "{why}"),
        }
    }
}

impl Debug for Failure {
    fn fmt(&self, f: &mut fmt::Formatter<'_>) -> fmt::Result {
        fmt::Display::fmt(self, f)
    }
}

impl std::error::Error for Failure {}

/// The reply of a call: `bool` or `Option<bool>`. `None` means that the outcome is unknown, for example after a timeout.
pub trait Reply {
    fn known(self) -> Option<bool>;
}

impl Reply for bool {
    fn known(self) -> Option<bool> {
        Some(self)
    }
}

impl Reply for Option<bool> {
    fn known(self) -> Option<bool> {
        self
    }
}

/// Judges a set type that has `new()`, `add(&self, u32) -> bool`, `remove` and `contains`. With the argument `make:
/// FUNCTION`, `FUNCTION` is called instead of `new`. The last argument can be `Options`.
#[macro_export]
macro_rules! judge {
    ($set:ty) => {
        $crate::judge!($set, make: <$set>::new, $crate::Options::default())
    };
    ($set:ty, make: $make:expr) => {
        $crate::judge!($set, make: $make, $crate::Options::default())
    };
    ($set:ty, make: $make:expr, $options:expr) => {
        $crate::judge($make, <$set>::add, <$set>::remove, <$set>::contains, $options)
    };
    ($set:ty, $options:expr) => {
        $crate::judge!($set, make: <$set>::new, $options)
    };
}

/// How a test creates sets and calls them. `reply` makes a call with the key that belongs to a number; `shown` formats
/// that key.
struct Source<'a, S> {
    make: &'a dyn Fn() -> S,
    reply: Replies<'a, S>,
    shown: &'a dyn Fn(u32) -> String,
    /// Whether the test has its own function that converts numbers to keys.
    has_keys: bool,
}

/// A function that calls `add` (0), `remove` (1) or `contains` (2) with a key, and returns the reply.
type Replies<'a, S> = &'a (dyn Fn(&S, u8, u32) -> Option<bool> + Sync);

/// Judges the sets that `make` creates. Many threads call the three closures at the same time.
pub fn judge<S: Sync, A: Reply, R: Reply, C: Reply>(
    make: impl Fn() -> S,
    add: impl Fn(&S, u32) -> A + Sync,
    remove: impl Fn(&S, u32) -> R + Sync,
    contains: impl Fn(&S, u32) -> C + Sync,
    options: Options,
) -> Result<Verdict, Failure> {
    options.check()?;
    let reply = |set: &S, word, key| match word {
        0 => add(set, key).known(),
        1 => remove(set, key).known(),
        _ => contains(set, key).known(),
    };
    judged(&Source { make: &make, reply: &reply, shown: &|key| key.to_string(), has_keys: false }, &options)
}

/// Judges sets with keys of type `K`. `key` converts a number to a key, and must return a different key for each number.
pub fn judge_keys<S: Sync, K: Eq + Hash + Debug + Sync, A: Reply, R: Reply, C: Reply>(
    make: impl Fn() -> S,
    key: impl Fn(u32) -> K,
    add: impl Fn(&S, &K) -> A + Sync,
    remove: impl Fn(&S, &K) -> R + Sync,
    contains: impl Fn(&S, &K) -> C + Sync,
    options: Options,
) -> Result<Verdict, Failure> {
    options.check()?;
    let keys: Vec<K> = (0..options.shapes().map(|it| it.keys).max().unwrap_or(0)).map(key).collect();
    let mut seen = HashMap::new();
    for (number, key) in keys.iter().enumerate() {
        if let Some(old) = seen.insert(key, number) {
            return no_verdict(say(TWICE, &[&format!("{key:?}"), &old, &number]));
        }
    }
    let reply = |set: &S, word, number: u32| match (word, &keys[number as usize]) {
        (0, key) => add(set, key).known(),
        (1, key) => remove(set, key).known(),
        (_, key) => contains(set, key).known(),
    };
    let shown = |number| format!("{:?}", keys[number as usize]);
    judged(&Source { make: &make, reply: &reply, shown: &shown, has_keys: true }, &options)
}

fn is_set(variable: &str) -> bool {
    std::env::var_os(variable).map_or(false, |it| !it.is_empty())
}

/// Returns the number in an environment variable, or `other` if the variable is not set.
fn number_of(variable: &str, other: u32, least: u32, most: u32) -> Result<u32, Failure> {
    match std::env::var(variable) {
        Ok(text) if !text.is_empty() => match text.parse() {
            Ok(found) if (least..=most).contains(&found) => Ok(found),
            _ => no_verdict(say(NUMBER, &[&variable, &text, &least, &most])),
        },
        _ => Ok(other),
    }
}

fn judged<S: Sync>(source: &Source<S>, options: &Options) -> Result<Verdict, Failure> {
    if std::env::var_os("LISTSET").map_or(false, |it| it == "skip") {
        if std::env::var_os("CI").map_or(false, |it| !it.is_empty()) {
            return no_verdict(NOT_IN_CI.to_string());
        }
        let _ = writeln!(std::io::stderr(), "{SKIPPED}");
        return Ok(Verdict::of_no_run(String::new()));
    }
    let options = &options.by_environment()?;
    let runner = match Runner::started(source, options)? {
        Some(it) => it,
        None => {
            return Ok(Verdict::of_no_run(String::new()));
            // The current process is a child process that was started for a different call to `judge` in the test.
        }
    };
    let judge = Judge::found()?;
    Tester { source, options, runner: &runner, judge: &judge, began: Instant::now() }.all()
}

/// The state of a test. Judges runs one after another.
struct Tester<'a, S> {
    source: &'a Source<'a, S>,
    options: &'a Options,
    runner: &'a Runner,
    judge: &'a Judge,
    began: Instant,
}

impl<'a, S: Sync> Tester<'a, S> {
    /// Performs the requested runs, each up to three times, and then more runs as long as few calls have overlapped.
    fn all(&self) -> Result<Verdict, Failure> {
        let mut verdict = Verdict::of_no_run(self.judge.to_string());
        let (began, options) = (self.began, self.options);
        let is_within = |since: Instant, seconds: u32| since.elapsed() < Duration::from_secs(seconds.into());
        let mut run = |seed, shape| -> Result<(bool, bool), Failure> {
            let (overlapped, calls) = (self.judged_run(seed, shape)?, shape.all_calls());
            verdict.overlapped += overlapped;
            verdict.calls += calls;
            Ok((is_few(overlapped, calls), verdict.is_few()))
        };
        let (first, mut seed, mut are_few) = (u64::from(options.seed), u64::from(options.seed), false);
        while seed < first + u64::from(options.runs) && (seed == first || is_within(began, options.within)) {
            let mut shape = options.shape_of(seed);
            for _ in 0..=HARDER {
                let (is_few, all) = run(seed, shape)?;
                are_few = all;
                if !is_few || !is_within(began, PATIENCE) {
                    break;
                }
                shape = options.harder(shape);
            }
            seed += 1;
        }
        let (fewer_runs, end) = (options.fewer_runs(seed - first), Instant::now());
        while are_few && is_within(began, options.within) && is_within(end, PATIENCE) {
            are_few = run(seed, options.harder(options.harder(options.shape_of(seed))))?.1;
            seed += 1;
        }
        verdict.fewer_runs = fewer_runs;
        if verdict.is_few() {
            let _ = writeln!(std::io::stderr(), "{verdict}"); // (cargo shows this even for a passed test, unlike `eprintln!`)
        }
        if verdict.overlapped * 100 < verdict.calls * u64::from(self.options.at_least) {
            return Err(Failure::TooFew(say(TOO_FEW, &[&verdict.overlapped, &verdict.calls, &self.options.at_least])));
        }
        Ok(verdict)
    }

    /// Performs a run and judges its recording. Returns the number of calls that overlapped a change of their key.
    fn judged_run(&self, seed: u64, shape: Shape) -> Result<u64, Failure> {
        let harder = self.options.made_harder(seed, shape);
        match self.outcome(seed, shape, None)? {
            Outcome::Passed(overlapped) => Ok(overlapped),
            Outcome::CutShort(fault) => Err(Failure::CutShort(fault.failed(self.source, seed, &harder))),
            Outcome::Refused(first) => {
                let (best, refused_of) = self.clearest(first, seed, shape);
                Err(Failure::NotLinearizable(best.failed(self.source, seed, &(harder + &refused_of))))
            }
        }
    }

    fn outcome(&self, seed: u64, mut shape: Shape, until: Option<Instant>) -> Result<Outcome<'a>, Failure> {
        if self.source.has_keys {
            shape.times = 1;
        }
        let recording = Recording::new(self.options, shape, seed, self.judge)?;
        let trouble = self.runner.made(self.source, seed, shape, &recording.path, until)?;
        recording.judged(self.source, &self.runner.area, trouble)
    }

    /// Looks for a clearer refusal: performs longer runs with the preset of a refused run and later seeds, until a run
    /// cannot be completed. The runs begin and end within `FURTHER_FOR` seconds, or within `FURTHER_MOST` seconds while
    /// the best refusal reports fewer than `CLEAR` contradictions. Both times are shorter if the test's own time limits
    /// are short. Returns the run whose refusal reports the most contradictions, and the part of the message that counts
    /// the refused runs.
    fn clearest(&self, first: Fault<'a>, seed: u64, shape: Shape) -> (Fault<'a>, String) {
        if self.options.is_replay() || !self.runner.has_own_process() {
            return (first, String::new());
        }
        let Options { seconds, within, .. } = *self.options;
        let left = Duration::from_secs(within.into()).saturating_sub(self.began.elapsed());
        let (begun, least) = (Instant::now(), Duration::from_millis(100) * seconds.min(within).min(10 * FURTHER_FOR));
        let (mut best, mut refused, mut runs) = (first, 1, 1);
        while runs <= FURTHER {
            let is_clear = best.contradictions() >= u64::from(CLEAR);
            let end = begun + left.min(if is_clear { least } else { least * FURTHER_MOST / FURTHER_FOR });
            if Instant::now() >= end {
                break;
            }
            match self.outcome(seed + u64::from(runs) * PRESETS.len() as u64, shape.longer(), Some(end)) {
                Ok(Outcome::Passed(_)) => {}
                Ok(Outcome::Refused(next)) => {
                    refused += 1;
                    if next.contradictions() > best.contradictions() {
                        best = next;
                    }
                }
                Ok(Outcome::CutShort(_)) | Err(_) => break,
            }
            runs += 1;
        }
        (best, if runs > 1 { say(REFUSED_OF, &[&refused, &runs]) } else { String::new() })
    }
}

fn no_verdict<T>(why: String) -> Result<T, Failure> {
    Err(Failure::NoVerdict(why))
}
