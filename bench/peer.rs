//! The baseline for sets that several threads call: the lists in `lists.rs`, and std's tree under one lock.
//!   rustc -O peer.rs
//!   peer each KIND THREADS QUOTA CALLS KEYS SEED     times each call, like `bench_calls KIND each ..`
//!   peer whole KIND ..                               times rounds of all calls, like `bench_calls KIND whole ..`; here KIND can also be
//!                                                    `mutex-tree`, which has no quota
//! The times are printed on standard error. `each` prints two numbers for each operation: the total nanoseconds of the
//! calls of all threads, and the number of calls left out (longer than `LONGEST`). `whole` prints the elapsed
//! nanoseconds. Standard output has the number of calls.

mod lists;

use lists::{Call, Kind, Op, Seat, Set};
use std::collections::BTreeSet;
use std::sync::atomic::{AtomicUsize, Ordering::SeqCst};
use std::sync::Mutex;
use std::time::{Duration, Instant};

const LONGEST: u64 = 200_000;
/// The minimum total time of the rounds: rounds are repeated until they have lasted this long.
const ENOUGH: Duration = Duration::from_millis(100);
const OPS: [(Op, &str); 3] = [(Op::Add, "add"), (Op::Remove, "remove"), (Op::Contains, "contains")];

/// PCG32, the generator of the library's random programs.
struct Pcg {
    state: u64,
    step: u64,
}

impl Pcg {
    const FACTOR: u64 = 6_364_136_223_846_793_005;

    fn output(state: u64) -> u32 {
        let mixed = (((state >> 18) ^ state) >> 27) as u32;
        mixed.rotate_right((state >> 59) as u32)
    }

    fn seeded(mut seed: u64) -> Pcg {
        let words = [(); 4].map(|()| {
            seed = seed.wrapping_mul(Pcg::FACTOR).wrapping_add(11_634_580_027_462_260_723);
            u64::from(Pcg::output(seed))
        });
        let step = (words[2] | words[3] << 32) | 1;
        let state = (words[0] | words[1] << 32).wrapping_add(step);
        Pcg { state: state.wrapping_mul(Pcg::FACTOR).wrapping_add(step), step }
    }

    fn next(&mut self) -> u32 {
        let state = self.state;
        self.state = state.wrapping_mul(Pcg::FACTOR).wrapping_add(self.step);
        Pcg::output(state)
    }
}

/// The arguments, in the order of `listset run`.
struct Wanted {
    threads: u64,
    quota: u64,
    calls: u64,
    keys: u64,
    seed: u64,
}

impl Wanted {
    fn read(words: &[String]) -> Wanted {
        let numbers: Vec<u64> = words.iter().map(|it| it.parse().expect("a number")).collect();
        let [threads, quota, calls, keys, seed] = numbers[..] else { panic!("THREADS QUOTA CALLS KEYS SEED") };
        Wanted { threads, quota, calls, keys, seed }
    }

    /// Returns the calls that thread number `thread` makes.
    fn program(&self, thread: u64) -> Vec<Call> {
        let mut drawn = Pcg::seeded(self.seed.wrapping_add(thread));
        let call = |_| {
            let (op, _) = OPS[drawn.next() as usize % OPS.len()];
            Call { op, key: (u64::from(drawn.next()) % self.keys) as u32 }
        };
        (0..self.calls).map(call).collect()
    }

    fn programs(&self) -> Vec<Vec<Call>> {
        (0..self.threads).map(|thread| self.program(thread)).collect()
    }
}

/// Waits until `many` threads have called `meet`.
fn meet(there: &AtomicUsize, many: usize) {
    there.fetch_add(1, SeqCst);
    while there.load(SeqCst) < many {
        std::thread::yield_now();
    }
}

/// Runs each thread's program with `run`. All threads run at the same time.
fn at_once<T: Send>(programs: &[Vec<Call>], run: impl Fn(u64, &[Call]) -> T + Sync) -> Vec<T> {
    let run = &run;
    std::thread::scope(|scope| {
        let started: Vec<_> =
            (0..).zip(programs).map(|(thread, calls)| scope.spawn(move || run(thread, calls))).collect();
        started.into_iter().map(|it| it.join().expect("a thread")).collect()
    })
}

/// Runs each thread's program with `run`. No thread calls the set before all threads have started.
fn together<T: Send>(programs: &[Vec<Call>], run: impl Fn(u64, &[Call]) -> T + Sync) -> Vec<T> {
    let there = AtomicUsize::new(0);
    at_once(programs, |thread, calls| {
        meet(&there, programs.len());
        run(thread, calls)
    })
}

#[derive(Clone, Copy, Default)]
struct Spent {
    calls: u64,
    nanoseconds: u64,
    left_out: u64,
}

impl Spent {
    fn and(self, other: Spent) -> Spent {
        Spent {
            calls: self.calls + other.calls,
            nanoseconds: self.nanoseconds + other.nanoseconds,
            left_out: self.left_out + other.left_out,
        }
    }

    /// Counts a call. If the call lasted longer than `LONGEST`, leaves out its time.
    fn call(self, nanoseconds: u64) -> Spent {
        let is_counted = nanoseconds <= LONGEST;
        self.and(Spent { calls: 1, nanoseconds: if is_counted { nanoseconds } else { 0 }, left_out: u64::from(!is_counted) })
    }
}

fn tell(name: &str, spent: Spent) {
    println!("{name} {}", spent.calls);
    eprintln!("{name} {} {}", spent.nanoseconds, spent.left_out);
}

/// Times each call by reading the clock once per call.
fn each(kind: Kind, wanted: &Wanted) {
    let set = Set::new(kind, wanted.threads, wanted.quota);
    let spent = together(&wanted.programs(), |thread, calls| {
        let mut seat = Seat { thread, used: 0 };
        let mut spent = [Spent::default(); OPS.len()];
        let mut before = Instant::now();
        for call in calls {
            std::hint::black_box(set.call(&mut seat, *call));
            let now = Instant::now();
            let of = &mut spent[call.op as usize];
            *of = of.call((now - before).as_nanos() as u64);
            before = now;
        }
        spent
    });
    for (op, name) in OPS {
        tell(name, spent.iter().map(|it| it[op as usize]).fold(Spent::default(), Spent::and));
    }
}

/// Times rounds, each on a new set. In a round, every thread makes all its calls. A round lasts from the start of the
/// first thread's first call to the end of the last thread.
fn whole<S: Sync>(wanted: &Wanted, new: impl Fn() -> S, make_calls: impl Fn(&S, u64, &[Call]) + Sync) {
    let programs = wanted.programs();
    let (mut calls, mut spent) = (0, Duration::ZERO);
    while spent < ENOUGH {
        let set = new();
        let times = together(&programs, |thread, calls| {
            let before = Instant::now();
            make_calls(&set, thread, calls);
            (before, Instant::now())
        });
        let began = times.iter().map(|it| it.0).min().expect("a thread");
        let ended = times.iter().map(|it| it.1).max().expect("a thread");
        calls += wanted.threads * wanted.calls;
        spent += ended - began;
    }
    tell("all", Spent { calls, nanoseconds: spent.as_nanos() as u64, left_out: 0 });
}

fn whole_of_list(kind: Kind, wanted: &Wanted) {
    whole(wanted, || Set::new(kind, wanted.threads, wanted.quota), |set, thread, calls| {
        let mut seat = Seat { thread, used: 0 };
        for call in calls {
            std::hint::black_box(set.call(&mut seat, *call));
        }
    });
}

/// Applies a call to a tree and returns the reply.
fn change(tree: &mut BTreeSet<u32>, call: &Call) -> bool {
    match call.op {
        Op::Add => tree.insert(call.key),
        Op::Remove => tree.remove(&call.key),
        Op::Contains => tree.contains(&call.key),
    }
}

fn whole_of_mutex_tree(wanted: &Wanted) {
    whole(wanted, || Mutex::new(BTreeSet::new()), |tree, _, calls| {
        for call in calls {
            std::hint::black_box(change(&mut tree.lock().expect("no thread panics"), call));
        }
    });
}

fn main() {
    let words: Vec<String> = std::env::args().skip(1).collect();
    let wanted = Wanted::read(&words[2..]);
    match (words[0].as_str(), words[1].as_str()) {
        ("each", kind) => each(Kind::named(kind), &wanted),
        ("whole", "mutex-tree") => whole_of_mutex_tree(&wanted),
        ("whole", kind) => whole_of_list(Kind::named(kind), &wanted),
        (word, _) => panic!("no {word} here"),
    }
}
