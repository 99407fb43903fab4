//! Makes the same calls as foreign_calls.c, on a set of liblistset or on a `BTreeSet` that a lock protects.

use std::collections::BTreeSet;
use std::sync::{Barrier, Mutex};
use std::time::Instant;

use listset::{open, Added, List, Seat};

/// A set as one thread sees it: the three operations that a thread calls.
trait Calls: Send {
    fn add(&mut self, key: u32) -> bool;
    fn remove(&mut self, key: u32) -> bool;
    fn contains(&mut self, key: u32) -> bool;
}

impl Calls for Seat {
    fn add(&mut self, key: u32) -> bool {
        let added = Seat::add(self, key);
        assert!(added != Added::Full);
        added == Added::True
    }
    fn remove(&mut self, key: u32) -> bool {
        Seat::remove(self, key)
    }
    fn contains(&mut self, key: u32) -> bool {
        Seat::contains(self, key)
    }
}

impl Calls for &Mutex<BTreeSet<u32>> {
    fn add(&mut self, key: u32) -> bool {
        self.lock().unwrap().insert(key)
    }
    fn remove(&mut self, key: u32) -> bool {
        self.lock().unwrap().remove(&key)
    }
    fn contains(&mut self, key: u32) -> bool {
        self.lock().unwrap().contains(&key)
    }
}

fn nanoseconds<C: Calls>(all: Vec<C>, calls: u32, keys: u32) -> f64 {
    let threads = all.len();
    let (ready, begin) = &(Barrier::new(threads + 1), Barrier::new(threads + 1));
    let begun = std::thread::scope(|scope| {
        for (thread, mut of) in all.into_iter().enumerate() {
            scope.spawn(move || {
                let (mut drawn, mut found) = (88172645463325252 + thread as u64, 0);
                ready.wait();
                begin.wait();
                for _ in 0..calls {
                    drawn = drawn.wrapping_mul(6364136223846793005).wrapping_add(1442695040888963407);
                    let key = (drawn >> 33) as u32 % keys;
                    found += u32::from(match (drawn >> 20) as u32 % 3 {
                        0 => of.add(key),
                        1 => of.remove(key),
                        _ => of.contains(key),
                    });
                }
                assert!(found <= calls);
                of
            });
        }
        ready.wait();
        let begun = Instant::now();
        begin.wait();
        begun
    });
    begun.elapsed().as_nanos() as f64 / (threads as f64 * f64::from(calls))
}

fn main() {
    let words: Vec<String> = std::env::args().skip(1).collect();
    let number = |at: usize| words[at].parse::<u32>().expect("SET THREADS CALLS KEYS");
    let (threads, calls, keys) = (number(1), number(2), number(3));
    let opening: Vec<u32> = (0..keys).step_by(2).collect();
    let found = if words[0] == "tree" {
        let tree = Mutex::new(BTreeSet::from_iter(opening));
        nanoseconds(vec![&tree; threads as usize], calls, keys)
    } else {
        let list = if words[0] == "lazy" { List::Lazy } else { List::LockFree };
        let mut seats = vec![open(list, threads, 16_384, &opening).expect("a set")];
        for _ in 1..threads {
            let split = seats[0].split().expect("a seat");
            seats.push(split);
        }
        nanoseconds(seats, calls, keys)
    };
    println!("{found:.2}");
}
