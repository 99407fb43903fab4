//! Checks that dropped sets are freed, whether or not they were closed. (The file has a single test, because a second
//! test would allocate at the same time.)

use std::fs::read_to_string;

use listset::{open, List};

/// Returns the number of memory pages of the current process.
fn pages() -> i64 {
    read_to_string("/proc/self/statm").unwrap().split(' ').nth(1).unwrap().parse().unwrap()
}

#[test]
fn sets_are_freed() {
    let keys: Vec<u32> = (0..100_000).collect();
    let kept_by = |make: &dyn Fn()| {
        make();
        let before = pages();
        (0..100).for_each(|_| make());
        pages() - before
    };
    let dropped = kept_by(&|| _ = open(List::Lazy, 8, 16_384, &[]).unwrap().split().unwrap()); // (some 3 MB each)
    let closed = kept_by(&|| _ = open(List::Lazy, 1, 0, &keys).unwrap().close().unwrap());
    assert!(dropped.max(closed) < 5000, "{dropped} and {closed} pages");
}
