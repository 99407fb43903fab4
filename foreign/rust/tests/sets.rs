//! Compares lists that four threads call with sets of std, and tests the errors of refused calls.

use std::collections::BTreeSet;
use std::sync::Barrier;
use std::thread::scope;

use listset::{most_reads, open, renew, Added, Fault, Left, List, Refused, RenewedSet, Seat, Shared};

const LISTS: [List; 5] = [List::Coarse, List::Fine, List::Optimistic, List::Lazy, List::LockFree];
const THREADS: u32 = 4;
const CALLS: u32 = 5000;
const OWN: u32 = 32;

/// Checks at compile time that a `Seat` is not `Clone`. If a `Seat` were `Clone`, both impls of `Once` would apply, and
/// `is_once` would be ambiguous.
trait Once<T> {
    fn is_once() {}
}
impl<S> Once<()> for S {}
impl<S: Clone> Once<u8> for S {}
const _: fn() = <Seat as Once<_>>::is_once;

/// Calls random operations with keys that no other thread uses. Returns the keys among them that the set contains at
/// the end. `kinds` is the number of operations: 4, or 3 without `ceiling`.
fn calls_of(seat: &mut Seat, thread: u32, kinds: u64) -> BTreeSet<u32> {
    let (mut left, mut drawn) = (BTreeSet::new(), u64::from(thread) + 88172645463325252);
    for _ in 0..CALLS {
        drawn ^= drawn << 13;
        drawn ^= drawn >> 7;
        drawn ^= drawn << 17;
        let key = thread * OWN + (drawn >> 8) as u32 % OWN;
        match drawn % kinds {
            0 => assert_eq!(seat.add(key) == Added::True, left.insert(key)),
            1 => assert_eq!(seat.remove(key), left.remove(&key)),
            2 => assert_eq!(seat.contains(key), left.contains(&key)),
            _ => {
                let found = seat.ceiling(key).filter(|at| *at < (thread + 1) * OWN);
                assert_eq!(found, left.range(key..).next().copied());
            }
        }
    }
    left
}

#[test]
fn each_list_has_the_keys_that_its_threads_added() {
    for list in LISTS {
        let mut seats = vec![open(list, THREADS, CALLS, &[]).unwrap()];
        for _ in 1..THREADS {
            let split = seats[0].split().unwrap();
            seats.push(split);
        }
        // Threads do not call `ceiling` on a lock-free list, because they could all wait for a `remove` that no thread
        // calls.
        let kinds = if list == List::LockFree { 3 } else { 4 };
        let left: BTreeSet<u32> = scope(|threads| {
            let run = |(thread, seat)| threads.spawn(move || calls_of(seat, thread, kinds));
            let running: Vec<_> = (0..THREADS).zip(&mut seats).map(run).collect();
            running.into_iter().flat_map(|it| it.join().unwrap()).collect()
        });
        let mut all = seats.pop().unwrap();
        for seat in seats {
            all.gather(seat).unwrap();
        }
        assert_eq!(all.close().unwrap(), Vec::from_iter(left), "{list:?}");
    }
}

#[test]
fn more_threads_than_seats_share_a_set() {
    for list in LISTS {
        let set = Shared::open(list, 2, 16_384, &[]).unwrap();
        let run = |thread: u32| {
            let own = thread * OWN..(thread + 1) * OWN;
            for key in own.clone().cycle().take(CALLS as usize) {
                assert_eq!((set.add(key), set.contains(key), set.ceiling(key)), (Added::True, true, Some(key)));
                assert!(set.remove(key) && !set.remove(key));
            }
            own.filter(|key| key % 3 == 0).for_each(|key| assert_eq!(set.add(key), Added::True));
        };
        let run = &run;
        scope(|threads| (0..THREADS).for_each(|thread| _ = threads.spawn(move || run(thread))));
        let due: Vec<u32> = (0..THREADS * OWN).filter(|key| key % 3 == 0).collect();
        assert_eq!(set.close().unwrap(), due, "{list:?}");
    }
}

#[test]
fn a_shared_set_uses_the_quota_of_each_seat() {
    let set = Shared::open(List::Lazy, 2, 1, &[5]).unwrap();
    assert_eq!([1, 2, 3, 1].map(|key| set.add(key)), [Added::True, Added::True, Added::Full, Added::False]);
    assert_eq!(set.close().unwrap(), [1, 2, 5]);
    assert_eq!(Shared::open(List::Lazy, 65, 1, &[]).err(), Some(Fault::Seats));
    assert_eq!(Shared::open(List::Lazy, 0, 1, &[]).err(), Some(Fault::Seats));
}

/// Checks that as many adds return true as all quotas together allow, whichever threads call `add`. The set must then
/// have exactly the added keys.
#[test]
fn threads_use_the_quota_of_each_seat() {
    for (seats, quota) in [(2, 50), (64, 1)] {
        let set = Shared::open(List::LockFree, seats, quota, &[]).unwrap();
        let run = |thread| -> Vec<u32> {
            (0..500).map(|at| at * THREADS + thread).filter(|key| set.add(*key) == Added::True).collect()
        };
        let run = &run;
        let mut due: Vec<u32> = scope(|threads| {
            let running: Vec<_> = (0..THREADS).map(|thread| threads.spawn(move || run(thread))).collect();
            running.into_iter().flat_map(|it| it.join().unwrap()).collect()
        });
        due.sort_unstable();
        assert_eq!(due.len() as u32, seats * quota);
        assert_eq!(set.close().unwrap(), due);
    }
}

/// Adds the same keys from several threads, as many keys as all quotas together allow. No add may return full: when all
/// quotas are used up, all keys are present.
#[test]
fn no_add_is_full_while_a_seat_has_quota() {
    for _ in 0..20 {
        let set = Shared::open(List::Lazy, 2, 500, &[]).unwrap();
        let run = || (0..1000).filter(|key| set.add(*key) == Added::Full).count();
        let run = &run;
        scope(|threads| {
            let running: Vec<_> = (0..THREADS).map(|_| threads.spawn(run)).collect();
            assert!(running.into_iter().all(|it| it.join().unwrap() == 0));
        });
    }
}

/// Checks that two threads that open sets at the same time get different numbers.
#[test]
fn sets_opened_at_once_have_different_numbers() {
    for _ in 0..1000 {
        let ready = Barrier::new(2);
        let run = || {
            ready.wait();
            open(List::Lazy, 1, 0, &[]).unwrap()
        };
        let (mut mine, other) = scope(|threads| {
            let other = threads.spawn(run);
            (run(), other.join().unwrap())
        });
        assert_eq!(mine.gather(other).err().map(Fault::from), Some(Fault::OtherSet));
    }
}

/// Checks that a seat (one thread's access to the set) cannot be merged with a seat of another set, even if there are
/// more sets than a 16-bit number can tell apart.
#[test]
fn seats_of_different_sets_are_not_merged() {
    let mut mine = open(List::Lazy, 1, 0, &[]).unwrap();
    let run = || {
        let mut gathered = || mine.gather(open(List::Lazy, 1, 0, &[]).unwrap()).map_err(Fault::from);
        (0..70_000).filter(|_| gathered() == Err(Fault::OtherSet)).count()
    };
    assert_eq!(scope(|threads| threads.spawn(run).join()).unwrap(), 70_000);
}

#[test]
fn the_most_keys_and_the_ends_of_the_quota() {
    let mut keys: Vec<u32> = (0..1 << 20).map(|at| 4095 * at).collect();
    assert!(open(List::Lazy, 1, 0, &keys).unwrap().close().unwrap() == keys, "the most opening keys");
    keys.push(u32::MAX);
    assert_eq!([&keys[..], &[7, 7], &[9, 5]].map(|it| open(List::Lazy, 1, 1, it).err()), [Some(Fault::Keys); 3]);
    assert_eq!(open(List::Lazy, 1, 16_385, &[]).err(), Some(Fault::Quota));
    assert_eq!(open(List::Lazy, 1, 0, &[]).unwrap().add(1), Added::Full);
    let mut most = open(List::Lazy, 1, 16_384, &[]).unwrap();
    assert!((1..=16_384).rev().all(|key| most.add(key) == Added::True) && most.add(0) == Added::Full);
}

#[test]
fn the_least_key_and_the_greatest() {
    let ends = [0, u32::MAX];
    for list in LISTS {
        let mut mine = open(list, 1, 2, &ends).unwrap();
        assert_eq!([0, 1, u32::MAX].map(|key| mine.ceiling(key)), [Some(0), Some(u32::MAX), Some(u32::MAX)]);
        assert_eq!(ends.map(|key| (mine.contains(key), mine.remove(key), mine.contains(key))), [(true, true, false); 2]);
        assert_eq!((mine.ceiling(0), ends.map(|key| mine.add(key))), (None, [Added::True; 2]));
        assert_eq!((mine.ceiling(0), mine.ceiling(1)), (Some(0), Some(u32::MAX)));
        assert_eq!(mine.close().unwrap(), ends, "{list:?}");
    }
    let shared = Shared::open(List::Lazy, 2, 1, &ends).unwrap();
    assert_eq!((shared.ceiling(0), shared.ceiling(1), shared.contains(u32::MAX)), (Some(0), Some(u32::MAX), true));
    assert_eq!(shared.close().unwrap(), ends);
}

#[test]
fn an_error_contains_the_refused_seat() {
    assert_eq!(open(List::Lazy, 0, 1, &[]).err(), Some(Fault::Seats));
    assert_eq!(open(List::Lazy, 1, 16385, &[]).err(), Some(Fault::Quota));
    assert_eq!(open(List::Lazy, 1, 1, &[7, 7]).err(), Some(Fault::Keys));
    let mut mine = open(List::Lazy, 2, 1, &[5]).unwrap();
    let mut split = mine.split().unwrap();
    assert_eq!(mine.split().err(), Some(Fault::NoMore));
    let Refused { back: mut mine, fault } = mine.close().unwrap_err();
    assert_eq!(fault, Fault::SeatsOut);
    let Refused { back: mut other, fault } = mine.gather(open(List::Lazy, 1, 1, &[6]).unwrap()).unwrap_err();
    assert_eq!((fault, other.contains(6), mine.contains(6)), (Fault::OtherSet, true, false));
    assert_eq!((split.add(8), split.add(9), mine.add(5)), (Added::True, Added::Full, Added::False));
    mine.gather(split).unwrap();
    assert_eq!((mine.remove(5), mine.ceiling(5), mine.ceiling(9)), (true, Some(8), None));
    assert_eq!(mine.close().unwrap(), [8]);
}

/// Checks that `?` converts a refusal (a fault with the refused seat) to a boxed error, with and without `Send`, or to
/// its fault. The conversion to a fault drops the seat.
#[test]
fn a_refusal_is_an_error() {
    fn closed() -> Result<Vec<u32>, Box<dyn std::error::Error + Send + Sync>> {
        let mut mine = open(List::Lazy, 2, 1, &[])?;
        let _other = mine.split()?;
        Ok(mine.close()?)
    }
    fn gathered() -> Result<(), Fault> {
        Ok(open(List::Lazy, 1, 1, &[])?.gather(open(List::Lazy, 1, 1, &[])?)?)
    }
    assert_eq!(closed().unwrap_err().to_string(), "not all seats are gathered");
    assert_eq!(gathered(), Err(Fault::OtherSet));
}

/// Checks the replies of `contains_now`, and its error on lists with a `contains` that can block.
#[test]
fn reads_that_do_not_block() {
    for list in LISTS {
        let mut mine = open(list, 2, 3, &[5, 9]).unwrap();
        let blocks = !matches!(list, List::Lazy | List::LockFree);
        let due = |is_there| if blocks { Err(Fault::ReadsBlock) } else { Ok(is_there) };
        assert_eq!([4, 5, 9, u32::MAX].map(|key| mine.contains_now(key)), [false, true, true, false].map(due));
        assert!(mine.remove(5) && mine.add(6) == Added::True);
        assert_eq!([5, 6].map(|key| mine.contains_now(key)), [false, true].map(due), "{list:?}");
    }
    assert_eq!((most_reads(2, 3, 2), most_reads(64, 16_384, 1 << 20)), (18, (1 << 22) + 2));
    assert_eq!([most_reads(0, 1, 1), most_reads(65, 1, 1), most_reads(1, 16_385, 1), most_reads(1, 1, (1 << 20) + 1)], [0; 4]);
}

/// Checks that only a seat of the same set accepts a receipt (proof of the calls that a seat has made).
#[test]
fn receipts() {
    for list in LISTS {
        let mut mine = open(list, 2, 1, &[]).unwrap();
        let (mut other, mut apart) = (mine.split().unwrap(), open(list, 1, 1, &[]).unwrap());
        assert_eq!(mine.add(7), Added::True);
        let given = [mine.receipt().unwrap(), mine.receipt().unwrap()];
        let [first, second] = given;
        assert_eq!(apart.after(first), Err(Fault::OtherSet));
        let found = scope(|threads| threads.spawn(|| (other.after(second), other.contains(7))).join().unwrap());
        assert_eq!(found, (Ok(()), true), "{list:?}");
        mine.gather(other).unwrap();
        assert_eq!(mine.close().unwrap(), [7]);
    }
}

/// Renews a set as a different kind of list, with a different number of seats (threads) and a new quota. Checks that a
/// refused renewal returns the seats or the keys.
#[test]
fn a_set_is_renewed() {
    let mut seats = vec![open(List::Lazy, 3, 1, &[5]).unwrap()];
    for _ in 1..3 {
        let split = seats[0].split().unwrap();
        seats.push(split);
    }
    assert_eq!(
        [(0, 7), (1, 8), (0, 9)].map(|(seat, key): (usize, u32)| seats[seat].add(key)),
        [Added::True, Added::True, Added::Full]
    );
    let out = seats.pop();
    let mut seats = match renew(seats, List::Fine, 1, 9).unwrap_err() {
        Refused { back: Left::Seats(seats), fault: Fault::SeatsOut } => seats,
        other => panic!("{other:?}"),
    };
    seats.extend(out);
    for (count, quota, due) in [(0, 1, Fault::Seats), (65, 1, Fault::Seats), (1, 16_385, Fault::Quota)] {
        let refused = renew(seats, List::Fine, count, quota).unwrap_err();
        seats = match refused.back {
            Left::Seats(seats) => seats,
            Left::Keys(keys) => panic!("{keys:?}"),
        };
        assert_eq!((seats.len(), refused.fault), (3, due));
    }
    for (list, count) in LISTS.into_iter().zip([1, 64, 2, 5, 3]) {
        seats = renew(seats, list, count, 1).unwrap();
        assert_eq!((seats.len(), seats[0].ceiling(0)), (count as usize, Some(5)), "{list:?}");
    }
    assert!(seats[2].add(9) == Added::True && seats[0].remove(7));
    let mut seats = renew(seats, List::Lazy, 1, 0).unwrap();
    assert_eq!(seats.remove(0).close().unwrap(), [5, 8, 9]);
}

/// Tests threads that share a set that renews itself. The quota is so small that the set is closed and opened again
/// hundreds of times.
#[test]
fn a_renewed_set_has_the_keys_that_its_threads_added() {
    for (list, quota) in LISTS.into_iter().zip([50, 50, 50, 1, 7]) {
        let set = RenewedSet::open(list, THREADS, quota, &[1 << 20]).unwrap();
        let run = |thread: u32| {
            let mut seat = set.split().unwrap();
            for key in (thread * OWN..(thread + 1) * OWN).cycle().take(2000) {
                assert_eq!((seat.add(key), seat.contains(key)), (Ok(Added::True), Ok(true)));
                // On the lock-free list, a ceiling can wait for an add of another thread, and perhaps no thread will
                // call add again.
                assert!(list == List::LockFree || seat.ceiling(key) == Ok(Some(key)));
                assert_eq!((seat.remove(key), seat.remove(key)), (Ok(true), Ok(false)));
            }
            (0..OWN).for_each(|at| assert_eq!(seat.add(thread * OWN + at), Ok(Added::True)));
        };
        let run = &run;
        scope(|threads| (0..THREADS).for_each(|thread| _ = threads.spawn(move || run(thread))));
        let due: Vec<u32> = (0..THREADS * OWN).chain([1 << 20]).collect();
        assert_eq!((set.keys(), set.close(), set.keys()), (Ok(due.clone()), Ok(due), Err(Fault::Closed)), "{list:?}");
    }
}

/// Checks the number of seats, and that a dropped seat is free again. A call must not wait for a thread that is between calls.
#[test]
fn the_seats_of_a_renewed_set() {
    let set = RenewedSet::open(List::LockFree, 2, 1, &[]).unwrap();
    let (mut mine, rests) = (set.split().unwrap(), set.split().unwrap());
    assert_eq!((set.split().err(), set.close()), (Some(Fault::NoMore), Err(Fault::SeatsOut)));
    assert!((0..100).all(|key| mine.add(key) == Ok(Added::True)));
    drop(rests);
    assert!(set.split().is_ok());
    drop(mine);
    assert_eq!(set.close().map(|it| it.len()), Ok(100));
    let none = RenewedSet::open(List::Lazy, 1, 0, &[]).unwrap();
    assert_eq!(none.split().unwrap().add(1), Ok(Added::Full));
}
