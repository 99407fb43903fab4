//! A set that renews itself: when a seat (one thread's access) has used up its quota of adds, a new set with the same
//! keys replaces the set.

use std::sync::atomic::{AtomicBool, Ordering};
use std::sync::{Mutex, MutexGuard, TryLockError};
use std::thread::sleep;
use std::time::{Duration, Instant};

use crate::sets::{close_in, keys_of, renew_in, NONE};
use crate::{open, Added, Fault, List, Seat};

const POLL: Duration = Duration::from_micros(50);
const LONG: Duration = Duration::from_millis(5);
const MOST_OPENING: u64 = 1 << 20;

/// A set that renews itself: when a seat (one thread's access) has used up its quota of adds, a new set with the same
/// keys replaces the set.
///
/// A thread gets its own seat from [`RenewedSet::split`], and returns the seat by dropping it. Calls wait during a
/// renewal. The renewal waits for pending calls, but not for threads that are between two calls. A call waits for other
/// calls for at most [`patience`](RenewedSet::with_patience). After that, the call returns [`Fault::TimedOut`] and has
/// no effect. The page FOREIGN.md states the promised order of calls.
///
/// ```
/// use listset::{List, RenewedSet};
///
/// let set = RenewedSet::open(List::Lazy, 4, 100, &[])?;
/// std::thread::scope(|threads| {
///     for first in 0..4 {
///         let mut seat = set.split()?;
///         threads.spawn(move || (0..1000).for_each(|at| assert!(seat.add(4 * at + first) == Ok(listset::Added::True))));
///     }
///     Ok::<(), listset::Fault>(())
/// })?;
/// assert_eq!(set.close()?.len(), 4000);
/// # Ok::<(), listset::Fault>(())
/// ```
#[derive(Debug)]
pub struct RenewedSet {
    list: List,
    quota: u32,
    patience: Duration,
    renewing: Mutex<()>,   // A thread locks this before it locks all places (the seats with their locks).
    is_wanted: AtomicBool, // Whether a thread has waited so long for the locks that new calls of other threads must wait.
    places: Vec<Place>,
}

/// A place for one thread: a seat (a per-thread handle to the set) with its lock, and whether a thread has the seat.
#[derive(Debug)]
#[repr(align(128))]
struct Place {
    is_taken: AtomicBool,
    part: Mutex<Part>,
}

/// The part of a place (a seat with its lock) that the lock protects: the seat, and counts for the next renewal.
#[derive(Debug)]
struct Part {
    seat: Seat,
    stage: Stage,
    /// The number of keys that the set had when it was last opened. Only the first place's number is used.
    opened_with: u64,
    /// The number of keys that `seat` (one thread's access to the set) has added since the set was last opened.
    adds: u64,
    /// The number of keys that `seat` (one thread's access to the set) has removed since the set was last opened.
    removes: u64,
}

/// The stage of the set. All places (seats with their locks) store the same stage. The stage changes only while all
/// places are locked.
#[derive(Clone, Copy, Debug, PartialEq)]
enum Stage {
    Open,
    ToBeRenewed,
    Closed,
}

/// The held locks of all places (seats with their locks), and the index (from 0) of the caller's place. `parts` is
/// dropped before `_wanted`.
struct All<'a> {
    parts: Vec<MutexGuard<'a, Part>>,
    mine: usize,
    _wanted: Wanted<'a>,
}

/// The right to lock all places (seats with their locks). Only one thread at a time has the right.
struct Wanted<'a> {
    set: &'a RenewedSet,
    _one: MutexGuard<'a, ()>,
}

impl Drop for Wanted<'_> {
    fn drop(&mut self) {
        self.set.is_wanted.store(false, Ordering::Release);
    }
}

impl Part {
    fn add(&mut self, key: u32) -> Added {
        let added = self.seat.add(key);
        self.adds += u64::from(added == Added::True);
        added
    }
}

impl All<'_> {
    fn mine(&mut self) -> &mut Part {
        &mut self.parts[self.mine]
    }

    fn stage(&self) -> Stage {
        self.parts[0].stage
    }

    fn set_stage(&mut self, stage: Stage) {
        self.parts.iter_mut().for_each(|it| it.stage = stage);
    }

    fn keys_now(&self) -> u64 {
        self.parts[0].opened_with + self.parts.iter().map(|it| it.adds).sum::<u64>()
            - self.parts.iter().map(|it| it.removes).sum::<u64>()
    }

    /// Sets the stage to `ToBeRenewed`, and calls `call` with all seats (one for each thread). If `call` succeeds, the
    /// caller sets the next stage.
    fn by_all(&mut self, call: impl FnOnce(&mut [Seat]) -> Result<(), Fault>) -> Result<(), Fault> {
        self.set_stage(Stage::ToBeRenewed);
        let taken = |it: &mut MutexGuard<Part>| std::mem::replace(&mut it.seat, Seat { raw: NONE });
        let mut seats: Vec<Seat> = self.parts.iter_mut().map(taken).collect();
        let done = call(&mut seats);
        self.parts.iter_mut().zip(seats).for_each(|(part, seat)| part.seat = seat);
        done
    }

    fn close(&mut self) -> Result<Vec<u32>, Fault> {
        self.by_all(close_in)?;
        Ok(keys_of(&mut self.parts[0].seat.raw).expect("the set is closed"))
    }

    fn renew(&mut self, list: List, quota: u32) -> Result<(), Fault> {
        let keys = self.keys_now();
        self.by_all(|seats| renew_in(seats, list, seats.len() as u32, quota))?;
        self.parts.iter_mut().for_each(|it| (it.adds, it.removes) = (0, 0));
        self.parts[0].opened_with = keys;
        self.set_stage(Stage::Open);
        Ok(())
    }
}

impl RenewedSet {
    /// Opens a set with 1 to 64 `seats` (one for each thread), and with `keys` in strictly increasing order. A seat can
    /// add `quota` keys before the set is renewed.
    pub fn open(list: List, seats: u32, quota: u32, keys: &[u32]) -> Result<RenewedSet, Fault> {
        let mut all = vec![open(list, seats, quota, keys)?];
        while all.len() < seats as usize {
            let split = all[0].split()?;
            all.push(split);
        }
        let part = |seat| Mutex::new(Part { seat, stage: Stage::Open, opened_with: keys.len() as u64, adds: 0, removes: 0 });
        let place = |seat| Place { is_taken: AtomicBool::new(false), part: part(seat) };
        let places = all.into_iter().map(place).collect();
        let (renewing, is_wanted) = (Mutex::new(()), AtomicBool::new(false));
        Ok(RenewedSet { list, quota, patience: Duration::MAX, renewing, is_wanted, places })
    }

    /// Sets how long a call waits for other calls. By default, the time is not limited.
    pub fn with_patience(self, patience: Duration) -> RenewedSet {
        RenewedSet { patience, ..self }
    }

    /// Returns a seat (one thread's access to the set), or [`Fault::NoMore`] if all seats are in use.
    pub fn split(&self) -> Result<OwnSeat<'_>, Fault> {
        let is_free = |it: &&Place| !it.is_taken.swap(true, Ordering::AcqRel);
        let found = self.places.iter().position(|it| is_free(&it));
        found.map(|place| OwnSeat { set: self, place }).ok_or(Fault::NoMore)
    }

    /// Renews the set and returns its keys at the renewal. Returns [`Fault::Keys`] if the set has more than 1,048,576
    /// keys.
    pub fn keys(&self) -> Result<Vec<u32>, Fault> {
        let mut all = self.all(0)?;
        if all.keys_now() > MOST_OPENING {
            return Err(Fault::Keys);
        }
        let keys = all.close()?;
        all.renew(self.list, self.quota)?;
        Ok(keys)
    }

    /// Closes the set and returns its final keys. If a thread has a seat, returns [`Fault::SeatsOut`] and does not change the
    /// set.
    pub fn close(&self) -> Result<Vec<u32>, Fault> {
        let mut all = self.all(0)?;
        if self.places.iter().any(|it| it.is_taken.load(Ordering::Acquire)) {
            return Err(Fault::SeatsOut);
        }
        let keys = all.close()?;
        all.parts[0].seat = Seat { raw: NONE };
        all.set_stage(Stage::Closed);
        Ok(keys)
    }

    /// Locks `lock`. On a lock-free list, the holder of `lock` can be in a `ceiling` that retries until another call
    /// unlinks a marked node. If the seat in `helper` has used up its quota of adds, the waiting thread therefore calls
    /// `add` with the seat: the `add` unlinks the node, but adds no key.
    ///
    /// `helper` is the caller's own place (its seat with the seat's lock) if the caller is locking all places,
    /// otherwise `None`. After a caller with a `helper` has waited for 5 ms, new calls of other threads wait too,
    /// except calls that could be needed to unlink the node.
    fn taken<'a, T>(&self, lock: &'a Mutex<T>, mut helper: Option<&mut Part>) -> Result<MutexGuard<'a, T>, Fault> {
        let begun = Instant::now();
        loop {
            match lock.try_lock() {
                Ok(held) => return Ok(held),
                Err(TryLockError::Poisoned(held)) => return Ok(held.into_inner()),
                Err(TryLockError::WouldBlock) if begun.elapsed() > self.patience => return Err(Fault::TimedOut),
                Err(TryLockError::WouldBlock) => {}
            }
            if let Some(it) = &mut helper {
                let is_full = it.adds == u64::from(self.quota);
                if self.list == List::LockFree && is_full && it.stage == Stage::Open {
                    let _full_or_false = it.seat.add(u32::MAX);
                }
                if (self.list != List::LockFree || is_full) && begun.elapsed() > LONG {
                    self.is_wanted.store(true, Ordering::Release);
                }
            }
            sleep(POLL);
        }
    }

    /// Locks all places (seats with their locks), starting with the caller's own, whose index (from 0) is `mine`.
    fn all(&self, mine: usize) -> Result<All<'_>, Fault> {
        let wanted = Wanted { set: self, _one: self.taken(&self.renewing, None)? };
        let mut own = self.taken(&self.places[mine].part, None)?;
        if own.stage == Stage::Closed {
            return Err(Fault::Closed);
        }
        let mut parts = Vec::with_capacity(self.places.len());
        for (at, place) in self.places.iter().enumerate().filter(|(at, _)| *at != mine) {
            parts.push((at, self.taken(&place.part, Some(&mut own))?));
        }
        let mut parts: Vec<_> = parts.into_iter().map(|(_, part)| part).collect();
        parts.insert(mine, own);
        Ok(All { parts, mine, _wanted: wanted })
    }

    /// Calls `call` with the part (the seat and its counts) at index `place`. If an allocation failed during the last
    /// renewal, renews the set first.
    fn by<T>(&self, place: usize, call: impl FnOnce(&mut Part) -> T) -> Result<T, Fault> {
        loop {
            if self.is_wanted.load(Ordering::Acquire) {
                drop(self.taken(&self.renewing, None)?);
            }
            let mut part = self.taken(&self.places[place].part, None)?;
            if part.stage == Stage::Open {
                return Ok(call(&mut part));
            }
            drop(part);
            let mut all = self.all(place)?;
            if all.stage() != Stage::Open {
                all.renew(self.list, self.quota)?;
            }
        }
    }

    /// Adds a key with the seat (one thread's access to the set) at index `place`, after an `add` returned `Full`.
    /// Renews the set if an earlier renewal failed, or if `add` returns `Full` again. Does not renew the set if a
    /// renewal cannot help (the quota is 0, or the set has too many keys).
    fn add_renewed(&self, place: usize, key: u32) -> Result<Added, Fault> {
        let mut all = self.all(place)?;
        if all.stage() == Stage::Open {
            let added = all.mine().add(key); // Before this call, another thread could have renewed the set.
            if added != Added::Full || all.keys_now() > MOST_OPENING || self.quota == 0 {
                return Ok(added);
            }
        }
        all.renew(self.list, self.quota)?;
        Ok(all.mine().add(key))
    }
}

/// A thread's seat (its access to the set) in a [`RenewedSet`].
#[derive(Debug)]
pub struct OwnSeat<'a> {
    set: &'a RenewedSet,
    place: usize,
}

impl OwnSeat<'_> {
    /// Adds a key, and renews the set if the thread's seat has used up its quota of adds. Returns [`Added::Full`] only
    /// if the quota is 0, or if the set has more than 1,048,576 keys (the maximum for opening a set).
    pub fn add(&mut self, key: u32) -> Result<Added, Fault> {
        let mut added = self.set.by(self.place, |it| it.add(key))?;
        if added == Added::Full {
            drop(self.set.taken(&self.set.renewing, None)?); // Waits while another thread renews the set.
            added = self.set.by(self.place, |it| it.add(key))?;
        }
        match added {
            Added::Full => self.set.add_renewed(self.place, key),
            added => Ok(added),
        }
    }

    /// Removes a key. Returns whether the key was present.
    pub fn remove(&mut self, key: u32) -> Result<bool, Fault> {
        self.set.by(self.place, |it| {
            let was_there = it.seat.remove(key);
            it.removes += u64::from(was_there);
            was_there
        })
    }

    /// Returns whether a key is in the set.
    pub fn contains(&mut self, key: u32) -> Result<bool, Fault> {
        self.set.by(self.place, |it| it.seat.contains(key))
    }

    /// Returns the smallest key of the set that is at least `key`. Can block, like [`Seat::ceiling`].
    pub fn ceiling(&mut self, key: u32) -> Result<Option<u32>, Fault> {
        self.set.by(self.place, |it| it.seat.ceiling(key))
    }
}

impl Drop for OwnSeat<'_> {
    fn drop(&mut self) {
        self.set.places[self.place].is_taken.store(false, Ordering::Release);
    }
}

#[cfg(test)]
mod tests {
    use std::sync::mpsc;

    use super::*;

    /// Tests calls of other threads during a long call of one thread: the calls of the other threads time out and have
    /// no effect. After the long call has ended, calls succeed again.
    #[test]
    fn calls_time_out_during_a_long_call_of_another_thread() {
        let set = RenewedSet::open(List::Lazy, 2, 1, &[]).unwrap().with_patience(Duration::from_millis(20));
        let mut seat = set.split().unwrap();
        assert_eq!(seat.add(1), Ok(Added::True));
        let stays = set.places[1].part.lock().unwrap();
        assert_eq!((seat.add(2), seat.contains(1), seat.contains(2)), (Err(Fault::TimedOut), Ok(true), Ok(false)));
        assert_eq!(set.keys(), Err(Fault::TimedOut));
        drop(stays);
        assert_eq!((seat.add(2), set.close()), (Ok(Added::True), Err(Fault::SeatsOut)));
        drop(seat);
        assert_eq!(set.close(), Ok(vec![1, 2]));
        assert_eq!((set.close(), set.keys()), (Err(Fault::Closed), Err(Fault::Closed)));
    }

    /// Tests a call without a time limit during a long call of another thread: the call waits, and succeeds after the
    /// long call has ended.
    #[test]
    fn a_call_without_patience_waits() {
        for list in [List::Lazy, List::LockFree] {
            let set = RenewedSet::open(list, 2, 1, &[]).unwrap();
            let (mut seat, (told, heard)) = (set.split().unwrap(), mpsc::channel());
            assert_eq!(seat.add(1), Ok(Added::True));
            std::thread::scope(|threads| {
                let stays = set.places[1].part.lock().unwrap();
                threads.spawn(move || told.send(seat.add(2)));
                assert!(heard.recv_timeout(Duration::from_millis(50)).is_err());
                drop(stays);
                assert_eq!(heard.recv(), Ok(Ok(Added::True)));
            });
        }
    }
}
