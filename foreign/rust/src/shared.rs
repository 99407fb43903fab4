//! A set that any thread can call: the set has a pool of seats (each serves one call at a time), and each call uses a
//! free seat.

use std::sync::atomic::{AtomicUsize, Ordering};
use std::sync::{Mutex, MutexGuard, PoisonError};

use crate::{open, Added, Fault, List, Refused, Seat};

/// A set that any number of threads may call through `&self`, with a pool of seats (each serves one call at a time). A
/// call uses a seat that no other call is using, or waits until a seat is free.
///
/// Two calls of one thread can use different seats, so not even the order of a thread's own calls is guaranteed.
///
/// ```
/// use listset::{Added, List, Shared};
///
/// let set = Shared::open(List::LockFree, 4, 1000, &[])?;
/// std::thread::scope(|threads| {
///     threads.spawn(|| assert_eq!(set.add(9), Added::True));
///     assert_eq!(set.add(7), Added::True);
/// });
/// assert_eq!(set.close()?, [7, 9]);
/// # Ok::<(), listset::Fault>(())
/// ```
#[derive(Debug)]
pub struct Shared {
    seats: Vec<Mutex<Seat>>,
}

impl Shared {
    /// Opens a set with `seats` seats (one for each thread) and with keys in strictly increasing order. Each seat may
    /// add `quota` keys. Up to `seats` calls can run at the same time.
    pub fn open(list: List, seats: u32, quota: u32, keys: &[u32]) -> Result<Shared, Fault> {
        let mut first = open(list, seats, quota, keys)?;
        let mut all: Vec<Seat> = (1..seats).map(|_| first.split()).collect::<Result<_, _>>()?;
        all.push(first);
        Ok(Shared { seats: all.into_iter().map(Mutex::new).collect() })
    }

    /// Adds a key. Returns [`Added::Full`] if the key is absent but every seat (each serves one call at a time) has
    /// used up its quota of adds.
    pub fn add(&self, key: u32) -> Added {
        match self.by(|seat| seat.add(key)) {
            Added::Full => self.seats.iter().map(|it| taken(it).add(key)).find(|it| *it != Added::Full).unwrap_or(Added::Full),
            other => other,
        }
    }

    /// Removes a key. Returns whether the key was present.
    pub fn remove(&self, key: u32) -> bool {
        self.by(|seat| seat.remove(key))
    }

    /// Returns whether a key is in the set.
    pub fn contains(&self, key: u32) -> bool {
        self.by(|seat| seat.contains(key))
    }

    /// Returns the smallest key of the set that is at least `key`. Can block, like [`Seat::ceiling`].
    pub fn ceiling(&self, key: u32) -> Option<u32> {
        self.by(|seat| seat.ceiling(key))
    }

    /// Closes the set and returns its final keys. If an allocation fails, the error contains the seat into which all
    /// other seats were merged.
    pub fn close(self) -> Result<Vec<u32>, Refused<Seat>> {
        let mut seats = self.seats.into_iter().map(|it| it.into_inner().unwrap_or_else(PoisonError::into_inner));
        let mut all = seats.next().expect("a set has a seat");
        for seat in seats {
            all.gather(seat).expect("they are seats of one set");
        }
        all.close()
    }

    /// Calls `call` with a free seat (one thread's access to the set). Threads begin their search for a free seat at
    /// different seats, if there are enough seats.
    fn by<T>(&self, call: impl FnOnce(&mut Seat) -> T) -> T {
        static THREADS: AtomicUsize = AtomicUsize::new(0);
        thread_local!(static MINE: usize = THREADS.fetch_add(1, Ordering::Relaxed));
        let mine = MINE.with(|it| *it) % self.seats.len();
        let (before, from) = self.seats.split_at(mine);
        let free = from.iter().chain(before).find_map(|it| it.try_lock().ok());
        call(&mut free.unwrap_or_else(|| taken(&self.seats[mine])))
    }
}

fn taken(seat: &Mutex<Seat>) -> MutexGuard<'_, Seat> {
    seat.lock().unwrap_or_else(PoisonError::into_inner)
}

#[cfg(test)]
mod tests {
    use std::sync::{mpsc, Arc};
    use std::time::Duration;

    use super::*;

    /// Calls each operation once, in a new thread. Returns the replies, or `None` if the replies do not arrive in time.
    fn calls_in_a_thread(set: &Arc<Shared>) -> Option<(Added, bool, Option<u32>, bool)> {
        let (set, (told, heard)) = (Arc::clone(set), mpsc::channel());
        std::thread::spawn(move || told.send((set.add(7), set.contains(7), set.ceiling(0), set.remove(7))));
        heard.recv_timeout(Duration::from_secs(20)).ok()
    }

    /// Tests calls while only one seat is free. Two threads call the set one after the other, so at least one thread
    /// finds the first seat that it tries occupied.
    #[test]
    fn a_call_uses_a_free_seat() {
        for (seats, free) in [2, 3, 8].into_iter().flat_map(|seats| (0..seats).map(move |free| (seats, free))) {
            let set = Arc::new(Shared::open(List::LockFree, seats as u32, 2, &[]).unwrap());
            let others = set.seats.iter().enumerate().filter(|(at, _)| *at != free);
            let _held: Vec<_> = others.map(|(_, seat)| taken(seat)).collect();
            for _ in 0..2 {
                assert_eq!(calls_in_a_thread(&set), Some((Added::True, true, Some(7), true)), "{free} of {seats}");
            }
        }
    }
}
