//! Sorted-list sets that threads share.

use std::error::Error;
use std::ffi::{c_void, CStr};
use std::fmt::{self, Display};
use std::mem::replace;
use std::os::raw::c_char;
use std::ptr::null_mut;
use std::sync::atomic::{AtomicU64, Ordering};

/// A `listset_seat` or a `listset_receipt` of `listset.h`.
#[derive(Debug)]
#[repr(C)]
pub(crate) struct Raw {
    pub(crate) full: bool,
    at: *mut c_void,
}

extern "C" {
    fn listset_open(kind: u8, seats: u32, quota: u32, number: u64, keys: *const u32, count: usize, out: *mut Raw) -> u8;
    fn listset_split(seat: *mut Raw, out: *mut Raw) -> u8;
    fn listset_add(seat: *mut Raw, key: u32) -> u8;
    fn listset_remove(seat: *mut Raw, key: u32) -> u8;
    fn listset_contains(seat: *mut Raw, key: u32) -> u8;
    fn listset_contains_now(seat: *mut Raw, key: u32) -> u8;
    fn listset_most_reads(seats: u32, quota: u32, opening: u32) -> u64;
    fn listset_receipt_of(seat: *mut Raw, out: *mut Raw) -> u8;
    fn listset_after(seat: *mut Raw, given: *mut Raw) -> u8;
    fn listset_ceiling(seat: *mut Raw, key: u32, at: *mut u32) -> u8;
    fn listset_gather(into: *mut Raw, from: *mut Raw) -> u8;
    fn listset_close(seat: *mut Raw) -> u8;
    fn listset_close_all(seats: *mut Raw, places: usize) -> u8;
    fn listset_renew(seats: *mut Raw, places: usize, kind: u8, count: u32, quota: u32, number: u64) -> u8;
    fn listset_keys(closed: *mut Raw, room: *mut u32, places: usize) -> usize;
    fn listset_drop(seat: *mut Raw);
    fn listset_fault_text(fault: u8) -> *const c_char;
}

pub(crate) const NONE: Raw = Raw { full: false, at: null_mut() };

const TRUE: u8 = 1;
const FULL: u8 = 2;
const AT: u8 = 3;
const MAY_BLOCK: u8 = 254;
const NO_SEAT: u8 = 255;
const MOST_SEATS: usize = 64;

/// The five lists.
#[derive(Clone, Copy, Debug, PartialEq, Eq)]
#[repr(u8)]
pub enum List {
    Coarse,
    Fine,
    Optimistic,
    Lazy,
    LockFree,
}

/// The reply of an `add`.
#[derive(Clone, Copy, Debug, PartialEq, Eq)]
#[must_use = "a key that is `Full` is not in the set"]
pub enum Added {
    /// The key was absent, and was added.
    True,
    /// The key was present.
    False,
    /// The key is absent, but the seat (one thread's access to the set) has used up its quota of adds.
    Full,
}

/// The reason why a call was refused.
#[derive(Clone, Copy, Debug, PartialEq, Eq)]
#[repr(u8)]
pub enum Fault {
    /// The number of seats (one for each thread) is not between 1 and 64.
    Seats = 10,
    /// The quota is greater than 16,384.
    Quota,
    /// The keys are not in strictly increasing order, or there are more than 1,048,576 keys.
    Keys,
    /// An allocation failed.
    Memory,
    /// Some seats of the set (one for each thread) have not been merged into the seat that is to be closed.
    SeatsOut = 16,
    /// No seat (one thread's access to the set) can be split off.
    NoMore,
    /// The seats (one for each thread), or the seat and the receipt (a record of the calls that a seat has seen),
    /// belong to different sets.
    OtherSet,
    /// `contains_now` requires a lazy or lock-free list.
    ReadsBlock,
    /// A call of another thread lasted too long.
    TimedOut,
    /// The set is closed.
    Closed = 255,
}

impl Display for Fault {
    fn fmt(&self, f: &mut fmt::Formatter) -> fmt::Result {
        // SAFETY: the function returns a constant text that ends with a zero byte.
        f.write_str(&unsafe { CStr::from_ptr(listset_fault_text(*self as u8)) }.to_string_lossy())
    }
}

impl Error for Fault {}

/// An error that contains the refused argument. `?` converts the error to a boxed error or to its [`Fault`]; the
/// conversion to a [`Fault`] drops the argument.
#[derive(Debug)]
pub struct Refused<B> {
    /// The refused argument.
    pub back: B,
    /// The reason why the argument was refused.
    pub fault: Fault,
}

impl<B> Display for Refused<B> {
    fn fmt(&self, f: &mut fmt::Formatter) -> fmt::Result {
        self.fault.fmt(f)
    }
}

impl<B: fmt::Debug> Error for Refused<B> {}

impl<B> From<Refused<B>> for Fault {
    fn from(refused: Refused<B>) -> Fault {
        refused.fault
    }
}

/// Converts a number to a fault; 0 becomes `Ok`.
pub(crate) fn told(code: u8) -> Result<(), Fault> {
    use Fault::*;
    let all = [Seats, Quota, Keys, Memory, SeatsOut, NoMore, OtherSet, ReadsBlock, TimedOut, Closed];
    match all.into_iter().find(|it| *it as u8 == code) {
        Some(fault) => Err(fault),
        None if code == 0 => Ok(()),
        None => unreachable!("the types rule out the fault {code}"),
    }
}

/// A thread's seat: its access to a set. A seat cannot be copied. Only one thread at a time uses a seat, but a seat can
/// be passed from thread to thread.
///
/// ```
/// use listset::{open, Added, List};
///
/// let mut mine = open(List::Lazy, 2, 1000, &[])?;
/// let mut other = mine.split()?;
/// std::thread::scope(|threads| {
///     threads.spawn(|| assert_eq!(other.add(9), Added::True));
///     assert_eq!(mine.add(7), Added::True);
/// });
/// mine.gather(other)?;
/// assert_eq!(mine.close()?, [7, 9]);
/// # Ok::<(), Box<dyn std::error::Error>>(())
/// ```
#[derive(Debug)]
#[repr(align(128))] // Seats share no cache line, because each call writes to its seat.
pub struct Seat {
    pub(crate) raw: Raw,
}

// SAFETY: the crate ffi_sets proves that the contents of a seat can be passed to another thread.
unsafe impl Send for Seat {}

// SAFETY: apart from `Debug`, no function has a parameter `&Seat`, so threads that share a seat can only print the
// seat. (`Sync` is required because `?` converts an error with a seat to `Box<dyn Error + Send + Sync>`.)
unsafe impl Sync for Seat {}

/// A receipt: proof of the calls that a seat has made so far. A receipt also covers the calls of merged seats and of
/// accepted receipts. In the order of all calls, the covered calls precede the later calls of each seat that accepts
/// the receipt. A receipt can be passed to any thread.
#[derive(Debug)]
pub struct Receipt {
    raw: Raw,
}

// SAFETY: the crate ffi_sets proves that the contents of a receipt can be passed to another thread.
unsafe impl Send for Receipt {}

// SAFETY: apart from `Debug`, no function has a parameter `&Receipt`, so threads that share a receipt can only print
// the receipt.
unsafe impl Sync for Receipt {}

/// Returns the maximum number of steps of [`Seat::contains_now`] on a list that is opened for `seats` threads, with the
/// quota `quota` and with `keys` keys. Returns 0 if no set can be opened with these numbers.
pub fn most_reads(seats: u32, quota: u32, keys: u32) -> u64 {
    // SAFETY: all parameters of the function are numbers.
    unsafe { listset_most_reads(seats, quota, keys) }
}

/// Returns a number that no earlier set of the program has.
pub(crate) fn next_number() -> u64 {
    static SETS: AtomicU64 = AtomicU64::new(0);
    SETS.fetch_add(1, Ordering::Relaxed)
}

/// Opens a set with `seats` seats (one for each thread). The set contains `keys` at first, which must be strictly
/// increasing. Each seat can add at most `quota` keys. Returns one seat, from which all others can be split off.
pub fn open(list: List, seats: u32, quota: u32, keys: &[u32]) -> Result<Seat, Fault> {
    let mut made = Seat { raw: NONE };
    // SAFETY: the pointers point to a slice and to an empty seat. No other set in the program has the number that
    // `next_number` returns.
    told(unsafe { listset_open(list as u8, seats, quota, next_number(), keys.as_ptr(), keys.len(), &mut made.raw) })?;
    Ok(made)
}

/// The result of a failed renewal: the seats of the set (one for each thread) or, if the set is closed, its keys.
#[derive(Debug)]
pub enum Left {
    /// All seats of the set (one for each thread). The set is still open.
    Seats(Vec<Seat>),
    /// The final keys of the set. The set is closed.
    Keys(Vec<u32>),
}

/// Closes a set, and opens a set of the list `list` with the same keys. `seats` must contain all seats (one for each
/// thread) of the old set. Returns `count` seats of the new set, each with the quota `quota`.
///
/// ```
/// use listset::{open, renew, Added, List};
///
/// let mut seat = open(List::Lazy, 1, 2, &[])?;
/// assert_eq!([1, 2, 3].map(|key| seat.add(key)), [Added::True, Added::True, Added::Full]);
/// seat.remove(1);
/// let mut seats = renew(vec![seat], List::LockFree, 4, 1000)?;
/// assert!(seats[3].add(3) == Added::True && seats[0].contains(2));
/// # Ok::<(), Box<dyn std::error::Error>>(())
/// ```
pub fn renew(seats: Vec<Seat>, list: List, count: u32, quota: u32) -> Result<Vec<Seat>, Refused<Left>> {
    let mut places = seats;
    if count as usize <= MOST_SEATS {
        places.resize_with(places.len().max(count as usize), || Seat { raw: NONE });
    }
    match renew_in(&mut places, list, count, quota) {
        Ok(()) => {
            places.truncate(count as usize);
            Ok(places)
        }
        Err(fault) => {
            places.retain(|it| it.raw.full);
            let keys = places.first_mut().and_then(|it| keys_of(&mut it.raw));
            let back = match keys {
                Some(keys) => Left::Keys(keys),
                None => Left::Seats(places),
            };
            Err(Refused { back, fault })
        }
    }
}

/// Renews a set: closes it, and opens a set of the list `list` with the same keys. The slice `places` must contain all
/// seats of the set (one for each thread), or begin with the closed set. All other elements may be empty.
pub(crate) fn renew_in(places: &mut [Seat], list: List, count: u32, quota: u32) -> Result<(), Fault> {
    // SAFETY: the pointers point to an array of seats that only the caller has. No other set in the program has the
    // number that `next_number` returns.
    by_all(places, |raws, many| unsafe { listset_renew(raws, many, list as u8, count, quota, next_number()) })
}

/// Closes a set. The slice `places` must contain all seats of the set (one for each thread); all other elements may be
/// empty. Afterwards, the first element is the closed set.
pub(crate) fn close_in(places: &mut [Seat]) -> Result<(), Fault> {
    // SAFETY: the pointer points to an array of seats that only the caller has.
    by_all(places, |raws, many| unsafe { listset_close_all(raws, many) })
}

/// Calls `call` with an array of the seats (one for each thread) in `places`.
fn by_all(places: &mut [Seat], call: impl FnOnce(*mut Raw, usize) -> u8) -> Result<(), Fault> {
    let mut raws: Vec<Raw> = places.iter_mut().map(|it| replace(&mut it.raw, NONE)).collect();
    let code = call(raws.as_mut_ptr(), raws.len());
    places.iter_mut().zip(raws).for_each(|(place, raw)| place.raw = raw);
    told(code)
}

/// Returns the keys of a closed set, or `None` if `closed` is not a closed set.
pub(crate) fn keys_of(closed: &mut Raw) -> Option<Vec<u32>> {
    // SAFETY: only the caller has the seat, and the buffer has the length 0.
    let count = unsafe { listset_keys(closed, [].as_mut_ptr(), 0) };
    if count == usize::MAX {
        return None;
    }
    let mut keys = vec![0; count];
    // SAFETY: only the caller has the seat, and the buffer has the length `count`.
    unsafe { listset_keys(closed, keys.as_mut_ptr(), count) };
    Some(keys)
}

// SAFETY of each call in the functions of `Seat`: `&mut self` is a seat that only the current thread uses.
impl Seat {
    /// Splits a seat off this seat, so that one more thread can call the set. Returns [`Fault::NoMore`] if all seats
    /// have been split off, or if a seat was [merged](Seat::gather) into this seat.
    pub fn split(&mut self) -> Result<Seat, Fault> {
        let mut made = Seat { raw: NONE };
        told(unsafe { listset_split(&mut self.raw, &mut made.raw) })?;
        Ok(made)
    }

    /// Adds a key. Returns [`Added::Full`] if the key is absent but the seat (one thread's access to the set) has used
    /// up its quota of adds; [`renew`] returns seats with a new quota.
    pub fn add(&mut self, key: u32) -> Added {
        match replied(unsafe { listset_add(&mut self.raw, key) }) {
            TRUE => Added::True,
            FULL => Added::Full,
            _ => Added::False,
        }
    }

    /// Removes a key. Returns whether the key was present.
    pub fn remove(&mut self, key: u32) -> bool {
        replied(unsafe { listset_remove(&mut self.raw, key) }) == TRUE
    }

    /// Returns whether a key is in the set.
    pub fn contains(&mut self, key: u32) -> bool {
        replied(unsafe { listset_contains(&mut self.raw, key) }) == TRUE
    }

    /// Returns whether a key is in the set, like `contains`, but waits for no lock and executes at most [`most_reads`]
    /// steps, whatever other threads do. Only for lazy and lock-free lists: on any other list, returns
    /// [`Fault::ReadsBlock`].
    pub fn contains_now(&mut self, key: u32) -> Result<bool, Fault> {
        match replied(unsafe { listset_contains_now(&mut self.raw, key) }) {
            MAY_BLOCK => Err(Fault::ReadsBlock),
            reply => Ok(reply == TRUE),
        }
    }

    /// Returns a receipt (a record of this seat's calls so far). Pass the receipt to [`Seat::after`] of another
    /// thread's seat.
    pub fn receipt(&mut self) -> Result<Receipt, Fault> {
        let mut made = Receipt { raw: NONE };
        told(unsafe { listset_receipt_of(&mut self.raw, &mut made.raw) })?;
        Ok(made)
    }

    /// Accepts a receipt (a record of another seat's calls). In the order of all calls, later calls of this seat follow
    /// every call that the receipt covers. Returns [`Fault::OtherSet`] if the receipt is from another set.
    pub fn after(&mut self, mut given: Receipt) -> Result<(), Fault> {
        told(unsafe { listset_after(&mut self.raw, &mut given.raw) })
    }

    /// Returns the smallest key of the set that is at least `key`. On a lock-free list, the call can wait until another
    /// thread adds or removes a key.
    pub fn ceiling(&mut self, key: u32) -> Option<u32> {
        let mut at = 0;
        (replied(unsafe { listset_ceiling(&mut self.raw, key, &mut at) }) == AT).then_some(at)
    }

    /// Merges `from`, another thread's seat of the same set, into this seat. If `from` belongs to a different set, the
    /// error contains `from`.
    pub fn gather(&mut self, mut from: Seat) -> Result<(), Refused<Seat>> {
        let code = unsafe { listset_gather(&mut self.raw, &mut from.raw) };
        told(code).map_err(|fault| Refused { back: from, fault })
    }

    /// Closes the set and returns its final keys. Every seat of the set (one for each thread) must be part of this
    /// seat, that is, either never split off or merged back. If a seat is missing, or if an allocation fails, the error
    /// contains this seat.
    pub fn close(mut self) -> Result<Vec<u32>, Refused<Seat>> {
        match told(unsafe { listset_close(&mut self.raw) }) {
            Ok(()) => Ok(keys_of(&mut self.raw).expect("the set is closed")),
            Err(fault) => Err(Refused { back: self, fault }),
        }
    }
}

/// Returns the reply of a call. A `Seat` is never empty, so a call has no reply only if one of its loops has made 2^64
/// - 1 rounds.
fn replied(reply: u8) -> u8 {
    assert_ne!(reply, NO_SEAT, "the call made 2^64 - 1 rounds");
    reply
}

impl Drop for Seat {
    fn drop(&mut self) {
        unsafe { listset_drop(&mut self.raw) }
    }
}
