//! Lets two threads begin calls at the same time, to catch races that last only nanoseconds. On a busy machine, two
//! threads seldom run at the same time. Therefore a thread polls for a partner before a call, and both threads continue
//! when the partner polls too. Half of the calls then use two neighboring keys. The two keys change after every `MEET`
//! calls. Only runs with an odd seed have partners, and only if `pauses` is not 0.
use std::sync::atomic::{AtomicU32, Ordering};
use std::time::{Duration, Instant};

use crate::area::{Area, At, Draws};
use crate::words::{ALERT, LONGEST, NEAR, TRIES};
use crate::Shape;

/// A thread's state for finding partners for its calls to one set.
pub struct Partners<'a> {
    area: &'a Area,
    of: Shape,
    thread: u32,
    is_on: bool,
    draws: Draws,
    /// All threads draw the same numbers from `common`.
    common: Draws,
    tries: u32,
    blocks: u32,
    first_key: u32,
    near: u32,
}

impl<'a> Partners<'a> {
    pub(crate) fn new(area: &'a Area, of: Shape, one: u32, thread: u32) -> Partners<'a> {
        let seed = area.get(At::Seed);
        let processors = std::thread::available_parallelism().map_or(1, |it| it.get());
        let can_meet = of.threads > 1 && processors > 1 && !of.meets_once;
        Partners {
            area,
            of,
            thread,
            is_on: can_meet && area.options.pauses > 0 && seed % 2 == 1,
            draws: Draws(!((u64::from(seed) << 20) + u64::from(one << 6) + u64::from(thread)) << 1),
            common: Draws((u64::from(seed) << 20) + u64::from(one)),
            tries: TRIES / of.sets + 1,
            blocks: 0,
            first_key: 0,
            near: 0,
        }
    }

    pub fn begin_block(&mut self) {
        self.first_key = self.common.below(self.of.keys);
    }

    pub fn end_block(&mut self) {
        self.blocks += 1;
        self.area.next(At::Ended);
    }

    /// Returns whether all other threads have completed the current block of calls.
    fn is_alone(&self) -> bool {
        self.area.get(At::Ended) >= (self.blocks + 1) * self.of.threads - 1
    }

    pub fn key_or(&mut self, other: u32) -> u32 {
        if self.is_on && self.draws.below(2) == 0 {
            (self.first_key + self.draws.below(2)) % self.of.keys
        } else {
            other
        }
    }

    /// Polls for at most `ALERT` microseconds, and returns whether a second thread polled at the same time. Never
    /// sleeps, because a sleeping thread would wake up too late.
    fn polls(&self) -> bool {
        let (area, mine, other) = (self.area, self.thread + 1, self.area.get(At::Alert));
        if other != 0 || !area.replace(At::Alert, 0, mine) {
            return other != 0 && area.replace(At::Alert, other, 0);
        }
        let until = Instant::now() + Duration::from_micros(ALERT.into());
        while Instant::now() < until {
            if (0..LONGEST).any(|_| area.get(At::Alert) != mine) {
                return true;
            }
        }
        !area.replace(At::Alert, mine, 0)
    }

    /// Waits for a partner. A thread stops waiting for partners after some waits without one. Returns whether two
    /// threads can now begin their calls.
    pub fn meet(&mut self) -> bool {
        self.near = if self.is_on { self.draws.below(NEAR) } else { 0 };
        while self.is_on && self.tries > 0 && !self.is_alone() && self.area.get(At::IsStopping) == 0 {
            if self.polls() {
                return true;
            }
            self.tries -= 1;
            std::thread::sleep(Duration::from_micros(20));
        }
        false
    }

    /// Delays a call by up to some hundred nanoseconds. Without the delay, the same one of two partners would always
    /// begin first.
    pub fn delay(&self) {
        // `left` is atomic because a compiler does not remove operations on an atomic.
        let left = AtomicU32::new(self.near);
        while left.load(Ordering::Relaxed) > 0 {
            left.fetch_sub(1, Ordering::Relaxed);
        }
    }
}
