//! Performs a run, and records its calls in memory that can be shared with the set's own process.
//!
//! A call is recorded with two moments, its start and its end. A moment is a value of the counter `Tickets`. The
//! counter grows at each start and each end of a call.
use std::any::Any;
use std::fs::File;
use std::io::{self, Seek, SeekFrom, Write};
use std::panic::{catch_unwind, AssertUnwindSafe};
use std::path::Path;
use std::sync::atomic::AtomicU32;
use std::sync::atomic::Ordering::{Relaxed, Release, SeqCst};
use std::time::{Duration, Instant};

use crate::memory::Memory;
use crate::partners::Partners;
use crate::stops::{in_call, Stops};
use crate::words::*;
use crate::{no_verdict, Failure, Options, Replies, Shape, Source};

const UNKNOWN: u32 = 2; // a reply is 0 for false, 1 for true, or UNKNOWN after a timeout, for example

const WRITABLE: &str = "the recording can be written";

/// The progress of a run.
const GOING: u32 = 1;
const OVER: u32 = 2;
const FAILED: u32 = 3;
const UNMADE: u32 = 4;

/// The positions of a run's numbers in memory. `Tickets` is the counter of moments, `Phase` the progress, and `Save`
/// the index of the valid record in `SAVES`. `Alert` and `Ended` are for `Partners`: `Alert` is the number plus 1 of a
/// thread that polls, and `Ended` counts how often a thread has completed a block of calls.
#[derive(Clone, Copy)]
pub(crate) enum At {
    Tickets,
    There,
    Done,
    Begun,
    Phase,
    IsStopping,
    IsBusy,
    IsHere,
    Numbers,
    Alert,
    Ended,
    Seed,
    Threads,
    Sets,
    Calls,
    Keys,
    Times,
    MeetsOnce,
    Save,
    Saves,
}

const SAVES: usize = At::Saves as usize; // offset of two records: the file's length in two halves, and the last moment in the file
const WHY: usize = SAVES + 6; // offset of a text, one byte per number: why the run failed
const FILE: usize = WHY + 240; // offset of the path of the file, one byte per number
const SLOTS: usize = FILE + 1024; // offset of the calls
const SLOT: usize = 6; // a call: end (0 until the call ends), begin (0 until the call begins), thread, word, key and reply
const SIZE: usize = SLOTS + PART as usize * SLOT;

/// The memory of a run, with the calls that have not been saved in the file yet.
pub struct Area {
    memory: Memory,
    pub options: Options,
}

/// A recorded call.
pub struct Row([u32; SLOT]);

impl Row {
    /// Returns the call as it was at the moment `now`. Returns `None` if the call had not begun by `now`, or was
    /// already saved at the moment `saved`. (The slot of a pending call can still contain the end of an earlier call.)
    fn as_of(mut self, now: u32, saved: u32) -> Option<Row> {
        let [end, begin, ..] = self.0;
        if end > now || end < begin {
            self.0[0] = 0;
        }
        Some(self).filter(|_| saved < begin && begin <= now)
    }

    fn is_under_way(&self) -> bool {
        self.0[0] == 0
    }

    fn word(&self) -> &'static str {
        ["add", "remove", "contains"][self.0[3] as usize]
    }

    /// Describes a pending call. `name` is the call's key as text.
    pub fn pending(&self, name: &str, note: &str) -> String {
        say(PENDING_CALL, &[&self.0[2], &self.word(), &name, &note, &self.0[1]])
    }

    /// Returns the number of the call's key in the recording: the set's number times the keys per set, plus the key's
    /// number in the set.
    pub fn key(&self) -> u32 {
        self.0[4]
    }

    fn line(&self, times: u32) -> String {
        let ([end, begin, thread, _, number, reply], word) = (self.0, self.word());
        let key = number * times;
        match end {
            0 => format!("call {thread} {word} {key} {begin} - -\n"),
            _ if reply == UNKNOWN => format!("call {thread} {word} {key} {begin} - -\n"),
            _ => format!("call {thread} {word} {key} {begin} {end} {}\n", reply == 1),
        }
    }
}

impl Area {
    /// The number of `u32`s in an area.
    pub const SIZE: usize = SIZE;

    /// Creates an area in memory for `Area::SIZE` numbers.
    pub fn new(memory: Memory, options: &Options) -> Area {
        Area { memory, options: options.clone() }
    }

    fn at(&self, it: At) -> &AtomicU32 {
        &self.memory[it as usize]
    }

    pub(crate) fn get(&self, it: At) -> u32 {
        self.at(it).load(SeqCst)
    }

    fn set(&self, it: At, to: u32) {
        self.at(it).store(to, SeqCst);
    }

    pub(crate) fn next(&self, it: At) -> u32 {
        self.at(it).fetch_add(1, SeqCst) + 1
    }

    /// Replaces the number at `it` with `to` if the number is `from`. Otherwise returns `false`.
    pub(crate) fn replace(&self, it: At, from: u32, to: u32) -> bool {
        self.at(it).compare_exchange(from, to, SeqCst, SeqCst).is_ok()
    }

    fn put_text(&self, at: usize, room: usize, text: &str) {
        self.memory[at..at + room - 1].iter().zip(text.bytes()).for_each(|(to, byte)| to.store(byte.into(), SeqCst));
    }

    fn text(&self, at: usize) -> String {
        let bytes = self.memory[at..].iter().map(|it| it.load(SeqCst) as u8);
        String::from_utf8_lossy(&bytes.take_while(|&it| it != 0).collect::<Vec<u8>>()).into_owned()
    }

    fn shape(&self) -> Shape {
        let [threads, sets, calls, keys, times] =
            [At::Threads, At::Sets, At::Calls, At::Keys, At::Times].map(|it| self.get(it));
        Shape { name: "", threads, sets, calls, keys, times, meets_once: self.get(At::MeetsOnce) == 1 }
    }

    // ---- its file

    /// Writes `lines` to the file, after the saved lines. Returns the new length of the file.
    pub fn write(&self, lines: &str) -> io::Result<u64> {
        let [low, high, _] = self.saved();
        let length = u64::from(high) << 32 | u64::from(low);
        let mut file = File::options().write(true).open(self.text(FILE))?;
        file.set_len(length)?;
        file.seek(SeekFrom::Start(length))?;
        file.write_all(lines.as_bytes())?;
        Ok(length + lines.len() as u64)
    }

    /// Appends `lines` to the file and marks all calls so far as saved. No call is pending while `save` runs.
    fn save(&self, lines: &str) {
        let length = self.write(lines).expect(WRITABLE);
        let other = 1 - self.get(At::Save);
        let numbers = [length as u32, (length >> 32) as u32, self.get(At::Tickets)];
        self.memory[SAVES + 3 * other as usize..].iter().zip(numbers).for_each(|(to, it)| to.store(it, SeqCst));
        self.set(At::Save, other); // (if the process ends before this step, its last calls are only in memory)
    }

    fn saved(&self) -> [u32; 3] {
        let first = SAVES + 3 * self.get(At::Save) as usize;
        std::array::from_fn(|it| self.memory[first + it].load(SeqCst))
    }

    /// Returns the lines of the calls that have not been saved, sorted by start, and the pending calls. Threads can
    /// begin and end calls while `lines` runs: a call that begins meanwhile is left out, and a call that ends meanwhile
    /// is pending.
    pub fn lines(&self) -> (String, Vec<Row>) {
        let (now, [_, _, saved]) = (self.get(At::Tickets), self.saved());
        let slots = self.memory[SLOTS..].chunks(SLOT);
        let numbers = |slot: &[AtomicU32]| Row(std::array::from_fn(|it| slot[it].load(SeqCst)));
        let mut rows: Vec<Row> = slots.filter_map(|it| numbers(it).as_of(now, saved)).collect();
        rows.sort_unstable_by_key(|it| it.0[1]);
        let times = self.get(At::Times);
        (rows.iter().map(|it| it.line(times)).collect(), rows.into_iter().filter(Row::is_under_way).collect())
    }

    // ---- for the process that watches a run

    /// Prepares the memory for a run with the sizes `of`, and then starts the run.
    pub(crate) fn begin(&self, seed: u64, of: Shape, file: &Path) {
        let is_here = self.get(At::IsHere);
        self.memory.iter().for_each(|it| it.store(0, Relaxed));
        let shape =
            [(At::Threads, of.threads), (At::Sets, of.sets), (At::Calls, of.calls), (At::Keys, of.keys), (At::Times, of.times)];
        shape.into_iter().for_each(|(at, it)| self.set(at, it));
        self.set(At::MeetsOnce, of.meets_once.into());
        self.set(At::Seed, seed as u32);
        self.set(At::Numbers, of.threads * of.sets);
        self.set(At::IsHere, is_here);
        self.put_text(FILE, SLOTS - FILE, &file.to_string_lossy());
        self.set(At::Phase, GOING);
    }

    pub fn stop(&self) {
        self.set(At::IsStopping, 1);
    }

    /// Returns the current value of the counter `Tickets`.
    pub fn moment(&self) -> u32 {
        self.get(At::Tickets)
    }

    /// Returns whether interrupted threads should sleep for longer. On a busy machine, a thread is seldom preempted
    /// during a call, because it has often completed all its calls before the system preempts it.
    pub fn interrupts_longer(&self) -> bool {
        self.get(At::IsBusy) == 1 || self.get(At::MeetsOnce) == 1
    }

    pub fn is_here(&self) -> bool {
        self.get(At::IsHere) == 1
    }

    /// Waits until a run has ended. Returns the reason if the run was cut short. `ended` returns how the process that
    /// performs the run has ended, or `None` while that process runs.
    pub fn watch(&self, until: Option<Instant>, ended: &dyn Fn() -> Option<String>) -> Result<Option<String>, Failure> {
        let trouble = self.end(until, ended);
        let phase = self.get(At::Phase);
        match if phase >= FAILED { Some(self.text(WHY)) } else { trouble } {
            Some(why) if phase == UNMADE => no_verdict(why),
            Some(why) if self.get(At::Tickets) == 0 => no_verdict(say(NOT_MADE, &[&why])),
            trouble => Ok(trouble),
        }
    }

    /// Waits until the run is over, its process has ended, no call has begun or ended for `seconds` seconds, or the
    /// time `until` has passed. Returns the error, if any. The time between two polls counts as at most five
    /// milliseconds, so that a run that gets no processor time does not count as hung.
    fn end(&self, until: Option<Instant>, ended: &dyn Fn() -> Option<String>) -> Option<String> {
        let (mut seen, mut last, mut waited) = (self.get(At::Tickets), Instant::now(), Duration::ZERO);
        while self.get(At::Phase) < OVER {
            if let Some(why) = ended() {
                return Some(why).filter(|_| self.get(At::Phase) < OVER);
            }
            waited += last.elapsed().min(Duration::from_millis(5));
            last = Instant::now();
            if self.get(At::Tickets) != seen {
                (seen, waited) = (self.get(At::Tickets), Duration::ZERO);
            }
            if waited > Duration::from_secs(self.options.seconds.into()) || until.map_or(false, |it| last > it) {
                return Some(say(HUNG, &[&self.options.seconds]));
            }
            std::thread::sleep(Duration::from_micros(300));
        }
        None
    }

    // ---- for the process that performs a run

    /// Performs the runs that the test's process requests. Never returns.
    pub(crate) fn serve<S: Sync>(&self, source: &Source<S>) -> ! {
        self.set(At::IsHere, 1);
        loop {
            if self.get(At::Phase) == GOING {
                self.call_all(source);
            }
            std::thread::sleep(Duration::from_micros(100));
        }
    }

    /// Creates the sets of a run, and makes the calls of all threads to them.
    pub(crate) fn call_all<S: Sync>(&self, source: &Source<S>) {
        let (of, mut left) = (self.shape(), Some(String::new()));
        self.tried(|| self.save("listset-calls 1\n"));
        for one in 0..of.sets {
            match catch_unwind(AssertUnwindSafe(source.make)) {
                Err(why) => self.fail(UNMADE, why),
                // The closure is `move`, because dropping the set can panic too.
                Ok(set) => {
                    let left = &mut left;
                    self.tried(move || {
                        let keys = Play { area: self, set: &set, reply: source.reply, of, one }.all();
                        *left = left.take().zip(keys).map(|(before, keys)| before + &keys);
                    });
                }
            }
            if self.get(At::IsStopping) == 1 {
                return;
            }
        }
        let end = left.map_or_else(|| "cut\n".to_string(), |keys| keys + "end\n");
        self.tried(|| _ = self.write(&end).expect(WRITABLE)); // (these lines are not marked as saved, because the run can still be cut short)
        let _ = self.at(At::Phase).compare_exchange(GOING, OVER, SeqCst, SeqCst);
    }

    fn tried(&self, does: impl FnOnce()) {
        catch_unwind(AssertUnwindSafe(does)).unwrap_or_else(|why| self.fail(FAILED, why));
    }

    /// Stores why the run failed. Only the run's first failure is kept.
    fn fail(&self, phase: u32, panic: Box<dyn Any + Send>) {
        if self.at(At::IsStopping).swap(1, SeqCst) == 0 {
            let words =
                panic.downcast_ref::<&str>().map(|it| it.to_string()).or_else(|| panic.downcast_ref::<String>().cloned());
            let text = if phase == UNMADE { NOT_MADE } else { THREW };
            let why = say(text, &[&words.unwrap_or_else(|| "it panicked".to_string())]);
            self.put_text(WHY, FILE - WHY, &why);
            self.set(At::Phase, phase);
        }
    }

    /// Waits until `is_done` returns `true`: polls `awake` times, then sleeps between polls. Returns `false` if the run was
    /// stopped.
    fn waits(&self, awake: u32, is_done: impl Fn() -> bool) -> bool {
        for looks in 0_u32.. {
            if is_done() || self.get(At::IsStopping) == 1 {
                break;
            }
            if looks >= awake {
                std::thread::sleep(Duration::from_micros(20));
            }
        }
        self.get(At::IsStopping) == 0
    }
}

/// The maximum number of `contains` calls made to find out whether a key is in the set at the start or at the end. A
/// call is repeated while its outcome is unknown.
const MOST_ASKED: u32 = 100;

/// The calls to one set of a run.
struct Play<'a, S> {
    area: &'a Area,
    set: &'a S,
    reply: Replies<'a, S>,
    of: Shape,
    one: u32,
}

impl<S: Sync> Play<'_, S> {
    /// Runs all threads on the set. Returns the lines of the final keys if they are known.
    fn all(&self) -> Option<String> {
        let mut left = Some(String::new());
        let is_stopped = self.area.memory.is_shared() && self.area.options.pauses > 0;
        std::thread::scope(|scope| {
            for thread in 0..self.of.threads {
                scope.spawn(move || self.area.tried(|| self.call_in_parts(thread, is_stopped)));
            }
            self.area.tried(|| left = self.lead());
        });
        left
    }

    /// Lets the threads make their calls in parts, and saves the calls of each part in the file after the part has
    /// ended.
    fn lead(&self) -> Option<String> {
        let area = self.area;
        if area.options.opens_with_keys {
            match self.lines_of_keys("opening") {
                Some(lines) => area.save(&lines),
                None => area.fail(UNMADE, Box::new(say(NO_OPENING, &[&MOST_ASKED]))),
            }
        }
        area.set(At::Ended, 0);
        let mut left = Some(String::new());
        for round in self.one * self.of.parts() + 1..=(self.one + 1) * self.of.parts() {
            area.set(At::Begun, round);
            if !area.waits(LONGEST, || area.get(At::Done) == round * self.of.threads) {
                break;
            }
            if round == (self.one + 1) * self.of.parts() {
                left = self.lines_of_keys("key");
            }
            if area.get(At::IsStopping) == 1 {
                break; // (the run was cut short)
            }
            area.save(&area.lines().0);
        }
        left
    }

    /// Calls `contains` for each key, and calls it again if the outcome is unknown. Returns a line for each key found,
    /// or `None` if an outcome stays unknown.
    fn lines_of_keys(&self, word: &str) -> Option<String> {
        let line = |key: u32| {
            self.area.next(At::Tickets);
            let is_there = (0..MOST_ASKED).find_map(|_| (self.reply)(self.set, 2, key * self.of.times))?;
            Some(if is_there { format!("{word} {}\n", (self.one * self.of.keys + key) * self.of.times) } else { String::new() })
        };
        (0..self.of.keys).map(line).collect()
    }

    /// Makes the calls of one thread to the set, part by part. A part consists of the calls between two saves.
    fn call_in_parts(&self, thread: u32, is_stopped: bool) {
        let (area, of, rows) = (self.area, self.of, self.of.rows());
        let stops = if is_stopped { Stops::of_this_thread(area) } else { None };
        let mut draws = Draws((u64::from(area.get(At::Seed)) << 20) + u64::from(self.one << 6) + u64::from(thread));
        let (mut stopping, mut number) = (Draws(!draws.0), self.one * of.threads + thread);
        let mut partners = Partners::new(area, of, self.one, thread);
        for part in 0..of.parts() {
            if !area.waits(LONGEST, || area.get(At::Begun) > self.one * of.parts() + part) {
                return;
            }
            let count = rows.min(of.calls - part * rows);
            for row in 0..count {
                if row % MEET == 0 {
                    partners.begin_block();
                }
                let is_met = row > 0 && (row % MEET > 0 || of.meets_once);
                if !is_met && !self.meet() {
                    return;
                }
                let slot = &area.memory[SLOTS + (thread * rows + row) as usize * SLOT..][..SLOT];
                let pause = self.prepare(slot, number, &mut draws, &mut partners);
                if partners.meet() {
                    self.call(slot, &mut number, || partners.delay());
                } else {
                    (0..pause).for_each(|_| _ = area.get(At::Tickets));
                    self.may_stop(&mut stopping, stops.as_ref());
                    self.call(slot, &mut number, || ());
                }
                if row + 1 == count || (row + 1) % MEET == 0 {
                    partners.end_block();
                }
            }
            area.next(At::Done);
        }
    }

    /// Waits until all threads have called `meet`, so that they continue at the same time. Polls without sleeping if
    /// there is a processor for each thread, unless an earlier call of `meet` lasted too long.
    fn meet(&self) -> bool {
        let processors = std::thread::available_parallelism().map_or(1, |it| it.get());
        let may_be_awake = self.of.threads as usize <= processors && self.area.get(At::IsBusy) == 0;
        let awake = if may_be_awake { AWAKE } else { LONGEST };
        let all = (self.area.next(At::There) - 1) / self.of.threads * self.of.threads + self.of.threads;
        let looks = std::cell::Cell::new(0);
        let are_there = self.area.waits(awake, || {
            looks.set(looks.get() + 1);
            self.area.get(At::There) >= all
        });
        if looks.get() > awake + LONGEST {
            self.area.set(At::IsBusy, 1);
        }
        are_there
    }

    /// Draws a random call, and writes the thread number, operation and key of the call to the slot. Returns the length
    /// of the pause before the call.
    fn prepare(&self, slot: &[AtomicU32], number: u32, draws: &mut Draws, partners: &mut Partners) -> u32 {
        let keys = self.of.keys;
        let [adds, removes, finds] = self.area.options.shares;
        let word = match draws.below(adds + removes + finds) {
            it if it < adds => 0,
            it if it < adds + removes => 1,
            _ => 2,
        };
        let is_hot = keys > 2 * HOT && draws.below(2) == 0;
        let key = partners.key_or(draws.below(if is_hot { HOT } else { keys }));
        [number, word, self.one * keys + key].into_iter().zip(&slot[2..]).for_each(|(it, to)| to.store(it, Relaxed));
        if draws.below(100) < self.area.options.pauses {
            draws.below(LONGEST)
        } else {
            0
        }
    }

    /// Starts the timer that interrupts the thread, before some calls at random.
    fn may_stop(&self, stopping: &mut Draws, stops: Option<&Stops>) {
        let calls = STOPS_PER.min(self.of.sets * self.of.calls);
        let drawn = stopping.below(calls);
        if let Some(it) = stops.filter(|it| drawn < it.starts(calls)) {
            it.after(1 + stopping.below(SOON));
        }
    }

    /// Makes the call in a slot, and records when the call begins and ends. After a call with an unknown outcome, the
    /// thread continues under a new thread number.
    fn call(&self, slot: &[AtomicU32], number: &mut u32, delay: impl FnOnce()) {
        let area = self.area;
        let [word, key] = [3, 4].map(|it: usize| slot[it].load(Relaxed));
        slot[1].store(area.next(At::Tickets), Release);
        delay();
        let number_of_key = (key - self.one * self.of.keys) * self.of.times;
        let reply = in_call(|| (self.reply)(self.set, word as u8, number_of_key)).map_or(UNKNOWN, u32::from);
        slot[5].store(reply, Relaxed);
        slot[0].store(area.next(At::Tickets), Release);
        if reply == UNKNOWN {
            *number = area.at(At::Numbers).fetch_add(1, SeqCst);
        }
    }
}

/// A random number generator (SplitMix64).
pub struct Draws(pub u64);

impl Draws {
    pub fn below(&mut self, bound: u32) -> u32 {
        self.0 = self.0.wrapping_add(0x9e37_79b9_7f4a_7c15);
        let mixed = (self.0 ^ (self.0 >> 30)).wrapping_mul(0xbf58_476d_1ce4_e5b9);
        let mixed = (mixed ^ (mixed >> 27)).wrapping_mul(0x94d0_49bb_1331_11eb);
        ((u128::from(mixed ^ (mixed >> 31)) * u128::from(bound)) >> 64) as u32
    }
}
