//! The presets, ranges and messages that all languages have in common, from `words.json`. PART and MEET are numbers
//! of calls, PATIENCE is in seconds, ALERT in microseconds, and SOON in nanoseconds.
use crate::{Range, Shape};

// made of words.json by judge/make_words
pub(crate) const PRESETS: [Shape; 7] = [
    Shape { name: "few keys", threads: 4, sets: 1, calls: 5000, keys: 4, times: 1, meets_once: false },
    Shape { name: "fresh sets", threads: 4, sets: 40, calls: 10, keys: 4, times: 1, meets_once: false },
    Shape { name: "multiples of 64", threads: 4, sets: 1, calls: 5000, keys: 8, times: 64, meets_once: false },
    Shape { name: "one key", threads: 3, sets: 1, calls: 5000, keys: 1, times: 1, meets_once: false },
    Shape { name: "sets that grow", threads: 4, sets: 20, calls: 125, keys: 64, times: 1, meets_once: false },
    Shape { name: "many keys", threads: 4, sets: 1, calls: 2500, keys: 1000, times: 1, meets_once: false },
    Shape { name: "multiples of 1,000", threads: 8, sets: 1, calls: 2500, keys: 8, times: 1000, meets_once: false },
];
pub(crate) const RANGES: [Range; 9] = [
    Range { name: "threads", least: 1, most: 64 },
    Range { name: "threads times calls", least: 1, most: 1000000000 },
    Range { name: "keys", least: 1, most: 1048576 },
    Range { name: "pauses", least: 0, most: 100 },
    Range { name: "runs", least: 1, most: 1000000 },
    Range { name: "seconds", least: 1, most: 3600 },
    Range { name: "within", least: 1, most: 604800 },
    Range { name: "at_least", least: 0, most: 100 },
    Range { name: "the sum of shares", least: 1, most: 1000000 },
];
pub const PART: u32 = 20000;
pub const LONGEST: u32 = 100;
pub const HOT: u32 = 4;
pub const ENOUGH: u32 = 5;
pub const HARDER: u32 = 2;
pub const PATIENCE: u32 = 10;
pub const MEET: u32 = 250;
pub const AWAKE: u32 = 300000;
pub const WITHIN: u32 = 60;
pub const STOPS: u32 = 128;
pub const AGAIN: u32 = 4;
pub const PATIENT: u32 = 40;
pub const MANY: u32 = 40;
pub const SOON: u32 = 4000;
pub const ALERT: u32 = 500;
pub const TRIES: u32 = 60;
pub const NEAR: u32 = 128;
pub const FURTHER: u32 = 4;
pub const FURTHER_FOR: u32 = 3;
pub const FURTHER_MOST: u32 = 10;
pub const CLEAR: u32 = 10;
pub const LONGER: u32 = 4;
pub const STOPS_PER: u32 = 5000;
pub const OK: &str = "ok: %s calls, and %s of them overlapped a change of their key";
pub const FEW: &str = "few calls overlapped, so ok means little: %s calls, and %s of them overlapped a change of their key";
pub const FEWER_RUNS: &str = "; only %s of %s runs were made, because no run begins after %s s (option within)";
pub const TOO_FEW: &str = "too few calls overlapped: %s of %s calls overlapped a change of their key, and at_least requires %s of 100. If the machine is busy, raise within. Otherwise use fewer keys or more threads";
pub const FAILED_RUN: &str = "%s\n\nseed %s (%s), %s threads%s; recorded in %s%s; judge: %s";
pub const RANGE: &str = "%s is %s, but must be %s to %s";
pub const TWICE: &str = "the key function returns %s for %s and for %s, but must return a different key for each number";
pub const HUNG: &str = "the set hung: no call began or ended for %s s";
pub const CRASHED: &str = "the set crashed: %s";
pub const ENDED_SO: &str = "the set ended its process with status %s";
pub const THREW: &str = "a call of the set failed: %s";
pub const NOT_MADE: &str = "the set could not be created: %s";
pub const NO_OPENING: &str = "contains of an opening key had no known outcome in %s calls";
pub const UNDER_WAY: &str = "%s\npending:%s\nbefore that: %s";
pub const EXPLAINED: &str = "some order explains the calls";
pub const PASSED_BEFORE: &str = "; passed before: %s";
pub const REFUSED_OF: &str = "; longer runs followed the first refusal: %s of %s runs were refused";
pub const PENDING_CALL: &str = "\n  thread %s: %s %s%s, begun at moment %s";
pub const IS_KEY: &str = " (key %s of the recording)";
pub const KEY_IS: &str = "; key %s above means key %s";
pub const IN_SET: &str = ", in set number %s of those that the run created";
pub const MADE_HARDER: &str = "; with changed sizes, because few calls overlapped";
pub const NO_FOLDER: &str = "no file can be written in %s: set record to another folder";
pub const NO_RECORD: &str = "the variable LISTSET_RECORD is %s, but no file can be written there: set it to another folder";
pub const NO_TEMPORARY: &str = "no file can be written in %s, the folder for temporary files: set the variable TMPDIR (in Java the property java.io.tmpdir) to another folder";
pub const NO_MEMORY: &str = "there is not enough memory for the calls of a run";
pub const NO_PROCESS: &str = "no process could be started for a run: %s";
pub const NOT_AGAIN: &str = "the child process ran the test, but did not reach this judge: set own_process to false";
pub const NO_JUDGE: &str = "no judge was found: %s cannot be run. Copy the file judge/listset.js of this judge's repository, and set LISTSET to its path (Node 18 runs it); or put the program listset in PATH. LISTSET=skip skips this test";
pub const NO_SCRIPT: &str = "the variable LISTSET is %s, but no file is at %s: set LISTSET to the full path of listset.js";
pub const NO_NODE: &str = "no judge was found: LISTSET is %s, which needs Node 18 or newer, but no node is in PATH";
pub const OLD_NODE: &str = "node is %s, but %s needs Node 18 or newer";
pub const IS_FOLDER: &str = "%s is a folder: set LISTSET to the program in it";
pub const NO_VERDICT: &str = "%s printed no verdict, but: %s. Use a newer listset";
pub const AND_MORE: &str = "\n  and %s more";
pub const ALONE: &str = ", the calls that show it in %s";
pub const SKIPPED: &str = "skipped: LISTSET is skip";
pub const NOT_IN_CI: &str = "LISTSET is skip, but the variable CI is set: in CI no test is skipped";
pub const NUMBER: &str = "the variable %s is %s, but must be a number from %s to %s";
// end of what is made

/// Replaces each `%s` in a text.
pub fn say(text: &str, with: &[&dyn std::fmt::Display]) -> String {
    let mut pieces = text.split("%s");
    let first = pieces.next().unwrap_or_default().to_string();
    pieces.zip(with).fold(first, |said, (piece, it)| format!("{said}{it}{piece}"))
}
