//! Sorted-list sets that threads share ([`open`], [`Seat`], [`Shared`], [`RenewedSet`]), and the judge of their calls.
//!
//! `liblistset.a` implements the sets and the judge. A function of the judge reads a text and returns a text:
//!
//! ```
//! let schedule = listset::generated("lazy", 2, 4, 10, 5, 1)?;
//! let report = listset::replay(&schedule)?;
//! listset::check(&report)?;
//! assert_eq!(listset::check("nothing").unwrap_err().status, 1);
//! # Ok::<(), listset::Wrong>(())
//! ```
//!
//! Any number of threads may call the judge at the same time. The page FOREIGN.md states the proved properties of the
//! functions.

use std::error::Error;
use std::ffi::CStr;
use std::fmt::{self, Display};

mod calls;
mod renewed;
mod sets;
mod shared;

pub use renewed::{OwnSeat, RenewedSet};
pub use sets::{most_reads, open, renew, Added, Fault, Left, List, Receipt, Refused, Seat};
pub use shared::Shared;

use calls::{of_room, of_text, of_two_texts};

/// The error that the program `listset` would report.
#[derive(Clone, Debug, PartialEq, Eq)]
pub struct Wrong {
    /// The text that the program would print: an error message, the first error in the order that a report states, or the trace
    /// up to the first event that cannot happen.
    pub text: String,
    /// The exit status: 1 for a wrong text, 2 for a wrong argument, 3 if memory ran out.
    pub status: u8,
}

impl Display for Wrong {
    fn fmt(&self, f: &mut fmt::Formatter) -> fmt::Result {
        write!(f, "{}", self.text.trim_end())
    }
}

impl Error for Wrong {}

/// The part of a run to draw. A moment is the number of an event in the run. A field that is `None` selects the first
/// moment, the last moment, or the default width.
#[derive(Clone, Copy, Debug, Default)]
pub struct Window {
    /// The first moment (number of an event) to draw.
    pub from: Option<u32>,
    /// The last moment (number of an event) to draw.
    pub to: Option<u32>,
    /// The number of columns of the picture.
    pub width: Option<u32>,
}

/// Returns four lines about the library: `listset` and the version; the version and the logic of the Rattle toolchain
/// (the kit); `commit` and the commit of the sources (or 40 zeros); and `proof checked` if the library is proved,
/// otherwise `proof missing`.
pub fn version() -> &'static str {
    // SAFETY: the function returns a constant text that ends with a zero byte.
    let told = unsafe { CStr::from_ptr(calls::listset_version()) };
    told.to_str().expect("the version is of ASCII")
}

/// Runs a schedule (calls, and the order of the threads' steps) and returns its report (the calls with their replies,
/// and an order that explains them).
pub fn replay(schedule: impl AsRef<[u8]>) -> Result<String, Wrong> {
    of_text(calls::listset_replay, schedule.as_ref())
}

/// Judges a recording (calls of any set, with their replies and times). Returns `ok N calls` if some order explains the
/// recorded calls, otherwise an error with calls that show why no order explains the recording.
pub fn judge_text(recording: impl AsRef<[u8]>) -> Result<String, Wrong> {
    of_text(calls::listset_judge, recording.as_ref())
}

/// Returns a diagnosis of a recording that [`judge_text`] refuses: calls that show the error, the wrong operation, how
/// often it is wrong, and a likely cause. Returns an empty string if some order explains the recording or the text is
/// not a recording.
pub fn why(recording: impl AsRef<[u8]>) -> Result<String, Wrong> {
    match of_text(calls::listset_why, recording.as_ref()) {
        Err(wrong) if wrong.status == 1 => Ok(wrong.text),
        other => other,
    }
}

/// Checks a report. If the order in the report does not explain the calls, returns the first error in the order.
pub fn check(report: impl AsRef<[u8]>) -> Result<(), Wrong> {
    of_text(calls::listset_check, report.as_ref()).map(|_| ())
}

/// Returns the trace of a schedule: a line for each event (a step, or the start of a call).
pub fn trace(schedule: impl AsRef<[u8]>) -> Result<String, Wrong> {
    of_text(calls::listset_trace, schedule.as_ref())
}

/// Returns the trace of a schedule (a line for each event), with the chain of nodes after each event that changed the
/// chain.
pub fn trace_with_chains(schedule: impl AsRef<[u8]>) -> Result<String, Wrong> {
    of_text(calls::listset_trace_with_chains, schedule.as_ref())
}

/// Expands a draft (a schedule that states where threads stop rather than how many steps they make) into a schedule.
pub fn draft(draft: impl AsRef<[u8]>) -> Result<String, Wrong> {
    of_text(calls::listset_draft, draft.as_ref())
}

/// Draws a schedule or a report as text.
pub fn show(text: impl AsRef<[u8]>, window: Window) -> Result<String, Wrong> {
    of_two_texts(calls::listset_show, text.as_ref(), options(window).as_bytes())
}

/// Draws a schedule or a report as an SVG.
pub fn show_svg(text: impl AsRef<[u8]>, window: Window) -> Result<String, Wrong> {
    of_two_texts(calls::listset_show_svg, text.as_ref(), options(window).as_bytes())
}

fn options(Window { from, to, width }: Window) -> String {
    [from, to, width].map(|it| it.map_or(String::new(), |number| format!("={number}"))).join("\0")
}

/// Generates a random schedule. `kind` is coarse, fine, optimistic, lazy or lock-free.
pub fn generated(kind: &str, threads: u32, quota: u32, calls: u32, keys: u32, seed: u64) -> Result<String, Wrong> {
    let values = format!("{kind}\0{threads}\0{quota}\0{calls}\0{keys}\0{seed}");
    of_text(calls::listset_gen, values.as_bytes())
}

/// Returns the names of all examples, each with its list and a description.
pub fn examples() -> Result<String, Wrong> {
    of_room(calls::listset_examples)
}

/// Returns the schedule of the example called `name`.
pub fn example(name: &str) -> Result<String, Wrong> {
    of_text(calls::listset_example, name.as_bytes())
}

/// Returns the broken report of the example called `name`: the report of a run on a list without the check that the
/// example is about.
pub fn broken_example(name: &str) -> Result<String, Wrong> {
    of_text(calls::listset_broken_example, name.as_bytes())
}

/// Returns a line about each error message, and a sentence about each cause.
pub fn faults() -> Result<String, Wrong> {
    of_room(calls::listset_faults)
}
