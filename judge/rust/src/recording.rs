//! Judges a recorded run, and writes the message about a failed run.
use std::fs::File;
use std::path::PathBuf;
use std::sync::atomic::AtomicU32;
use std::sync::atomic::Ordering::SeqCst;

use crate::area::{Area, Row};
use crate::judges::{Judge, Judged};
use crate::words::*;
use crate::{no_verdict, Failed, Failure, Options, Shape, Source};

/// The file with the recording of a run. The file grows during the run, and is deleted on drop unless it is kept.
pub struct Recording<'a> {
    judge: &'a Judge,
    options: &'a Options,
    shape: Shape,
    seed: u64,
    pub path: PathBuf,
    is_kept: bool,
}

/// The outcome of a run.
pub enum Outcome<'a> {
    /// Some order explains the calls. Contains the number of calls that overlapped a change of their key.
    Passed(u64),
    Refused(Fault<'a>),
    CutShort(Fault<'a>),
}

/// A failed run: its recording; the judge's output, preceded by the reason if the run was cut short; and the key that
/// the judge names. The recording is deleted on drop, but kept by `failed`.
pub struct Fault<'a> {
    recording: Recording<'a>,
    said: String,
    key: Option<u32>,
}

impl Fault<'_> {
    /// Returns the number of contradictions in the judge's output, or 0 if the output contains no number.
    pub fn contradictions(&self) -> u64 {
        let words: Vec<&str> = self.said.split(' ').collect();
        let number = words.windows(3).find_map(|it| match it {
            [number, "of", "its"] => number.parse().ok(),
            [_, number, word] if word.starts_with("contradiction") => number.parse().ok(),
            _ => None,
        });
        number.unwrap_or(0)
    }

    /// Returns the failed run with the complete message. `first` is the seed of the first failed run, and `notes` is the
    /// part of the message about its sizes and about the number of refused runs.
    pub(crate) fn failed<S>(mut self, source: &Source<S>, first: u64, notes: &str) -> Failed {
        let (it, said) = (&mut self.recording, self.said);
        it.is_kept = true;
        let Shape { name, threads, .. } = it.shape;
        let (of_key, alone) = self.key.map_or_else(Default::default, |key| (it.key_line(key, source), it.alone(key)));
        let notes = notes.to_string() + &it.options.passed_before(first) + &of_key;
        let text = say(FAILED_RUN, &[&said, &it.seed, &name, &threads, &notes, &it.path.display(), &alone, it.judge]);
        Failed { seed: it.seed, name: name.into(), said, file: it.path.clone(), judge: it.judge.to_string(), text }
    }
}

impl<'a> Recording<'a> {
    pub(crate) fn new(options: &'a Options, shape: Shape, seed: u64, judge: &'a Judge) -> Result<Recording<'a>, Failure> {
        let named = std::env::var_os("LISTSET_RECORD").filter(|it| !it.is_empty()).map(PathBuf::from);
        let is_kept = options.record.is_some();
        let fault = if is_kept {
            NO_FOLDER
        } else if named.is_some() {
            NO_RECORD
        } else {
            NO_TEMPORARY
        };
        let folder = options.record.clone().or(named).unwrap_or_else(std::env::temp_dir);
        let path = folder.join(name_of(seed, is_kept));
        match std::fs::create_dir_all(&folder).and_then(|()| File::create(&path)) {
            Ok(_) => Ok(Recording { judge, options, shape, seed, path, is_kept }),
            Err(_) => no_verdict(say(fault, &[&folder.display()])),
        }
    }

    /// Completes and judges the recording of a run. If the run was cut short, `trouble` is the reason.
    pub(crate) fn judged<S>(self, source: &Source<S>, area: &Area, trouble: Option<String>) -> Result<Outcome<'a>, Failure> {
        let (lines, under_way) = area.lines();
        if trouble.is_some() && area.write(&format!("{lines}cut\n")).is_err() {
            return no_verdict(say(NO_FOLDER, &[&self.path.display()]));
        }
        let (refused, key) = match self.judge.judged(&self.path)? {
            Judged::Ok { overlapped } if trouble.is_none() => return Ok(Outcome::Passed(overlapped)),
            Judged::Ok { .. } => (EXPLAINED.to_string(), None),
            Judged::Refused(said) => (said.clone(), key_in(&said)),
        };
        Ok(match &trouble {
            None => Outcome::Refused(Fault { recording: self, said: refused, key }),
            Some(trouble) => {
                let said = say(UNDER_WAY, &[trouble, &self.pending(&under_way, source), &refused]);
                Outcome::CutShort(Fault { recording: self, said, key })
            }
        })
    }

    /// Describes the key whose number in the recording is `number` and, if the run has several sets, the key's set.
    /// Returns an empty string if the key is the number and the run has a single set.
    fn key_line<S>(&self, number: u32, source: &Source<S>) -> String {
        let key = number / self.shape.times;
        if self.shape.sets == 1 && !source.has_keys {
            String::new()
        } else {
            say(KEY_IS, &[&number, &self.name_of(key, source)]) + &self.in_set(key)
        }
    }

    fn name_of<S>(&self, key: u32, source: &Source<S>) -> String {
        (source.shown)(key % self.shape.keys * self.shape.times)
    }

    fn in_set(&self, key: u32) -> String {
        if self.shape.sets > 1 {
            say(IN_SET, &[&(key / self.shape.keys + 1)])
        } else {
            String::new()
        }
    }

    /// Returns a line for each pending call, at most `MOST_SHOWN`.
    fn pending<S>(&self, under_way: &[Row], source: &Source<S>) -> String {
        let line = |it: &Row| {
            let (name, number) = (self.name_of(it.key(), source), (it.key() * self.shape.times).to_string());
            let of_key = if name == number { String::new() } else { say(IS_KEY, &[&number]) };
            it.pending(&name, &(of_key + &self.in_set(it.key())))
        };
        let lines: String = under_way.iter().take(MOST_SHOWN).map(line).collect();
        match under_way.len() {
            0 => " no call".to_string(),
            count if count > MOST_SHOWN => lines + &say(AND_MORE, &[&(count - MOST_SHOWN)]),
            _ => lines,
        }
    }

    /// Writes a small file beside the recording, with calls on one key that no order explains. Returns the part of the
    /// message that names the file.
    fn alone(&self, key: u32) -> String {
        let stem = self.path.file_stem().unwrap_or_default().to_string_lossy();
        let small = self.path.with_file_name(format!("{stem}-key-{key}.calls"));
        match self.judge.only(&self.path, key).map(|text| std::fs::write(&small, text)) {
            Some(Ok(())) => say(ALONE, &[&small.display()]),
            _ => String::new(),
        }
    }
}

/// Returns the key that the judge names, as a number.
fn key_in(refused: &str) -> Option<u32> {
    refused.split("of key ").nth(1)?.split(' ').next()?.parse().ok()
}

/// The maximum number of pending calls in the message.
const MOST_SHOWN: usize = 16;

impl Drop for Recording<'_> {
    fn drop(&mut self) {
        if !self.is_kept {
            let _ = std::fs::remove_file(&self.path);
        }
    }
}

fn name_of(seed: u64, is_kept: bool) -> String {
    static FILES: AtomicU32 = AtomicU32::new(0);
    if is_kept {
        return format!("seed-{seed}.calls");
    }
    format!("listset-seed-{seed}-{}-{}.calls", std::process::id(), FILES.fetch_add(1, SeqCst) + 1)
}
