//! Finds and runs the judge: `liblistset` or a program.
use std::fmt;
use std::io;
use std::path::Path;
use std::process::{Command, Stdio};

use crate::words::*;
use crate::{no_verdict, Failure};

/// A judge. `proof` is the judge's line about its proof.
pub struct Judge {
    name: String,
    proof: String,
    /// The command and its first arguments. Empty if the judge is the library.
    command: Vec<String>,
}

/// The verdict on a recording.
pub enum Judged {
    /// Some order explains the calls. `overlapped` is the number of calls that overlapped a change of their key.
    Ok { overlapped: u64 },
    /// No order explains the calls. Contains the judge's output.
    Refused(String),
}

/// The exit status (`None` if a signal ended the program) and the output.
type Answer = (Option<i32>, String);

impl fmt::Display for Judge {
    fn fmt(&self, f: &mut fmt::Formatter<'_>) -> fmt::Result {
        write!(f, "{}, {}", self.name, self.proof)
    }
}

impl Judge {
    pub fn found() -> Result<Judge, Failure> {
        if let Some(version) = library::version() {
            return Ok(Judge { name: "liblistset".to_string(), proof: proof_in(&version), command: Vec::new() });
        }
        let name = std::env::var("LISTSET").ok().filter(|it| !it.is_empty()).unwrap_or_else(|| "listset".to_string());
        if Path::new(&name).is_dir() {
            return no_verdict(say(IS_FOLDER, &[&name]));
        }
        if name.ends_with(".js") {
            return Judge::in_node(name);
        }
        // Stderr is not captured, because ./listset first builds the judge and prints its progress on stderr.
        match ran(Command::new(&name).args(["--version", "--long"]).stderr(Stdio::inherit())) {
            Ok((Some(127), _)) | Err(_) => no_verdict(say(NO_JUDGE, &[&name])),
            Ok((_, version)) => Ok(Judge { proof: proof_in(&version), command: vec![name.clone()], name }),
        }
    }

    /// Returns the judge if `name` is a listset.js.
    fn in_node(name: String) -> Result<Judge, Failure> {
        let path = std::env::current_dir().unwrap_or_default().join(&name);
        if !path.exists() {
            return no_verdict(say(NO_SCRIPT, &[&name, &path.display()]));
        }
        let (status, version) = match ran(Command::new("node").arg(&name).args(["--version", "--long"])) {
            Ok(answer) => answer,
            Err(_) => return no_verdict(say(NO_NODE, &[&name])),
        };
        if status != Some(0) {
            let (_, node) = ran(Command::new("node").arg("--version")).unwrap_or_default();
            let major = node.strip_prefix('v').and_then(|it| it.split('.').next()?.parse::<u32>().ok());
            if major.map_or(false, |it| it < 18) {
                return no_verdict(say(OLD_NODE, &[&node, &name]));
            }
        }
        Ok(Judge { proof: proof_in(&version), command: vec!["node".to_string(), name.clone()], name })
    }

    /// Returns the recording of one key, if the judge can print it.
    pub fn only(&self, recording: &Path, key: u32) -> Option<String> {
        let (first, words) = self.command.split_first()?;
        let key = key.to_string();
        match ran(Command::new(first).args(words).args(["judge", "--only", &key[..]]).arg(recording)) {
            Ok((Some(0), said)) => Some(said + "\n"),
            _ => None,
        }
    }

    pub fn judged(&self, recording: &Path) -> Result<Judged, Failure> {
        let answer = match &self.command[..] {
            [] => library::judge(recording),
            [first, words @ ..] => ran(Command::new(first).args(words).arg("judge").arg(recording)),
        };
        let (status, said) = answer.unwrap_or_else(|fault| (None, fault.to_string()));
        match (status, overlapped_in(&said)) {
            (Some(0), Some(overlapped)) => Ok(Judged::Ok { overlapped }),
            (Some(1), _) if said.starts_with("not linearizable") => Ok(Judged::Refused(said)),
            _ => no_verdict(say(NO_VERDICT, &[&self.name, &said.lines().next().unwrap_or("nothing")])),
        }
    }
}

fn ran(command: &mut Command) -> io::Result<Answer> {
    let ended = command.stdin(Stdio::null()).output()?;
    let said = if ended.stdout.is_empty() { ended.stderr } else { ended.stdout };
    Ok((ended.status.code(), String::from_utf8_lossy(&said).trim().to_string()))
}

/// Returns the number of overlapping calls in the second line of the judge's output, if the first line begins with
/// `ok`.
fn overlapped_in(said: &str) -> Option<u64> {
    said.strip_prefix("ok ")?.lines().nth(1)?.split(" of them").next()?.parse().ok()
}

/// Returns the line of `version` that states whether the judge is proved.
fn proof_in(version: &str) -> String {
    version.lines().find(|it| it.starts_with("proof ")).unwrap_or("proof unknown").to_string()
}

#[cfg(linked)]
mod library {
    use std::ffi::CStr;
    use std::os::raw::c_char;
    use std::os::unix::io::AsRawFd;

    extern "C" {
        fn listset_version() -> *const c_char;
        fn listset_judge_from(file: i32, room: *mut u8, size: usize, status: *mut u8) -> usize;
    }

    pub fn version() -> Option<String> {
        // SAFETY: the function returns a constant text that ends with a zero byte.
        Some(unsafe { CStr::from_ptr(listset_version()) }.to_string_lossy().into_owned())
    }

    pub fn judge(recording: &std::path::Path) -> std::io::Result<super::Answer> {
        let (file, mut room, mut status) = (std::fs::File::open(recording)?, [0; 8192], 0);
        // SAFETY: the pointers refer to a buffer of `room.len()` bytes and to a status. Nothing else accesses the
        // buffer or the status.
        let length = unsafe { listset_judge_from(file.as_raw_fd(), room.as_mut_ptr(), room.len(), &mut status) };
        Ok((Some(status.into()), String::from_utf8_lossy(&room[..length]).trim().to_string()))
    }
}

#[cfg(not(linked))]
mod library {
    pub fn version() -> Option<String> {
        None
    }

    pub fn judge(_: &std::path::Path) -> std::io::Result<super::Answer> {
        unreachable!("there is no library")
    }
}
