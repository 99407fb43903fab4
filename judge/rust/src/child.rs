//! Performs runs: on Unix, in a separate process; on other systems, in the test's process. The separate process runs
//! the test again up to its call to `judge`.
use std::cell::RefCell;
use std::collections::HashMap;
use std::fs::File;
use std::io::Read as _;
use std::path::{Path, PathBuf};
use std::process::{Child, Command, Stdio};
use std::sync::atomic::{AtomicU32, Ordering::SeqCst};
use std::sync::Mutex;
use std::time::{Duration, Instant};

use crate::area::Area;
use crate::memory::Memory;
use crate::words::*;
use crate::{no_verdict, Failure, Options, Shape, Source};

const MEMORY: &str = "LISTSET_AREA"; // the environment variable that names the file with the shared memory of the two processes
const MINE: &str = "LISTSET_CHECK"; // the environment variable that contains the name of a child process's call of `judge`

/// A temporary file, deleted on drop.
struct Temporary(PathBuf);

impl Drop for Temporary {
    fn drop(&mut self) {
        let _ = std::fs::remove_file(&self.0);
    }
}

/// Performs runs in a child process or in the current process.
pub struct Runner {
    pub area: Area,
    child: Option<RefCell<Child>>,
}

impl Runner {
    /// Starts a child process, or prepares the current process for the runs. If the current process is a child process
    /// that was started for this call to `judge`, performs runs and never returns. If it was started for a different
    /// call to `judge`, returns `None`.
    pub(crate) fn started<S: Sync>(source: &Source<S>, options: &Options) -> Result<Option<Runner>, Failure> {
        let name = name_of_judge();
        if let Ok(mine) = std::env::var(MINE) {
            if name.as_ref() == Some(&mine) {
                serve(source, options);
            }
            return Ok(None);
        }
        match name.filter(|_| cfg!(unix) && options.own_process) {
            Some(name) => Runner::in_child(&name, options).map(Some),
            None => Ok(Some(Runner { area: Area::new(Memory::own(Area::SIZE), options), child: None })),
        }
    }

    /// Starts a child process that runs the test again, and waits until the child process has reached the same call to
    /// `judge`.
    fn in_child(name: &str, options: &Options) -> Result<Runner, Failure> {
        static FILES: AtomicU32 = AtomicU32::new(0);
        let path = std::env::temp_dir().join(format!("listset-{}-{}.area", std::process::id(), FILES.fetch_add(1, SeqCst)));
        let made = File::options().read(true).write(true).create_new(true).open(&path);
        let file = made.or_else(|_| no_verdict(say(NO_TEMPORARY, &[&std::env::temp_dir().display()])))?;
        let temporary = Temporary(path);
        let memory = file.set_len(4 * Area::SIZE as u64).and_then(|()| Memory::of(&file, Area::SIZE));
        let area = Area::new(memory.or_else(|_| no_verdict(NO_MEMORY.to_string()))?, options);
        let mut child = process_of(name, &temporary.0).or_else(|fault| no_verdict(say(NO_PROCESS, &[&fault])))?;
        while !area.is_here() {
            if !matches!(child.try_wait(), Ok(None)) {
                return no_verdict(NOT_AGAIN.to_string());
            }
            std::thread::sleep(Duration::from_micros(300));
        }
        Ok(Runner { area, child: Some(RefCell::new(child)) })
    }

    pub fn has_own_process(&self) -> bool {
        self.child.is_some()
    }

    /// Performs a run. In a child process, cuts the run short at the time `until`. Returns the reason if the run was
    /// cut short.
    pub(crate) fn made<S: Sync>(
        &self,
        source: &Source<S>,
        seed: u64,
        of: Shape,
        file: &Path,
        until: Option<Instant>,
    ) -> Result<Option<String>, Failure> {
        let area = &self.area;
        area.begin(seed, of, file);
        if let Some(child) = &self.child {
            let trouble = area.watch(until, &|| trouble_of(&mut child.borrow_mut()))?;
            if trouble.is_some() {
                self.end_child(); // (otherwise a set that hung could continue while its run is judged)
            }
            return Ok(trouble);
        }
        std::thread::scope(|scope| {
            let watcher = scope.spawn(|| {
                let done = area.watch(None, &|| None);
                area.stop();
                done
            });
            area.call_all(source);
            watcher.join().expect("what watches a run does not panic")
        })
    }

    fn end_child(&self) {
        if let Some(child) = &self.child {
            let _ = child.borrow_mut().kill();
            let _ = child.borrow_mut().wait();
        }
    }
}

impl Drop for Runner {
    fn drop(&mut self) {
        self.end_child();
    }
}

/// Returns the name of the test, and the number of the current call to `judge` in the test. Returns `None` if the
/// current thread has no name, because then the test cannot be run again.
fn name_of_judge() -> Option<String> {
    static JUDGES: Mutex<Option<HashMap<String, u32>>> = Mutex::new(None);
    let test = std::thread::current().name()?.to_string();
    let mut judges = JUDGES.lock().expect("no thread panics with it");
    let number = judges.get_or_insert_with(HashMap::new).entry(test.clone()).or_insert(0);
    *number += 1;
    Some(format!("{test}#{number}"))
}

fn process_of(name: &str, file: &Path) -> std::io::Result<Child> {
    let test = name.rsplit_once('#').map_or(name, |it| it.0);
    let mut command = Command::new(std::env::current_exe()?);
    if test == "main" {
        command.args(std::env::args_os().skip(1));
    } else {
        command.args([test, "--exact", "--nocapture", "--include-ignored"]);
    }
    command.env(MINE, name).env(MEMORY, file).stdin(Stdio::piped()).stdout(Stdio::null()).spawn()
}

/// Performs the runs that the parent process requests, until the parent ends.
fn serve<S: Sync>(source: &Source<S>, options: &Options) -> ! {
    let file = std::env::var_os(MEMORY).and_then(|it| File::options().read(true).write(true).open(it).ok());
    let memory = file.and_then(|it| Memory::of(&it, Area::SIZE).ok());
    std::thread::spawn(|| {
        let _ = std::io::stdin().read_to_end(&mut Vec::new());
        std::process::exit(1);
    });
    match memory {
        Some(memory) => Area::new(memory, options).serve(source),
        None => std::process::exit(1),
    }
}

/// Returns how the child process ended, or `None` if it is still running.
fn trouble_of(child: &mut Child) -> Option<String> {
    let status = child.try_wait().ok()??;
    Some(status.code().map_or_else(|| say(CRASHED, &[&status]), |code| say(ENDED_SO, &[&code])))
}
