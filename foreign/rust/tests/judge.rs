//! Judges the repository's examples in four threads at the same time.

use std::fs::{read_dir, read_to_string};
use std::path::PathBuf;
use std::thread::scope;

use listset::*;

const THREADS: usize = 4;

/// Returns the texts of each schedule and of its report. Leaves out the schedules that must be refused.
fn pairs() -> Vec<(String, String)> {
    let folder = std::env::var_os("LISTSET_EXAMPLES").map(PathBuf::from);
    let folder = folder.unwrap_or_else(|| PathBuf::from(env!("CARGO_MANIFEST_DIR")).join("../../examples/schedules"));
    let refused = read_to_string(folder.join("refused-files.txt")).unwrap();
    let is_right =
        |name: &str| name.ends_with(".schedule") && !refused.lines().any(|line| line.split(':').next() == Some(name));
    let files = read_dir(folder).unwrap().map(|it| it.unwrap());
    let right = files.filter(|it| it.file_name().to_str().map_or(false, is_right)).map(|it| it.path());
    right.filter_map(|it| Some((read_to_string(&it).ok()?, read_to_string(it.with_extension("report")).ok()?))).collect()
}

#[test]
fn each_example_is_judged_in_each_thread() {
    let pairs = pairs();
    assert!(pairs.len() > 20, "{} examples", pairs.len());
    scope(|threads| {
        for _ in 0..THREADS {
            threads.spawn(|| {
                for (schedule, report) in &pairs {
                    assert_eq!(replay(schedule).as_ref(), Ok(report));
                    assert_eq!(check(report), Ok(()));
                    assert!(trace(schedule).unwrap().starts_with("listset-trace "));
                    assert!(show(report, Window { width: Some(60), ..Window::default() }).is_ok());
                }
            });
        }
    });
}

#[test]
fn each_function_returns_its_own_text() {
    let schedule = example("snip").unwrap();
    let report = replay(&schedule).unwrap();
    assert!(!trace(&schedule).unwrap().contains("\nchain") && trace_with_chains(&schedule).unwrap().contains("\nchain"));
    assert!(show(&report, Window::default()).unwrap().starts_with("lock-free list"));
    assert!(show_svg(&report, Window::default()).unwrap().starts_with("<svg "));
    assert_eq!(draft(schedule.replace("listset-schedule 1", "listset-draft 2")), Ok(schedule));
    let wrong = [("FROM", Some(0), None, None), ("TO", None, Some(0), None), ("WIDTH", None, None, Some(0))];
    for (name, from, to, width) in wrong {
        let window = Window { from, to, width };
        for drawn in [show(&report, window), show_svg(&report, window)] {
            assert_eq!(drawn.unwrap_err().to_string(), format!("listset: bad {name}"));
        }
    }
    assert!(examples().unwrap().contains("snip") && faults().unwrap().contains("listset: line L:"));
}

#[test]
fn each_value_of_a_generated_schedule_has_its_place() {
    let head = "listset-schedule 1\nlist fine\nthreads 64\nquota 16384\n";
    assert_eq!(generated("fine", 64, 16_384, 0, u32::MAX, u64::MAX).as_deref(), Ok(head));
    let of = |seed| generated("lazy", 2, 4, 40, 6, seed).unwrap();
    assert_ne!(of(u64::MAX), of(u64::from(u32::MAX)));
}

const RECORDING: &str = "listset-calls 1
call 0 add 5 1 6 true
call 1 contains 5 2 4 true
key 5
end
";

#[test]
fn a_recording_is_judged() {
    assert!(judge_text(RECORDING).unwrap().starts_with("ok 2 calls\n"));
    let refused = judge_text(RECORDING.replace("key 5\n", "")).unwrap_err();
    assert!(refused.status == 1 && refused.text.starts_with("not linearizable\n"), "{refused}");
    assert!(why(RECORDING.replace("key 5\n", "")).unwrap().contains('5'));
    assert_eq!((why(RECORDING), why("nothing")), (Ok(String::new()), Ok(String::new())));
    let wrong = judge_text(RECORDING.replace("calls 1", "calls 2")).unwrap_err();
    assert_eq!((wrong.status, wrong.text.as_str()), (1, "listset: line 1: Header\n"));
}

#[test]
fn errors_have_their_status() {
    let broken = broken_example("snip").unwrap();
    let Wrong { text, status } = check(&broken).expect_err("a broken report is taken");
    assert!(text.starts_with("refused ") && status == 1, "{text}");
    assert_eq!(example("none").unwrap_err().status, 2);
    assert_eq!(replay("").unwrap_err().status, 1);
    assert!(generated("lazy", 4, 200, 1000, 50, 1).unwrap().len() > 4096);
}
