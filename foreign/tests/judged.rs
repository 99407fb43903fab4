//! Judges `Shared` sets of the five lists, as docs/YOUR-SET.md describes. Each set has eight seats (a seat serves one
//! call at a time).
use listset::{Added, List, Shared};
use listset_judge::Options;

fn main() {
    let proof = listset::version().lines().find(|it| it.starts_with("proof ")).unwrap();
    for list in [List::Coarse, List::Fine, List::Optimistic, List::Lazy, List::LockFree] {
        let verdict = listset_judge::judge(
            || Shared::open(list, 8, 16_384, &[]).unwrap(),
            |set, key| set.add(key) == Added::True,
            |set, key| set.remove(key),
            |set, key| set.contains(key),
            Options { runs: 6, own_process: false, ..Options::default() }, // one run for each of six presets of threads, calls and keys
        );
        let verdict = verdict.unwrap();
        println!("{verdict}");
        assert!(verdict.overlapped > 0 && verdict.judge == format!("liblistset, {proof}"), "{verdict}");
    }
}
