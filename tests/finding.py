"""Tests build/find, which finds the functions that match some words, in a small repository."""

import shutil
import subprocess

import pytest
from harness.programs import SECONDS, TOP

FILES = {
    "crates/walks/src/lib.rt": """//! The walk of a list.

/// Unlocks the previous node after it has locked the next node.
pub fn hand_over(place: u32) -> u32 {
    place
}

/// The maximum number of events in a schedule.
pub const MOST_EVENTS: u32 = 1_000_000;
""",
    "build/pack.py": '''"""Packs a release."""


def archive(files):
    """Writes the files to an archive."""
    raise OSError("cannot pack the files")
''',
    "judge/go/judge.go": """package judge

// seeds returns the seeds of the runs.
func seeds(count int) []int {
""",
}


@pytest.fixture(scope="module")
def find(tmp_path_factory):
    """Returns a function that runs build/find in a repository with FILES."""
    room = tmp_path_factory.mktemp("finding")
    for path, text in FILES.items():
        (room / path).parent.mkdir(parents=True, exist_ok=True)
        (room / path).write_text(text)
    for name in ("find", "crates_txt.py"):
        shutil.copy(TOP / "build" / name, room / "build" / name)
    for words in (["init", "-q"], ["add", "."]):
        subprocess.run(["git", *words], cwd=room, check=True)
    return lambda *words: subprocess.run([room / "build/find", *words], capture_output=True, text=True, timeout=SECONDS)


@pytest.mark.parametrize("words, place", (
    ("unlocking nodes", "crates/walks/src/lib.rt:4"),  # other endings of the words
    ("handOver", "crates/walks/src/lib.rt:4"),  # the parts of a name
    ("limit of events", "crates/walks/src/lib.rt:9"),  # a word that means the same
    ("cannot pack", "build/pack.py:4"),  # the words of a string
    ("seeds", "judge/go/judge.go:4"),
))
def test_words_find_a_function(find, words, place):
    done = find("--full", "0", *words.split())
    assert (done.returncode, done.stdout.split(": ")[0]) == (0, place)


def test_the_best_functions_are_printed_with_comment_and_code(find):
    assert find("hand", "over").stdout.startswith("crates/walks/src/lib.rt:4\n/// Unlocks the previous node after it has locked the next node.\n"
                                                   "pub fn hand_over(place: u32) -> u32 {\n    place\n}\n")


def test_only_files_of_the_named_folder_are_searched(find):
    places = find("--full", "0", "--in", "judge/go", "seeds", "files").stdout.splitlines()
    assert places and all(line.startswith("judge/go/") for line in places)


def test_a_folder_without_searched_files_is_named(find):
    done = find("--in", "no/such", "seed")
    assert (done.returncode, done.stderr) == (1, "build/find: no searched file has no/such in its path\n")


def test_a_word_that_nothing_contains_has_status_1_and_one_line(find):
    done = find("q" * 30)
    assert (done.returncode, done.stdout, done.stderr) == (1, "", "build/find: nothing matches these words\n")
