"""Tests ./listset as a user would use it: without a program, with only Node, after an edit, and with an interrupted
command. Also tests `build/take`. The tests use small clones of the repository, with a program that adds numbers in
place of listset.
"""

import importlib.machinery
import importlib.util
import os
import pathlib
import re
import shutil
import signal
import subprocess
import sys
import threading
import time

import crates_txt
import proving
import pytest
from harness.programs import LONG, SECONDS, TOP, comes, is_running, ran, wants, well

BUILDING = "building the program once WITHOUT A PROOF"
NO_NODE = "no program is built here, and Node is missing. Install Debian's package nodejs (18 or later), or put the folder bin of the Rattle toolchain in PATH"
# Arguments that ask for a help text, each with the command of the transcripts that prints the help text
HELP = {"--help": "--help", "help": "--help", "-V": "--version", "help judge": "help judge", "judge --help": "help judge", "judge -h": "help judge"}
# The source of a small program. For each argument, the program looks up the table entry for the argument's length, adds
# one, and prints the sum. For the argument "show" the addition overflows (255 + 1), and for "replay" the table has no
# entry.
MAIN = """#![tactic(auto)]

use std::io;

fn main(rt: HostRuntime) -> io::Result<()> {
    let table: [u8; 6] = [0, 1, 2, 3, 255, 5];
    for word in std::env::args(&rt)?.skip(1) {
        let sum = table[word.len()] + 1;
        println!(rt; "{sum}")?;
    }
    Ok(())
}
"""
TEXTS = {"crates.txt": "ffi_page staticlib:\nlistset:\n", "crates/ffi_page/src/lib.rt": "//! Nothing.\n", "crates/listset/src/main.rt": MAIN}


# The commands that the scripts may use without checking whether they are installed.
COMMANDS = "awk bash cat chmod cp cut date dirname env find grep mv readlink rm sed sh sha256sum sleep sort touch xargs".split()


def bare_path(folder, *further):
    """Creates a folder to use as PATH, with Python, COMMANDS, and those commands of `further` that are installed."""
    folder.mkdir()
    (folder / "python3").symlink_to(os.path.realpath(sys.executable))
    for it in filter(shutil.which, [*COMMANDS, *further]):
        (folder / it).symlink_to(shutil.which(it))
    return folder


def copied(parts, to):
    """Copies `parts` of the repository, without built files, to the folder `to`."""
    for part in parts:
        (to / part).parent.mkdir(parents=True, exist_ok=True)
        if (TOP / part).is_dir():
            shutil.copytree(TOP / part, to / part, symlinks=True, ignore=shutil.ignore_patterns("__pycache__", "out"))
        else:
            shutil.copy(TOP / part, to / part)
    return to


class Clone:
    """A small clone of the repository, and a PATH with few commands."""

    def __init__(self, room, *commands):
        self.tree, self.path = room / "tree", bare_path(room / "path", *commands)
        copied(["build", "page", "listset", "HANDLES"], self.tree)
        for path, text in TEXTS.items():
            (self.tree / path).parent.mkdir(parents=True, exist_ok=True)
            (self.tree / path).write_text(text)
        self.main, out = self.tree / "crates/listset/src/main.rt", self.tree / "crates/listset/out"
        self.proved, self.kept = out / "listset", out / "unproved"
        self.how = {"cwd": self.tree, "env": {**os.environ, "PATH": str(self.path), "TMPDIR": str(room)}}
        (self.tree / "page/sources.sum").write_text(well(self.tree / "build/sum_of_sources", "ffi_page"))

    def ran(self, *words, **how):
        return ran(*words, seconds=LONG, **self.how, **how)

    def prove(self, at):
        """Replaces the proved program with a stand-in. Sets the file's modification time to `at` seconds from now."""
        self.kept.mkdir(parents=True, exist_ok=True)
        self.proved.write_text('#!/bin/sh\necho "proved: $*"\n')
        self.proved.chmod(0o755)
        os.utime(self.proved, (time.time() + at,) * 2)


def module_of(script):
    """Loads a script of this repository as a module."""
    loader = importlib.machinery.SourceFileLoader(pathlib.Path(script).name, str(TOP / script))
    made = importlib.util.module_from_spec(importlib.util.spec_from_loader(loader.name, loader))
    loader.exec_module(made)
    return made


def shown(command):
    """Returns the output of a command, according to the transcripts."""
    text = "".join((TOP / "tests/transcripts" / f"{page}.md").read_text() for page in ("help", "words"))
    block = re.search(rf"^    \$ listset {re.escape(command)}\n((?:    (?!\$ ).*\n|\n)*)", text, re.M)[1]
    return re.sub("^    ", "", block, flags=re.M).rstrip("\n") + "\n"


def test_without_any_tool_the_script_names_what_to_install(room):
    clone = Clone(room)
    for words in ("skip", "help skip", "replay a", "judge /a --help", "--unproved example"):
        wants(clone.ran("./listset", *words.split()), status=127, output="", tells=[NO_NODE])
    for words, told in HELP.items():
        assert wants(clone.ran("./listset", *words.split()), output=shown(told)).stderr == ""
    wants(clone.ran("./listset", "run", "lazy"), status=127, output="", tells=["run needs a built program, which only the command rt builds", "PATH"])
    wants(clone.ran("./listset", "--prove"), status=127, output="", tells=["rt, which proves the program, is missing", "PATH", "README.md"])
    (clone.path / "rt").symlink_to("/bin/true")
    (clone.path / "python3").unlink()
    for words in ("example", "--prove", "--prove gen", "--version --long"):
        wants(clone.ran("./listset", *words.split()), status=127, output="", tells=["python3 is missing: Debian's package python3"])
    wants(clone.ran(copied(["gate"], clone.tree) / "gate"), status=2, tells=[], output="gate: python3 is missing: Debian's package python3, 3.10 or later, for scripts and tests\n")


@pytest.mark.needs("node")
def test_node_answers_at_once(room):
    clone, example = Clone(room, "node"), TOP / "examples/schedules/snip.schedule"
    for words, told in HELP.items():
        assert wants(clone.ran("./listset", *words.split()), output=shown(told)).stderr == ""
    for words, usage in {"skip": "listset [COMMAND]", "help skip": "listset [COMMAND]", "--no-such": "listset [COMMAND]", "judge a b": "listset judge [OPTIONS] [FILE]"}.items():
        said = wants(clone.ran("./listset", *words.split()), status=2, output="").stderr
        assert said.startswith("error: un") and f"\n\nUsage: {usage}\n\n" in said, said
    done = clone.ran("./listset", "replay", text=example.read_text())
    assert wants(done, output=example.with_suffix(".report").read_text()).stderr == ""
    wants(clone.ran("./listset", "--version", "--long"), output=shown("--version") + f"commit {40 * '0'}\nproof unknown\n")
    wants(clone.ran("./listset", "run", "lazy"), status=127, tells=["run needs a built program, which only the command rt builds", "Node alone has every command but run and serve"])
    (clone.tree / "crates/ffi_page/src/lib.rt").write_text("//! Edited.\n")
    wants(clone.ran("./listset", "replay", example), status=127, tells=["were edited", "git stash"])
    wants(clone.ran("./listset", "help", "judge"), output=shown("help judge"))


def test_the_proved_program_is_used_unless_a_source_is_younger(room):
    clone = Clone(room)
    for at, status in ((60, 0), (-60, 127)):
        clone.prove(at)
        wants(clone.ran("./listset", "check", "a"), status=status, output="" if status else "proved: check a\n")
    (room / "listset").symlink_to(clone.tree / "listset")
    clone.prove(60)
    wants(clone.ran(room / "listset", "check"), output="proved: check\n")


@pytest.mark.needs("rt")
def test_the_program_is_built_once_for_the_current_sources(room):
    clone = Clone(room)
    (clone.path / "rt").symlink_to(pathlib.Path(shutil.which("rt")).resolve())
    wants(clone.ran("./listset", "gen", "check"), output="4\n6\n", tells=[BUILDING, "built in"])
    clone.main.touch()
    assert wants(clone.ran("./listset", "gen"), output="4\n").stderr == ""
    assert [clone.ran("./listset", it).returncode for it in ("show", "replay")] == [-signal.SIGILL] * 2
    clone.prove(60)
    wants(clone.ran("./listset", "--unproved", "gen"), output="4\n", no=[BUILDING])
    clone.proved.unlink()
    clone.main.write_text("refused")
    wants(clone.ran("./listset", "gen"), status=1, output="", tells=[BUILDING, "src/main.rt:1:"])
    clone.main.write_text(MAIN)
    wants(clone.ran("./listset", "gen"), output="4\n", no=[BUILDING])


@pytest.mark.parametrize("words", ["build/unproved", "foreign/build", "page/build", "./gate --quick"])
def test_a_missing_rt_is_named(room, words):
    path = bare_path(room / "path", "git", "ls", "node", "uname")
    script, *others = words.split()
    done = ran(TOP / script, *others, cwd=TOP, env={**os.environ, "TMPDIR": str(room), "PATH": str(path)})
    said = done.stdout + done.stderr
    assert done.returncode and "rt is missing: the Rattle toolchain; its folder bin must be in PATH" in said and "Traceback" not in said


# The source of a script that prints the gate's lines about the checks that are not run.
NOT_RUN = """import importlib.machinery, importlib.util, sys
loader = importlib.machinery.SourceFileLoader("gate", "gate")
gate = importlib.util.module_from_spec(importlib.util.spec_from_loader("gate", loader))
loader.exec_module(gate)
print(*gate.not_run(sys.executable), sep="\\n")
"""


@pytest.mark.needs("gcc")
def test_tests_without_their_tool_are_listed_and_do_not_pass(room):
    how = {"cwd": TOP, "env": {**os.environ, "TMPDIR": str(room), "PATH": str(bare_path(room / "path", "git", "gcc"))}}
    listed = well(sys.executable, "-c", NOT_RUN, **how)
    for tool, what in {"go": "tests are skipped", "mvn": "tests are skipped", "node": "not run: the tests of the page in node", "wasm-opt": "not run: whether the page's module"}.items():
        assert re.search(rf"^{tool} is not installed: Debian's packages? .*; .*{what}", listed, re.M), listed
    assert not re.search("^gcc is not", listed, re.M)
    wants(ran(TOP / "page/test", "--node", **how), status=1, output="", tells=["node is missing, and nothing was tried: Debian's package nodejs"])
    for word, status in (("--rows", 1), ("--partly", 0)):
        done = ran(TOP / "page/build", "--rows", "--check", word, **how)
        assert done.returncode == status and re.search(r"^\d+ passed, 0 failed$", done.stdout, re.M), done
        assert ("not compared, for want of a tool: what esbuild" in done.stdout) == (status == 1), done


def test_a_mark_of_an_unknown_tool_is_refused(room):
    (room / "marked.py").write_text("import pytest\n\n@pytest.mark.needs('no-such-tool')\ndef test_it():\n    pass\n")
    words = [sys.executable, "-m", "pytest", "-c", TOP / "pytest.ini", "-p", "conftest", "-p", "no:cacheprovider", "--rootdir", room, room / "marked.py"]
    done = ran(*words, cwd=room, env={**os.environ, "PYTHONPATH": f"{TOP / 'tests'}:{TOP / 'build'}"})
    assert done.returncode and "needs no-such-tool, which build/needs.txt does not list" in done.stdout + done.stderr, done


# Maps an incomplete command line to the completions of its last word. (Words are separated as in bash.)
COMPLETED = {"ju": "judge", "help ju": "judge", "gen la": "lazy", "faults He": "Header", "show --w": "--width", "show --from 1": "", "replay --lacks marks": "marks-in-validation",
             "trace --lacks =": "lock second-lock hand-over-hand second-walk same-node marks-in-validation mark-in-contains mark-in-ceiling mark mark-in-add mark-in-remove mark-at-key new-slot",
             "replay --lacks = marks": "marks-in-validation", "replay --lacks marks --l": "--lacks"}


def test_the_man_page_and_the_completions_are_printed(program, room):
    make = [sys.executable, TOP / "build/man_page_and_completions.py"]
    page = well(*make, "man", program)
    assert page.startswith(".TH LISTSET 1 ") and ".SH EXAMPLES" in page and '.SH "listset judge"' in page
    completions = well(*make, "bash", program)
    for words, completed in COMPLETED.items():
        asked = f"COMP_WORDS=(listset {words}); COMP_CWORD={len(words.split())}; _listset listset {words.split()[-1]}; echo ${{COMPREPLY[*]}}\n"
        (room / "bash").write_text(completions + asked)
        assert well("bash", room / "bash") == f"{completed}\n", words
    wants(ran(*make, "dash"), status=2, output="", tells=["man_page_and_completions.py man | man -l -"])


# The source of four tests: one with a mark for the command that it runs, one without a mark, and two that share a
# result
TOOLS = """import subprocess
import pytest

def made(folder):
    return subprocess.run(["gcc", "--version"]).returncode

@pytest.mark.needs("gcc")
def test_marked():
    assert made(None) == 0

def test_unmarked():
    assert made(None) == 0

@pytest.mark.needs("gcc")
def test_first(once):
    assert once(made) == 0

def test_second(once):
    assert once(made) == 0
"""


@pytest.mark.needs("gcc")
def test_a_test_that_runs_a_tool_without_a_mark_fails(room):
    (room / "tools.py").write_text(TOOLS)
    words = [sys.executable, "-m", "pytest", "-q", "--tools", "-c", TOP / "pytest.ini", "-p", "conftest", "-p", "no:cacheprovider", "--rootdir", room, room / "tools.py"]
    said = ran(*words, cwd=room, env={**os.environ, "PYTHONPATH": f"{TOP / 'tests'}:{TOP / 'build'}"}).stdout
    assert re.findall("^ERROR .*::(\\w+) - .*no mark for gcc", said, re.M) == ["test_unmarked", "test_second"], said


# The source of a script with two threads that run four commands, two at a time.
FOUR = """import sys, time
sys.path.insert(0, {build!r})
import processes
from concurrent.futures import ThreadPoolExecutor
import subprocess

def run(name):
    with processes.room("four") as room:
        subprocess.run([*processes.guarded(), "sh", "-c", f"touch {{name}}; sleep 600; touch {{name}}.ended"], cwd=sys.argv[1])

def main():
    with ThreadPoolExecutor(2) as pool:
        list(pool.map(run, "abcd"))

processes.script(main)
"""


@pytest.mark.parametrize("number", [signal.SIGTERM, signal.SIGINT, signal.SIGHUP])
def test_an_interrupted_script_starts_no_further_command(room, number):
    (room / "temporary").mkdir()
    words = [sys.executable, "-c", FOUR.format(build=str(TOP / "build")), room]
    running = subprocess.Popen(words, env={**os.environ, "TMPDIR": str(room / "temporary")}, stderr=subprocess.PIPE)
    comes(lambda: (room / "a").exists() and (room / "b").exists(), "the first two commands")
    began = time.monotonic()
    running.send_signal(number)
    assert running.wait(SECONDS) == 128 + number
    assert time.monotonic() - began < 30  # (about 3 on an idle machine)
    assert sorted(it.name for it in room.iterdir()) == ["a", "b", "temporary"] and [*(room / "temporary").iterdir()] == []


# A substitute for rt that acts like a proof that never ends and has created a temporary file.
SLEEPS = """#!/bin/sh
if [ "$1" = doc ]; then echo {room}/START-HERE.md; exit; fi
mkdir "$TMPDIR/rattle-logic-built-locked-1"
echo $$ >{room}/started.new && mv {room}/started.new {room}/started && exec sleep 600
"""


@pytest.mark.parametrize("words", ["./listset --prove", "build/prove --in ../all"])
def test_an_interrupted_proof_leaves_no_process_and_no_file(room, words):
    clone = Clone(room)
    (room / "temporary").mkdir()
    clone.how["env"]["TMPDIR"] = str(room / "temporary")
    (clone.path / "rt").write_text(SLEEPS.format(room=room))
    (clone.path / "rt").chmod(0o755)
    how = {**clone.how, "stdin": subprocess.DEVNULL, "stdout": subprocess.PIPE, "stderr": subprocess.STDOUT, "text": True}
    running = subprocess.Popen(words.split(), **how)
    comes(lambda: (room / "started").exists() or running.poll() is not None, "what does not end")
    assert running.poll() is None, running.communicate()
    running.send_signal(signal.SIGINT)
    said, _ = running.communicate(timeout=SECONDS)
    assert (running.returncode, "Traceback" in said) == (130, False), said
    assert "listset" not in words or re.search(r"proving \d+ crates by rt ci, about \d+ minutes .* \d+ processors; Ctrl-C ends it\n", said), said
    comes(lambda: not is_running(int((room / "started").read_text())), "the end of what was started")
    assert [*(room / "temporary").iterdir()] == []


def test_crates_txt_is_ordered_and_both_scripts_find_the_crates_below():
    lines, before = crates_txt.lines_of(), set()
    for name, line in lines.items():
        used = {it for it in line.partition(":")[2].split() if it in lines}
        assert used <= before, f"{name} uses {used - before}"
        before.add(name)
        below = well(TOP / "build/crates_below", name).splitlines()
        assert [it.split()[0].removesuffix(":") for it in reversed(below)] == crates_txt.below([name])
        assert used < {*crates_txt.below([name])}
    wants(ran(TOP / "build/crates_below", "no-such"), status=2, output="", tells=["there is no crate no-such; the crates are lset_words "])


def test_help_of_a_script_starts_no_work(room):
    clone = Clone(room)
    for script in ("prove", "unproved"):
        assert f"    build/{script} " in wants(clone.ran(f"build/{script}", "--help")).stdout
        wants(clone.ran(f"build/{script}", "no-such"), status=2, output="", tells=[f"    build/{script} "])
    assert [*clone.tree.rglob("out")] == []


# Maps each text of a source file that an edit replaces to the name of the edited function, or to None if the edit is
# wrong.
EDITED = """const MOST: u32 = 5;

/// Returns the larger number.
pub fn larger(a: u32, b: u32) -> u32
    ensures { result ≡ max a b }
{
    if a < b { b } else { a }
}

pub fn smaller(
    a: u32,
    b: u32,
) -> u32 {
    MOST.min(a.min(b))
}
"""
EDITS = {"if a < b": "larger", "MOST.min": "smaller", "max a b": None, "-> u32 {": None, "MOST: u32 = 5": None, "b: u32,": None, "no such text": None}


@pytest.mark.parametrize("old", EDITS)
def test_an_edit_that_must_fail_changes_bodies_alone(room, old):
    here = copied(["build", "crates.txt", "HANDLES"], room / "here")
    (here / "crates/lset_words/src").mkdir(parents=True)
    (here / "crates/lset_words/must-fail").mkdir()
    (here / "crates/lset_words/src/lib.rt").write_text(EDITED)
    (here / "crates/lset_words/must-fail/it.edit").write_text(f"file: src/lib.rt\nold: {old}\nnew: {old} \n")
    done = ran(sys.executable, "-c", EDITED_FUNCTIONS, cwd=here)
    if EDITS[old]:
        assert done.stdout.split() == [EDITS[old]], done.stderr
    else:
        assert "BadEdit: " in done.stderr, done


# The source of a script that prints the functions that an edit changes
EDITED_FUNCTIONS = """import importlib.machinery, importlib.util, pathlib, sys
sys.path.insert(0, "build")
loader = importlib.machinery.SourceFileLoader("try_edits", "build/try_edits")
try_edits = importlib.util.module_from_spec(importlib.util.spec_from_loader("try_edits", loader))
loader.exec_module(try_edits)
print(*(it.name for _, it in try_edits.Edit(pathlib.Path("crates/lset_words/must-fail/it.edit").resolve()).functions))
"""


def test_edits_wait_until_the_libraries_below_are_proved_or_the_proofs_have_ended(room):
    proving.note_of(room, "low").parent.mkdir(parents=True)
    proving.note_of(room, "low").touch()
    assert proving.wait_for(room, ["low"]) and proving.wait_for(room, [])
    later = threading.Timer(1, proving.note_of(room, "high").touch)
    later.start()
    assert proving.wait_for(room, ["low", "high"])
    proving.end_of(room).touch()
    assert proving.wait_for(room, ["high"]) and not proving.wait_for(room, ["low", "not_proved"])


def test_edits_are_tried_in_the_order_in_which_their_libraries_are_proved(room):
    tasks = [(it, []) for it in ("lset_recording", "lset_history", "lset_words", "lset_coarse")]
    proving.note_of(room, "lset_steps").parent.mkdir(parents=True)
    in_order = module_of("build/try_edits").proved_first(tasks, room)
    assert next(in_order) == (("lset_words", []), True)
    for it in ("lset_steps", "lset_words"):
        proving.note_of(room, it).touch()
    assert [next(in_order), next(in_order)] == [(("lset_history", []), True), (("lset_coarse", []), True)]
    proving.end_of(room).touch()
    assert [*in_order] == [(("lset_recording", []), False)]


def test_take_copies_crates_and_replaces_them(room):
    there = room / "there"
    here = copied(["build", "crates.txt", "HANDLES", "crates/lset_history", "crates/lset_words"], room / "here")
    wants(ran(here / "build/take", there, "lset_history"), output="took: lset_words\ntook: lset_history\n2 crates are there as here\n")
    assert {it.split(":")[0] for it in (there / "crates.txt").read_text().splitlines()} == {"lset_history", "lset_words"}
    (here / "crates/lset_words/src/new.rt").write_text("//! Newer.\n")
    (there / "crates/lset_words/out").mkdir()
    wants(ran(here / "build/take", there, "lset_history"), output="took: lset_words\n2 crates are there as here\n")
    assert (there / "crates/lset_words/src/new.rt").exists() and (there / "crates/lset_words/out").exists()
    wants(ran(here / "build/take", there, "no-such"), status=2, output="", tells=["there is no crate no-such"])
    wants(ran(here / "build/take", ".", "lset_words", cwd=here), status=2, output="", tells=["take: . is this repository"])
    (there / "HANDLES").write_text("Another.\n")
    wants(ran(here / "build/take", there, "lset_words"), output="kept: HANDLES is different there\n1 crates are there as here\n")
