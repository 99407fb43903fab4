"""Tests the sets and the judge as used from C, C++, Rust and Python, and the programs in docs/FOREIGN.md.

The tests use the libraries that foreign/build installed in the folder LISTSET_PREFIX or in foreign/out. The test
programs run with the sanitizers for addresses, undefined behaviour and races, if the sanitizers work on the machine.
The libraries themselves are built without sanitizers.
"""

import os
import pathlib
import re
import shutil
import sys
import warnings

import pytest

from harness.programs import KINDS, LONG, QUICK_CARGO, TOP, ran, well
from judge_in_a_test import FORMS, go_words

FOREIGN, EXAMPLES = TOP / "foreign", TOP / "examples" / "schedules"
TESTS, FIRST, PREFIX = FOREIGN / "tests", FOREIGN / "first", pathlib.Path(os.environ.get("LISTSET_PREFIX", FOREIGN / "out"))
needs = pytest.mark.needs
pytestmark = pytest.mark.xdist_group("foreign")  # (one after another: each test has more threads than processors)
WARN = ["-Wall", "-Wextra", "-Werror", "-O1", "-g"]
MEMORY, RACES = "-fsanitize=address,undefined", "-fsanitize=thread"
WRAPPED = [f"-Wl,--wrap={it}" for it in ("malloc", "realloc", "free")]


class InstalledLibraries:
    """The installed libraries, and a folder for programs that are built with them."""

    def __init__(self, room):
        self.room, self.library, self.share = room, PREFIX / "lib", PREFIX / "share" / "listset"
        self.include = f"-I{PREFIX / 'include'}"

    def proof(self):
        """Returns the words with which the library states whether it is proved."""
        return "proof missing" if "without a proof" in (self.library / "pkgconfig" / "listset.pc").read_text() else "proof checked"

    def works(self, sanitizer):
        """Returns whether `sanitizer` works with the machine's compiler."""
        source, made = self.room / "small.c", self.room / "small"
        source.write_text("int main(void) { return 0; }\n")
        found = ran("gcc", sanitizer, source, "-o", made, seconds=LONG).returncode == 0 and ran(made).returncode == 0
        if not found:
            warnings.warn(f"{sanitizer} does not work here: left out")
        return found

    def built(self, name, *flags):
        """Builds a C program with the static library and returns its path. `name` is relative to foreign/tests."""
        made = self.room / pathlib.Path(name).stem
        well("gcc", "-std=c11", *WARN, *flags, self.include, TESTS / name, self.library / "liblistset.a", "-pthread", "-o", made)
        return made

    def flags(self):
        """Returns the compiler flags for the installed library, from pkg-config."""
        how = {**os.environ, "PKG_CONFIG_PATH": str(self.library / "pkgconfig")}
        flags = well("pkg-config", "--cflags", "--libs", "listset", env=how).split()
        return [*flags, f"-Wl,-rpath,{self.library}"]

    def page(self, language, ending, name, before=""):
        """Writes a file that consists of `before` and the program in docs/FOREIGN.md that contains `name`. Returns the
        file's path.
        """
        found = re.findall(rf"^```{language}\n(.*?)^```$", (TOP / "docs" / "FOREIGN.md").read_text(), re.M | re.S)
        program, = (it for it in found if name in it)
        made = self.room / f"first-set.{ending}"
        made.write_text(before + program)
        return made

    def first_set(self, *words, **how):
        """Runs the first program of docs/FOREIGN.md, and checks that the program prints the number of final keys."""
        assert well(*words, **how) == "2000 keys are left\n"

    def first_judge(self, *words, **how):
        """Runs a program in the folder foreign/first on a recording that is linearizable and one that is not, and checks
        both verdicts.
        """
        refused = (TOP / "examples" / "recorders" / "both-true.calls").read_text()
        right = refused.replace("call 1 add 5 2 3 true", "call 1 add 5 2 3 false")
        for text, status, says in ((right, 0, "ok 3 calls\n"), (refused, 1, "not linearizable\n")):
            done = ran(*words, text=text, seconds=LONG, **how)
            assert (done.returncode, done.stdout[:len(says)]) == (status, says), done.stderr


@pytest.fixture
def installed(room, lacking):
    if not PREFIX.exists():
        lacking("foreign/out is missing: foreign/build --unproved builds the libraries")
    return InstalledLibraries(room)


WRONG_USES = ["if (listset_add(&seat, 7)) return 1;", "listset_fault fault = listset_add(&seat, 7); return fault;",
              "listset_reply reply = listset_close(&seat); return reply.is;"]  # fmt: skip


@needs("gcc")
@pytest.mark.parametrize("wrong", WRONG_USES)
def test_a_reply_does_not_compile_as_a_condition_or_a_fault(wrong):
    program = "#include <listset.h>\nint main(void) { listset_seat seat = LISTSET_NONE; %s return listset_add(&seat, 7).is == LISTSET_TRUE; }\n"
    words = ["gcc", "-std=c99", "-fsyntax-only", f"-I{FOREIGN}", "-x", "c", "-"]
    well(*words, text=program % "")
    assert ran(*words, text=program % wrong).returncode > 0


OF_BOTH = ["show", "show --svg", "show --from 2 --to 9 --width 60"]
OF_TEXTS = {
    "examples/schedules/**/*.schedule": ["replay", "trace", "trace --chain", *OF_BOTH],
    "examples/schedules/**/*.report": ["check", *OF_BOTH],
    "tests/transcripts/data/recorded/*.calls": ["judge"],
    "tests/transcripts/data/drafts/*.draft": ["draft"],
}


def words_of_program(program):
    """Yields command lines to test: commands that read a file, each with files of every kind, and commands whose
    arguments are names or numbers.
    """
    yield from (f"{words} {file}" for pattern, all_words in OF_TEXTS.items() for file in sorted(TOP.glob(pattern)) for words in all_words)
    names = [line.split()[0] for line in ran(program, "example").stdout.splitlines()]
    yield from (f"example{broken} {name}" for name in [*names, "no-such-name"] for broken in ("", " --broken"))
    yield from (f"gen {kind} 3 4 9 5 1" for kind in [*KINDS, "no-such-list"])
    yield from ("example", "faults", "gen lazy 2", "replay no-such-file", "show --from 0")


@needs("gcc")
def test_a_c_program_prints_what_the_program_prints(installed, program):
    """Tests that a C program, linked with the static or with the shared library, prints the same bytes as listset and
    has the same exit status.
    """
    static, shared, run_path = installed.built("words.c"), installed.room / "shared", f"-Wl,-rpath,{installed.library}"
    well("gcc", "-std=c11", *WARN, installed.include, TESTS / "words.c", f"-L{installed.library}", "-llistset", run_path, "-o", shared)
    text = (EXAMPLES / "snip.schedule").read_bytes()
    for words in words_of_program(program):
        due, *found = [ran(it, *words.split(), text=text) for it in (program, static, shared)]
        for it in found:
            assert (it.stdout, it.stderr, it.returncode) == (due.stdout, due.stderr, due.returncode), words


@needs("gcc")
def test_eight_threads_judge_at_once(installed):
    for flags in ([], [MEMORY], [RACES]):
        if all(map(installed.works, flags)):
            well(installed.built("threads.c", *flags), *sorted(EXAMPLES.glob("*.schedule")), *sorted(EXAMPLES.glob("*.report")))


@needs("gcc")
def test_the_judge_reports_each_failed_allocation_and_leaks_nothing(installed):
    schedule, report = EXAMPLES / "one-add.schedule", EXAMPLES / "one-add.report"
    draft = min((TOP / "tests" / "transcripts" / "data" / "drafts").glob("*.draft"), key=lambda it: it.stat().st_size)
    flags = [MEMORY] if installed.works(MEMORY) else []
    recording = TOP / "examples" / "recorders" / "both-true.calls"
    well(installed.built("memory.c", *flags, *WRAPPED), schedule, report, draft, recording)


@needs("gcc")
def test_calls_of_threads_agree_with_counts_and_are_judged(installed):
    """Tests calls from many threads: once with more threads than processors, and once with a million calls. The replies
    are compared with models and counts, and are judged.
    """
    for flags, sizes in (([], [250_000, 4]), ([], [500, 64]), ([MEMORY], [5_000, 4]), ([RACES], [2_000, 4])):
        if all(map(installed.works, flags)):
            well(installed.built("sets.c", *flags), *sizes)
    well(installed.built("recorded.c"))


@needs("gcc")
def test_wrong_arguments_and_failed_allocations_are_reported(installed):
    flags = [MEMORY] if installed.works(MEMORY) else []
    well(installed.built("misuse.c", *flags, *WRAPPED))


@needs("gcc")
def test_each_list_opens_with_the_most_keys(installed):
    well(installed.built(TOP / "tests" / "harness" / "largest_set.c"))


@needs("gcc", "pkg-config")
def test_programs_in_c_use_sets_and_judge(installed):
    made = installed.room / "first"
    well("gcc", "-std=c99", *WARN, FIRST / "judge.c", *installed.flags(), "-o", made)
    installed.first_judge(made)
    well("gcc", "-std=c99", *WARN, installed.page("c", "c", "listset_open"), *installed.flags(), "-pthread", "-o", made)
    installed.first_set(made)


@needs("g++", "gcc", "pkg-config")
def test_programs_in_cpp_use_sets_and_judge(installed):
    made, first, how = installed.room / "made", installed.room / "first", [MEMORY] if installed.works(MEMORY) else []
    # The test programs are compiled without optimization, because g++ needs three times as long with both a sanitizer
    # and optimization. The programs of docs/FOREIGN.md compile the header with optimization.
    elsewhere, flags = installed.room / "elsewhere.o", ["-std=c++17", *WARN, "-O0", *how, "-pthread"]
    well("g++", *flags, "-c", TESTS / "elsewhere.cpp", installed.include, "-o", elsewhere)
    for name in ("judge.cpp", "sets.cpp", "judged.cpp"):
        well("g++", *flags, TESTS / name, elsewhere, *installed.flags(), "-o", made)
        well(made, env=in_room(installed))
    well("g++", *flags, *WRAPPED, TESTS / "refused.cpp", installed.include, installed.library / "liblistset.a", "-o", made)
    well(made)
    well("g++", "-std=c++17", *WARN, installed.page("cpp", "cpp", "listset::open"), *installed.flags(), "-pthread", "-o", first)
    installed.first_set(first)
    well("g++", "-std=c++17", *WARN, FIRST / "judge.cpp", *installed.flags(), "-o", first)
    installed.first_judge(first)


@needs("g++", "gcc", "pkg-config")
def test_calls_of_a_renewed_set_are_linearizable(installed):
    """Tests eight threads that add and remove the same keys while their set is renewed (replaced by a new set with the
    same keys).
    """
    made, flags = installed.room / "made", ["-std=c++17", *WARN, "-pthread", TESTS / "renewed.cpp", *installed.flags()]
    for how, calls in (([], 50_000), (["-O0", MEMORY], 2_000), (["-O0", RACES], 500)):
        if all(map(installed.works, how[1:])):
            well("g++", *how, *flags, "-o", made)
            well(made, installed.room / "calls", calls)


@needs("cargo", "rustc")
def test_programs_in_rust_use_sets_and_judge(installed):
    crate, target, cargo = installed.share / "rust", ["--target-dir", installed.room / "target"], [*QUICK_CARGO, "--offline"]
    how = {**os.environ, "LISTSET_EXAMPLES": str(EXAMPLES)}
    said = well(*cargo, "test", "--locked", *target, "--manifest-path", crate / "Cargo.toml", env=how)
    passed = [line for line in said.splitlines() if line.startswith("test result: ok.") and " 0 passed" not in line]
    assert len(passed) == 6, said
    manifest, made = installed.room / "Cargo.toml", installed.room / "target" / "debug"
    how = {"env": {**in_room(installed), "LISTSET_LIB": str(installed.library)}}
    parts = f"[dependencies]\nlistset = {{ path = '{crate}' }}\nlistset_judge = {{ path = '{FORMS / 'rust'}' }}\n"
    first_set = installed.page("rust", "rs", "use listset::{open")
    for name, source in (("first_set", first_set), ("first", FIRST / "judge.rs"), ("judged", TESTS / "judged.rs")):
        parts += f"\n[[bin]]\nname = '{name}'\npath = '{source}'\n"
    manifest.write_text(f"[package]\nname = 'first'\nversion = '0.0.0'\nedition = '2021'\n\n{parts}")
    well(*cargo, "build", *target, "--manifest-path", manifest, **how)
    installed.first_judge(made / "first")
    installed.first_set(made / "first_set")
    well(made / "judged")
    how["env"] |= {"SET": "right", "HOW": "runs=2"}
    first = ["--test", "sets", "--", "set", "--exact", "--nocapture", "--include-ignored"]
    is_judged(well(*cargo, "test", "--locked", *target, "--manifest-path", FORMS / "rust" / "Cargo.toml", *first, **how), installed.proof())


@needs("go", "pkg-config", "gcc")
def test_programs_in_go_use_sets_and_judge(installed):
    how = {**in_room(installed), "PKG_CONFIG_PATH": str(installed.library / "pkgconfig"), "LD_LIBRARY_PATH": str(installed.library), "SET": "right", "HOW": "runs=2"}
    shutil.copytree(FORMS / "go", installed.room / "go")
    first = go_words("test", "-count=1", "-tags", "listset", "-run", "TestSet", "-v")
    is_judged(well(*first, cwd=installed.room / "go", env=how), installed.proof())


def in_room(installed):
    """Returns environment variables that put the recordings of refused sets into the tests' temporary folder."""
    return {**os.environ, "TMPDIR": str(installed.room)}


def is_judged(said, proof):
    """Checks from a test's output that the installed library judged the set."""
    assert f"; judge: liblistset, {proof}" in said


def test_programs_in_python_use_sets_and_judge(installed):
    how = {"env": {**in_room(installed), "PYTHONPATH": str(installed.share)}}
    well(sys.executable, "-B", TESTS / "judge.py", EXAMPLES, **how)
    how["env"] |= {"SET": "right", "HOW": "runs=2"}
    is_judged(well(sys.executable, "-B", FORMS / "python" / "tests" / "sets.py", **how), installed.proof())
    well(sys.executable, "-B", TESTS / "sets.py", **how)
    installed.first_judge(sys.executable, "-B", FIRST / "judge.py", **how)
    installed.first_set(sys.executable, "-B", installed.page("python", "py", "listset.open"), **how)
    renewed = installed.page("python", "py", "RenewedSet", before="import listset\n")
    assert well(sys.executable, "-B", renewed, **how) == "[7]\n"
    line, = re.findall(r"^    (listset_judge\.judge\(.*\))$", (TOP / "docs" / "FOREIGN.md").read_text(), re.M)
    is_judged(well(sys.executable, "-B", "-c", f"import listset, listset_judge\nprint({line})", **how), installed.proof())
