"""Tests the judges in judge/ with the same cases for each installed language. The language's test program,
judge/LANGUAGE/tests, judges the set named by SET with the options in HOW, and prints the result and its kind.

With the default options, the result must be `ok` for correct sets and a refusal for wrong sets. If a set hangs or
crashes, the calls made so far are judged. The program also judges the single recording of a long run. Some tests use a
script in place of a judge, to check that each language passes on the judge's refusal. All waits are bounded.
"""

import os
import pathlib
import re
import shutil
import sys
import time

import pytest
from harness.programs import QUICK_CARGO, TOP, ran, well
from toolchain import NEEDS

FORMS = TOP / "judge"
SECONDS = 300  # the time limit for each run of a judge, even on a busy machine
# Files that are not a judge, each with the message that a test prints about the file. `{}` stands for the file's path.
NO_VERDICT = "{} printed no verdict, but: %s. Use a newer listset"
NO_JUDGE = "no judge was found: {} cannot be run. Copy the file judge/listset.js"
NO_JUDGES = {
    "missing": ("", NO_JUDGE),
    "old": ("#!/bin/sh\necho 'error: unrecognized subcommand' >&2\nexit 2\n", NO_VERDICT % "error: unrecognized subcommand"),
    "no script": ("#!/no/such/shell\n", NO_JUDGE),
    "silent": ("#!/bin/sh\nexit 0\n", NO_VERDICT % "nothing"),
    "before overlaps": ("#!/bin/sh\necho ok 9 calls\n", NO_VERDICT % "ok 9 calls"),
    "ok that fails": ("#!/bin/sh\necho ok 9 calls; echo 3 of them overlap\nexit 1\n", NO_VERDICT % "ok 9 calls"),
    "refusal that passes": ("#!/bin/sh\necho not linearizable\n", NO_VERDICT % "not linearizable"),
    "ok that is killed": ("#!/bin/sh\necho ok 9 calls; echo 3 of them overlap\nkill -9 $$\n", NO_VERDICT % "ok 9 calls"),
}
PATHS_WITHOUT_JUDGE = {
    "": "no judge was found: listset cannot be run. Copy the file judge/listset.js",
    "own/listset.js": "the variable LISTSET is own/listset.js, but no file is at %s/own/listset.js: set LISTSET to the full path of listset.js",
    str(FORMS / "listset.js"): f"no judge was found: LISTSET is {FORMS / 'listset.js'}, which needs Node 18 or newer, but no node is in PATH",
}
OLD_NODE = """#!/bin/sh
case $1 in -v | --version) echo v12.22.12 ;; *) echo "SyntaxError: Unexpected token '?'" >&2; exit 1 ;; esac
"""


# ---- Commands that judge a set in each language; the sets are built once for all tests


def built_rust(folder):
    build = ["test", "--no-run", "--offline", "--locked", "--target-dir", folder, "--manifest-path", FORMS / "rust/Cargo.toml"]
    well(*QUICK_CARGO, *build, cwd=folder)
    (tests,) = (it for it in (folder / "debug/deps").glob("sets-*") if not it.suffix)
    return [tests, "set", "--exact", "--nocapture", "--ignored"]


WARN = ["-Wall", "-Wextra", "-Wshadow", "-Wconversion", "-Werror"]


def built_cpp(folder):
    well("g++", "-O0", *WARN, "-std=c++17", "-pthread", FORMS / "cpp/tests/sets.cpp", "-o", folder / "sets")
    return [folder / "sets"]


def built_python(_folder):
    return [sys.executable, "-B", FORMS / "python/tests/sets.py"]


def in_jvm(*words):
    """Returns a java command with options that halve the start-up time of a short program and of the Java programs
    started by it.
    """
    return [shutil.which("env"), "JAVA_TOOL_OPTIONS=-XX:TieredStopAtLevel=1 -XX:+UseSerialGC", *words]


def built_java(folder):
    well(*in_jvm("javac"), "-Xlint:all", "-Werror", "-d", folder, "Judge.java", "tests/Sets.java", cwd=FORMS / "java")
    return [*in_jvm(shutil.which("java")), "-cp", folder, "Sets"]


def go_words(*words):
    """Returns a go command that does not use the network."""
    return ["env", "GOPROXY=off", "go", *words]


def built_go(folder):
    sources = shutil.copytree(FORMS / "go", folder / "sources")
    well(*go_words("vet", "."), cwd=sources)
    well(*go_words("test", "-c", "-o", folder / "tests"), cwd=sources)
    return [folder / "tests", "-test.run=^TestSet$"]


LANGUAGES = {"Rust": built_rust, "C++": built_cpp, "Python": built_python, "Java": built_java, "Go": built_go}
TOOLS = {"Rust": ["cargo", "rustc"], "C++": ["g++"], "GoogleTest": ["g++"], "Java": ["javac", "java"], "Go": ["go"]}
TEST_LIBRARIES = {"GoogleTest": ("Debian's package libgtest-dev", pathlib.Path("/usr/include/gtest/gtest.h").exists)}
FEW = "threads=4 calls=250 runs=3 within=2"


def each(languages):
    """Returns the parameters for a test that runs once for each language. Each parameter is marked with the compiler
    that its language needs.
    """
    return pytest.mark.parametrize("language", [pytest.param(it, marks=pytest.mark.needs(*TOOLS.get(it, []))) for it in languages])


class Form:
    """A language's judge: the folder of the judge's tests, and the command that runs the tests."""

    def __init__(self, language, room, words):
        self.language, self.room, self.words = language, room, words

    def script(self, name, text):
        """Writes an executable script and returns its path. Writes nothing if the text is empty."""
        path = self.room / name
        if text:
            path.write_text(text)
            path.chmod(0o755)
        return path

    def told(self, judge, of, how="", **also):
        """Judges the set named `of` with the options `how`. Returns the kind of the result and all output."""
        environment = {name: it for name, it in os.environ.items() if name not in ("CI", "RUST_BACKTRACE") and not name.startswith("LISTSET")}
        environment |= {"LISTSET": str(judge)} if judge else {}
        environment |= {"TMPDIR": str(self.room), "SET": of, "HOW": how, "RUST_TEST_THREADS": "2", **also}  # (with 1 test thread, cargo prints the test's name first)
        words = [*self.words[:-1], f"-Djava.io.tmpdir={self.room}", self.words[-1]] if self.language == "Java" else self.words
        done = ran(*words, cwd=self.room, env=environment, seconds=SECONDS)
        found = re.search("^verdict: (.*)$", done.stdout, re.M)
        assert found, done.stdout + done.stderr
        return found[1], done.stdout[found.start() :] + done.stderr

    def recorded(self, said):
        return pathlib.Path(re.search("; recorded in (.*?)[,;]", said)[1]).read_text()

    def left(self):
        return sorted(it.name for it in self.room.glob("listset-*"))


@pytest.fixture
def form(language, room, once):
    return Form(language, room, once(LANGUAGES[language]))


@each(LANGUAGES)
def test_correct_sets_are_linearizable(form, program):
    for of, how in (("right", ""), ("right", "own_process=0"), ("opens", "opens_with_keys=1"), ("texts", "keys=64"), ("not known", ""), ("adds only", "removes=0")):
        kind, said = form.told(program, of, f"{FEW} {how}")
        assert kind == "ok" and re.search("^(ok|few calls overlapped.*): [0-9]+ calls, and [0-9]+ of them overlapped a change of their key", said, re.M), said
    assert form.left() == []


@each(LANGUAGES)
def test_wrong_sets_are_refused_with_the_default_options(form, program):
    kind, said = form.told(program, "right")
    assert kind == "ok" and int(re.search(": ([0-9]+) calls", said)[1]) > 20_000, said
    for of, preset in (("check then act", ""), ("first use", ""), ("again", ""), ("collides", "multiples of 64")):
        for seed in (1, 1002, 2003, 3004):  # (on a busy machine, possibly no calls of a test overlap)
            kind, said = form.told(program, of, f"seed={seed}" if seed > 1 else "")
            if kind == "refused":
                break
        assert kind == "refused" and re.search(rf"^not linearizable\n(?:.*\n)*\nseed [0-9]+ \({preset}.*\), [0-9]+ threads", said, re.M), said
        assert "key 0 above means" not in said or of != "check then act"


@each(LANGUAGES)
def test_keys_can_be_of_any_kind(form, program):
    assert form.told(program, "collides", f"{FEW} keys=4")[0] == "ok"
    assert form.told(program, "collides", f"{FEW} keys=128")[0] == "refused"
    assert "the key function returns " in form.told(program, "twice", f"{FEW} keys=4")[1]
    kind, said = form.told(program, "texts", f"{FEW} keys=4", LISTSET=str(refusing(form)))
    assert kind == "refused" and re.search("; key 1 above means key .?key 1", said), said


@each(LANGUAGES)
def test_a_call_whose_outcome_is_not_known_is_pending(form, program):
    kind, said = form.told(program, "not known", f"{FEW} runs=1 record={form.room / 'kept'}")
    recordings = [*(form.room / "kept").iterdir()]  # (more runs follow if few calls of the first runs overlapped)
    assert kind == "ok" and recordings, said
    for recorded in recordings:
        calls = [it.split() for it in recorded.read_text().splitlines() if it.startswith("call ")]
        open_calls = [it for it in calls if it[5] == "-"]
        threads = len({it[1] for it in calls})  # (a thread continues with a new number after a pending call)
        assert len(calls) == 1000 and open_calls and len(open_calls) <= threads <= 4 + len(open_calls), said


@each(LANGUAGES)
def test_runs_with_few_overlaps_are_reported(form, program):
    kind, said = form.told(program, "right", "threads=1 calls=2000 keys=1 pauses=0 runs=2 within=2")
    calls = int(re.search("^few calls overlapped, so ok means little: ([0-9]+) calls, and 0 of them ", said, re.M)[1])
    assert kind == "ok" and calls in range(2000, 2_000_000, 2000), said  # (runs are repeated, and more follow if there is time)
    kind, said = form.told(program, "right", "threads=1 calls=200 runs=1 at_least=5 within=2")
    assert kind == "too few" and re.search("^too few calls overlapped: 0 of [0-9]+ calls overlapped a change of their key, and at_least requires 5 of 100", said, re.M), said


# A judge that takes `%seconds` for a recording, and prints the program's output with a different number of overlapping
# calls.
TAKES_TIME = """#!/bin/sh
[ "$1" != judge ] || sleep %seconds
'%program' "$@" | sed 's/^[0-9]* of them /%count of them /'
"""


@each(LANGUAGES)
def test_a_verdict_says_how_many_runs_were_made_if_the_time_was_over_before_the_last(form, program):
    def told(seconds, count, how, **also):
        judge = TAKES_TIME.replace("%program", str(program)).replace("%seconds", str(seconds)).replace("%count", str(count))
        kept = form.room / f"kept-{len(list(form.room.glob('kept-*')))}"
        kind, said = form.told(form.script("takes time", judge), "right", f"threads=4 calls=250 record={kept} {how}", **also)
        return kind, said, len(list(kept.iterdir()))  # (a run that is repeated has one file)

    for count, within, begin in ((900, 3, "ok: "), (0, 1, "few calls overlapped, so ok means little: ")):
        kind, said, made = told(1.1, count, f"within={within}")
        due = rf"; only {made} of 20 runs were made, because no run begins after {within} s \(option within\); judge: "
        assert kind == "ok" and 0 < made < 20 and re.search(f"^{begin}[0-9]+ calls, and [0-9]+ of them overlapped a change of their key{due}", said, re.M), said
    for seconds, how, also in ((0, "within=600", {}), (1.1, "runs=1 within=1", {}), (1.1, "within=1", {"LISTSET_SECONDS": "2"})):
        kind, said, made = told(seconds, 900, how, **also)
        assert kind == "ok" and made in ((20,) if seconds == 0 else (1, 2)) and "runs were made" not in said, said
    kind, said, _ = told(1.1, 0, "within=1 at_least=5")
    assert kind == "too few" and re.search("^too few calls overlapped: (?!.*runs were made)", said, re.M), said


@each(LANGUAGES)
def test_times_and_seeds_come_from_the_options_and_the_environment(form, program):
    made = {}
    for name, how, also in (("within", "runs=100000 within=3", {}), ("seconds", "runs=1", {"LISTSET_SECONDS": "3"}), ("seed", "runs=1", {"LISTSET_SEED": "7"})):
        kind, said = form.told(program, "right", f"threads=1 calls=20 keys=1 record={form.room / name} {how}", **also)
        assert kind == "ok", said
        made[name] = {int(it.stem.removeprefix("seed-")) for it in (form.room / name).iterdir()}
    assert 1 in made["within"] and 1 < len(made["within"]) < 100_000
    assert len(made["seconds"]) > 1 and min(made["seconds"]) > 1_700_000_000  # (seeds after the first are read from the clock)
    assert min(made["seed"]) == 7


@each(LANGUAGES)
def test_a_test_is_skipped_if_asked_for_and_never_in_ci(form):
    kind, said = form.told("skip", "right", FEW)
    assert kind == "skipped" or kind == "ok" and "skipped: LISTSET is skip" in said, said
    kind, said = form.told("skip", "right", FEW, CI="true")
    assert kind == "none" and "in CI no test is skipped" in said, said


STOPS = {
    "hangs": ("seconds=3", "the set hung: no call began or ended for 3 s"), "exits": ("", "the set ended its process with status 3"),
    "crashes": ("", "the set "), "throws": ("", "a call of the set failed: .*no memory"), "crashes late": ("threads=4 calls=15000 pauses=0", "the set "),
}  # fmt: skip


PENDING = r"([0-9]+): ([a-z]+) (\w+), begun at moment ([0-9]+)"


@each(LANGUAGES)
@pytest.mark.parametrize("of", STOPS)
def test_calls_before_a_crash_or_a_hang_are_judged(form, program, of):
    how, due = STOPS[of]
    kind, said = form.told(program, of, f"threads=4 calls=1000 keys=4 {how}")
    found = re.search(rf"^{due}.*\npending:( no call|(?:\n  thread .*)+)\nbefore that: some order explains the calls\n", said, re.M)
    assert kind == "cut short" and found, said
    recorded = form.recorded(said)
    pending = re.findall("^call ([0-9]+ [a-z]+ [0-9]+ [0-9]+) - -$", recorded, re.M)
    assert recorded.endswith("\ncut\n") and re.findall(f"\n  thread {PENDING}", found[1]) == [tuple(it.split()) for it in pending]
    assert recorded.count("\n") > 20_000 or of != "crashes late"


@each(LANGUAGES)
def test_a_process_that_ends_at_any_moment_has_every_call_once(form, program):
    """Tests a process that saves its calls in several parts and can end at any moment. If a call were saved twice or
    lost, the verdict would be different.
    """
    _, said = form.told(program, "ends", "threads=4 calls=60000 keys=4 runs=1 pauses=0", TESTS="12")
    for one in said.split("verdict: ")[1:]:
        is_early = "the set could not be created: the set ended its process" in one  # (the process ended before the first call)
        assert one.startswith("cut short") and "some order explains the calls" in one or one.startswith("ok") or is_early, one
    assert said.count("verdict: cut short") > 2, said


@each(["C++", "Rust", "Python"])
def test_a_process_that_ends_when_a_set_is_deleted_is_cut_short(form, program):
    kind, said = form.told(program, "ends when deleted", "threads=4 calls=100 keys=4 runs=1")
    assert kind == "cut short" and "the set ended its process with status 3\npending: no call\nbefore that: some order explains" in said, said
    assert form.recorded(said).count("\ncall ") == 400 and form.recorded(said).endswith("\ncut\n")


@each(LANGUAGES)
def test_a_key_whose_last_outcome_stays_unknown_can_be_present_or_absent(form, program):
    kind, said = form.told(program, "loses contains", f"{FEW} runs=1 record={form.room / 'kept'}")
    assert kind == "ok", said
    for recorded in (form.room / "kept").iterdir():
        assert recorded.read_text().endswith("\ncut\n")
    kind, said = form.told(program, "loses contains", f"{FEW} opens_with_keys=1")
    assert kind == "none" and "contains of an opening key had no known outcome in 100 calls" in said, said


@each(LANGUAGES)
def test_a_correct_set_that_throws_repeatedly_is_not_refused(form, program):
    """Tests a correct set that throws repeatedly. Each run is cut short. The run's recording is linearizable, although
    in Java and Go other threads can make calls while the recording is written.
    """
    tests = 5 if form.language == "Python" else 25
    for how in ("pauses=0", "pauses=20"):
        _, said = form.told(program, "throws", f"threads=4 calls=1000 keys=4 own_process=0 {how}", TESTS=str(tests))
        assert said.count("verdict: cut short\n") == said.count("\nbefore that: some order explains the calls\n") == tests, said


@each(LANGUAGES)
def test_keys_of_a_run_are_the_keys_that_the_set_received(form, program):
    """Tests the preset (named options) with multiples of 64 as keys: the recording and the message contain the keys 0,
    64 .. 448.
    """
    how = f"threads=4 calls=1000 seed=3 seconds=10 runs=1 record={form.room / 'kept'}"
    said = form.told(program, "hangs", how)[1]
    pending = re.findall(f"\n  thread {PENDING}", said)
    assert len(pending) in range(1, 5) and {int(key) % 64 for _, _, key, _ in pending} == {0}, said
    assert {int(it) % 64 for it in re.findall("^call [0-9]+ [a-z]+ ([0-9]+)", form.recorded(said), re.M)} == {0}
    assert form.told(program, "right", how)[0] == "ok"
    keys = re.findall("^(?:call [0-9]+ [a-z]+|key) ([0-9]+)", (form.room / "kept" / "seed-3.calls").read_text(), re.M)
    assert {64} <= {int(it) for it in keys} <= set(range(0, 512, 64))


@each(LANGUAGES)
def test_a_call_that_hangs_is_named_with_its_set(form, program):
    said = form.told(program, "hangs", "threads=4 seed=5 seconds=10 runs=1")[1]
    assert re.search(r"\npending:(?:\n  thread [0-3]: [a-z]+ [0-9]+, in set number 1 of those that the run created, begun at moment [0-9]+)+\nbefore that: ", said), said


@pytest.mark.needs("g++")
def test_many_pending_calls_are_counted(room, once, program):
    form = Form("C++", room, once(built_cpp))
    kind, said = form.told(program, "hangs", "threads=40 calls=200 keys=4 seconds=10 runs=1")
    pending, more = re.findall(f"\n  thread {PENDING}", said), re.search("\n  and ([0-9]+) more\nbefore that: ", said)
    assert kind == "cut short" and len(pending) == 16 and more and form.recorded(said).count(" - -\n") == 16 + int(more[1]), said


PLACES = {"Python": r"\(.*/sets\.py:[0-9]+, in fails\)", "Java": r"\(at Sets.*\(Sets\.java:[0-9]+\)\)", "Go": r"\(.*/sets_test\.go:[0-9]+, in .*\.stop\)", "Rust": "tests/sets.rs:[0-9]+"}


@each(PLACES)
def test_an_exception_has_its_place(form, program):
    for how in ("", "own_process=0"):
        said = form.told(program, "throws", f"threads=4 calls=1000 keys=4 {how}")[1]
        assert re.search(PLACES[form.language] if form.language == "Rust" else f"^a call of the set failed: .*no memory {PLACES[form.language]}$", said, re.M), said


@each(LANGUAGES)
def test_a_set_that_continues_after_a_hang_does_not_change_the_recording(form, program):
    """Tests a `remove` of 1.2 s. A run counts as hung after 1 s. The judge runs for one second, so the set continues
    while the run is judged.
    """
    judge = form.script("judge", f"#!/bin/sh\n[ $1 = --version ] || sleep 1\n'{program}' \"$@\"\n")
    kind, said = form.told(judge, "naps", "threads=4 calls=1000 keys=4 seconds=1")
    assert kind == "cut short" and "the set hung: no call began or ended for 1 s" in said and form.recorded(said).count("\ncut\n") == 1, said
    assert form.recorded(said).endswith("\ncut\n")


@each(LANGUAGES)
def test_a_long_run_is_one_recording(form, program):
    kept = form.room / "kept"
    for own_process, calls in ((0, 4000), (1, 6000)):
        assert form.told(program, "right", f"threads=8 calls={calls} pauses=0 runs=1 keys=4 own_process={own_process} record={kept}")[0] == "ok"
    text = (kept / "seed-1.calls").read_text()
    assert text.startswith("listset-calls 1\ncall ") and text.count("\nend\n") == 1 and text.endswith("\nend\n")
    begins = [int(it) for it in re.findall("^call [0-9]+ [a-z]+ [0-9]+ ([0-9]+)", text, re.M)]
    assert len(begins) == 48_000 and begins == sorted(begins)
    assert well(program, "judge", kept / "seed-1.calls").startswith("ok 48000 calls\n")
    kind, said = form.told(program, "finds all late", f"threads=8 calls=6000 pauses=0 runs=1 record={kept}")
    assert kind == "refused" and form.recorded(said).count("\ncall ") > 20_000


@each(LANGUAGES)
def test_a_seed_repeats_the_calls(form, program):
    def of(seed):
        form.told(program, "finds all", f"threads=1 calls=50 keys=5 runs=1 seed={seed} record={form.room / 'kept'}")
        return (form.room / "kept" / f"seed-{seed}.calls").read_text()

    first, other = of(7), of(14)
    assert of(7) == first != other
    assert {tuple(it.split()[2:4]) for it in (first + other).splitlines() if it.startswith("call ")} >= {("add", "4"), ("remove", "0"), ("contains", "3")}


# ---- A judge that refuses every recording, and the message that each language must pass on

REFUSED = "not linearizable\nno order explains the calls of key 1 up to moment 9\n\n  contains(1) returned true, expected false   # %s $HOME 'quoted'\n"
REFUSES = """#!/bin/sh
case $1 in judge) ;; *) exit 0 ;; esac
if [ "$2" = --only ]; then echo "listset-calls 1"; echo "# $3"; exit 0; fi
cat <<'END'
%send
END
exit 1
"""


def refusing(form):
    return form.script("refuses", REFUSES.replace("%send", REFUSED.rstrip("\n")))


@each(LANGUAGES)
def test_a_refusal_is_passed_on_unchanged(form):
    kind, said = form.told(refusing(form), "right", FEW, LISTSET_RECORD=str(form.room / "kept"))
    line = re.search(r"\nseed 1 \(few keys\), 4 threads(?:; longer runs followed the first refusal: ([2-5]) of \1 runs were refused)?; recorded in (.*?)/listset-seed-1-", said)
    assert kind == "refused" and f"verdict: refused\n{REFUSED}\nseed 1 " in said and line[2] == str(form.room / "kept"), said
    kept = sorted((form.room / "kept").iterdir())  # (the recordings of the key and of the run)
    assert len(kept) == 2 and form.left() == [] and f", the calls that show it in {kept[0]}; judge: " in said
    assert kept[0].read_text() == "listset-calls 1\n# 1\n" and kept[1].read_text().count("\ncall ") == 1000


# A judge that refuses the third recording. For the first two recordings, it prints the program's output with a
# different number of overlapping calls.
REFUSES_THIRD = """#!/bin/sh
case $1 in judge) ;; *) exec '%program' "$@" ;; esac
[ "$2" = --only ] || echo >> '%room/judged'
[ $(wc -l < '%room/judged') -lt 3 ] || exec '%refuses' "$@"
'%program' "$@" | sed 's/^[0-9]* of them /900 of them /'
"""


@each(LANGUAGES)
def test_a_refusal_names_the_presets_that_passed_before(form, program):
    script = REFUSES_THIRD.replace("%program", str(program)).replace("%room", str(form.room)).replace("%refuses", str(refusing(form)))
    kind, said = form.told(form.script("third", script), "right", "threads=4 calls=250 runs=3", LISTSET_RECORD=str(form.room / "kept"))
    assert kind == "refused" and re.search(r"\nseed 3 \(multiples of 64\), 4 threads(?:; longer runs followed the first refusal: .*)?; passed before: few keys, fresh sets; recorded in ", said), said


@each(LANGUAGES)
def test_recordings_of_runs_that_pass_are_not_kept(form, program):
    assert form.told(program, "right", FEW, LISTSET_RECORD=str(form.room / "kept"))[0] == "ok"
    assert list((form.room / "kept").iterdir()) == []


# ---- Further runs after a refusal


# A judge that refuses every recording except the third. The refusals report 3, 9, 9 and 5 contradictions.
REFUSES_MORE = """#!/bin/sh
case $1 in judge) ;; *) exit 0 ;; esac
[ "$2" != --only ] || exit 1
echo >> '%room/judged'
set -- 3 9 ok 9 5
shift $(($(wc -l < '%room/judged') - 1))
[ $1 != ok ] || { echo ok 1000 calls; echo 900 of them overlap; exit 0; }
printf 'not linearizable\nno order explains the calls of key 1 up to moment 7\ncontradiction: none\n\nat least %s contradictions\n' $1
exit 1
"""


@each(LANGUAGES)
def test_the_run_with_the_most_contradictions_is_printed(form):
    judge = form.script("more", REFUSES_MORE.replace("%room", str(form.room)))
    kind, said = form.told(judge, "right", "threads=4 calls=250", LISTSET_RECORD=str(form.room / "kept"))
    line = re.search(r"\nseed 8 \(few keys\), 4 threads; longer runs followed the first refusal: ([1-4]) of ([2-5]) runs were refused; recorded in ([^,;]*/listset-seed-8-[^,;]*); judge: ", said)
    assert kind == "refused" and "\nat least 9 contradictions\n" in said and line, said
    runs = int(line[2])  # (on a busy machine, there can be less time than for four further runs)
    assert int(line[1]) == (runs if runs < 3 else runs - 1)
    assert [*(form.room / "kept").iterdir()] == [pathlib.Path(line[3])] and form.left() == []


# A judge that takes 1.1 seconds for each run, and always finds the same number of contradictions.
SLOW = """#!/bin/sh
[ "$1" = judge ] || exit 0
sleep 1.1
printf 'not linearizable\\nno order explains the calls of key 1 up to moment 7\\ncontradiction: none\\n\\nat least %count contradictions\\n'
exit 1
"""


@each(LANGUAGES)
def test_further_runs_have_more_time_while_the_refusals_state_few_contradictions(form):
    runs = {}
    for count in (9, 10):
        judge, begun = form.script("slow", SLOW.replace("%count", str(count))), time.monotonic()
        kind, said = form.told(judge, "right", "threads=4 calls=250")
        line = re.search(r"; longer runs followed the first refusal: ([2-5]) of ([2-5]) runs were refused; ", said)
        assert kind == "refused" and line and line[1] == line[2], said
        runs[count] = (int(line[1]), time.monotonic() - begun)
    assert runs[10][0] <= 4  # (no run begins after 3 seconds)
    assert runs[9][0] == 5 or runs[9][1] > 10


def contradictions_in(said):
    """Returns the number of contradictions in a refusal, or 0 if the refusal contains no number."""
    found = re.search("([0-9]+) (?:contradiction|of its )", said)
    return int(found[1]) if found else 0


@each(LANGUAGES)
def test_further_runs_have_the_preset_of_the_refused_run(form, program):
    kind, said = form.told(program, "again", f"threads=4 calls=500 keys=4 record={form.room / 'all'}")
    line = re.search(r"\nseed ([0-9]+) \(few keys\), 4 threads(?:; longer runs followed the first refusal: ([0-9]) of ([0-9]) runs were refused)?; recorded in ([^,;]*/seed-([0-9]+)\.calls)", said)
    assert kind == "refused" and line and line[1] == line[5] in ("1", "8", "15", "22", "29"), said
    whole = [it for it in (form.room / "all").glob("seed-*") if "-key-" not in it.name and it.read_text().endswith("\nend\n")]
    judged = {it: ran(program, "judge", it).stdout for it in whole}
    counts = {it: contradictions_in(said) for it, said in judged.items() if said.startswith("not linearizable\n")}
    assert counts[pathlib.Path(line[4])] == max(counts.values()) > 0, said
    assert (int(line[2] or 1), int(line[3] or 1)) == (len(counts), len(judged)), said
    kind, said = form.told(program, "again", "threads=4 calls=500 keys=4", LISTSET_SEED=line[1])
    assert kind == "refused" and f"\nseed {line[1]} (few keys), 4 threads; recorded in " in said, said


@each(LANGUAGES)
def test_a_replay_and_a_test_without_its_own_process_make_no_further_run(form, program):
    for how, also in (("", {"LISTSET_SEED": "8"}), ("seed=8", {}), ("seed=8", {"LISTSET_SEED": "8"})):
        kind, said = form.told(program, "finds all", f"threads=4 calls=250 {how}", **also)
        assert kind == "refused" and re.search(r"\nseed 8 \(few keys\), 4 threads; recorded in ", said), said
    kind, said = form.told(program, "finds all", "threads=4 calls=250 own_process=0")
    assert kind == "refused" and re.search(r"\nseed 1 \(few keys\), 4 threads; recorded in ", said), said


# A judge that acts like the program and, for each command `judge`, appends a line to the file `judged`. The set `W
# later` acts like the set `finds all` until the file `judged` exists, and then like the set W.
JUDGES = """#!/bin/sh
[ "$1" != judge ] || echo >> '%room/judged'
exec '%program' "$@"
"""


@each(LANGUAGES)
@pytest.mark.parametrize("of", ["crashes", "hangs", "throws", "not made"])
def test_a_further_run_that_fails_does_not_hide_the_refusal(form, program, of):
    judge = form.script("judges", JUDGES.replace("%room", str(form.room)).replace("%program", str(program)))
    kind, said = form.told(judge, f"{of} later", "threads=4 calls=250 keys=4 seconds=600", LISTSET_RECORD=str(form.room / "kept"))
    line = re.search(r"\nseed 1 \(few keys\), 4 threads; recorded in ([^,;]*/listset-seed-1-[^,;]*)[,;]", said)
    assert kind == "refused" and line, said
    assert {it.name.partition("-key-")[0].removesuffix(".calls") for it in (form.room / "kept").iterdir()} == {pathlib.Path(line[1]).stem} and form.left() == [], said


# ---- Tests of how a judge is found


# A judge that prints the program's output with a different number of overlapping calls. Like ./listset with an unproved
# program, it also prints to standard error.
OVERLAPS_ALL = """#!/bin/sh
echo 'listset: without a proof' >&2
'%s' "$@" | sed 's/^[0-9]* of them /900 of them /'
"""


@each(LANGUAGES)
def test_the_verdict_names_its_judge_and_counts_the_calls_that_overlap(form, program):
    judge = form.script("judge", OVERLAPS_ALL % program)
    kind, said = form.told(judge, "right", FEW)
    proof = well(program, "--version", "--long").splitlines()[3]
    calls, overlapped = map(int, re.search("^ok: ([0-9]+) calls, and ([0-9]+) of them overlapped a change of their key", said, re.M).groups())
    assert kind == "ok" and f"; judge: {judge}, {proof}" in said and calls in (1000, 2000, 3000) and overlapped == calls * 9 // 10, said


@each(LANGUAGES)
def test_a_judge_that_is_not_in_path_is_named(form):
    for judge, due in PATHS_WITHOUT_JUDGE.items():
        kind, said = form.told(judge, "right", FEW, PATH=str(form.room / "empty"))
        assert kind == "none" and due.replace("%s", str(form.room)) in said, said


@each(LANGUAGES)
def test_a_node_that_is_too_old_is_named(form):
    (form.room / "old").mkdir()
    form.script("old/node", OLD_NODE)
    kind, said = form.told(FORMS / "listset.js", "right", FEW, PATH=f"{form.room / 'old'}:{os.environ['PATH']}")
    assert kind == "none" and f"node is v12.22.12, but {FORMS / 'listset.js'} needs Node 18 or newer" in said and "SyntaxError" not in said, said


@each(LANGUAGES)
def test_a_program_that_is_no_judge_is_named(form):
    for name, (script, due) in NO_JUDGES.items():
        judge = form.script(f"judge {name}", script)
        kind, said = form.told(judge, "right", FEW)
        assert kind == "none" and due.format(judge) in said


@each(LANGUAGES)
def test_a_judge_that_is_a_folder_is_named(form):
    kind, said = form.told(form.room, "right", FEW)
    assert kind == "none" and f"{form.room} is a folder: set LISTSET to the program in it" in said


ENGINE = FORMS / "listset.js"


@pytest.mark.needs("node")
@each(LANGUAGES)
def test_the_engine_in_node_judges(form):
    kind, said = form.told(ENGINE, "right", "threads=4 calls=250 runs=1")
    assert kind == "ok" and f"; judge: {ENGINE}, proof unknown" in said and "listset: " not in said, said
    assert re.fullmatch("listset .*\nRattle kit .*\ncommit 0{40}\nproof unknown\n", well("node", ENGINE, "--version", "--long"))


@pytest.mark.needs("node")
@each(LANGUAGES)
def test_the_calls_that_show_a_refusal_are_written(form):
    said = form.told(ENGINE, "finds all", "threads=2 calls=500 runs=1")[1]
    small = pathlib.Path(re.search(", the calls that show it in (.*); judge: ", said)[1])
    key = re.search("of key ([0-9]+) ", said)[1]
    assert len(small.read_text().splitlines()) < 60
    assert re.match(f"not linearizable\nno order explains the calls of key {key} ", ran("node", ENGINE, "judge", small).stdout)


@pytest.mark.needs("node")
def test_a_missing_part_of_the_engine_is_reported_in_one_line(room):
    shutil.copy(TOP / "page" / "listset.js", room)
    done = ran("node", room / "listset.js", "judge")
    assert (done.returncode, done.stdout) == (1, "") and re.fullmatch("listset: in_node.js or only.js is not beside listset.js: take judge/listset.js, .*\n", done.stderr)


NO_RUNS = {
    "threads=65": "threads is 65, but must be 1 to 64", "threads=2 calls=500000001": "threads times calls is 1000000002, but must be 1 to 1000000000",
    "keys=1048577": "keys is 1048577, but must be 1 to 1048576", "pauses=101": "pauses is 101, but must be 0 to 100",
    "runs=0": "runs is 0, but must be 1 to 1000000", "seconds=3601": "seconds is 3601, but must be 1 to 3600",
    "within=604801": "within is 604801, but must be 1 to 604800", "at_least=101": "at_least is 101, but must be 0 to 100", "adds=0 removes=0 finds=0": "the sum of shares is 0, but must be 1 to 1000000",
    "record=/dev/null/x": "no file can be written in /dev/null/x: set record to another folder",
}  # fmt: skip


@each(LANGUAGES)
def test_an_error_without_a_verdict_is_one_sentence(form, program):
    for how, due in NO_RUNS.items():
        kind, said = form.told(program, "right", f"calls=99 runs=1 {how}")
        assert kind == "none" and due in said, said
    kind, said = form.told(program, "right", FEW, LISTSET_RECORD="/dev/null/x")
    assert kind == "none" and "the variable LISTSET_RECORD is /dev/null/x, but no file can be written there: set it to another folder" in said, said
    if form.language in ("C++", "Rust"):
        kind, said = form.told(program, "right", FEW, TMPDIR="/dev/null/x")
        assert kind == "none" and "no file can be written in /dev/null/x, the folder for temporary files: set the variable TMPDIR" in said, said
    kind, said = form.told(program, "not made", FEW)
    assert kind == "none" and re.search("the set could not be created: (?:.*\n){0,2}.*no room", said), said
    for name, text in (("LISTSET_SECONDS", "soon"), ("LISTSET_SECONDS", "0"), ("LISTSET_SEED", "4294967296")):
        kind, said = form.told(program, "right", FEW, **{name: text})
        assert kind == "none" and f"the variable {name} is {text}, but must be a number from " in said, said


# ---- Tests for a single language


def test_all_languages_have_the_messages_of_one_file():
    well(FORMS / "make_words", "--check")


@pytest.mark.needs("cargo", "rustc")
def test_a_lock_held_by_another_test_does_not_stop_a_test(room, once, program):
    tests, *_ = once(built_rust)
    assert "ok: " in well(tests, "another_test_holds_a_lock", "--exact", "--nocapture", "--ignored", env={**os.environ, "LISTSET": program, "TMPDIR": str(room)})


@pytest.mark.needs("clang++")
def test_clang_has_no_warning():
    well("clang++", "-fsyntax-only", *WARN, "-std=c++17", "-pthread", FORMS / "cpp/tests/sets.cpp")


TRACED = """import sys, threading
sys.path[:0] = [{!r}, {!r}]
import listset_judge, sets
seen = set()
def tracer(frame, event, _):
    seen.add((frame.f_code.co_name, event))
    return tracer
threading.settrace(tracer)
for pauses in (0, 20):
    seen.clear()
    listset_judge.judge(sets.Right, threads=2, calls=50, runs=1, pauses=pauses, own_process=False)
    assert {{("add", "line"), ("remove", "line")}} <= seen, seen
"""


def test_a_tracer_sees_the_set(room, program):
    text = TRACED.format(str(FORMS / "python"), str(FORMS / "python/tests"))
    well(sys.executable, "-B", "-c", text, env={**os.environ, "LISTSET": program, "TMPDIR": str(room)})


def test_a_python_set_that_returns_nothing_is_an_error(room, once, program):
    form = Form("Python", room, once(built_python))
    assert "every add returned None, but must return True or False" in form.told(program, "answers none", FEW)[1]
    assert "the set has no add" in form.told(program, "object", FEW)[1]
    assert "the set has no contains and no __contains__" in form.told(program, "no contains", FEW)[1]
    assert "record is 5, but must be the path of a folder" in form.told(program, "record 5", FEW)[1]


@pytest.mark.needs("javac", "java")
def test_a_set_that_cannot_be_sent_is_called_in_this_jvm(room, once, program):
    assert Form("Java", room, once(built_java)).told(program, "not passed on", FEW)[0] == "ok"


@pytest.mark.needs("javac", "java")
def test_java_sets_that_inherit_their_calls_are_judged_by_them(room, once, program):
    """Tests two sets that inherit their calls. Java 17 deserializes `Second::contains` as `First::contains`, so for
    sets that inherit their calls, the judge makes the calls in its own JVM, not in a child process.
    """
    form = Form("Java", room, once(built_java))
    for of in ("inherits first", "inherits second"):
        kind, said = form.told(program, of, FEW)
        assert kind == "ok", said
    kind, said = form.told(program, "inherits and finds all", FEW)
    assert kind == "refused" and re.search("^not linearizable\nno order explains .*\n(?:.*\n)*.*contains.* true", said, re.M), said


@pytest.mark.needs("go")
def test_a_test_in_go_ends_before_go_test_stops_it(room, once, program):
    form = Form("Go", room, [*once(built_go), "-test.timeout=20s"])
    kind, said = form.told(program, "right", "threads=4 calls=250", LISTSET_SECONDS="600")
    assert kind == "ok" and re.search("listset: makes runs for 1[0-9] s, not for 600 s, because go test stops in [0-9]+ s: use go test -timeout 0", said), said


@pytest.mark.needs("node")
def test_the_judge_in_one_file_names_an_old_node(room):
    (room / "old.js").write_text('Object.defineProperty(process.versions, "node", { value: "12.22.12" });\n')
    done = ran("node", "-r", room / "old.js", ENGINE, "judge", room / "none.calls")
    assert (done.returncode, done.stdout) == (1, "") and re.fullmatch("listset.js needs Node 18 or newer, but node is v.*\n", done.stderr)


@pytest.mark.parametrize("of", ["Served", pytest.param("OfRedis", marks=pytest.mark.needs("redis-server"))])
def test_servers_are_judged_by_their_clients(room, program, of):
    paths = f"{FORMS / 'python'}:{FORMS / 'python/tests'}"
    well(sys.executable, "-B", "-m", "unittest", f"test_servers.{of}", cwd=room, env={**os.environ, "LISTSET": program, "TMPDIR": str(room), "PYTHONPATH": paths})


# ---- The judge as a package of each language, installed and used by a separate project

CMAKE = """cmake_minimum_required(VERSION 3.18)
project(own LANGUAGES CXX)
find_package(listset_judge REQUIRED)
add_executable(own {0})
target_link_libraries(own listset::judge)
"""


@pytest.mark.needs("cmake", "make", "g++")
def test_a_project_uses_the_package_of_cpp(room, program):
    well("cmake", "-S", FORMS / "cpp", "-B", room / "out")
    well("cmake", "--install", room / "out", "--prefix", room / "here")
    assert (room / "here/lib/pkgconfig/listset_judge.pc").exists()
    (room / "own.cpp").write_text((FORMS / "cpp/tests/sets.cpp").read_text().replace('"../listset_judge.hpp"', "<listset_judge.hpp>"))
    (room / "CMakeLists.txt").write_text(CMAKE.format("own.cpp"))
    well("cmake", "-S", room, "-B", room / "own", f"-DCMAKE_PREFIX_PATH={room / 'here'}", "-DCMAKE_INSTALL_LIBDIR=lib")
    well("cmake", "--build", room / "own")
    assert Form("C++", room, [room / "own/own"]).told(program, "right", FEW)[0] == "ok"


def test_a_project_uses_the_package_of_python(room, program, lacking):
    if ran(sys.executable, "-c", "import setuptools, wheel, pip").returncode:
        lacking("pip, setuptools or wheel is not installed: Debian's packages python3-pip and python3-wheel")
    source = shutil.copytree(FORMS / "python", room / "source", ignore=shutil.ignore_patterns("__pycache__"))
    well(sys.executable, "-m", "pip", "wheel", "--quiet", "--no-index", "--no-build-isolation", "--no-deps", "-w", room, source, cwd=room)
    (wheel,) = room.glob("*.whl")
    own = "import listset_judge, listset_servers, sets; print(listset_judge.judge(sets.Right, threads=2, calls=50, runs=1))"
    tests = source / "tests/sets.py"
    tests.write_text(tests.read_text().replace("sys.path.insert", "(lambda *_: None)"))
    how = {**os.environ, "PYTHONPATH": f"{wheel}:{tests.parent}", "LISTSET": program, "TMPDIR": str(room)}
    assert "ok: " in well(sys.executable, "-B", "-c", own, cwd=room, env=how)


def missing_of_maven():
    """Returns how to install Maven's plugins and JUnit (which are separate packages) if one of the packages is missing.
    """
    plugins = [pathlib.Path(f"/usr/share/maven-repo/org/apache/maven/plugins/maven-{it}-plugin") for it in ("compiler", "jar", "resources", "surefire")]
    is_here = all(it.exists() for it in [*plugins, pathlib.Path("/usr/share/java/junit4.jar")])
    return "" if is_here else f"a plugin of mvn, or JUnit, is not installed: {NEEDS['mvn']}"


@pytest.mark.needs("mvn", "javac", "java")
def test_a_project_uses_the_package_of_java(room, program, lacking):
    if why := missing_of_maven():
        lacking(why)
    source = shutil.copytree(FORMS / "java", room / "source")
    well("mvn", "-o", "-q", "-Dmaven.repo.local=/usr/share/maven-repo", "package", cwd=source)
    (jar,) = (source / "target").glob("*.jar")
    well("javac", "-cp", jar, "-d", room, source / "tests/Sets.java")
    assert Form("Java", room, ["java", "-cp", f"{jar}:{room}", "Sets"]).told(program, "right", FEW)[0] == "ok"


@pytest.mark.needs("go")
def test_a_project_uses_the_package_of_go(room, program):
    module = re.search("^module (.*)$", (FORMS / "go/go.mod").read_text(), re.M)[1]
    (room / "go.mod").write_text(f"module own\n\ngo 1.18\n\nrequire {module} v0.1.0\n\nreplace {module} => {FORMS / 'go'}\n")
    sets = (FORMS / "go/sets_test.go").read_text().replace("package judge", "package own").replace('import (\n', f'import (\n\t. "{module}"\n')
    (room / "own_test.go").write_text(sets.partition("func TestACheckThatIsNotComeToAgain")[0])
    well(*go_words("test", "-c", "-o", "own"), cwd=room)
    assert Form("Go", room, [room / "own", "-test.run=^TestSet$"]).told(program, "right", FEW)[0] == "ok"


@pytest.mark.needs("cargo", "rustc")
def test_a_project_uses_the_package_of_rust(room):
    well("cargo", "package", "--offline", "--allow-dirty", "--quiet", "--target-dir", room, "--manifest-path", FORMS / "rust/Cargo.toml")
    assert [*(room / "package").glob("*.crate")]


# ---- Tests with published sets


# The parts of judge/real-sets/run, with the commands that each part needs, and how many of the part's sets are correct.
PUBLISHED = {"libcds": (["g++"], 9), "others": (["g++"], 3), "java": (["javac", "java"], 9), "go": (["go"], 2), "redis": (["redis-server"], 1), "erlang": ([], 1)}
WRONG = r"libcds .* SkipList|JCTools NonBlocking|without a lock|read at a replica"


@pytest.mark.parametrize("part", [pytest.param(it, marks=pytest.mark.needs(*needs)) for it, (needs, _) in PUBLISHED.items()])
def test_no_correct_published_set_is_refused(room, program, lacking, part):
    done = ran(FORMS / "real-sets/run", 1, part, env={**os.environ, "LISTSET": program, "TMPDIR": str(room)}, seconds=900)
    if why := re.search("is left out: (.*)", done.stderr):
        lacking(f"a package is not installed: {why[1]}")
    rows = re.findall(r"^\| (.*) \| ([01]) of 1 \|$", done.stdout, re.M)
    right = [it for name, it in rows if not re.search(WRONG, name)]
    assert done.returncode == 0 and right == ["0"] * PUBLISHED[part][1], done.stdout + done.stderr
    assert part != "java" or dict(rows)["java.util HashSet, without a lock"] == "1"


def test_packages_that_are_not_installed_are_skipped(program):
    assert ran(FORMS / "real-sets/run", 1, "none", env={**os.environ, "LISTSET": program}).stdout == "| Set | Tests that refused it |\n|---|---|\n"
