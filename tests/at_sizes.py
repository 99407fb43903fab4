"""Runs every command on inputs of all sizes, up to the limits in docs/TEXTS.md and beyond, and compares the output with
the replies of a set in Python.

For a valid input, a command must print the right output within a few seconds of processor time. For an input beyond a
limit, the command must print the documented error. For eight times as many calls, a command may need at most 24 times
as much time and memory. `--few` tests a tenth of the inputs.
"""

import collections
import json
import math
import random
import re
import subprocess
import sys

import pytest
from harness.programs import KINDS

GREATEST = 2**32 - 1  # the largest key
MOST_THREADS, MOST_QUOTA, OPENING = 64, 16_384, 1_048_576
CALLS, TIMES = 16_000, 8  # the larger number of calls in a comparison, and its ratio to the smaller number
LITTLE = 0.04, 14_000  # seconds and kilobytes; in a comparison, a smaller measurement counts as this value
PROCESSOR_SECONDS = 9  # the limit for one command; an unproved program needs up to 2
SPINNING_SECONDS = 90  # the limit if threads spin at locks: the thread that holds a lock can be preempted for long
# The source of a small process that starts the program and reports the program's memory. (If a large process starts the
# program directly, the system reports the memory of the large process instead.)
STARTER = """import json, os, resource, sys
resource.setrlimit(resource.RLIMIT_CPU, (int(sys.argv[2]), int(sys.argv[2])))
_, status, used = os.wait4(os.posix_spawn(sys.argv[3], sys.argv[3:], os.environ), 0)
with open(sys.argv[1], "w") as file: json.dump([os.waitstatus_to_exitcode(status), used.ru_utime + used.ru_stime, used.ru_maxrss], file)
"""


class Asked:
    """The program under test, and the time and memory that each command needed for each input size."""

    def __init__(self, program, room):
        self.program, self.room, self.taken = program, room, collections.defaultdict(dict)

    def says(self, *words, text="", status=0, error="", size=None, seconds=PROCESSOR_SECONDS):
        """Runs a command, checks its exit status and returns its output. Records the seconds and kilobytes that the
        command needed for the input size `size`.
        """
        taken, given = self.room / "taken", self.room / "text"
        given.write_text(text)
        with open(given, "rb") as stdin:
            started = [sys.executable, "-ISc", STARTER, taken, seconds, self.program, *words]
            done = subprocess.run([*map(str, started)], stdin=stdin, capture_output=True, text=True, timeout=600)
        ended, *used = json.loads(taken.read_text())
        name = f"{' '.join(map(str, words))} {status} of {text[:60]!r}"
        assert (ended, done.stderr) == (status, error and f"listset: {error}\n"), name
        self.taken[size][re.sub("[0-9]+", "N", name)] = used
        return done.stdout

    def grows(self, size, greater):
        """Fails if a command needed more than 3 * TIMES times as much time or memory for the input size `greater` as
        for the input size `size`. (`greater` is at most TIMES times as large as `size`.)
        """
        for name in self.taken[size].keys() & self.taken[greater].keys():
            for before, after, little in zip(self.taken[size][name], self.taken[greater][name], LITTLE):
                assert after <= 3 * TIMES * max(before, little), f"{name} takes {before} and {after}"


@pytest.fixture
def asked(program, room):
    return Asked(program, room)


def log_uniform(draw, most, least=1):
    """Returns a random number from `least` to `most`. Each order of magnitude is equally likely, and one number in ten
    is `most`.
    """
    return most if draw.random() < 0.1 else min(most, int(math.exp(draw.uniform(math.log(least), math.log(most + 1)))))


# ---- Shapes of histories. A shape is a function that returns the opening keys (the keys at the start), each call with
# its key and reply, and the final keys.

def shuffled(things):
    return random.Random(1).sample([*things], len(things))


def calls_of(word, keys, reply="true"):
    return [(word, key, reply) for key in keys]


SHAPES = {
    "rising": lambda n: ([], calls_of("add", range(n)), range(n)),
    "shuffled": lambda n: ([], calls_of("add", shuffled(range(n // 2))) + calls_of("remove", shuffled(range(n // 2))), []),
    "looks": lambda n: (range(0, n, 2), [("contains", key, "false" if key % 2 else "true") for key in shuffled(range(n))], range(0, n, 2)),
    "from the greatest": lambda n: (range(n), calls_of("remove", range(n)[::-1]), []),
}
NEAR = {  # in these shapes, calls traverse few nodes
    "one key": lambda n: ([], [("add", 5, "true"), ("remove", 5, "true")] * (n // 2), []),
    "at the least": lambda n: (range(n), calls_of("contains", [0] * n), range(n)),
    "come and go": lambda n: ([], [it for key in range(n // 3) for it in (("add", key, "true"), ("remove", key, "true"), ("ceiling", 0, "nothing"))], []),
    "goes": lambda n: (range(n), [it for key in range(n // 2) for it in (("remove", key, "true"), ("ceiling", 0, f"at-{key + 1}"))], range(n // 2, n)),
}


def head(title, kind, threads, quota, opening=()):
    return "".join([f"listset-{title}\nlist {kind}\nthreads {threads}\nquota {quota}\n", *(f"opening {key}\n" for key in opening)])


def recording_of(opening, calls, left, threads, at_once):
    """Returns a recording of `calls`. If `at_once` is true, the calls of all threads overlap, otherwise no two calls
    overlap.
    """
    lines = [f"opening {key}\n" for key in opening]
    for number, (word, key, reply) in enumerate(calls):
        turn, thread = divmod(number, threads)
        begin, end = (3 * number + 1, 3 * number + 3) if not at_once else (3 * threads * turn + thread + 1, 3 * threads * turn + 2 * threads + thread + 1)
        lines.append(f"call {thread} {word} {key} {begin} {end} {reply}\n")
    return "".join(["listset-calls 1\n", *lines, *(f"key {key}\n" for key in left), "end\n"])


def draft_of(kind, opening, calls, threads):
    """Returns a draft (a schedule that states where threads stop) of `calls`. The calls do not overlap."""
    lines = [f"begin {number % threads} {word} {key}\ngo {number % threads} out\n" for number, (word, key, _) in enumerate(calls)]
    return "".join([head("draft 2", kind, threads, MOST_QUOTA, opening), *lines])


@pytest.mark.parametrize("name, at_once", [*((name, False) for name in [*SHAPES, *NEAR]), ("rising", True), ("looks", True)])
def test_recordings_of_each_size_are_judged(asked, few, name, at_once):
    """Judges a linearizable recording, and the same recording with a wrong reply in its last call."""
    sizes = [CALLS // TIMES] if few else [CALLS // TIMES, CALLS]
    for size in sizes:
        opening, calls, left = {**SHAPES, **NEAR}[name](size)
        calls = [it for it in calls if it[0] != "ceiling"]
        text = recording_of(opening, calls, left, 7, at_once)
        assert asked.says("judge", text=text, size=size).startswith(f"ok {len(calls)} calls\n")
        word, key, reply = calls[-1]
        wrong = [*calls[:-1], (word, key, {"true": "false", "false": "true"}[reply])]
        said = asked.says("judge", text=recording_of(opening, wrong, left, 7, at_once), status=1, size=size)
        assert said.startswith(f"not linearizable\nno order explains the calls of key {key} ")
    asked.grows(*sizes[:1], sizes[-1])


def runs(asked, kind, size, made, words=()):
    """Runs `draft` on a draft, then `replay`, `trace` and `show` on the resulting schedule, and `check` on the
    resulting report.
    """
    opening, calls, left = made
    schedule = asked.says("draft", text=draft_of(kind, opening, calls, MOST_THREADS), size=size)
    events = len(calls) + sum(map(int, re.findall("^go [0-9]+ ([0-9]+)$", schedule, re.M)))
    report = asked.says("replay", *words, text=schedule, size=size)
    assert re.findall("^call .* (.*)$", report, re.M) == [reply for *_, reply in calls]
    assert re.findall("^key ([0-9]+)$", report, re.M) == [*map(str, left)]
    assert asked.says("check", text=report, size=size) == "ok\n"
    trace = asked.says("trace", *words, text=schedule, size=size)
    assert (trace.count("\nevent "), trace[-5:]) == (events, "\nend\n")
    picture = asked.says("show", "--from", max(events - 2, 1), *words, text=schedule, size=size)
    assert picture.startswith(f"{kind} list, {MOST_THREADS} threads, quota {MOST_QUOTA}: {len(calls)} calls")


@pytest.mark.parametrize("kind", KINDS)
def test_schedules_of_each_size_are_drafted_replayed_and_checked(asked, few, kind):
    """Tests short schedules for each shape of history in SHAPES and NEAR, and long schedules for one shape in NEAR."""
    for shape in [*SHAPES.values(), *NEAR.values()]:
        runs(asked, kind, 0, shape(240))
    words = {"coarse": ["--lacks", "lock"], "lazy": ["--lacks", "mark-in-contains"]}.get(kind, ())  # (if calls do not overlap, these broken lists behave like the intact lists)
    name = [*NEAR][KINDS.index(kind) % len(NEAR)]
    for size in [CALLS // TIMES] if few else [CALLS // TIMES, CALLS]:
        runs(asked, kind, size, NEAR[name](size), words)
    asked.grows(CALLS // TIMES, CALLS)


@pytest.mark.parametrize("kind", KINDS)
def test_counts_of_runs_of_each_size_add_up(asked, few, kind):
    """Tests the counts that `run` prints for one thread and for several threads, with arguments up to their limits."""
    draw = random.Random(kind)
    drawn = [(threads, log_uniform(draw, MOST_QUOTA), log_uniform(draw, 200), log_uniform(draw, 10_000), log_uniform(draw, 2**64 - 1),
              log_uniform(draw, 100 if threads < 9 else 3)) for threads in ([5, 64] if few else [1, 2, 5, 17, 64])]
    for threads, quota, calls, keys, seed, lives in [*drawn, (64, MOST_QUOTA, 10_000, 1, 1, 1), (1, 1, 10_000, 1, 1, 100), (64, 0, 10_000, GREATEST, 2**64 - 1, 1)]:
        said = asked.says("run", kind, threads, quota, calls, keys, seed, lives, seconds=SPINNING_SECONDS)
        made, true, false, full, left = map(int, re.findall("^(?!key )[a-z]+ ([0-9]+)$", said, re.M))
        there = [*map(int, re.findall("^key ([0-9]+)$", said, re.M))]
        assert (made, true + false + full, left) == (threads * calls * lives, made, len(there))
        assert there == sorted({it for it in there if it < keys}) and len(there) <= threads * quota * lives


# ---- Tests of the limits on inputs and arguments

def text_of(title, threads=1, quota=0, opening=0, lines=()):
    left = [*(f"key {key}\n" for key in range(opening)), "end\n"] if title == "report 2" else []
    return "".join([head(title, "coarse", threads, quota, range(opening)), *lines, *left])


def tries_of(title, many):
    """Returns a schedule with `many` events and two threads. One thread holds the lock, and the other thread repeatedly
    tries to acquire the lock.
    """
    goes = [10_000] * ((many - 3) // 10_000) + [it for it in [(many - 3) % 10_000] if it]
    return text_of(title, 2, 1, lines=["begin 0 add 1\ngo 0 1\nbegin 1 add 1\n", *(f"go 1 {it}\n" for it in goes)])


def calls_that_look(title, many):
    lines = [f"call {at} 0 contains 5 {2 * at + 1} {2 * at + 2} false\n" for at in range(many)]
    return text_of(title, lines=lines + [f"place {at} false\n" for at in range(many)] * (many <= 1_000_000))


FORMATS = {"schedule 2": ["replay", "trace", "show"], "draft 2": ["draft"], "report 2": ["check", "show"]}
LIMITS = [(commands, most, lambda it, made=made, title=title: made(title, it), error) for title, commands in FORMATS.items() for most, made, error in [
    (MOST_THREADS, text_of, "line 3: Threads"), (MOST_QUOTA, lambda title, it: text_of(title, 1, it), "line 4: Quota"),
    (OPENING, lambda title, it: text_of(title, 64, MOST_QUOTA, it), f"line {5 + OPENING}: TooMany"),
    *([(1_000_000, tries_of, "line 107: TooMany")] if "report" not in title else []),
    *([(1_000_000, calls_that_look, "line 1000005: TooMany")] if "report" in title else [])]]
LIMITS += [(["serve lazy 1 0 0 0 -"], OPENING, lambda it: "".join(f"key {key}\n" for key in range(it)), f"line {OPENING + 1}: TooMany")]


@pytest.mark.parametrize("commands, most, made, error", LIMITS, ids=[f"{it[0][0].split()[0]} {it[1]}" for it in LIMITS])
def test_the_largest_number_is_accepted_and_the_next_refused(asked, few, commands, most, made, error):
    draw = random.Random(f"{commands} {most}")
    if few and most > 100_000 and draw.random() < 0.8:
        pytest.skip("a tenth of these limits is tried")
    for command in commands:
        asked.says(*command.split(), text=made(most))
    asked.says(*draw.choice(commands).split(), text=made(most + 1), status=1, error=error)
