"""Tests how programs handle a failed allocation. In each run one allocation fails, and each allocation fails in some
run.

`tests/harness/fail_allocation.c` refuses the allocation with a given number, and overwrites freed memory so that
reading it has a visible effect. The program must print `out of memory` and nothing else. (`trace` also prints the
events before the failure.) If std can continue with less memory than it requested, the program may instead print its
usual output. If not even the error line can be allocated, the exit status must still be the one for `out of memory`.

CALLS is the program in crates/memory_calls: it calls the functions of the libraries one by one. The input of CALLS is
the number of blocks to allocate before the first call. Each call must either return the right result, or report a
failed allocation or a thread that could not be started. A call that is repeated must return the right result.
"""

import functools
import os
import pathlib
import resource
import shutil
import subprocess

import pytest

from harness.programs import SECONDS, TOP

REFUSED = 1000  # an allocation number that the calls never reach
PROCESSOR_SECONDS = 5  # the limit for one run
CALLS = TOP / "crates/memory_calls/out/unproved/memory_calls"

# The commands to test. The inputs are files in examples/, and schedules: a random one (DRAWN); two with many opening
# keys (keys at the start), with steps after the end of a call (OPENING) and without (ENDED); one with many attempts to
# acquire a lock (TRIES); and one with long chains of nodes (CHAIN).
ASKED = """
replay opens-with-keys.schedule | replay ceiling-left-in-chain.schedule | replay DRAWN | replay OPENING | replay refused.schedule |
judge ../../tests/transcripts/data/recorded/seen.calls | judge ../../tests/transcripts/data/recorded/lost.calls |
stats ../../tests/transcripts/data/recorded/seen.calls |
check opens-with-keys.report | check snip.broken.report | check version-1-at.report | show OPENING | show refused.schedule |
show two-removers.broken.report | show --svg open-call.schedule | show --svg --from 2 OPENING | trace refused.schedule |
trace version-1-opening.schedule | trace --chain OPENING | trace --chain TRIES | trace --chain CHAIN | trace --lacks lock OPENING |
replay --lacks lock ENDED | show --lacks lock ENDED | draft ../../tests/transcripts/data/drafts/ceiling-meets-mark.draft |
draft one-add.schedule | example | example snip | example --broken full | gen fine 2 4 12 8 1 | gen skip | run coarse 1 4 6 8 1 2 |
run lock-free 1 4 20 40 1 2 | faults | --version | show opens-with-keys.report | show --svg stale-pred.broken.report | trace OPENING |
example --broken stale-pred
"""

LAST_CALL = "still to be refused"


def refuser(folder):
    """Builds the library that makes one allocation of a program fail. The library must be loaded before the C library.
    """
    rt = shutil.which("rt")
    assert rt, "the command rt is missing"
    clang = pathlib.Path(rt).resolve().parent.parent / "toolchain/bin/clang"
    compiled, linked = f"{folder}/refuse.o", f"{folder}/refuse.so"
    subprocess.run(["clang", "-c", "-O1", "-fPIC", TOP / "tests/harness/fail_allocation.c", "-o", compiled], executable=clang, check=True)
    subprocess.run(["ld.lld", "-shared", compiled, "-o", linked], executable=clang, check=True)
    return linked


def ran_where(refuse, number, *words, **how):
    """Runs a program, and makes its allocation number `number` fail. Returns the exit status, the output, and the line on
    standard error.
    """
    room = {**os.environ, "LD_PRELOAD": refuse, "REFUSE": str(number), "MALLOC_PERTURB_": "165"}
    limit = functools.partial(resource.setrlimit, resource.RLIMIT_CPU, (PROCESSOR_SECONDS, PROCESSOR_SECONDS))
    made = subprocess.run(words, env=room, capture_output=True, text=True, timeout=SECONDS, preexec_fn=limit, **how)
    return made.returncode, made.stdout, made.stderr


def answers(program, refuse):
    """Runs the program CALLS repeatedly. In each run, a different allocation fails, and the program prints the name of
    the call that made the allocation. Returns the names. Stops at the first run without a failed allocation, and
    returns no name for this run.
    """
    told = []
    for number in range(1, REFUSED):
        status, line, fault = ran_where(refuse, REFUSED, program, input=f"{REFUSED - number}\n")
        assert (status, fault) == (0, ""), f"with block {number} refused: {line}"
        told.append(line.rstrip("\n").removesuffix(" asked for memory"))
        if told[-1] == LAST_CALL:
            return told[:-1]
    raise AssertionError(f"block {REFUSED - 1} is that of a call, so there are more: raise REFUSED")


OUT_OF_MEMORY = 3, "", "listset: out of memory\n"
SPAWN = 1, "", "listset: work: Spawn\n"
# The line that is printed below a verdict if an allocation for the explanation of the verdict fails
NOT_TOLD = "\nno explanation: memory ran out, or the file has changed since it was judged\n"
LAST = 10  # after this many consecutive runs without an effect, the program is assumed to have no further allocation


def out_of_memory_at_each(program, words, refuse):
    """Runs a command repeatedly. In each run, a different allocation fails. Returns the number of runs that report a
    failed allocation.
    """
    how = {"cwd": TOP / "examples/schedules", "stdin": subprocess.DEVNULL}
    due = ran_where(refuse, 0, program, *words, **how)
    goes_along = words[0] == "trace"
    met = {OUT_OF_MEMORY} | ({SPAWN} if words[0] == "run" else set()) | ({(due[0], "", "")} if due[2] else set())
    if words[0] == "judge" and due[0] == 1:
        verdict = due[1].partition("\n\n")[0] + "\n"
        met |= {(1, verdict + NOT_TOLD, ""), (1, verdict, "")}  # (the allocation for the line NOT_TOLD can fail too)
    told = passed = 0
    for number in range(1, 10 * REFUSED):
        found = ran_where(refuse, number, program, *words, **how)
        if goes_along and found[0] == OUT_OF_MEMORY[0] and due[1].startswith(found[1]):
            found = found[0], "", found[2]
        assert found in met or found == due, f"with block {number} refused"
        told, passed = (told + 1, 0) if found in met else (told, passed + 1)
        if passed == LAST:
            return told
    raise AssertionError("there are more blocks")


def texts(program, room):
    """Writes the input files. Most are schedules with one thread. Returns a dict from each file's name to its
    path.
    """
    files = {name: room / f"{name.lower()}.text" for name in ("OPENING", "ENDED", "TRIES", "CHAIN", "DRAWN")}
    few, many = ("".join(f"opening {key}\n" for key in range(1, most)) for most in (13, 6_001))
    one, two = ("listset-schedule 2\nlist coarse\nthreads {}\nquota 5\n".format(threads) for threads in (1, 2))
    files["OPENING"].write_text(f"{one}{few}begin 0 remove 4\ngo 0 14\n")
    files["ENDED"].write_text(f"{one}{few}begin 0 remove 4\ngo 0 12\n")
    files["TRIES"].write_text(f"{two}begin 0 add 5\ngo 0 1\nbegin 1 add 7\ngo 1 400\n")
    files["CHAIN"].write_text(f"{one}{many}" + "begin 0 add 0\ngo 0 7\nbegin 0 remove 0\ngo 0 6\n" * 2)
    with open(files["DRAWN"], "w") as drawn:
        subprocess.run([program, *"gen coarse 1 40 60 2 1".split()], stdout=drawn, check=True)
    return {name: str(file) for name, file in files.items()}


@pytest.mark.parametrize("words", [it.strip() for it in ASKED.split("|")])
def test_a_command_reports_each_failed_allocation(program, room, once, words):
    made = texts(program, room)
    assert out_of_memory_at_each(program, [made.get(word, word) for word in words.split()], once(refuser)) > 0


def test_calls_report_each_failed_allocation(once, lacking):
    """Tests the program CALLS with each allocation failing in turn. If an allocation fails in the call `work`, `work`
    must return the set and its seats (the threads' handles on the set).
    """
    if not CALLS.exists():
        lacking(f"{CALLS.relative_to(TOP)} is missing: tests/unproved memory_calls builds it")
    calls = answers(CALLS, once(refuser))
    assert {name for name in calls if name.startswith("work (Memory")} == {"work (Memory, all comes back)"}
