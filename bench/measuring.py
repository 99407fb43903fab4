"""Functions for bench/run that find programs, measure the processor seconds, instructions and peak memory of runs, and
print table rows.
"""

import datetime
import os
import re
import shutil
import subprocess
import sys
import tempfile

import build_benches
import lists
import toolchain

BENCH = os.path.dirname(os.path.realpath(__file__))
TOP = os.path.dirname(BENCH)
RUNS = 9
TIME = "/usr/bin/time"
CALLS, SEED = "10000", "1"
KINDS = [it.word for it in lists.lists()]


def measured_on():
    """Returns the date, the machine and its load, to print above the tables."""
    with open("/proc/cpuinfo") as it:
        model = re.search(r"model name\s*: (.*)", it.read())
    named = " ".join(re.sub(r"\(R\)|\(TM\)|CPU|Processor|@", " ", model[1] if model else "").split()) or "processors"
    many, load = len(os.sched_getaffinity(0)), os.getloadavg()[0]
    return f"{datetime.date.today():%-d %B %Y}, {many} x {named}, load {load:.1f}"


def built(name):
    """Returns the path of the program `name`. If the program is missing, first proves and builds it."""
    if name in build_benches.NAMES:
        return build_benches.program_of(name)
    program = f"{TOP}/crates/{name}/out/{name}"
    if not os.path.exists(program):
        toolchain.folder()
        print(f"bench: proving and building {name}, once", file=sys.stderr)
        subprocess.run(["rt", "run"], cwd=f"{TOP}/crates/{name}", stdin=subprocess.DEVNULL, stdout=sys.stderr)
    return program


def processor_seconds(process):
    """Waits until `process` ends and returns its processor time in seconds. Stores its exit status in
    `process.returncode`.
    """
    _, status, used = os.wait4(process.pid, 0)
    process.returncode = os.waitstatus_to_exitcode(status)
    return used.ru_utime + used.ru_stime


def seconds_of(words, given, written, wanted):
    """Runs a command and returns its processor time in seconds. The command must exit with the status `wanted`."""
    with open(given) as source, open(written, "w") as sink:
        run = subprocess.Popen(words, stdin=source, stdout=sink, stderr=subprocess.DEVNULL)
        used = processor_seconds(run)
    if run.returncode != wanted:
        sys.exit(f"bench: {' '.join(words)}: status {run.returncode}")
    return used


def memory_of(words, given):
    """Runs a command and returns its peak memory in kilobytes as measured by the program `time`, or None if `time` is not
    installed.
    """
    if not os.access(TIME, os.X_OK):
        return None
    with open(given) as source, tempfile.NamedTemporaryFile("r") as told:
        quiet = {"stdout": subprocess.DEVNULL, "stderr": subprocess.DEVNULL}
        subprocess.run([TIME, "-q", "-f", "%M", "-o", told.name, *words], stdin=source, **quiet)
        return int(told.read())


def instructions_of(words, given):
    """Returns the number of instructions that a command executes, counted by valgrind's callgrind. The number does not
    depend on the load of the machine. Returns None if valgrind is not installed.
    """
    if not shutil.which("valgrind"):
        return None
    counted = ["valgrind", "--tool=callgrind", "--callgrind-out-file=/dev/null", *words]
    with open(given) as source:
        run = subprocess.run(counted, stdin=source, stdout=subprocess.DEVNULL, stderr=subprocess.PIPE, text=True)
    found = re.search(r"Collected : (\d+)", run.stderr)
    return int(found[1]) if found else None


def heading(*columns):
    """Prints the head of a table for docs/COSTS.md."""
    row(*columns)
    print("|" + "---|" * len(columns))


def row(*cells):
    """Prints a row of a table for docs/COSTS.md."""
    print("| " + " | ".join(cells) + " |", flush=True)


def least(rows):
    """Returns the minimum of each column of `rows`."""
    return [min(column) for column in zip(*rows)]
