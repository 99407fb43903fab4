"""Measures calls on a set of liblistset from C, C++, Rust, Java and Python. Compares their times with calls on
another set that the language's threads can share.
"""

import os
import pathlib
import re
import shutil
import statistics
import subprocess
import sys
import tempfile

import build_benches
import toolchain
from measuring import heading, row
from threads import THREADS

BENCH = build_benches.BENCH
OUT = build_benches.TOP / "foreign" / "out"
SIZES = (64, 1000, 10_000)
RUNS_OF_TABLE = 5
LIBCDS = pathlib.Path("/usr/include/cds/init.h")
OLDEST_JAVA = 22  # the first version with the Foreign Function API
CALLS, CALLS_OF_PYTHON = "60000", "20000"
CARGO = """[package]
name = "foreign_calls"
version = "0.0.0"
edition = "2021"

[dependencies]
listset = {{ path = "{share}/rust" }}

[[bin]]
name = "foreign_calls"
path = "{source}"
"""


def foreign():
    """Prints the nanoseconds per call (the elapsed time divided by the number of calls of all threads) on sets of
    several sizes, with one thread and with four threads. Each number is the median of several runs. The runs
    alternate between the sets.
    """
    if not (OUT / "lib" / "liblistset.a").exists():
        sys.exit("bench: foreign/out is missing: build it with foreign/build")
    heading(f"Nanoseconds in {THREADS[0]} thread, in {THREADS[1]}", *(f"{size:,}" + " keys" * (size == SIZES[0]) for size in SIZES))
    with tempfile.TemporaryDirectory(prefix="bench-") as room:
        sets = {name: words for of in (by_c, by_cpp, by_rust, by_java, by_python) for name, words in of(pathlib.Path(room)).items()}
        found = {name: [] for name in sets}
        for size in SIZES:
            medians = zip(*(medians_of(sets, many, size) for many in THREADS))
            for name, of_set in zip(sets, medians):
                found[name].append(", ".join(f"{it:,.0f}" for it in of_set))
        for name, times in found.items():
            row(name, *times)


def medians_of(sets, many, size):
    """Measures all sets in turn, several times. Returns the median time of each set."""
    runs = [[nanoseconds(words, many, size) for words in sets.values()] for _ in range(RUNS_OF_TABLE)]
    return [statistics.median(times) for times in zip(*runs)]


def nanoseconds(words, many, size):
    program, of = words
    calls = CALLS_OF_PYTHON if program[0] == sys.executable else CALLS
    how = {**os.environ, "PYTHONPATH": str(OUT / "share" / "listset")}
    run = subprocess.run([*program, of, str(many), calls, str(size)], stdin=subprocess.DEVNULL, stdout=subprocess.PIPE, check=True, env=how)
    return float(run.stdout)


def compiled(command, *words):
    if not shutil.which(command):
        sys.exit(f"bench: the command {command} is missing: {toolchain.NEEDS[command]}")
    subprocess.run([command, *words], check=True)


def by_c(room):
    program = room / "of_c"
    library = [f"-I{OUT}/include", OUT / "lib" / "liblistset.a", "-pthread"]
    compiled("gcc", "-std=c11", "-O2", BENCH / "foreign_calls.c", *library, "-o", program)
    return {f"C: {it}": ([program], it) for it in ("lazy", "lock-free")}


def by_cpp(room):
    """Returns the rows for C++. libcds's skip list has a row if Debian's package libcds-dev is installed."""
    program, libcds = room / "of_cpp", ["-lcds"] * LIBCDS.exists()
    library = [f"-I{OUT}/include", OUT / "lib" / "liblistset.a", "-pthread", *libcds]
    compiled("g++", "-std=c++17", "-O2", BENCH / "foreign_calls.cpp", *library, "-o", program)
    sets = {"C++: lock-free": "lock-free", "`std::set`, mutex": "tree"}
    return {name: ([program], it) for name, it in (sets | {"libcds `SkipListSet`": "skip-list"} if libcds else sets).items()}


def by_rust(room):
    share = OUT / "share" / "listset"
    (room / "Cargo.toml").write_text(CARGO.format(share=share, source=BENCH / "foreign_calls.rs"))
    compiled("cargo", "build", "-q", "--release", "--offline", "--manifest-path", room / "Cargo.toml", "--target-dir", room / "target")
    program = room / "target" / "release" / "foreign_calls"
    return {"Rust: lock-free": ([program], "lock-free"), "`Mutex<BTreeSet>`": ([program], "tree")}


def java_home():
    """Returns the folder of the newest JDK on this machine, or None if no JDK has the Foreign Function API."""
    found = {}
    for java in {shutil.which("java"), *map(str, pathlib.Path("/usr/lib/jvm").glob("*/bin/java"))} - {None}:
        said = subprocess.run([java, "-version"], stdin=subprocess.DEVNULL, capture_output=True, text=True).stderr
        version = re.search(r'version "(\d+)', said)
        found[int(version[1]) if version else 0] = pathlib.Path(java).resolve().parent
    newest = max(found, default=0)
    return found[newest] if newest >= OLDEST_JAVA else None


def by_java(room):
    """Returns the rows for Java, or none if no JDK has the Foreign Function API."""
    home = java_home()
    if home is None:
        print(f"bench: no row of Java: its Foreign Function API requires a JDK {OLDEST_JAVA} or later", file=sys.stderr)
        return {}
    subprocess.run([home / "javac", "-d", room, BENCH / "ForeignCalls.java"], check=True)
    program = [home / "java", "--enable-native-access=ALL-UNNAMED", f"-Dliblistset={OUT / 'lib' / 'liblistset.so'}", "-cp", room, "ForeignCalls"]
    return {"Java: lock-free": (program, "lock-free"), "`ConcurrentSkipListSet`": (program, "skip-list")}


def by_python(_room):
    program = [sys.executable, "-B", BENCH / "foreign_calls.py"]
    return {"Python: lock-free": (program, "lock-free"), "`set`, `Lock`": (program, "set")}
