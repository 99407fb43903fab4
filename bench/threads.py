"""Measures sets that threads call at the same time, and compares them with lists written by hand. The table `calls`
compares the calls of each operation; the table `sizes` compares rounds of calls on sets of several sizes.
"""

import statistics
import subprocess
import tempfile

from build_benches import by_rustc
from measuring import CALLS, KINDS, RUNS, SEED, built, heading, row

THREADS = (1, 4)
QUOTA, KEYS = "5000", "1000"
SIZES = (16, 64, 256, 1000)
MANY_CALLS, MOST_QUOTA = "60000", "16384"
MANY_RUNS = 25


def calls():
    """Prints the table of calls by operation. Each number is the library's time divided by the time of the list written
    by hand: the median of several runs. The runs alternate between the two programs.
    """
    timer, kind_names = built("bench_calls"), ("add", "remove", "contains")
    heads = (f"`{call}`" + f", {named(many)}" * (call == "add") for many in THREADS for call in kind_names)
    heading("List", *heads)
    with tempfile.TemporaryDirectory() as room:
        peer = by_rustc("peer.rs", room)
        for kind in KINDS:
            ratios = []
            for many in THREADS:
                values = [str(many), QUOTA, CALLS, KEYS, SEED]
                programs = [timer, kind, "each", *values], [peer, "each", kind, *values]
                loop, hand = zip(*([nanoseconds(it) for it in programs] for _ in range(MANY_RUNS)))
                ratios += (median_of(loop, call) / median_of(hand, call) for call in kind_names)
            row(kind, *(f"{it:.2f}" for it in ratios))


def sizes():
    """Prints the table of sizes: millions of calls per second. The keys are random, and about half of them are in the
    set. Each number is the median of several runs. The runs alternate between the programs.
    """
    heading("Set", *(f"{size:,}" + f" keys, {named(many)}" * (size == SIZES[0]) for many in THREADS for size in SIZES))
    with tempfile.TemporaryDirectory() as room:
        timer, peer = built("bench_calls"), by_rustc("peer.rs", room)
        sets = {**{kind: [timer, kind, "whole"] for kind in KINDS}, "`Mutex<BTreeSet>`": [peer, "whole", "mutex-tree"]}
        found = {name: [] for name in sets}
        for many in THREADS:
            for size in SIZES:
                runs = ([rate(it, many, size) for it in sets.values()] for _ in range(RUNS))
                for name, rates in zip(sets, zip(*runs)):
                    found[name].append(f"{statistics.median(rates) / 1e6:.1f}")
        for name, rates in found.items():
            row(name, *rates)


def named(many):
    return f"{many} thread{'s'[:many > 1]}"


def median_of(runs, call):
    return statistics.median(it[call] for it in runs)


def nanoseconds(words):
    """Runs bench_calls or peer.rs and returns the nanoseconds per call, for each operation or for all of them. Calls are left
    out if their thread was preempted.
    """
    run = subprocess.run(words, stdin=subprocess.DEVNULL, capture_output=True, text=True, check=True)
    many = {kind: int(calls) for kind, calls in map(str.split, run.stdout.splitlines())}
    spent = {kind: (int(time), int(left)) for kind, time, left in map(str.split, run.stderr.splitlines())}
    told = {kind: spent[kind][0] / max(1, many[kind] - spent[kind][1]) for kind in many}
    total = sum(time for time, _ in spent.values()) / max(1, sum(many.values()) - sum(left for _, left in spent.values()))
    return {"all": total, **told}


def rate(words, many, size):
    """Returns the calls per second of all threads together. The rounds of calls last at least 100 ms in total."""
    return 1e9 / nanoseconds([*words, str(many), MOST_QUOTA, MANY_CALLS, str(size), SEED])["all"]
