"""Measures `replay` and `check`, and compares them with a replayer written by hand (peer_replay.rs)."""

import os
import tempfile

from build_benches import by_rustc
from measuring import KINDS, RUNS, SEED, built, heading, least, row, seconds_of

LINES = {"`replay`, a step a line": "1", "`replay`, up to 16": "16"}


def replay():
    """Prints the time in milliseconds that the library and the baseline each need to replay a million events and to
    check the report, and the ratio of the times.
    """
    heading("List", *(cell for it in [*LINES, "`check`, up to 16"] for cell in (it, "peer", "ratio")))
    maker, tool = built("bench_schedule"), built("listset")
    with tempfile.TemporaryDirectory() as room:
        peer, schedule, report = by_rustc("peer_replay.rs", room), f"{room}/schedule", f"{room}/report"
        for kind in KINDS:
            cells = []
            for steps in LINES.values():
                seconds_of([maker, kind, "1000000", steps, SEED], os.devnull, schedule, 0)
                cells += beside([tool, "replay"], [peer, "replay"], schedule)
            seconds_of([tool, "replay"], schedule, report, 0)
            row(kind, *cells, *beside([tool, "check"], [peer, "check"], report))


def beside(ours, peer, given):
    """Returns the times of the commands `ours` and `peer` in milliseconds, and their ratio. Each time is the minimum of
    several runs. The runs alternate between the two commands.
    """
    us, them = least([seconds_of(it, given, os.devnull, 0) for it in (ours, peer)] for _ in range(RUNS))
    return f"{1000 * us:.1f}", f"{1000 * them:.1f}", f"{us / them:.2f}"
