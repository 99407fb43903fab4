"""Helpers for tests: `ran` runs a program to its end and returns its status and outputs. `well` returns only the output
of a program that must succeed. `comes` waits for a condition, and `clear` kills the processes that run in a folder.
"""

import contextlib
import os
import pathlib
import shutil
import signal
import subprocess
import time

import lists
from toolchain import NEEDS, TOP

PROVED, UNPROVED = TOP / "crates/listset/out/listset", TOP / "crates/listset/out/unproved/listset"
KINDS = [it.word for it in lists.lists()]
SECONDS = 300  # the limit for each wait, even on a busy machine
LONG = 1800  # seconds, for a compiler and for a whole test
# cargo with settings that halve the time of a single build
QUICK_CARGO = ["env", "CARGO_INCREMENTAL=0", "CARGO_PROFILE_DEV_DEBUG=0", "cargo"]


def not_installed(*commands):
    """Returns how to install the first missing command in `commands`."""
    return next((f"{it} is not installed: {NEEDS[it]}" for it in commands if not shutil.which(it)), None)


def ran(*words, text=None, seconds=SECONDS, **how):
    """Runs a program and returns its exit status, output and standard error, unchanged. The program's input is `text`,
    or empty if `text` is None. If `text` is bytes, the outputs are bytes too.
    """
    given = {"stdin": subprocess.DEVNULL} if text is None else {"input": text.encode() if isinstance(text, str) else text}
    done = subprocess.run([*map(str, words)], capture_output=True, timeout=seconds, **given, **how)
    if not isinstance(text, bytes):
        done.stdout, done.stderr = (it.decode(errors="replace") for it in (done.stdout, done.stderr))
    return done


def well(*words, seconds=LONG, **how):
    """Runs a program that must exit with status 0, and returns its output. Warnings are allowed."""
    done = ran(*words, seconds=seconds, **how)
    assert done.returncode == 0, f"{words[0]} ended so:\n{done.stdout[-3000:]}{done.stderr[-3000:]}".strip()
    return done.stdout


def wants(run, status=0, output=None, tells=(), no=()):
    """Checks the exit status and the output of `run`, and that its standard error contains every string in `tells` and no
    string in `no`.
    """
    found = f"{' '.join(run.args)}: status {run.returncode}, output {run.stdout[:300]!r}, standard error {run.stderr[-600:]!r}"
    assert run.returncode == status and output in (None, run.stdout), found
    for text in tells:
        assert text in run.stderr, found
    for text in no:
        assert text not in run.stderr, found
    return run


def comes(condition, what):
    """Waits until a condition is true, for at most SECONDS."""
    end = time.monotonic() + SECONDS
    while not condition():
        assert time.monotonic() < end, f"{what} does not come"
        time.sleep(0.02)


def is_running(process):
    """Returns whether a process exists and is not a zombie."""
    try:
        return pathlib.Path(f"/proc/{process}/stat").read_text().rpartition(")")[2].split()[0] != "Z"
    except OSError:
        return False


def clear(folder):
    """Kills the processes that run in `folder` or name `folder` in their arguments or environment, and deletes the
    folder.
    """
    for process in pathlib.Path("/proc").glob("[0-9]*"):
        with contextlib.suppress(OSError):
            has_it = any(str(folder).encode() in (process / it).read_bytes() for it in ("cmdline", "environ"))
            if (has_it or os.readlink(process / "cwd").startswith(str(folder))) and process.name != str(os.getpid()):
                os.kill(int(process.name), signal.SIGKILL)
    shutil.rmtree(folder, ignore_errors=True)
