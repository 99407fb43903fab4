"""Stores, in the git folder, the verdict of the last complete run of ./gate. build/release reads the verdict. Nothing
is stored if the clone has uncommitted changes.
"""

import datetime
import hashlib
import json
import pathlib
import shutil
import subprocess

TOP = pathlib.Path(__file__).resolve().parent.parent
TRIED = ["crates/listset/out/listset.o", "foreign/out/lib/liblistset.a", "foreign/out/lib/liblistset.so", "page/listset.wasm"]


def git(*words):
    """Returns the output of git, or an empty string if git fails or is missing."""
    how = {"stdout": subprocess.PIPE, "stderr": subprocess.DEVNULL, "text": True}
    return subprocess.run(["git", "-C", TOP, *words], **how).stdout.strip() if shutil.which("git") else ""


def changes():
    """Returns git's list of uncommitted changes."""
    return git("status", "--porcelain").splitlines()


def clean_commit():
    """Returns the checked-out commit, or None if there are uncommitted changes."""
    return None if changes() else git("rev-parse", "HEAD") or None


def place():
    return pathlib.Path(git("rev-parse", "--absolute-git-dir"), "gate-verdict")


def sum_of(file):
    return hashlib.sha256((TOP / file).read_bytes()).hexdigest() if (TOP / file).exists() else "missing"


def write(commit, passed, failed):
    """Stores the verdict of a gate run that began at `commit`, if `commit` is still checked out. Otherwise deletes the
    stored verdict of an earlier run.
    """
    place().unlink(missing_ok=True)
    if commit and commit == clean_commit():
        sums = {it: sum_of(it) for it in TRIED}
        place().write_text(json.dumps({"commit": commit, "day": str(datetime.date.today()), "passed": passed, "failed": failed, **sums}))


def read():
    """Returns the stored verdict, or None."""
    return json.loads(place().read_text()) if place().exists() else None
