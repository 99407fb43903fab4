"""Proves crates with `rt ci` in a copy of the repository, and copies the proved programs back."""

import contextlib
import os
import pathlib
import re
import shutil
import subprocess
import threading
import time

import crates_txt
import lists
import processes
import toolchain
import version_stamp

SECONDS_BETWEEN = 60  # the time between two lines about the crates in progress
MINUTES_OF_A_CRATE = 3  # the average time to prove a crate on one processor
# IS_DONE matches rt's report of a proved crate ("is kept" if rt had stored the proof). IS_ERROR matches an error or a
# missing proof.
IS_DONE = re.compile(r"rt: (\w+) (?:proved|is kept: .*)")
IS_ERROR = re.compile(r"(^|: )error[:[]|it is not proved that|^rt: \w+ NOT PROVED|^rt: .*FAILED")


def note_of(room, name):
    """Returns the path of a file that exists if and only if the crate `name` has been proved in the folder `room`."""
    return room / ".git" / "proved" / name


def end_of(room):
    """Returns the path of a file that exists if and only if build/prove --in has ended."""
    return room / ".git" / "ended"


def are_proved(room, names):
    """Returns whether build/prove --in has proved the crates `names` in the folder `room`."""
    return all(note_of(room, it).exists() for it in names)


def wait_for(room, names):
    """Waits until build/prove --in has proved the crates `names` in the folder `room`, or has ended. Returns whether
    the crates are proved.
    """
    while not end_of(room).exists() and not are_proved(room, names):
        time.sleep(2)
    return are_proved(room, names)


def wait_for_those_below(room, names):
    """Lowers the script's priority below the priority of the proofs (nice), and waits until the dependencies of the
    crates `names` are proved. Raises NotBuilt if the proofs end before that.
    """
    os.nice(5)
    if not wait_for(room, [it for it in crates_txt.below(names) if it not in names]):
        raise toolchain.NotBuilt("a crate below is not proved")


def prove(room, names, tell, is_whole=False):
    """Proves the crates `names` in the folder `room` and returns the exit status of rt ci. Each line of output is
    passed to `tell`, with the folder of the copy replaced by the folder of this repository. The libraries remain in
    `room`. If `is_whole` is true, the copy also has the lists of examples/lists.
    """
    toolchain.folder()
    crates_txt.lay_out(room, names, is_whole)
    if is_whole:
        lists.add_exercises(room)
    how = {"stdin": subprocess.DEVNULL, "stdout": subprocess.PIPE, "stderr": subprocess.STDOUT, "text": True, "errors": "replace"}
    # If rt is killed, it does not delete its temporary files. Therefore rt writes the files to a folder that the script
    # deletes.
    with processes.room("rt-ci") as temporary:
        environment = {**os.environ, "TMPDIR": str(temporary)}
        with subprocess.Popen([*processes.guarded(), "rt", "ci"], cwd=room, env=environment, **how) as running:
            for line in running.stdout:
                tell(line.rstrip("\n").replace(str(room), str(crates_txt.TOP)))
    return running.returncode


def crates_in_work(room):
    """Returns the crates that processes in the folder `room` are currently proving."""
    found = set()
    for process in pathlib.Path("/proc").glob("[0-9]*"):
        with contextlib.suppress(OSError):
            words = (process / "cmdline").read_text(errors="replace").split("\0")
            if "--crate-name" in words[:-1] and os.readlink(process / "cwd").startswith(str(room)):
                found.add(words[words.index("--crate-name") + 1])
    return sorted(found)


def minutes_since(began):
    return f"{(time.monotonic() - began) / 60:.1f} min"


@contextlib.contextmanager
def telling_each_minute(room, tell, began):
    """Prints the crates in progress once a minute until the `with` block ends."""
    ended = threading.Event()

    def tell_crates():
        while not ended.wait(SECONDS_BETWEEN):
            if names := crates_in_work(room):
                tell(f"{minutes_since(began)}: at work on {', '.join(names)}")

    thread = threading.Thread(target=tell_crates, daemon=True)
    thread.start()
    try:
        yield
    finally:
        ended.set()
        thread.join()


def prove_below(room, names, tell):
    """Proves the crates `names` and their dependencies in the folder `room`. Prints each crate that is done and, once a
    minute, the crates in progress. Raises NotBuilt if a crate is not proved.
    """
    names, lines, done, began = crates_txt.below(names), [], [], time.monotonic()
    processors = len(os.sched_getaffinity(0))

    def tell_done(line):
        lines.append(line)
        if found := IS_DONE.fullmatch(line):
            done.append(found[1])
            tell(f"{minutes_since(began)}: {found[1]} proved, {len(done)} of {len(names)}")

    tell(f"proving {len(names)} crates by rt ci, about {max(1, round(MINUTES_OF_A_CRATE * len(names) / processors))} minutes if no other work needs the "
         f"{processors} processors; Ctrl-C ends it")
    with telling_each_minute(room, tell, began):
        status = prove(room, names, tell_done)
    if status:
        errors = [it for it in lines if IS_ERROR.search(it)] or lines
        raise toolchain.NotBuilt("\n".join(errors[-20:]))


def take_program(name, room, began):
    """Copies a proved program to this repository, stamps it with the commit, and sets its modification time to the
    start of the build.
    """
    made, program = room / "crates" / name / "out" / name, crates_txt.TOP / "crates" / name / "out" / name
    program.parent.mkdir(exist_ok=True)
    shutil.copy2(made, f"{program}.new")
    version_stamp.stamp(f"{program}.new", version_stamp.PROVED)
    # Sources that were edited during the build must count as newer than the program.
    os.utime(f"{program}.new", (began, began))
    os.replace(f"{program}.new", program)
