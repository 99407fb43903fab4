"""Starts processes that end when the script ends, even if the script is killed."""

import contextlib
import os
import pathlib
import shutil
import signal
import subprocess
import sys
import tempfile
import threading
import time


def script(main):
    """Runs a script's main function and exits with the status that the function returns. On a signal, first ends the
    started processes and deletes the temporary folders, then ends the script.
    """
    def end(number, _):
        global _is_ending
        _is_ending = True  # (otherwise another thread of this script could start its next command)
        end_guarded()
        sys.exit(128 + number)

    for it in (signal.SIGINT, signal.SIGTERM, signal.SIGHUP):
        signal.signal(it, end)
    sys.exit(main())


def become(program, words):
    """Replaces the current process with the program `program`, run with the arguments `words`."""
    # Python ignores SIGPIPE and SIGXFSZ. Without SIG_DFL, the program would ignore both signals too.
    for it in (signal.SIGPIPE, signal.SIGXFSZ):
        signal.signal(it, signal.SIG_DFL)
    os.execv(program, [program, *words])


_guarding, _lock, _is_ending = {}, threading.RLock(), False


def _group():
    """Starts a shell as the leader of a process group. The shell kills the group when the script closes a pipe, or
    ends. Returns the shell and the pipe.
    """
    ends, held = os.pipe()
    how = {"stdin": ends, "stdout": subprocess.DEVNULL, "stderr": subprocess.DEVNULL}
    guard = subprocess.Popen(["sh", "-c", "read _; kill -9 0"], preexec_fn=os.setpgrp, **how)
    os.close(ends)
    return guard, held


def guarded():
    """Returns a prefix for a command. A command with the prefix, and all its child processes, are killed when the
    script ends, even if the script is killed.
    """
    with _lock:
        if _is_ending:
            sys.exit(1)
        if os.getpid() not in _guarding:
            _guarding[os.getpid()] = _group()
        guard = _guarding[os.getpid()][0]
    # Python ignores SIGPIPE and SIGXFSZ. Without SIG_DFL, the command would ignore both signals too.
    joins = f"import os, sys, signal as s; os.setpgid(0, {guard.pid}); [s.signal(it, s.SIG_DFL) for it in (s.SIGPIPE, s.SIGXFSZ)]"
    return [sys.executable, "-ISc", f"{joins}; os.execvp(sys.argv[1], sys.argv[1:])"]


def end_guarded():
    """Kills all processes that the script started with `guarded`, and waits until their process group is gone."""
    with _lock:
        if group := _guarding.pop(os.getpid(), None):
            os.close(group[1])
            group[0].wait()


@contextlib.contextmanager
def room(kind):
    """Creates a temporary folder, and deletes it at the end of the `with` block."""
    folder = tempfile.mkdtemp(prefix=f"{kind}-")
    os.chmod(folder, 0o711)  # rt runs programs as the user nobody if rt runs as root; nobody must be able to enter the folder
    try:
        yield pathlib.Path(folder)
    finally:
        # Processes that have just been killed can still be writing to the folder, so deleting it can fail at first.
        for _ in range(20):
            shutil.rmtree(folder, ignore_errors=True)
            if not os.path.exists(folder):
                break
            time.sleep(0.1)


def status_and_words(words, cwd, **environment):
    """Runs a command and waits until it ends. Returns its exit status and its output, including standard error."""
    how = {"stdin": subprocess.DEVNULL, "stdout": subprocess.PIPE, "stderr": subprocess.STDOUT, "errors": "replace"}
    made = subprocess.run([*guarded(), *map(str, words)], cwd=cwd, env={**os.environ, **environment}, **how)
    return made.returncode, made.stdout


class Failed(Exception):
    """Raised if a command exits with a status other than 0. Contains the command, the status, and the end of the
    output.
    """


def output_of(*words, cwd=None):
    """Runs a command and waits until it ends. Returns its output, including standard error. Raises Failed if the exit status
    is not 0.
    """
    status, said = status_and_words(words, cwd)
    if status:
        raise Failed(f"{words[0]} ended with status {status}\n{said[-3000:].rstrip()}")
    return said
