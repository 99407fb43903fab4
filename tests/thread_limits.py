"""Tests how `run` and `serve` end if not all of their threads can be started.

A thread's stack needs address space, so under a limit on the program's address space (`ulimit -v`), the system refuses
to start some or all threads. Under each limit, `run` and `serve` must print their result, or that a thread or an
allocation was refused. `serve` must serve its client completely or not at all.
"""

import collections
import re

import pytest
from harness.programs import KINDS, ran
from harness.serve_client import Server, read_all, started

THREADS, QUOTA, CALLS = 8, 16_384, 50
STACK = 8_192  # KiB of a thread's stack
REFUSALS = {
    (1, "listset: work: Spawn\n"): "thread refused",
    (1, "listset: serve: Spawn\n"): "thread refused",
    (3, "listset: out of memory\n"): "memory refused",
}


def limited(limit, *words, of="-v"):
    """Returns a command that runs the command `words` with a limit on its address space (in KiB) or on its number of
    open files.
    """
    return ["sh", "-c", f'ulimit -s {STACK} && ulimit {of} "$0" && exec "$@"', str(limit), *map(str, words)]


def ended_run(program, limit):
    """Runs `listset run` under a limit and returns how the program ends."""
    made = ran(*limited(limit, program, "run", KINDS[limit % 5], THREADS, QUOTA, CALLS, 8, 1))
    if made.returncode == 0:
        counts = dict(re.findall(r"^(calls|true|false|full|keys) (\d+)$", made.stdout, re.M))
        calls, *replies = (int(counts[it]) for it in ("calls", "true", "false", "full"))
        assert calls == THREADS * CALLS == sum(replies) and int(counts["keys"]) == made.stdout.count("\nkey ") and made.stderr == ""
        return "outcome"
    assert made.stdout == ""
    return REFUSALS[made.returncode, made.stderr]


def ended_serve(program, limit):
    """Runs `listset serve` with one client under a limit, and returns how the server ends. The server can refuse the
    client, because the server starts its threads after it has printed the first line.
    """
    with started(*limited(limit, program, "serve", KINDS[limit % 5], THREADS, QUOTA, 0, 1)) as process:
        first, told = process.stdout.readline(), b""
        if first:
            try:
                with Server(process, first).connect() as connection:
                    connection.sendall(b"ADD 7\nCONTAINS 7\nQUIT\n")
                    told = read_all(connection)
            except ConnectionError:
                pass
        rest, faults = process.communicate()
    if process.returncode == 0:
        assert (rest, faults, told) == ("sessions 1\ncalls 2\nkey 7\n", "", b"TRUE\nTRUE\nBYE\n")
        return "outcome"
    why = REFUSALS[process.returncode, faults]
    assert (rest, told) == ("", b"") and (why != "thread refused" or first)
    return why


@pytest.fixture
def limits(program):
    """Returns limits on the address space, in KiB, that let the program start. Successive limits differ by half the
    size of a stack, and the first limits by less.
    """
    limits = [*range(2_000, 12_000, 128), *range(12_000, 4 * (THREADS + 2) * STACK, STACK // 2)]
    return [it for it in limits if ran(*limited(it, program, "example", "full")).returncode == 0]


@pytest.mark.parametrize("way", [ended_run, ended_serve])
def test_run_and_serve_end_in_a_documented_way_under_each_limit(program, way, limits):
    """Tests how the program ends under each limit. Some limits must let the program complete, and some must make the
    system refuse a thread.
    """
    ends = collections.Counter(way(program, limit) for limit in limits)
    assert ends["outcome"] and ends["thread refused"]


def test_serve_without_memory_for_the_set_does_not_listen(program):
    """Tests the largest set under a limit of 40 MB, too little for the set: the server must not report that it listens.
    """
    made = ran(*limited(40_000, program, "serve", "lock-free", 64, 16384, 0, 1))
    assert (made.returncode, made.stdout, made.stderr) == (3, "", "listset: out of memory\n")


def test_serve_without_files_refuses_the_first_connection(program):
    """Tests a limit of 4 files. The standard streams and the listener use up the limit, so the system refuses the first
    connection.
    """
    made = ran(*limited(4, program, "serve", "lazy", 2, 4, 0, 1, of="-n"))
    assert re.fullmatch(r"listening 127\.0\.0\.1:\d+\n", made.stdout)
    assert (made.returncode, made.stderr) == (1, "listset: serve: Accept\n")
