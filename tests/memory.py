"""Tests that the program keeps no data that it no longer needs. (No contract covers the use of memory.)

Each command runs in a limited address space and uses about two thirds of the limit. A command would need twice the
limit if it kept one of these kinds of data: the calls of a recording (`judge`), the printed text (`trace`), each event
(`draft`, `replay` and `show`), or the replies of each round (`run`). A server that has served a thousand sessions with
many calls may use at most a megabyte more than after the first 180 sessions.
"""

import contextlib
import pathlib
import re

import pytest
from at_sizes import recording_of
from harness.programs import ran, well
from harness.serve_client import SOON, asks, resets, serving

LITTLE = 7_000  # kilobytes: the program and the C library need 4,000, and the data up to 800
STACK = 512  # kilobytes of a thread's stack


def printed_within(kilobytes, program, *words, text=b""):
    """Runs a command in an address space of `kilobytes`, checks that the exit status is 0, and returns the output."""
    done = ran("bash", "-c", f'ulimit -s {STACK} && ulimit -v "$0" && exec "$@"', kilobytes, program, *words, text=text)
    assert (done.returncode, done.stderr) == (0, b""), f"{' '.join(map(str, words[:3]))} within {kilobytes} KB"
    return done.stdout


# ---- The memory of `judge` for long recordings

CALLS, KEYS = 800_000, 120


@pytest.mark.parametrize("threads, at_once", [(4, True), (CALLS // 4, False)])
def test_judge_keeps_no_completed_call(program, room, threads, at_once):
    """Tests that `judge` keeps nothing about a completed call or its thread, except the state of the call's key. The
    recording is read from a file or from standard input.
    """
    of_key = ("add", "true"), ("contains", "true"), ("add", "false"), ("remove", "true"), ("remove", "false")
    calls = [(word, number % KEYS, reply) for number in range(CALLS // len(of_key)) for word, reply in of_key]
    file = room / "long.calls"
    file.write_text(recording_of([], calls, [], threads, at_once))
    for words, given in (((file,), b""), ((), file.read_bytes())):
        assert printed_within(LITTLE, program, "judge", *words, text=given).startswith(b"ok %d calls\n" % CALLS)


# ---- The memory of commands for many events

OPENING, WALKS = 2_000, 100


def long_walks():
    """Returns a draft with one line for each call. All calls traverse all keys, so the schedule that `draft` prints has
    many events in few lines.
    """
    opening = "".join(f"opening {key}\n" for key in range(OPENING))
    calls = f"begin 0 contains {OPENING}\ngo 0 out\n" * WALKS
    return f"listset-draft 2\nlist lazy\nthreads 1\nquota 1\n{opening}{calls}".encode()


def events_of(schedule):
    """Returns the number of events in a schedule with many steps per line."""
    many = WALKS + sum(map(int, re.findall(rb"^go 0 (\d+)$", schedule, re.M)))
    assert many > 2 * OPENING * WALKS  # (otherwise, a call did not traverse all keys)
    return many


@pytest.mark.parametrize("words", ["draft", "trace", "replay", "show --from 400000", "show --svg --from 400000", "replay --lacks mark-in-contains",
                                   "show --lacks mark-in-contains --from 400000"])
def test_no_command_keeps_its_events(program, words):
    """Tests that the commands need little memory for hundreds of thousands of events, even on a broken list (a list
    without one of its checks). `trace` prints tens of megabytes.
    """
    schedule = well(program, "draft", text=long_walks())
    many = events_of(schedule)
    assert many > 400_000  # (`show` draws at most 64 of the events)
    said = printed_within(LITTLE, program, *words.split(), text=long_walks() if words == "draft" else schedule)
    due = {"draft": [schedule], "trace": [b"\nevent %d " % many, b"\nend\n"], "show": [b": %d calls" % WALKS]}
    due["replay"] = [b"call %d " % (WALKS - 1), b"place %d " % (WALKS - 1)]
    assert [it for it in due[words.split()[0]] if it not in said] == []


# ---- The memory of `run` for the replies of its rounds

CALLS_OF_RUN, LIVES = 10_000, 100  # the maximum numbers of calls and of rounds; a reply has 8 bytes


def test_run_keeps_only_the_replies_of_one_round(program):
    """Tests that `run` does not keep the replies of all rounds. (They would need 8,000 KB.)"""
    said = printed_within(LITTLE, program, "run", "lazy", 1, 1, CALLS_OF_RUN, 1, 1, LIVES)
    assert said.startswith(b"calls %d\n" % (CALLS_OF_RUN * LIVES))


# ---- The memory of a server for its sessions

SEATS, CALLS_AT_ONCE = 4, 2_000
FEW, MANY, LONG_LINES = 90, 450, 9  # rounds of sessions before and after the first measurement, and sessions with a long line
GROWTH = 1_000  # kilobytes; one page per session of MANY rounds would be 3,600, and eight bytes per call 4,800


def most_resident(server):
    """Returns a server's peak memory in kilobytes."""
    return int(re.search(r"^VmHWM:\s+(\d+) kB$", pathlib.Path(f"/proc/{server.process.pid}/status").read_text(), re.M)[1])


def sends_all_at_once(connection):
    asks(connection, b"CONTAINS 7\n" * CALLS_AT_ONCE + b"QUIT\n", b"FALSE\n" * CALLS_AT_ONCE + b"BYE\n")


def goes_away(connection):
    asks(connection, b"ADD 7\nREMOVE 7\n", b"TRUE\nTRUE\n")
    resets(connection)


def sends_a_long_line(connection):
    """Sends a line so long that the server closes the connection before it has read the whole line."""
    with contextlib.suppress(ConnectionError):
        connection.sendall(b"?" * 4_000_000)


SESSIONS = [sends_all_at_once, goes_away]
CALLS_OF_SESSIONS = CALLS_AT_ONCE + 2


def serves(server, sessions):
    """Runs `sessions` sessions of a server, one after another."""
    for speak in sessions:
        with server.connect() as connection:
            connection.settimeout(SOON)
            speak(connection)


def test_a_server_keeps_nothing_of_its_sessions(program):
    """Tests that a server's memory does not grow with the number of sessions and calls, with the length of a line, or
    while a silent client is connected.
    """
    rounds = FEW + MANY
    sessions, calls = 1 + len(SESSIONS) * rounds + LONG_LINES, CALLS_OF_SESSIONS * rounds
    with serving(program, "lazy", SEATS, 2 * rounds, sessions) as server:
        with server.connect() as idle:
            serves(server, SESSIONS * FEW)
            before = most_resident(server)
            serves(server, [sends_a_long_line] * LONG_LINES + SESSIONS * MANY)
            assert most_resident(server) <= before + GROWTH
            asks(idle, b"QUIT\n", b"BYE\n")
        server.ends(sessions, calls, calls, [])
