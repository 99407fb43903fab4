"""Measures the requests per second of the set server, and compares them with redis. Starts the set server and redis on
free ports.
"""

import contextlib
import shutil
import socket
import statistics
import subprocess
import sys
import tempfile
import time

from build_benches import by_rustc
from measuring import KINDS, built, heading, row

ROUNDS = 5
CLIENTS = (1, 8)
KEYS = "64"
REQUESTS = {1: "20000", 100: "90000"}  # requests of each client, by the number of requests per write. No seat uses up its quota
REDIS_STARTS_WITHIN = LOAD_ENDS_WITHIN = 60  # seconds


@contextlib.contextmanager
def ended(process):
    """Kills `process` at the end of the `with` block, if it has not ended by itself."""
    try:
        yield process
    finally:
        process.kill()
        process.wait()


@contextlib.contextmanager
def listset(tool, kind, clients):
    """Starts the program `tool` as a server for `clients` clients, and returns the server's port."""
    words = [tool, "serve", kind, str(clients), "16384", "0", str(clients)]
    with ended(subprocess.Popen(words, stdout=subprocess.PIPE, text=True)) as process:
        yield process.stdout.readline().rpartition(":")[2].strip()


def answers(port):
    """Returns whether a server on `port` accepts a connection."""
    with contextlib.suppress(OSError), socket.create_connection(("127.0.0.1", port), timeout=1):
        return True
    return False


@contextlib.contextmanager
def redis(program, _kind, _clients):
    """Starts a redis server that does not write to disk, and returns its port."""
    with socket.socket() as free:
        free.bind(("127.0.0.1", 0))
        port = free.getsockname()[1]
    with tempfile.TemporaryDirectory() as room:
        words = [program, "--port", str(port), "--bind", "127.0.0.1", "--save", "", "--appendonly", "no", "--dir", room]
        with ended(subprocess.Popen(words, stdout=subprocess.DEVNULL)):
            end = time.monotonic() + REDIS_STARTS_WITHIN
            while not answers(port) and time.monotonic() < end:
                time.sleep(0.05)
            yield str(port)


def loaded(load, protocol, server, clients, at_once):
    """Returns the requests per second, and the 99th percentile of the microseconds from a write to the last of its
    answers.
    """
    with server(clients) as port:
        words = [load, protocol, port, str(clients), str(at_once), REQUESTS[at_once], KEYS]
        told = subprocess.run(words, stdout=subprocess.PIPE, text=True, check=True, timeout=LOAD_ENDS_WITHIN).stdout
    rate, _, late = map(float, told.split())
    return rate, late


def server():
    """Prints the table of servers: thousands of requests per second, and the 99th percentile of the microseconds from a
    write to the last of its answers. Each number is the median of several rounds. The rounds alternate between the
    servers.
    """
    tool = built("listset")
    servers = {kind: ("listset", lambda clients, kind=kind: listset(tool, kind, clients)) for kind in KINDS}
    program = shutil.which("redis-server")
    if program:
        servers["redis"] = "redis", lambda clients: redis(program, None, clients)
    else:
        print("bench: redis-server is not installed (Debian: apt-get install redis-server), so its row is left out", file=sys.stderr)
    loads = [(many, at_once) for at_once in REQUESTS for many in CLIENTS]
    heading("Server", *(it for many, at_once in loads for it in (f"{many} client{'s'[:many > 1]}, {at_once} at once", "p99")))
    cells = {name: [] for name in servers}
    with tempfile.TemporaryDirectory() as room:
        load = by_rustc("load.rs", room)
        for many, at_once in loads:
            rounds = [{name: loaded(load, *way, many, at_once) for name, way in servers.items()} for _ in range(ROUNDS)]
            for name in servers:
                rate, late = (statistics.median(it) for it in zip(*(it[name] for it in rounds)))
                cells[name] += [f"{rate / 1000:.0f}", f"{late:.0f}"]
    for name, told in cells.items():
        row(name, *told)
