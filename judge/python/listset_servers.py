"""Servers as sets for `listset_judge.judge`. A call sends a line to the server and reads one line back. Each thread has
its own connection.

    def test_redis_is_linearizable():
        print(listset_judge.judge(lambda: listset_servers.Redis(6379), pauses=0))

Use `pauses=0`: pauses are meant for sets in Python. In a client of a server, pauses would hide most errors of a
replica.

If a reply is late, or lost because the connection breaks, the outcome is unknown: the call returns None. The thread
opens a new connection for its next call. `listset_servers.Redis(6379, read_at=6380)` writes to one address and reads
from another, like a client of a replica. For other servers, write a class like `Redis`.
"""

import contextlib
import os
import socket
import threading
import time

OPENING = 30  # the seconds for which opening a connection is retried while the server restarts


class Connection:
    """A connection to a port of the local machine, or to a host and port."""

    socket = file = None

    def __init__(self, address, seconds):
        self.address, self.seconds = ("127.0.0.1", address) if isinstance(address, int) else address, seconds
        self.open()

    def open(self):
        self.socket = socket.create_connection(self.address, self.seconds)
        self.socket.setsockopt(socket.IPPROTO_TCP, socket.TCP_NODELAY, 1)
        self.file = self.socket.makefile("rwb")

    def open_again(self):
        until = time.monotonic() + OPENING
        while not self.file:
            try:
                self.open()
            except OSError:
                if time.monotonic() > until:
                    raise
                time.sleep(0.01)

    def close(self):
        for it in filter(None, (self.file, self.socket)):
            with contextlib.suppress(OSError):  # (closing fails if bytes were never sent)
                it.close()
        self.socket = self.file = None

    def __del__(self):
        self.close()

    def ask(self, line):
        """Sends a line and returns the reply line, or None if the outcome is unknown."""
        self.open_again()
        with contextlib.suppress(TimeoutError, ConnectionError):
            self.file.write(f"{line}\n".encode())
            self.file.flush()
            said = self.file.readline().decode()
            if said.endswith("\n"):
                return said.strip()
        self.close()
        return None


class Server:
    """A server at an address (a port of the local machine, or a host and port)."""

    def __init__(self, address, read_at=None, seconds=10):
        self.address, self.read_at, self.seconds, self.mine = address, read_at or address, seconds, threading.local()

    def ask(self, line, replies, is_read=False):
        """Sends a line. Returns the value that `replies` has for the reply, or None if the outcome is unknown. Raises
        ConnectionError if the reply is not in `replies`.
        """
        mine, address = vars(self.mine), self.read_at if is_read else self.address
        if address not in mine:
            mine[address] = Connection(address, self.seconds)
        said = mine[address].ask(line)
        if said is not None and said not in replies:
            raise ConnectionError(f"the server answered {said!r} to {line!r}")
        return replies.get(said)


class Redis(Server):
    """A set in Redis. Each new set has a new name, so that a late call to an earlier set does not affect the new set.
    """

    REPLIES, made = {":1": True, ":0": False}, 0

    def __init__(self, address, read_at=None, seconds=10):
        super().__init__(address, read_at, seconds)
        Redis.made += 1
        self.name = f"listset-judge-{os.getpid()}-{Redis.made}-{time.time_ns()}"
        self.ask(f"DEL {self.name}", self.REPLIES)

    def __del__(self):
        with contextlib.suppress(Exception):
            self.ask(f"DEL {self.name}", self.REPLIES)

    def add(self, key):
        return self.ask(f"SADD {self.name} {key}", self.REPLIES)

    def remove(self, key):
        return self.ask(f"SREM {self.name} {key}", self.REPLIES)

    def contains(self, key):
        return self.ask(f"SISMEMBER {self.name} {key}", self.REPLIES, is_read=True)


class Listset(Server):
    """The set of `listset serve`. The server keeps the set's keys from one run to the next."""

    REPLIES = {"TRUE": True, "FALSE": False}

    def add(self, key):
        return self.ask(f"ADD {key}", self.REPLIES)

    def remove(self, key):
        return self.ask(f"REMOVE {key}", self.REPLIES)

    def contains(self, key):
        return self.ask(f"CONTAINS {key}", self.REPLIES)
