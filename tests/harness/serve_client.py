"""A client of `listset serve`: sends lines, reads one answer for each line, and disconnects in several ways. `serving`
starts a server, and `started` stops the server. tests/serve_clients.py uses the functions in this file.
"""

import contextlib
import socket
import struct
import subprocess
import threading
from concurrent.futures import ThreadPoolExecutor

SECONDS = 300
SOON = 60


class Server:
    """A running server, with its port."""

    def __init__(self, process, first=None):
        self.process, first = process, first or process.stdout.readline()
        assert first.startswith("listening 127.0.0.1:")
        self.port = int(first.rpartition(":")[2])

    def connect(self, address="127.0.0.1"):
        return socket.create_connection((address, self.port), timeout=SECONDS)

    def ends(self, sessions, least, most, keys):
        """Checks the last lines that the server prints: the number of sessions, the number of calls (from `least` to
        `most`), and the final keys.
        """
        lines = self.process.stdout.read().splitlines()
        assert self.process.wait(SECONDS) == 0
        calls = int(lines.pop(1).removeprefix("calls "))
        assert lines == [f"sessions {sessions}", *(f"key {key}" for key in sorted(keys))]
        assert least <= calls <= most


@contextlib.contextmanager
def started(*words):
    """Starts a process. Kills the process at the end of the `with` block if the process is still running."""
    process = subprocess.Popen([*map(str, words)], stdout=subprocess.PIPE, stderr=subprocess.PIPE, text=True)
    watch = threading.Timer(2 * SECONDS, process.kill)
    watch.start()
    try:
        yield process
    finally:
        watch.cancel()
        process.kill()
        process.wait()


@contextlib.contextmanager
def serving(program, kind, seats, quota, sessions, before=()):
    """Starts the program as a server. `before` is a command that runs the server, for example under a limit."""
    with started(*before, program, "serve", kind, seats, quota, 0, sessions) as process:
        yield Server(process)


def read_all(connection):
    """Returns the answers up to the end of the connection. The connection must end without a reset."""
    return b"".join(iter(lambda: connection.recv(65_536), b""))


def read_lines(connection, count):
    """Reads and returns `count` answers, and checks that no byte follows the last answer."""
    text = b""
    while text.count(b"\n") < count:
        piece = connection.recv(4096)
        assert piece, f"the end after {text!r}, where {count} answers should be"
        text += piece
    return text


def asks(connection, lines, answers):
    """Sends lines, and checks the answers, and that the connection ends after the answer `BYE`."""
    connection.sendall(lines)
    assert read_lines(connection, answers.count(b"\n")) == answers, lines
    assert not (answers.endswith(b"BYE\n") and connection.recv(1)), lines


def resets(connection):
    """Disconnects so that the system resets the connection."""
    connection.setsockopt(socket.SOL_SOCKET, socket.SO_LINGER, struct.pack("ii", 1, 0))
    connection.close()


def speak_at_once(server, speakers):
    """Runs clients in separate threads, each on its own connection."""
    def connected(speak):
        with server.connect() as connection:
            speak(connection)

    with ThreadPoolExecutor(len(speakers)) as threads:
        for _ in threads.map(connected, speakers, timeout=2 * SECONDS):
            pass
