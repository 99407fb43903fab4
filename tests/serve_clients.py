"""Tests how `listset serve` answers clients that connect at the same time, and clients that connect one after another.
A server has one seat (one thread's access to the set) for each of its threads, and each seat serves one client at a
time.

Only the loopback is used. All waits are bounded, and a server that does not exit is killed by its process id.
"""

import collections
import contextlib
import functools
import random
import socket
import struct
import threading
import time

import pytest
from harness.programs import KINDS
from harness.serve_client import SECONDS, SOON, Server, asks, read_all, resets, serving, speak_at_once, started
from harness.set_model import SetModel

pytestmark = pytest.mark.xdist_group("serve")  # (one after another: each test has more clients than there are processors)
ONE_LIST = "lazy"
SEATS = 64
CLIENTS = SEATS - 1
REQUESTS = 300
SHARED = 64  # the number of keys that all clients share; a client's own keys are larger
ROOM = 16_384
MANNERS = ["pieces", "bytes", "all at once", "middle of a line", "random bytes"]
BEYOND = 100_000
LATE = 3


# ---- Tests of many clients at the same time


class Sharing:
    """A client that sends its requests in pieces of random size, byte by byte, or all at once before it reads an
    answer. The client ends with QUIT, in the middle of a line, or with random bytes. `told` contains the answers to the
    client's calls on shared keys, and `own` contains the keys that only the client uses.

    On a LockFreeList, the client sends no CEILING, because a ceiling that reaches a marked node restarts until some add
    or remove has unlinked the node.
    """

    def __init__(self, number, kind, all_are_served):
        self.all_are_served = all_are_served
        self.draw, self.manner = random.Random(f"{kind} {number}"), MANNERS[number % len(MANNERS)]
        self.first_own, self.own, self.told = SHARED * (number + 1), SetModel(), []
        self.words = ["contains", *["ceiling"] * (kind != "lock-free"), "add", "remove"]
        self.turns = [self.turn() for _ in range(REQUESTS)]
        self.calls = sum(call is not None for _, call, _ in self.turns)

    def turn(self):
        """Returns a line, the line's call (or None), and the set of right answers. For a ceiling, the third value is
        not a set of answers, but the client's smallest own key that is not less than the call's key.
        """
        word, key, is_own = self.draw.choice(self.words), self.draw.randrange(SHARED), self.draw.random() < 0.5
        if self.draw.random() < 0.05:
            return self.draw.choice([f"{word.upper()} 0{key}", f"{word} {key}", f"{word.upper()}  {key}", "", "MOVE 7"]), None, {"BAD"}
        key += self.first_own if is_own else 0
        if word == "ceiling":
            return f"CEILING {key}", (word, key), min((it for it in self.own.keys if it >= key), default=None)
        due = {self.own.reply(0, word, key).upper()} if is_own else {"TRUE", "FALSE"}
        return f"{word.upper()} {key}", (word, key), due

    def speak(self, connection):
        asks(connection, b"MOVE 7\n", b"BAD\n")
        self.all_are_served.wait(SOON)
        text = "".join(f"{line}\n" for line, *_ in self.turns).encode()
        last = {"middle of a line": b"ADD 6", "random bytes": self.draw.randbytes(40).replace(b"\n", b"?") + b"\n" + b"x" * 65}.get(self.manner, b"QUIT\n")
        ends = {"middle of a line": [], "random bytes": ["BAD", "LONG"]}.get(self.manner, ["BYE"])
        sender = threading.Thread(target=self.send, args=(connection, text + last), daemon=True)
        sender.start()
        if self.manner == "all at once":
            sender.join(SECONDS)
        answers = read_all(connection).decode().splitlines()
        assert answers[len(self.turns):] == ends
        for (line, call, due), answer in zip(self.turns, answers):
            if call and call[0] == "ceiling":
                found = None if answer == "NONE" else int(answer.removeprefix("AT "))
                assert due is None if found is None else call[1] <= found and (due is None or found <= due), line
            else:
                assert answer in due, line
            if call and call[1] < SHARED:
                self.told.append((*call, answer))

    def send(self, connection, text):
        most = {"all at once": len(text), "bytes": 1}.get(self.manner, 300)
        while text:
            size = self.draw.randint(1, most) if most < len(text) else len(text)
            connection.sendall(text[:size])
            text = text[size:]
        with contextlib.suppress(OSError):  # (possibly all answers have arrived and the connection is closed)
            connection.shutdown(socket.SHUT_WR)


@pytest.mark.parametrize("kind", KINDS)
def test_clients_at_once_receive_right_answers(program, kind):
    """Tests clients that are served at the same time: each client waits until all clients have received an answer. The
    answers about a client's own keys must be right. The answers about shared keys must agree with the final keys of the
    server.
    """
    with serving(program, kind, SEATS, ROOM, CLIENTS + 1) as server, server.connect() as idle:
        all_are_served = threading.Barrier(CLIENTS)
        clients = [Sharing(number, kind, all_are_served) for number in range(CLIENTS)]
        speak_at_once(server, [it.speak for it in clients])
        left = collections.Counter()
        for word, key, answer in (it for client in clients for it in client.told):
            left[key] += {"add": 1, "remove": -1}.get(word, 0) * (answer == "TRUE")
        assert {*left.values()} <= {0, 1}
        keys = {key for key in left if left[key]}.union(*(it.own.keys for it in clients))
        asks(idle, b"QUIT\n", b"BYE\n")
        calls = sum(it.calls for it in clients)
        server.ends(CLIENTS + 1, calls, calls, keys)


# ---- Tests with more clients than the server has seats (a seat serves one client at a time)


def test_more_clients_than_seats_are_served(program):
    """Tests more sessions than the server has seats, more than the largest set has threads, and more than fit into the
    queue. A session that ends with an error ends no other session. One client in ten resets its connection without
    having read all answers.
    """
    def speak(key, connection):
        if key % 10 == 0:
            connection.sendall(b"CONTAINS %d\n" % key * 3)
            assert connection.recv(1) == b"F"
            return resets(connection)
        lines = "ADD {0}\nADD {0}\nREMOVE {0}\nCONTAINS {0}\nADD {0}\nCEILING {0}\nQUIT\n"
        asks(connection, *(text.format(key).encode() for text in (lines, "TRUE\nFALSE\nTRUE\nFALSE\nTRUE\nAT {0}\nBYE\n")))

    sessions = 200
    with serving(program, ONE_LIST, 8, ROOM, sessions) as server:
        speak_at_once(server, [functools.partial(speak, key) for key in range(sessions)])
        served = [key for key in range(sessions) if key % 10]
        faulty = sessions - len(served)
        server.ends(sessions, 6 * len(served) + faulty, 6 * len(served) + 3 * faulty, served)


# ---- Tests of a server with one seat (a seat serves one client at a time)


def test_many_connections_one_after_another_are_served(program):
    """Tests a server that accepts the maximum number of connections one after another, under a low limit on open files.
    The sessions end in different ways.
    """
    sessions, keys, files = 10_000, 1000, 32
    limited = ["sh", "-c", f'ulimit -n {files} && exec "$@"', "sh"]
    with serving(program, ONE_LIST, 1, ROOM, sessions, before=limited) as server:
        for number in range(sessions):
            key, told = number % keys, b"TRUE" if number < keys else b"FALSE"
            with server.connect() as connection:
                connection.settimeout(SOON)
                asks(connection, b"ADD %d\nCEILING %d\n" % (key, key), b"%b\nAT %d\n" % (told, key))
                if number % 3 == 0:
                    asks(connection, b"QUIT\n", b"BYE\n")
                elif number % 3 == 1:
                    connection.shutdown(socket.SHUT_WR)
                    assert connection.recv(1) == b""
                else:
                    resets(connection)
        server.ends(sessions, 2 * sessions, 2 * sessions, range(keys))


def drips(connection, end):
    """Sends a byte from time to time until `end` is set."""
    with contextlib.suppress(OSError):
        while not end.wait(0.3):
            connection.sendall(b"?")


def test_clients_of_one_seat_are_served_in_turn(program):
    """Tests clients that use one seat (one thread's access to the set) one after another. The seat can add 2 keys. A
    connection to another address of the machine is refused. A client that connects after the last session receives no
    answer.
    """
    with serving(program, ONE_LIST, 1, 2, 6) as server:
        with pytest.raises(ConnectionRefusedError):
            server.connect("127.0.0.2")
        for lines, answers in [(b"ADD 7\n", b"TRUE\n"), (b"CONTAINS 7\n", b"TRUE\n")]:
            connection = server.connect()
            asks(connection, lines, answers)
            connection.sendall(lines)
            resets(connection)
        with server.connect() as connection:
            asks(connection, b"CEILING 8\nCEILING 7\nREMOVE 7\nCEILING 0\n", b"NONE\nAT 7\nTRUE\nNONE\n")
            asks(connection, b"ADD 8\nADD 8\nADD 9\nCEILING 7\nQUIT\n", b"TRUE\nFALSE\nFULL\nAT 8\nBYE\n")
        with server.connect() as slow:
            asks(slow, b"ADD 9\nQUIT\n", b"FULL\nBYE\n")
            end = threading.Event()
            threading.Thread(target=drips, args=(slow, end), daemon=True).start()
            with server.connect() as connection:
                connection.settimeout(SOON)
                asks(connection, b"CONTAINS 9\nQUIT\n", b"FALSE\nBYE\n")
            end.set()
        with server.connect() as last:
            asks(last, b"CONTAINS 8\n", b"TRUE\n")
            with server.connect() as one_more:
                one_more.sendall(b"CONTAINS 8\n")
                asks(last, b"QUIT\n", b"BYE\n")
                with contextlib.suppress(ConnectionResetError):
                    assert not one_more.recv(10)
        server.ends(6, 13, 15, [8])


def test_a_server_listens_on_the_port_in_its_arguments(program):
    """Tests a server on a port that was free just before the server started."""
    with socket.create_server(("127.0.0.1", 0)) as free:
        port = free.getsockname()[1]
    with started(program, "serve", ONE_LIST, 1, ROOM, port, 1) as process:
        server = Server(process)
        assert server.port == port
        with server.connect() as connection:
            asks(connection, b"CONTAINS 7\nQUIT\n", b"FALSE\nBYE\n")
        server.ends(1, 1, 1, [])


# ---- Tests of clients that send lines in groups


@pytest.mark.parametrize("group", [1, 1023, 6000])
def test_answers_to_a_group_of_lines_arrive_before_the_next_group(program, group):
    """Tests a client that sends a group of lines and reads all answers before it sends the next group. Every kind of answer
    and keys of every length occur. The answers arrive although no further line is sent, even if the answers fill the
    server's buffer (4,096 bytes). The answers to many lines arrive in few pieces.
    """
    keys = [10**digits for digits in range(10)]
    turns = [(f"CEILING {key}", f"AT {key}") for key in keys] + [("MOVE 7", "BAD")] * 5
    turns += [("ADD 5", "FULL"), ("ADD 1", "FALSE"), ("CONTAINS 1", "TRUE"), (f"CEILING {keys[-1] + 1}", "NONE")]
    turns = [(f"ADD {key}", "TRUE") for key in keys] + turns * max(100, 2 * group // len(turns))
    with serving(program, ONE_LIST, 1, len(keys), 1) as server:
        with server.connect() as connection:
            connection.settimeout(SOON)
            for at in range(0, len(turns), group):
                asks(connection, *("".join(f"{it}\n" for it in column).encode() for column in zip(*turns[at:at + group])))
            assert group < 6000 or segments_with_data(connection) <= len(turns) // 60
            asks(connection, b"QUIT\n", b"BYE\n")
        calls = sum(answer != "BAD" for _, answer in turns)
        server.ends(1, calls, calls, keys)


def segments_with_data(connection):
    """Returns how many segments with data the system has received on a connection (`tcpi_data_segs_in` in linux/tcp.h)."""
    return struct.unpack_from("I", connection.getsockopt(socket.IPPROTO_TCP, socket.TCP_INFO, 160), 152)[0]


def test_a_silent_client_keeps_its_session(program):
    """Tests that a client can be silent for some seconds, even within a line, and then continue: no read of a session has a
    timeout.
    """
    with serving(program, ONE_LIST, 1, 1, 1) as server:
        with server.connect() as connection:
            connection.settimeout(SOON)
            asks(connection, b"ADD 7\n", b"TRUE\n")
            time.sleep(LATE)
            connection.sendall(b"CONT")
            time.sleep(LATE)
            asks(connection, b"AINS 7\n", b"TRUE\n")
            asks(connection, b"QUIT\n", b"BYE\n")
        server.ends(1, 2, 2, [7])


# ---- Tests of a client that does not read its answers


def sends_until_stuck(connection):
    """Sends lines without reading answers, until the system has accepted no line for a second. Returns the number of accepted
    lines.
    """
    line, sent = b"CEILING 0\n", 0
    with contextlib.suppress(TimeoutError):
        while True:
            sent += connection.send(line * 1000)
    return sent // len(line)


def test_a_client_that_reads_no_answer_holds_only_its_seat(program):
    """Tests that other clients are served while one client reads no answer. The server must end after the silent client
    has disconnected.
    """
    key = 4_294_967_295
    with serving(program, ONE_LIST, 2, ROOM, 5) as server:
        with server.connect() as connection:
            asks(connection, b"ADD %d\nQUIT\n" % key, b"TRUE\nBYE\n")
        with server.connect() as stuck:
            stuck.setsockopt(socket.SOL_SOCKET, socket.SO_RCVBUF, 4096)
            stuck.settimeout(1)
            lines = sends_until_stuck(stuck)
            for _ in range(3):
                with server.connect() as connection:
                    connection.settimeout(SOON)
                    asks(connection, b"CEILING 0\nQUIT\n", b"AT %d\nBYE\n" % key)
            resets(stuck)
        server.ends(5, 4 + 1, 4 + lines, [key])


# ---- Tests of bytes after the end of a session


def test_answers_arrive_if_bytes_follow_the_last_line(program):
    """Tests that all answers arrive, whatever a client sends after its last line. One client reads so late that the
    server has already closed the connection. If the server had left bytes of the client unread, answers that the system
    had not yet delivered would be lost.
    """
    def speak(lines, answers, late, connection):
        connection.sendall(lines + b"?" * BEYOND)
        time.sleep(late)
        told = read_all(connection)
        assert told.count(b"\n") == answers.count(b"\n")
        assert told == answers

    few, many = 100, 100_000
    short = b"REMOVE 1\n" * few + b"QUIT\n", b"FALSE\n" * few + b"BYE\n"
    sessions = [(*short, 0), (*short, LATE), (b"REMOVE 1\n" * many + b"QUIT\n", b"FALSE\n" * many + b"BYE\n", 0),
                (b"REMOVE 1\n" * many + b"?" * 65, b"FALSE\n" * many + b"LONG\n", 0), (b"\n" * 1_000_000, b"BAD\n" * 1_000_000 + b"LIMIT\n", 0)]
    with serving(program, ONE_LIST, 5, ROOM, 10) as server:
        speak_at_once(server, [functools.partial(speak, *it) for it in sessions])
        with contextlib.ExitStack() as held:  # each seat serves further clients, however its last session ended
            for _ in sessions:
                connection = held.enter_context(server.connect())
                connection.settimeout(SOON)
                asks(connection, b"CONTAINS 1\n", b"FALSE\n")
        calls = 2 * few + 2 * many + len(sessions)
        server.ends(10, calls, calls, [])
