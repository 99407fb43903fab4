"""Tests servers on the loopback: `listset serve` and, if it is installed, Redis. Also tests a client that checks
and then acts, a client that reads from a replica, and paused or lost connections.

python3 -m unittest discover -s tests -t tests
"""

import contextlib
import os
import shutil
import socket
import subprocess
import sys
import tempfile
import threading
import time
import unittest

import listset_judge
import listset_servers

FEW = {"threads": 4, "calls": 250, "keys": 4, "runs": 4, "pauses": 0}
SESSIONS = 3 * FEW["runs"] * (FEW["threads"] + 1)  # (if the calls of a run did not overlap, the run is repeated up to twice)
SECONDS = 30  # the maximum wait until a server listens or ends


class CheckThenAct(listset_servers.Redis):
    """A client whose `add` sends two requests. Requests of other clients can arrive between the two."""

    def add(self, key):
        return not self.contains(key) and (super().add(key) or True)


class Again(listset_servers.Redis):
    """A client that repeats an `add` whose outcome is unknown."""

    def add(self, key):
        reply = super().add(key)
        return super().add(key) if reply is None else reply


def free_port():
    with socket.create_server(("127.0.0.1", 0)) as found:
        return found.getsockname()[1]


class Served(unittest.TestCase):
    def test_listset_serve_is_linearizable(self):
        program = os.environ.get("LISTSET", "listset")
        if program.endswith(".js"):
            self.skipTest("node has no server")
        words = [program, "serve", "lazy", FEW["threads"] + 1, 16_384, 0, SESSIONS]
        server = subprocess.Popen([*map(str, words)], stdin=subprocess.DEVNULL, stdout=subprocess.PIPE, text=True)
        self.addCleanup(server.stdout.close)
        self.addCleanup(server.wait, SECONDS)
        self.addCleanup(server.kill)
        port = int(server.stdout.readline().rpartition(":")[2])
        verdict = listset_judge.judge(lambda: listset_servers.Listset(port), opens_with_keys=True, **FEW)
        self.assertIn(verdict.calls, range(4000, 12_001, 1000))
        self.assertGreater(verdict.overlapped, 0)
        print(verdict)

    def test_a_refused_connection_is_one_sentence(self):
        with self.assertRaisesRegex(listset_judge.NoVerdict, "the set could not be created: .*refused"):
            listset_judge.judge(lambda: listset_servers.Redis(free_port()), **FEW)

    def test_a_missing_answer_is_an_unknown_outcome(self):
        with socket.create_server(("127.0.0.1", 0)) as listening:
            server = listset_servers.Server(listening.getsockname()[1], seconds=1)
            self.assertIsNone(server.ask("ADD 1", {"TRUE": True}))
            with listening.accept()[0] as lost:
                lost.recv(100)
            threading.Thread(target=self.answer, args=[listening], daemon=True).start()
            self.assertIs(server.ask("ADD 1", {"TRUE": True}), True)

    def answer(self, listening):
        with listening.accept()[0] as connection:
            connection.recv(100)
            connection.sendall(b"TRUE\r\n")


@unittest.skipUnless(shutil.which("redis-server"), "redis-server is not installed: Debian's package redis-server")
class OfRedis(unittest.TestCase):
    def setUp(self):
        self.port = self.started()

    def started(self, *more):
        port, room = free_port(), tempfile.mkdtemp()  # (a replica writes a file in this folder)
        self.addCleanup(shutil.rmtree, room)
        words = ["redis-server", "--bind", "127.0.0.1", "--port", port, "--dir", room, "--save", "", "--appendonly", "no", *more]
        server = subprocess.Popen([*map(str, words)], stdin=subprocess.DEVNULL, stdout=subprocess.DEVNULL)
        self.addCleanup(server.wait, SECONDS)
        self.addCleanup(server.terminate)
        self.wait_until(lambda: self.asked(port, "PING") == "+PONG")
        return port

    def asked(self, port, line):
        with contextlib.suppress(OSError):
            return listset_servers.Connection(port, SECONDS).ask(line)

    def wait_until(self, is_done):
        for _ in range(SECONDS * 20):
            if is_done():
                return
            time.sleep(0.05)
        self.fail("redis-server is not ready")

    def test_redis_is_linearizable(self):
        verdict = listset_judge.judge(lambda: listset_servers.Redis(self.port), **FEW)
        self.assertIn(verdict.calls, range(4000, 12_001, 1000))
        self.assertGreater(verdict.overlapped, 0)
        print(verdict)

    def test_check_then_act_is_refused(self):
        with self.assertRaises(listset_judge.NotLinearizable) as refused:
            listset_judge.judge(lambda: CheckThenAct(self.port), **{**FEW, "runs": 20})
        print(refused.exception)

    def test_a_replica_that_is_read_is_refused(self):
        replica = self.started("--replicaof", f"127.0.0.1 {self.port}")
        self.wait_until(lambda: self.asked(self.port, "WAIT 1 100") == ":1")
        with self.assertRaises(listset_judge.NotLinearizable) as refused:
            listset_judge.judge(lambda: listset_servers.Redis(self.port, read_at=replica), pauses=0)
        print(refused.exception)

    def test_late_and_lost_answers_are_unknown_outcomes(self):
        breaks = f"import listset_servers, time; c = listset_servers.Connection({self.port}, 9)\nwhile True: c.ask('CLIENT PAUSE 150'); time.sleep(0.4); c.ask('CLIENT KILL TYPE normal'); time.sleep(0.1)"
        breaking = subprocess.Popen([sys.executable, "-c", breaks])
        self.addCleanup(breaking.wait)
        self.addCleanup(breaking.kill)
        late = {"pauses": 0, "threads": 4, "calls": 2500, "keys": 4, "runs": 2}
        verdict = listset_judge.judge(lambda: listset_servers.Redis(self.port, seconds=0.05), **late)
        self.assertGreater(verdict.overlapped, 0)
        print(verdict)
        with self.assertRaises(listset_judge.NotLinearizable) as refused:
            listset_judge.judge(lambda: Again(self.port, seconds=0.05), **{**late, "runs": 100})
        print(refused.exception)


if __name__ == "__main__":
    unittest.main()
