"""Judges a set in Redis, and a set in Redis whose `contains` reads from a replica: redis.py TESTS. TESTS is the number
of tests for each of the two sets. Starts the servers on the loopback. Prints a table row for each set, and each set's
shortest refusal on standard error.
"""

import contextlib
import os
import pathlib
import socket
import subprocess
import sys
import tempfile
import time

sys.path.insert(0, str(pathlib.Path(__file__).resolve().parent.parent / "python"))
import listset_judge  # noqa: E402
import listset_servers  # noqa: E402

SECONDS = 30  # the maximum wait until a server is ready


@contextlib.contextmanager
def started(room, *more):
    """Starts a server and returns its port."""
    with socket.create_server(("127.0.0.1", 0)) as found:
        port = found.getsockname()[1]
    words = ["redis-server", "--bind", "127.0.0.1", "--port", port, "--dir", room, "--save", "", "--appendonly", "no", *more]
    server = subprocess.Popen([*map(str, words)], stdin=subprocess.DEVNULL, stdout=subprocess.DEVNULL)
    try:
        wait_until(port, "PING", "+PONG")
        yield port
    finally:
        server.terminate()
        server.wait()


def wait_until(port, line, reply):
    for _ in range(20 * SECONDS):
        with contextlib.suppress(OSError):
            if listset_servers.Connection(port, SECONDS).ask(line) == reply:
                return
        time.sleep(0.05)
    sys.exit("redis.py: redis-server is not ready")


def judge(name, tests, make):
    refused = []
    for number in range(tests):
        try:
            listset_judge.judge(make, pauses=0, seed=1 + 1000 * number)
        except listset_judge.NotLinearizable as failed:
            refused.append(failed.said)
            os.unlink(failed.file)
    print(f"| {name} | {len(refused)} of {tests} |", flush=True)
    if refused:
        print(f"{name}:\n{min(refused, key=len)}", file=sys.stderr, flush=True)


def main():
    tests = int(sys.argv[1])
    with tempfile.TemporaryDirectory() as room, started(room) as port:
        judge("Redis", tests, lambda: listset_servers.Redis(port))
        with started(room, "--replicaof", f"127.0.0.1 {port}") as replica:
            wait_until(port, "WAIT 1 100", ":1")
            judge("Redis, read at a replica", tests, lambda: listset_servers.Redis(port, read_at=replica))


if __name__ == "__main__":
    main()
