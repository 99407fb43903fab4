"""Judges the set that the variable SET names, with the options in HOW, such as "threads=4 runs=2". Judges the set once,
or TESTS times. Prints the result and its kind.
"""

import os
import pathlib
import random
import sys
import threading
import time
import unittest

sys.path.insert(0, str(pathlib.Path(__file__).resolve().parent.parent))
import listset_judge  # noqa: E402


class Right:
    def __init__(self):
        self.keys, self.lock = set(), threading.Lock()

    def add(self, key):
        with self.lock:
            return key not in self.keys and (self.keys.add(key) or True)

    def remove(self, key):
        with self.lock:
            return key in self.keys and (self.keys.discard(key) or True)

    def __contains__(self, key):
        return key in self.keys


class Named(Right):
    """A set that is correct except for the bug that its name describes. `E later` stands for the bug E if the file
    `judged` exists, otherwise for `finds all`.
    """

    def __init__(self, name):
        super().__init__()
        if name.endswith(" later"):
            name = name.removesuffix(" later") if os.path.exists("judged") else "finds all"
        self.name, self.calls, self.parts = name, 0, {}
        if name == "opens":
            self.keys = {1, 3}
        if name == "not made":
            raise RuntimeError("no room")
        if name == "ends":
            threading.Timer(random.random() * 0.04, os._exit, [3]).start()

    def __del__(self):
        """Ends the process when the set is deleted, if the set's name requests an exit."""
        if self.name == "ends when deleted":
            os._exit(3)

    def part(self, key):
        """Returns the set that contains `key`: the whole set or, with "first use", a set for `key` alone. The first
        call with `key` creates the set for `key`. The bug: two overlapping calls can both create one.
        """
        if self.name != "first use":
            return super()
        if key not in self.parts:
            self.parts[key] = Right()
        return self.parts[key]

    def place(self, key):
        """Returns the key that the set uses instead of `key`. With "collides", the set uses the remainder modulo 64, so
        some different keys are treated as one key.
        """
        return key % 64 if self.name == "collides" else key

    def called(self, call, key):
        """Makes a call. With "not known" or "again", loses one reply in fifty. With "not known", the outcome of the
        call is then unknown; with "again", the call is repeated.
        """
        reply, is_lossy = call(self.place(key)), self.name in ("not known", "again")
        self.calls += is_lossy
        if not is_lossy or self.calls % 50:
            return reply
        return call(key) if self.name == "again" else None

    def stop(self):
        """Fails during a later `remove` while the lock is held. STOPS maps the name of a set to the set's failure."""
        self.calls += 1
        if self.calls >= (10_000 if self.name == "crashes late" else 30):  # (>= because two threads can count at the same time)
            with self.lock:
                STOPS[self.name]()

    def add(self, key):
        if self.name == "check then act":
            return key not in self and (super().add(key) or True)
        reply = self.called(self.part(key).add, key)
        return None if self.name == "answers none" else reply

    def remove(self, key):
        if self.name in STOPS:
            self.stop()
        return self.called(self.part(key).remove, key)

    def __contains__(self, key):
        if self.name == "loses contains":
            return None
        is_late = self.name == "finds all late"
        self.calls += is_late
        return self.name == "finds all" or is_late and self.calls > 8000 or self.part(key).__contains__(self.place(key))


class NoContains:
    add = remove = lambda self, key: True


def fails():
    raise MemoryError("no memory")


STOPS = {"hangs": lambda: time.sleep(1 << 20), "naps": lambda: time.sleep(1.2), "crashes": os.abort, "crashes late": os.abort, "exits": lambda: os._exit(3), "throws": fails}
KEYS = {"texts": lambda number: f"key {number}", "twice": lambda number: f"key {number // 2}"}
KINDS = {listset_judge.NotLinearizable: "refused", listset_judge.CutShort: "cut short", listset_judge.TooFew: "too few", listset_judge.NoVerdict: "none", unittest.SkipTest: "skipped"}


def judged(name, how):
    how = dict(it.split("=") for it in how)
    how = {word: it if word == "record" else bool(int(it)) if word in ("own_process", "opens_with_keys") else int(it) for word, it in how.items()}
    try:
        make = {"object": object, "no contains": NoContains}.get(name, lambda: Named(name))
        return "ok", listset_judge.judge(make, key=KEYS.get(name), **how | ({"record": 5} if name == "record 5" else {}))
    except tuple(KINDS) as why:
        return KINDS[type(why)], why


if __name__ == "__main__":
    for _ in range(int(os.environ.get("TESTS", 1))):
        print("verdict: {}\n{}".format(*judged(os.environ["SET"], os.environ["HOW"].split())))
