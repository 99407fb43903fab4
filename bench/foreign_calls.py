"""Makes the same calls as foreign_calls.c, on a set of liblistset or on a Python set that a lock protects."""

import random
import sys
import threading
import time


class Locked:
    """A Python set that a lock protects."""

    def __init__(self, keys):
        self.keys, self.lock = keys, threading.Lock()

    def add(self, key):
        with self.lock:
            is_new = key not in self.keys
            self.keys.add(key)
            return is_new

    def remove(self, key):
        with self.lock:
            was_there = key in self.keys
            self.keys.discard(key)
            return was_there

    def contains(self, key):
        with self.lock:
            return key in self.keys


def seats_of(name, threads, keys):
    if name == "set":
        return [Locked(set(keys))] * threads
    import listset

    first = listset.open(name, threads, 16384, keys)
    return [first, *(first.split() for _ in range(1, threads))]


def run(seat, calls, ready, begin):
    ready.wait()
    begin.wait()
    for call, key in calls:
        getattr(seat, call)(key)


def main(name, threads, calls, keys):
    threads, calls, keys = int(threads), int(calls), int(keys)
    seats, draw = seats_of(name, threads, range(0, keys, 2)), random.Random(1)
    ready, begin = threading.Barrier(threads + 1), threading.Barrier(threads + 1)
    drawn = [[(draw.choice(("add", "remove", "contains")), draw.randrange(keys)) for _ in range(calls)] for _ in seats]
    all_threads = [threading.Thread(target=run, args=[*it, ready, begin]) for it in zip(seats, drawn)]
    for it in all_threads:
        it.start()
    ready.wait()
    begun = time.perf_counter_ns()
    begin.wait()
    for it in all_threads:
        it.join()
    print(f"{(time.perf_counter_ns() - begun) / (threads * calls):.2f}")


main(*sys.argv[1:])
