"""Records the calls of several threads on a set, in a file that `listset judge FILE` reads: python3 record.py FILE."""
import itertools, random, sys, threading

sys.setswitchinterval(1e-6)  # threads switch often, so that calls overlap

class MySet:  # replace it by your own
    def __init__(self): self.keys, self.lock = set(), threading.Lock()
    def contains(self, key):
        with self.lock: return key in self.keys
    def add(self, key):
        with self.lock: return key not in self.keys and not self.keys.add(key)
    def remove(self, key):
        with self.lock: return key in self.keys and not self.keys.remove(key)

def record(made, file, threads=8, calls=1000, keys=4):  # made: an empty set
    tickets, made_calls, all_there = itertools.count(1), [], threading.Barrier(threads)
    def run(thread):
        draw = random.Random(thread)
        all_there.wait()
        for _ in range(calls):
            word, key = draw.choice(["add", "remove", "contains"]), draw.randrange(keys)
            begin = next(tickets)  # a single atomic step
            reply = getattr(made, word)(key)
            end = next(tickets)
            made_calls.append((begin, f"call {thread} {word} {key} {begin} {end} {str(reply).lower()}"))
    started = [threading.Thread(target=run, args=[it]) for it in range(threads)]
    for it in started: it.start()
    for it in started: it.join()
    left = [f"key {it}" for it in range(keys) if made.contains(it)]
    open(file, "w").write("\n".join(["listset-calls 1", *(line for _, line in sorted(made_calls)), *left, "end\n"]))

record(MySet(), sys.argv[1])
