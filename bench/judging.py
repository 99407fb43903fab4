"""Measures `judge` on recordings, and compares it with a judge written by hand (peer_judge.rs)."""

import collections
import os
import random
import tempfile

from build_benches import by_rustc
from measuring import built, heading, instructions_of, least, memory_of, row, seconds_of

MILLION = 1_000_000
THREADS, KEYS = 16, 64
RUNS = 3

# The recordings: the name, the numbers of calls, threads and keys, and whether one additional call overlaps all other
# calls.
RECORDINGS = {
    "2 threads": (MILLION, 2, KEYS, False),
    "8 threads": (MILLION, 8, KEYS, False),
    "16 threads": (MILLION, THREADS, KEYS, False),
    "16 threads, 10,000,000 calls": (10 * MILLION, THREADS, KEYS, False),
    "64 threads": (MILLION, 64, KEYS, False),
    "512 threads": (MILLION, 512, KEYS, False),
    "4,096 threads": (MILLION, 4_096, KEYS, False),
    "100,000 calls pending at once": (MILLION, 200_000, KEYS, False),
    "100,000 calls pending, of one key": (MILLION, 200_000, 1, False),
    "one call spans all": (MILLION, THREADS, KEYS, True),
    "512 keys": (MILLION, THREADS, 512, False),
    "2,000 keys": (MILLION, THREADS, 2_000, False),
    "8,000 keys": (MILLION, THREADS, 8_000, False),
    "20,000 keys": (MILLION, THREADS, 20_000, False),
    "100,000 keys": (MILLION, THREADS, 100_000, False),
    "a million keys": (MILLION, THREADS, MILLION, False),
}


def judge():
    """Prints the table of recordings. Each time is the minimum of several runs. The runs alternate between the two
    judges. Each size is the peak memory. The instructions per call are counted in a recording with a tenth of the
    calls. The last column is the ratio of the instructions for the whole recording and for the tenth.
    """
    measures = "`judge`, s", "KB", "by hand, s", "KB", "ratio of s", "of KB", "instructions a call", "by hand", "ratio", "ten times"
    heading("Recording", *measures)
    with tempfile.TemporaryDirectory(prefix="bench-") as room:
        programs = [built("listset"), "judge"], [by_rustc("peer_judge.rs", room)]
        for name, asked in RECORDINGS.items():
            file = write(f"{room}/recording", *asked)
            ours, hand = least([seconds_of(words, file, os.devnull, 0) for words in programs] for _ in range(RUNS))
            kb, hand_kb = (memory_of(words, file) or 0 for words in programs)
            cells = [name, f"{ours:.2f}", f"{kb:,}", f"{hand:.2f}", f"{hand_kb:,}", f"{ours / hand:.2f}", ratio(kb, hand_kb)]
            row(*cells, *instructions(programs, room, file, *asked))


def write(file, *asked):
    """Writes a recording to a file and returns the path of the file."""
    with open(file, "w", encoding="ascii") as it:
        it.writelines(lines_of(*asked))
    return file


def ratio(ours, hand):
    return f"{ours / hand:.2f}" if ours and hand else "-"


def instructions(programs, room, whole, calls, *asked):
    """Returns the table cells about instructions. The first two cells are the instructions per call of `judge` and of
    the judge written by hand, counted in a recording with a tenth of the calls. The third cell is their ratio. The last
    cell is the ratio of `judge`'s instructions for the whole recording and for the tenth, or `-` if the recording has
    more than a million calls.
    """
    file = write(f"{room}/tenth", calls // 10, *asked)
    ours, hand = (instructions_of(words, file) or 0 for words in programs)
    all_ours = (instructions_of(programs[0], whole) or 0) if calls <= MILLION else 0
    return f"{10 * ours // calls:,}", f"{10 * hand // calls:,}", ratio(ours, hand), ratio(all_ours, ours)


def lines_of(calls, threads, keys, has_spanning):
    """Yields the lines of a recording. In each round, a random thread begins a call or ends its pending call. A call takes
    effect when it starts or when it ends.
    """
    yield "listset-calls 1\n"
    if has_spanning:
        yield f"call {threads} add {keys} 1 {2 * calls + 2} true\n"
    there, begun = {keys} if has_spanning else set(), collections.deque()
    for made in overlapping(random.Random(1), calls, threads, keys, there):
        begun += [made] if made else []
        while begun and begun[0][4]:
            thread, word, key, begin, end, reply = begun.popleft()
            yield f"call {thread} {word} {key} {begin} {end} {reply}\n"
    yield from (f"key {key}\n" for key in sorted(there))
    yield "end\n"


def overlapping(draw, calls, threads, keys, there):
    """Yields each call when the call begins, and None when a call has ended. When a call takes effect, the call changes
    `there`, the keys of the set.
    """
    pending, left, moment = {}, calls, 1
    while left or pending:
        thread = draw.randrange(threads) if left else next(iter(pending))
        moment += 1
        if thread in pending:
            made = pending.pop(thread)
            made[4:] = moment, made[5] or effect_of(made, there)
            yield None
        else:
            made = pending[thread] = [thread, draw.choice(("add", "remove", "contains")), draw.randrange(keys), moment, None, None]
            made[5] = effect_of(made, there) if draw.random() < 0.5 else None
            left -= 1
            yield made


def effect_of(made, there):
    """Applies a call to the set and returns its reply."""
    word, key = made[1:3]
    is_true = (key in there) != (word == "add")
    if is_true and word != "contains":
        there ^= {key}
    return "true" if is_true else "false"
