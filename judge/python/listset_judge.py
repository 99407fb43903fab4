"""Tests whether your own concurrent set is linearizable, in one line of a test:

    def test_is_linearizable():
        print(listset_judge.judge(MySet))

MySet() has `add`, `remove`, and `contains` or `in`. Each returns True or False. Threads call new sets. The start and
the end of each call are recorded. A judge decides whether some order of the calls explains their replies.

The judge is the module `listset` if it can be imported. Otherwise it is the program named by the environment variable
LISTSET or, if that is not set, `listset` in PATH. If LISTSET names a listset.js, node runs the file. If LISTSET is
`skip`, the test is skipped.

If the test's process has only one thread and can be forked, each run gets its own process. If a set crashes or hangs in
a run's own process, the calls made so far are judged.
"""

from __future__ import annotations

import collections
import ctypes
import dataclasses
import itertools
import math
import mmap
import os
import pathlib
import random
import re
import signal
import struct
import subprocess
import sys
import tempfile
import threading
import time
import traceback
import unittest
import warnings
from typing import Any, Callable

__all__ = ["CutShort", "Failed", "NoVerdict", "NotLinearizable", "TooFew", "Verdict", "judge"]

__tracebackhide__ = True  # (pytest then shows only the line of the test)

GOING, ENDED, UNMADE = range(3)
MOST_SHOWN = 16  # the maximum number of pending calls in a message
# The maximum number of `contains` calls made to find out whether a key is in the set at the start or at the end. A call
# is repeated while its outcome is unknown.
MOST_ASKED = 100
WORDS = ADD, REMOVE, CONTAINS = "add", "remove", "contains"
NO, YES, UNKNOWN = range(3)
FIRST_LINE = "listset-calls 1\n"
OVERLAPPED = re.compile("ok [0-9]+ calls\n([0-9]+) of them")
OF_KEY = re.compile("of key ([0-9]+) ")
CONTRADICTIONS = re.compile("([0-9]+) (?:contradiction|of its )")
Call = collections.namedtuple("Call", "begin end thread call key reply")
# The sizes of a run: the number of threads, of new sets used one after another, of calls per thread and set, and of
# keys. The keys are the multiples of `times`.
Shape = collections.namedtuple("Shape", "name threads sets calls keys times")

# The outcome of a run: the judge's output (`refused`) if no order explains the calls, the reason (`trouble`) if the run was
# cut short, and the pending calls.
Outcome = collections.namedtuple("Outcome", "seed shape file overlapped refused trouble pending")

# PART and MEET are numbers of calls. PATIENCE, FURTHER_FOR and FURTHER_MOST are in seconds.
# The lines below are made of words.json by judge/make_words.
PRESETS = (
    Shape("few keys", 4, 1, 5000, 4, 1),
    Shape("fresh sets", 4, 40, 10, 4, 1),
    Shape("multiples of 64", 4, 1, 5000, 8, 64),
    Shape("one key", 3, 1, 5000, 1, 1),
    Shape("sets that grow", 4, 20, 125, 64, 1),
    Shape("many keys", 4, 1, 2500, 1000, 1),
    Shape("multiples of 1,000", 8, 1, 2500, 8, 1000),
)
RANGES = (
    ("threads", 1, 64),
    ("threads times calls", 1, 1000000000),
    ("keys", 1, 1048576),
    ("pauses", 0, 100),
    ("runs", 1, 1000000),
    ("seconds", 1, 3600),
    ("within", 1, 604800),
    ("at_least", 0, 100),
    ("the sum of shares", 1, 1000000),
)
PART, LONGEST, HOT, ENOUGH, HARDER, PATIENCE, MEET, AWAKE, SLOW, WITHIN, FURTHER, FURTHER_FOR, FURTHER_MOST, CLEAR, LONGER = 20000, 100, 4, 5, 2, 10, 250, 300000, 10, 60, 4, 3, 10, 10, 4
OK = "ok: %s calls, and %s of them overlapped a change of their key"
FEW = "few calls overlapped, so ok means little: %s calls, and %s of them overlapped a change of their key"
FEWER_RUNS = "; only %s of %s runs were made, because no run begins after %s s (option within)"
TOO_FEW = "too few calls overlapped: %s of %s calls overlapped a change of their key, and at_least requires %s of 100. If the machine is busy, raise within. Otherwise use fewer keys or more threads"
FAILED_RUN = "%s\n\nseed %s (%s), %s threads%s; recorded in %s%s; judge: %s"
RANGE = "%s is %s, but must be %s to %s"
TWICE = "the key function returns %s for %s and for %s, but must return a different key for each number"
HUNG = "the set hung: no call began or ended for %s s"
CRASHED = "the set crashed: %s"
ENDED_SO = "the set ended its process with status %s"
THREW = "a call of the set failed: %s"
NOT_MADE = "the set could not be created: %s"
NO_OPENING = "contains of an opening key had no known outcome in %s calls"
UNDER_WAY = "%s\npending:%s\nbefore that: %s"
EXPLAINED = "some order explains the calls"
PASSED_BEFORE = "; passed before: %s"
REFUSED_OF = "; longer runs followed the first refusal: %s of %s runs were refused"
PENDING_CALL = "\n  thread %s: %s %s%s, begun at moment %s"
IS_KEY = " (key %s of the recording)"
KEY_IS = "; key %s above means key %s"
IN_SET = ", in set number %s of those that the run created"
MADE_HARDER = "; with changed sizes, because few calls overlapped"
NO_FOLDER = "no file can be written in %s: set record to another folder"
NO_RECORD = "the variable LISTSET_RECORD is %s, but no file can be written there: set it to another folder"
NO_TEMPORARY = "no file can be written in %s, the folder for temporary files: set the variable TMPDIR (in Java the property java.io.tmpdir) to another folder"
NO_JUDGE = "no judge was found: %s cannot be run. Copy the file judge/listset.js of this judge's repository, and set LISTSET to its path (Node 18 runs it); or put the program listset in PATH. LISTSET=skip skips this test"
NO_SCRIPT = "the variable LISTSET is %s, but no file is at %s: set LISTSET to the full path of listset.js"
NO_NODE = "no judge was found: LISTSET is %s, which needs Node 18 or newer, but no node is in PATH"
OLD_NODE = "node is %s, but %s needs Node 18 or newer"
IS_FOLDER = "%s is a folder: set LISTSET to the program in it"
NO_VERDICT = "%s printed no verdict, but: %s. Use a newer listset"
AND_MORE = "\n  and %s more"
ALONE = ", the calls that show it in %s"
SKIPPED = "skipped: LISTSET is skip"
NOT_IN_CI = "LISTSET is skip, but the variable CI is set: in CI no test is skipped"
NUMBER = "the variable %s is %s, but must be a number from %s to %s"
# end of what is made


@dataclasses.dataclass(frozen=True)
class Verdict:
    """The result of a successful test: some order explains each run. `overlapped` is the number of calls that
    overlapped a change of their key, as counted by the judge. `judge` is the judge's name, and whether the judge states
    that it is proved. `fewer_runs` is the part of the text about runs that were not performed because of the argument
    `within`; it is empty if all runs were performed. str() formats the result.
    """

    calls: int
    overlapped: int
    judge: str
    fewer_runs: str = ""

    @property
    def is_few(self) -> bool:
        """Returns whether so few calls overlapped that the verdict `ok` means little."""
        return is_few(self.overlapped, self.calls)

    def __str__(self) -> str:
        return f"{(FEW if self.is_few else OK) % (self.calls, self.overlapped)}{self.fewer_runs}; judge: {self.judge}"


class Failed(AssertionError):
    """A failed run: its seed, the judge's output (`said`), and the file with the run's recording."""

    def __init__(self, seed: int, said: str, file: pathlib.Path, text: str):
        self.seed, self.said, self.file = seed, said, file
        super().__init__(text)


class NotLinearizable(Failed):
    """Raised if no order explains a run."""


class CutShort(Failed):
    """Raised if the set crashed, hung or raised an error during a run. The run's earlier calls were judged."""


class TooFew(AssertionError):
    """Raised if fewer calls than `at_least` requires overlapped a change of their key."""


class NoVerdict(Exception):
    """Raised if nothing is known about the set: an option is out of range, no set could be created, the set lacks an
    operation, or no judge was found.
    """


class Options(collections.namedtuple("Options", "threads calls keys key pauses runs seed seconds within at_least shares own_process opens_with_keys record")):
    """The arguments of `judge`."""

    def check(self) -> None:
        first = [1 if it is None else it for it in (self.threads, self.calls, self.keys)]
        all_calls = first[0] * first[1] if all(isinstance(it, int) for it in first) else 1
        shares = sum(self.shares) if min(self.shares) >= 0 else min(self.shares)
        given = (first[0], all_calls, first[2], self.pauses, self.runs, self.seconds, self.within, self.at_least, shares)
        for (name, least, most), it in zip(RANGES, given):
            if not (isinstance(it, int) and least <= it <= most):
                raise NoVerdict(RANGE % (name, it, least, most))
        if not isinstance(self.record, (str, os.PathLike, type(None))):
            raise NoVerdict(f"record is {self.record!r}, but must be the path of a folder")

    def by_environment(self) -> Options:
        """Applies the environment variables. If LISTSET_SECONDS is set, runs are repeated for that many seconds, with
        seeds that count up from the current time. LISTSET_SEED is the first seed.
        """
        most = {name: most for name, _, most in RANGES}
        seconds = number_of("LISTSET_SECONDS", None, 1, most["within"])
        it = self._replace(within=seconds, runs=most["runs"], seed=int(time.time())) if seconds else self
        return it._replace(seed=number_of("LISTSET_SEED", it.seed, 0, 2**32 - 1))

    def has_own_process(self) -> bool:
        """Returns whether a run that begins now gets its own process."""
        return self.own_process and hasattr(os, "fork") and threading.active_count() == 1

    def is_replay(self) -> bool:
        """Returns whether the test repeats a run: its seed is from LISTSET_SEED, or the argument `seed` is not 1."""
        return bool(os.environ.get("LISTSET_SEED")) or self.seed != 1 and not os.environ.get("LISTSET_SECONDS")

    def fewer_runs(self, made: int) -> str:
        """Returns the part of the message about runs that are not performed because time has run out. Returns an empty
        string if LISTSET_SECONDS is set (the number of runs is then not fixed).
        """
        return "" if os.environ.get("LISTSET_SECONDS") else FEWER_RUNS % (made, self.runs, self.within)

    def shape_of(self, seed: int) -> Shape:
        """Returns the preset that belongs to `seed`, modified by the options."""
        it = PRESETS[(seed - 1) % len(PRESETS)]
        if it.sets == 1:
            it = it._replace(calls=it.calls // (SLOW if it.keys <= 2 * HOT else 2))
        elif it.keys > 2 * HOT:
            it = it._replace(sets=it.sets // 4)
        it = it._replace(threads=self.threads or it.threads)
        if self.keys or self.key:
            it = it._replace(keys=self.keys or it.keys, times=1)
        if self.calls or self.opens_with_keys:
            it = it._replace(calls=self.calls or it.sets * it.calls, sets=1)
        return it

    def harder(self, it: Shape) -> Shape:
        """Returns the sizes of a run with more overlapping calls: more threads (possibly more than processors) and
        fewer keys, unless the options set the numbers. The total number of calls does not grow.
        """
        threads = self.threads or min(max(2 * it.threads, (os.cpu_count() or 1) + 2), 64)
        return it._replace(threads=threads, calls=self.calls or max(it.calls * it.threads // threads, 1), keys=self.keys or max(it.keys // 2, 1))

    def check_keys(self, it: Shape) -> None:
        seen = {}
        for number in range(it.keys):
            key = self.key_of(number, it)
            if seen.setdefault(key, number) != number:
                raise NoVerdict(TWICE % (repr(key), seen[key], number))

    def key_of(self, number: int, it: Shape) -> Any:
        """Converts a number to a key. Each call creates a new object."""
        return (self.key or int)(number * it.times)


def number_of(variable: str, other: int | None, least: int, most: int) -> int | None:
    """Returns the number in an environment variable, or `other` if the variable is not set."""
    text = os.environ.get(variable)
    if not text:
        return other
    if not (re.fullmatch("[0-9]{1,18}", text) and least <= int(text) <= most):
        raise NoVerdict(NUMBER % (variable, text, least, most))
    return int(text)


def judge(make: Callable[[], Any], *, threads: int | None = None, calls: int | None = None, keys: int | None = None,
          key: Callable[[int], Any] | None = None, pauses: int = 20, runs: int = 20, seed: int = 1, seconds: int = 30, within: int = WITHIN,
          at_least: int = 0, adds: int = 1, removes: int = 1, finds: int = 1, own_process: bool = True,
          opens_with_keys: bool = False, record: str | os.PathLike | None = None) -> Verdict:
    """Judges the sets that `make` creates and returns a Verdict. Raises NotLinearizable if no order explains a run, and
    CutShort if a set crashes or hangs.

    threads -- the number of threads that call a set at the same time: 1 to 64; None selects the preset's number
    calls -- the number of calls of each thread: at least 1, and at most 1,000,000,000 for all threads together; None
             selects the preset's number; after every 20,000 calls, the threads wait until these calls are written to the
             file
    keys -- the number of keys: 1 to 1,048,576; None selects the preset's number; with more than eight keys, half of
            the calls use the first four
    key -- converts a number to a key; must return a different key for each number
    pauses -- how often a thread lets other threads run before a line of the set, in percent: 0 to 100; in one call of
              ten, also before a bytecode instruction
    runs -- the number of runs: 1 to 1,000,000; a run calls one set, or several new sets one after another
    seed -- the random seed for the calls, keys and pauses of the first run; each later run uses the next seed; if the first
            seed is not 1, no further runs follow a refusal
    seconds -- if no call begins or ends for this many seconds, a run is considered hung and is cut short: 1 to 3,600
    within -- after this many seconds, the test begins no new run: 1 to 604,800
    at_least -- raises TooFew if less than this percentage of the calls overlap a call that adds or removes the same key
    adds, removes, finds -- the relative frequencies of add, remove and contains
    own_process -- if False, sets are called in this process, which crashes or hangs with them; useful for debuggers
                   and coverage
    opens_with_keys -- if True, `contains` is called for each key before all other calls to record the opening keys
    record -- the folder for the recordings of all runs; if None, only the recording of a failed run is kept, in the
              folder that the variable LISTSET_RECORD names, or else in the folder for temporary files

    If a call returns None, its outcome is unknown, for example after a timeout.
    """
    how = Options(threads, calls, keys, key, pauses, runs, seed, seconds, within, at_least, (adds, removes, finds), own_process, opens_with_keys, record)
    how.check()
    if os.environ.get("LISTSET") == "skip":
        if os.environ.get("CI"):
            raise NoVerdict(NOT_IN_CI)
        raise unittest.SkipTest(SKIPPED)
    tester = Tester(make, how.by_environment())
    verdict = tester.all()
    if verdict.overlapped * 100 < verdict.calls * at_least:
        raise TooFew(TOO_FEW % (verdict.overlapped, verdict.calls, at_least))
    if verdict.is_few:
        warnings.warn(str(verdict), RuntimeWarning, stacklevel=2)  # (the output of a test that passes can be hidden)
    return verdict


def is_few(overlapped: int, calls: int) -> bool:
    """Returns whether so few calls overlapped that the verdict `ok` means little."""
    return overlapped * 100 < calls * ENOUGH


class Tester:
    """The state of a test. Judges runs one after another."""

    def __init__(self, make: Callable[[], Any], how: Options):
        self.make, self.how, self.by, self.calls, self.overlapped = make, how, Judge(), 0, 0
        self.until = time.monotonic() + how.within

    def all(self) -> Verdict:
        """Performs the requested runs, each up to three times, and then more runs as long as few calls have overlapped.
        Raises the error of a failed run.
        """
        began, how, fewer_runs = time.monotonic(), self.how, ""
        for seed in range(how.seed, how.seed + how.runs):
            if seed > how.seed and time.monotonic() > self.until:
                fewer_runs = how.fewer_runs(seed - how.seed)
                break
            shape = how.shape_of(seed)
            for _ in range(HARDER + 1):
                if not self.judged_run(seed, shape) or time.monotonic() > began + PATIENCE:
                    break
                shape = how.harder(shape)
        end = min(self.until, time.monotonic() + PATIENCE)
        while is_few(self.overlapped, self.calls) and time.monotonic() < end:
            seed += 1
            self.judged_run(seed, how.harder(how.harder(how.shape_of(seed))))
        return Verdict(self.calls, self.overlapped, str(self.by), fewer_runs)

    def judged_run(self, seed: int, shape: Shape) -> bool:
        """Performs a run and judges its recording. Returns whether few of the run's calls overlapped. Raises Failed if
        the run failed.
        """
        its = self.outcome(seed, shape)
        calls = shape.threads * shape.sets * shape.calls
        self.calls, self.overlapped = self.calls + calls, self.overlapped + its.overlapped
        if its.trouble:
            said = UNDER_WAY % (its.trouble, self.shown(its.pending, shape), its.refused or EXPLAINED)
            raise CutShort(seed, said, its.file, self.told(its, said, "", its))
        if its.refused:
            best, refused_of = self.clearest(its)
            raise NotLinearizable(best.seed, best.refused, best.file, self.told(best, best.refused, refused_of, its))
        return is_few(its.overlapped, calls)

    def outcome(self, seed: int, shape: Shape, until: float = math.inf) -> Outcome:
        """Performs a run and judges its recording. Keeps the recording if the run failed. Cuts the run short at the
        time `until`.
        """
        self.how.check_keys(shape)
        file, is_failed = recording_of(seed, self.how.record), False
        try:
            trouble, pending = Run(self.make, self.how, shape, seed, file, until).ended()
            overlapped, refused = self.by.judged(file)
            is_failed = bool(trouble or refused)
        finally:
            if not is_failed:
                self.drop(file)
        return Outcome(seed, shape, file, overlapped, refused, trouble, pending)

    def drop(self, file: pathlib.Path) -> None:
        """Deletes a recording, unless the recordings of all runs are kept."""
        if self.how.record is None:
            file.unlink()

    def clearest(self, first: Outcome) -> tuple[Outcome, str]:
        """Performs longer runs with the preset of a refused run and later seeds, until a run cannot be completed. They
        begin and end within FURTHER_FOR seconds, or within FURTHER_MOST seconds while the best refusal reports fewer
        than CLEAR contradictions. Both times are shorter if the test's own time limits are short. Returns the run whose
        refusal reports the most contradictions, and the part of the message that counts the refused runs.
        """
        if self.how.is_replay() or not self.how.has_own_process():
            return first, ""
        best, refused, runs, shape = first, 1, 1, longer(first.shape)
        begun, least = time.monotonic(), min(10 * FURTHER_FOR, self.how.seconds, self.how.within) / 10
        while runs <= FURTHER:
            is_clear = contradictions_in(best.refused) >= CLEAR
            end = min(self.until, begun + (least if is_clear else least * FURTHER_MOST / FURTHER_FOR))
            if time.monotonic() >= end or not (its := self.further(first.seed + runs * len(PRESETS), shape, end)):
                break
            runs += 1
            refused += bool(its.refused)
            is_better = contradictions_in(its.refused) > contradictions_in(best.refused)
            best, other = (its, best) if is_better else (best, its)
            if other.refused:
                self.drop(other.file)
        return best, REFUSED_OF % (refused, runs) if runs > 1 else ""

    def further(self, seed: int, shape: Shape, until: float) -> Outcome | None:
        """Performs and judges a run with the sizes `shape`. Returns None if the run is cut short or cannot be judged.
        """
        try:
            its = self.outcome(seed, shape, until)
        except (NoVerdict, OSError):
            return None
        if its.trouble:
            self.drop(its.file)
        return None if its.trouble else its

    def told(self, its: Outcome, said: str, refused_of: str, first: Outcome) -> str:
        """Returns the complete message about a failed run. `first` is the first failed run."""
        key, harder = key_in(its.refused), MADE_HARDER if first.shape != self.how.shape_of(first.seed) else ""
        notes = harder + refused_of + self.passed_before(first.seed) + self.key_line(key, its.shape)
        return FAILED_RUN % (said, its.seed, its.shape.name, its.shape.threads, notes, its.file, self.alone(its.file, key), self.by)

    def passed_before(self, seed: int) -> str:
        """Returns the part of the message that names the presets of the earlier runs, which all passed."""
        first = self.how.seed
        names = [self.how.shape_of(it).name for it in range(first, min(seed, first + len(PRESETS)))]
        return PASSED_BEFORE % ", ".join(names) if names else ""

    def key_line(self, number: str, shape: Shape) -> str:
        """Describes the key whose number in the recording is `number` and, if the run has several sets, the key's set.
        Returns an empty string if the key is the number and the run has a single set.
        """
        if not number or shape.sets == 1 and not self.how.key:
            return ""
        key, in_set = self.named(int(number) // shape.times, shape)
        return KEY_IS % (number, key) + in_set

    def named(self, number: int, shape: Shape) -> tuple[str, str]:
        """Returns a key as text and, if the run has several sets, the part of the message that names the key's set."""
        one, at = divmod(number, shape.keys)
        return repr(self.how.key_of(at, shape)), IN_SET % (one + 1) if shape.sets > 1 else ""

    def shown(self, pending: list[Call], shape: Shape) -> str:
        """Returns a line for each pending call, at most MOST_SHOWN."""
        lines = ""
        for it in pending[:MOST_SHOWN]:
            key, in_set = self.named(it.key // shape.times, shape)
            lines += PENDING_CALL % (it.thread, it.call, key, (IS_KEY % it.key if key != str(it.key) else "") + in_set, it.begin)
        return lines + (AND_MORE % (len(pending) - MOST_SHOWN) if len(pending) > MOST_SHOWN else "") or " no call"

    def alone(self, file: pathlib.Path, key: str) -> str:
        """Writes a small file beside the recording, with calls on one key that no order explains. Returns the part of
        the message that names the file.
        """
        text = self.by.only(file, key) if key else ""
        if not text:
            return ""
        small = file.with_name(f"{file.stem}-key-{key}.calls")
        small.write_text(text)
        return ALONE % small


def recording_of(seed: int, record: str | os.PathLike | None) -> pathlib.Path:
    """Creates the file for the recording of a run and returns its path."""
    named = os.environ.get("LISTSET_RECORD")
    folder = pathlib.Path(record or named or tempfile.gettempdir())
    try:
        folder.mkdir(parents=True, exist_ok=True)
        if record is None:
            number, name = tempfile.mkstemp(".calls", f"listset-seed-{seed}-", folder)
            os.close(number)
            return pathlib.Path(name)
        file = folder / f"seed-{seed}.calls"
        file.write_text("")
        return file
    except OSError:
        raise NoVerdict((NO_FOLDER if record is not None else NO_RECORD if named else NO_TEMPORARY) % folder) from None


def key_in(refused: str) -> str:
    """Returns the key that the judge names, as a number."""
    found = OF_KEY.search(refused)
    return found[1] if found else ""


def longer(it: Shape) -> Shape:
    """Returns the sizes of a run with LONGER times as many calls. A run of several sets gets more sets."""
    return it._replace(sets=it.sets * LONGER) if it.sets > 1 else it._replace(calls=it.calls * LONGER)


def contradictions_in(refused: str) -> int:
    """Returns the number of contradictions in a refusal, or 0 if the refusal contains no number."""
    found = CONTRADICTIONS.search(refused)
    return int(found[1]) if found else 0


# ---- a run and its recording


class Run:
    """A run. The calls are recorded in memory that is shared with the set's own process, and are saved in the file
    while the run continues.
    """

    # SLOT is the format of a call: begin, end (0 while it is pending), thread, key, operation, reply. COUNT is the
    # format of a counter for the progress of a thread.
    SLOT, COUNT = struct.Struct("=IIIIBB"), struct.Struct("=Q")
    SAVED = struct.Struct("=QI")  # the length of the file, and the moment when the last call in the file began
    AT = 1000  # the offset of the run's progress in the memory; the error precedes it

    def __init__(self, make, how, shape, seed, file, until):
        self.make, self.how, self.shape, self.seed, self.file, self.until = make, how, shape, seed, file, until
        self.tickets, self.there = itertools.count(1), threading.Barrier(shape.threads + 1)
        self.most = min(shape.calls, PART // shape.threads)  # the maximum number of calls of a thread in a part, between two saves
        self.parts = -(-shape.calls // self.most)  # the number of parts into which the calls on each set are divided
        self.rounds = shape.sets * self.parts
        # The memory contains, in this order: the error; the progress of the run, of each thread and of `contains`; the
        # numbers in SAVED; the calls.
        self.at_saved = self.AT + 1 + (shape.threads + 1) * self.COUNT.size
        self.at_slots = self.at_saved + self.SAVED.size
        self.slots = mmap.mmap(-1, self.at_slots + shape.threads * self.most * self.SLOT.size)

    def count(self, at, number):
        self.COUNT.pack_into(self.slots, self.AT + 1 + at * self.COUNT.size, number)

    @property
    def saved(self):
        return self.SAVED.unpack_from(self.slots, self.at_saved)

    def fail(self, said, at=GOING):
        """Stores the error `said` and the progress `at`. Only the run's first error is kept."""
        if not self.slots[0]:
            said = said.encode()[: self.AT]
            self.slots[: len(said)] = said
            self.slots[self.AT] = at

    # ---- in the process that watches the run

    def ended(self):
        """Performs the run. If the run was cut short, writes the last calls to the file. Returns the reason why the run
        was cut short, and the pending calls; both are empty if the run was completed.
        """
        trouble = self.made_in_child() if self.how.has_own_process() else self.made_here()
        why = self.slots[: self.AT].rstrip(b"\0").decode(errors="replace")
        if self.slots[self.AT] == UNMADE:
            raise NoVerdict(why)
        rows, trouble, (length, _) = self.rows(), why or trouble, self.saved
        if not trouble:
            return "", []
        if not rows and not why and length <= len(FIRST_LINE):
            raise NoVerdict(NOT_MADE % trouble)
        os.truncate(self.file, length)
        with open(self.file, "a") as file:
            file.write("".join(map(line_of, rows)) + "cut\n")
        return trouble, [it for it in rows if not it.end and it.reply != UNKNOWN]

    def made_in_child(self):
        """Performs the run in a child process. Returns the reason if the run was cut short."""
        child, status = os.fork(), []
        if child == 0:
            try:
                end_with_parent()
                self.make_all()
            finally:
                os._exit(0)

        def has_ended():
            pid, found = os.waitpid(child, os.WNOHANG)
            return status.append(found) or True if pid else False

        try:
            if not self.comes_to_end(has_ended):
                return HUNG % self.how.seconds
        finally:
            if not status:
                os.kill(child, signal.SIGKILL)
                os.waitpid(child, 0)
        if os.WIFSIGNALED(status[0]):
            return CRASHED % signal.Signals(os.WTERMSIG(status[0])).name
        ended = os.WEXITSTATUS(status[0])  # (not 0 if the set ended its process in its destructor)
        return ENDED_SO % ended if ended or self.slots[self.AT] == GOING and not self.slots[0] else ""

    def made_here(self):
        """Performs the run in threads of the test's process. Threads that hang keep running. Returns the reason if the
        run was cut short.
        """
        leader = threading.Thread(target=self.make_all, daemon=True)
        leader.start()
        try:
            return "" if self.comes_to_end(lambda: not leader.is_alive()) else HUNG % self.how.seconds
        finally:
            self.there.abort()

    def comes_to_end(self, is_done):
        """Waits until `is_done` returns true. Returns False at the time `until`, or if no call begins or ends for
        `seconds` seconds. A wait counts as at most twice its length, so that a run that gets no processor time does not
        count as hung.
        """
        seen, last, wait, waited = None, time.monotonic(), 0.0005, 0.0
        while not is_done():
            time.sleep(wait)
            waited += min(time.monotonic() - last, 2 * wait)
            last, wait = time.monotonic(), min(2 * wait, 0.02)
            if (now := self.slots[self.AT : self.at_slots]) != seen:
                seen, waited = now, 0.0
            if waited > self.how.seconds or last > self.until:
                return False
        return True

    def rows(self):
        """Returns the calls that have not been saved, sorted by start."""
        (_, last), found = self.saved, self.SLOT.iter_unpack(self.slots[self.at_slots :])
        return sorted(Call(begin, 0 if reply == UNKNOWN else end, thread, WORDS[word], key * self.shape.times, reply)
                      for begin, end, thread, key, word, reply in found if begin > last)

    # ---- the thread that creates the sets

    def make_all(self):
        """Creates the sets of the run, and makes the calls of all threads to them."""
        before = sys.getswitchinterval()
        started = [threading.Thread(target=self.call_in_rounds, args=(i,), daemon=True) for i in range(self.shape.threads)]
        try:
            sys.setswitchinterval(1e-6)
            for it in started:
                it.start()
            self.lead()
            for it in started:
                it.join()
        except Exception as why:
            self.fail(described(why))
        finally:
            sys.setswitchinterval(before)
        self.set = self.replies_of = None  # (deleting the set can raise too)
        self.slots[self.AT] = self.slots[self.AT] or ENDED

    def lead(self):
        """Creates the sets one after another. The threads call each set in parts, and after each part, `lead` writes
        the part's calls to the file.
        """
        left = []
        try:
            with open(self.file, "wb", 0) as file:
                self.save(file, [FIRST_LINE], 0)
                for one in range(self.rounds):
                    if one % self.parts == 0:
                        self.make_set()
                        if self.how.opens_with_keys:
                            self.save(file, self.opening(one), 0)
                    self.there.wait()  # no thread calls the set before all threads are ready
                    self.there.wait()
                    if (one + 1) % self.parts == 0:
                        left += self.lines_of_keys("key", one)
                    rows = self.rows()
                    self.check_replies(rows)
                    if self.there.broken:  # (the run was cut short)
                        return
                    self.save(file, map(line_of, rows), rows[-1].begin)
                # Does not mark the last lines as saved: if the run is still cut short, `cut` replaces them.
                file.write("".join([*left, "end\n"] if None not in left else ["cut\n"]).encode())
        except threading.BrokenBarrierError:
            pass
        finally:
            self.there.abort()

    def save(self, file, lines, last):
        """Appends `lines` to the file, and marks all calls that began no later than the moment `last` as saved."""
        text = "".join(lines).encode()
        file.write(text)
        # If the process ends before the next statement, the calls in `lines` count as not saved, and are read from
        # memory.
        self.SAVED.pack_into(self.slots, self.at_saved, self.saved[0] + len(text), last)

    def opening(self, one):
        lines = self.lines_of_keys("opening", one)
        if None in lines:
            self.fail(NOT_MADE % (NO_OPENING % MOST_ASKED), UNMADE)
            raise threading.BrokenBarrierError
        return lines

    def check_replies(self, rows):
        for word in (ADD, REMOVE):
            if {it.reply for it in rows if it.call == word and (it.end or it.reply == UNKNOWN)} == {UNKNOWN}:
                self.fail(f"every {word} returned None, but must return True or False", UNMADE)

    def make_set(self):
        self.set = self.replies_of = None
        try:
            made = self.set = self.make()
        except Exception as why:
            self.fail(NOT_MADE % described(why), UNMADE)
            raise
        for names in ((ADD,), (REMOVE,), (CONTAINS, "__contains__")):
            if not any(hasattr(made, it) for it in names):
                self.fail(f"the set has no {' and no '.join(names)}", UNMADE)
                raise threading.BrokenBarrierError
        self.replies_of = made.add, made.remove, made.contains if hasattr(made, CONTAINS) else made.__contains__

    def lines_of_keys(self, word, one):
        """Calls `contains` for each key, and calls it again if the outcome is unknown. Returns a list with a line for
        each key found, and None for each key whose outcome stays unknown.
        """
        first, lines = one // self.parts * self.shape.keys, []
        for number in range(self.shape.keys):
            key = self.how.key_of(number, self.shape)
            replies = (self.replies_of[2](key) for _ in range(MOST_ASKED))
            found = next((it for it in replies if it is not None), None)
            if found or found is None:
                lines.append(found and f"{word} {(first + number) * self.shape.times}\n")
            self.count(self.shape.threads, first + number)
        return lines

    # ---- the threads that call the sets

    def call_in_rounds(self, thread):
        """Makes the calls of one thread to the sets, part by part. A part consists of the calls between two saves."""
        draw, number = random.Random(self.seed * 64 + thread), thread
        try:
            for one in range(self.rounds):
                self.there.wait()
                first, of_set = thread * self.most, one // self.parts * self.shape.keys
                places = range(first, first + min(self.most, self.shape.calls - one % self.parts * self.most))
                number = self.call(places, of_set, thread, number, draw)
                self.there.wait()
        except threading.BrokenBarrierError:
            pass
        except Exception as why:
            self.fail(THREW % described(why))
            self.there.abort()

    def call(self, places, of_set, thread, number, draw):
        """Makes calls, and records them in the slots `places`. Returns the thread's number: a new number after a call
        with an unknown reply.
        """
        before, keys, few = sys.gettrace(), self.shape.keys, min(HOT, self.shape.keys)
        drawn = [word for word, share in enumerate(self.how.shares) for _ in range(share)]
        tracer = pausing(self.how.pauses, random.Random(draw.random()), before) if self.how.pauses else before
        try:
            for at in places:
                word, number_of_key = draw.choice(drawn), draw.randrange(few if keys > 2 * HOT and draw.random() < 0.5 else keys)
                if self.how.pauses:  # (if there are many keys, the thread pauses only in calls on the frequent keys)
                    sys.settrace(tracer if keys <= 64 or number_of_key < few else before)
                key, at_slot, written = self.how.key_of(number_of_key, self.shape), self.at_slots + at * self.SLOT.size, of_set + number_of_key
                self.count(thread, at)
                begin = next(self.tickets)  # (`next` is a single step of the interpreter, so no two calls get the same number)
                self.SLOT.pack_into(self.slots, at_slot, begin, 0, number, written, word, NO)
                reply = self.replies_of[word](key)
                reply = UNKNOWN if reply is None else YES if reply else NO
                self.SLOT.pack_into(self.slots, at_slot, begin, next(self.tickets), number, written, word, reply)
                number += self.shape.threads * (reply == UNKNOWN)
        finally:
            if self.how.pauses:
                sys.settrace(before)
        return number


def described(why: BaseException) -> str:
    """Returns the text of an exception, with the last line outside of this file that the exception passed."""
    places = [it for it in traceback.extract_tb(why.__traceback__) if it.filename != __file__]
    at = f" ({places[-1].filename}:{places[-1].lineno}, in {places[-1].name})" if places else ""
    return f"{type(why).__qualname__}: {why}{at}"


def end_with_parent():
    if sys.platform == "linux":
        ctypes.CDLL(None).prctl(1, signal.SIGKILL)


def line_of(it):
    return f"call {it.thread} {it.call} {it.key} {it.begin} {f'{it.end} {str(it.reply == YES).lower()}' if it.end else '- -'}\n"


def pausing(pauses, draw, before):
    """Returns a trace function that lets other threads run before `pauses` percent of the lines outside of this file.
    In one call of ten, they also run before `pauses` percent of the bytecode instructions. The trace function also
    calls `before`, the previous trace function.
    """

    def of_frame(inner):
        def at_line(frame, event, arg):
            nonlocal inner
            inner = inner and inner(frame, event, arg)
            if event in ("line", "opcode") and draw.random() * 100 < pauses:
                time.sleep(0)
            return at_line

        return at_line

    def at_call(frame, event, arg):
        inner = before and before(frame, event, arg)
        frame.f_trace_opcodes = not before and draw.random() < 0.1
        return inner if frame.f_code.co_filename == __file__ else of_frame(inner)

    return at_call


# ---- the judge


class Judge:
    """A judge: the library or a program. str() returns the judge's name and its statement about its proof."""

    def __init__(self):
        try:
            import listset

            self.name, self.answer, self.words, version = "liblistset", listset.judge_file, [], listset.version()
        except (ImportError, AttributeError):
            self.name = os.environ.get("LISTSET") or "listset"
            is_script = self.name.endswith(".js")
            if is_script and not os.path.exists(self.name):
                raise NoVerdict(NO_SCRIPT % (self.name, os.path.abspath(self.name))) from None
            words = ["node", self.name] if is_script else [self.name]
            self.words, self.answer = words, lambda file: said([*words, "judge", file], subprocess.PIPE)
            # The stderr of a program is not captured, because ./listset first builds the judge and prints its progress
            # on stderr.
            version, status = said([*words, "--version", "--long"], subprocess.PIPE if is_script else None)
            if status == 127:
                raise NoVerdict((IS_FOLDER if os.path.isdir(self.name) else NO_NODE if is_script else NO_JUDGE) % self.name) from None
            if is_script and status != 0:
                check_node(self.name)
        self.proof = next((it for it in version.splitlines() if it.startswith("proof ")), "proof unknown")

    def __str__(self):
        return f"{self.name}, {self.proof}"

    def judged(self, file: pathlib.Path) -> tuple[int, str]:
        """Judges a recording. Returns the number of calls that overlapped a change of their key, and the judge's output
        (empty if some order explains the calls).
        """
        text, status = self.answer(file)
        met = OVERLAPPED.match(text)
        if status == 0 and met:
            return int(met[1]), ""
        if status == 1 and text.startswith("not linearizable"):
            return 0, text.strip()
        raise NoVerdict(NO_VERDICT % (self.name, text.partition("\n")[0] or "nothing"))

    def only(self, file: pathlib.Path, key: str) -> str:
        """Returns the recording of one key, if the judge can print it."""
        text, status = said([*self.words, "judge", "--only", key, file], subprocess.PIPE) if self.words else ("", 1)
        return text if status == 0 else ""


def check_node(name: str) -> None:
    """Raises NoVerdict if node is too old."""
    version = said(["node", "--version"])[0].strip()
    major = re.match("v([0-9]+)", version)
    if major and int(major[1]) < 18:
        raise NoVerdict(OLD_NODE % (version, name))


def said(words: list, errors: int | None = None) -> tuple[str, int]:
    """Runs a command. Returns its output and its exit status (127 if the command cannot be run)."""
    try:
        done = subprocess.run(words, stdin=subprocess.DEVNULL, stdout=subprocess.PIPE, stderr=errors)
    except OSError:
        return "", 127
    return (done.stdout or done.stderr or b"").decode(errors="replace"), done.returncode
