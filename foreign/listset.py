"""Sorted-list sets that threads share, and the judge of their calls, implemented by liblistset.so.

Each function of the judge reads a text and returns a text:

    import listset

    listset.judge_text(recording)         # raises Wrong if no order explains its calls
    report = listset.replay(schedule)
    print(listset.show(report, width=60))

A text is str or bytes. If the program `listset` would not exit with status 0, a function raises `Wrong` with the status
and the text that the program would print. Any number of threads may call at the same time, and run in parallel: a call
releases Python's global interpreter lock.

The sets are for tests and teaching. Each thread calls through its own seat, and only one thread at a time uses a seat:

    mine = listset.open("lazy", seats=2, quota=1000)
    other = mine.split()
    mine.add(7)                           # and `other` in another thread
    mine.gather(other)
    keys = mine.close()

Any thread can call a `Shared` set. A seat can add at most `quota` keys, but the seats of a `RenewedSet` do not run out
of quota.

Keys, numbers of seats and quotas are integers from 0 to 4294967295. An integer out of range raises ValueError, and
anything else raises TypeError. In both cases the set is unchanged.

If the environment variable LISTSET_LIB is set, the library is loaded from the folder that LISTSET_LIB names. Otherwise
the library is loaded from the folder of this file, or from the folder lib of an installation by foreign/build.
"""

import builtins
import contextlib
import ctypes
import enum
import itertools
import operator
import os
import pathlib
import re
import threading
import time

__all__ = ["Added", "Fault", "Full", "LISTS", "OwnSeat", "Receipt", "RenewedSet", "Seat", "Shared", "TimedOut", "Wrong", "broken_example", "check",
           "draft", "example", "examples", "faults", "gen", "judge_file", "judge_text", "most_reads", "open_set", "renew", "replay", "show",
           "trace", "version", "why"]  # fmt: skip

HERE = pathlib.Path(__file__).resolve().parent
PLACES = [HERE, HERE / "out" / "lib", HERE.parent.parent / "lib", pathlib.Path("/usr/lib")]
FIRST_ROOM = 1 << 16  # the size of the first buffer for a text, in bytes


class Wrong(Exception):
    """The program's error. `status` is 1 for a wrong text, 2 for a wrong argument, and 3 if memory ran out. `text` is
    the text that the program would print. If a line of the text is wrong, `line` is its number, counted from 1, and
    `cause` is the name of the cause (see `faults()`). Otherwise `line` and `cause` are None.
    """

    def __init__(self, text, status):
        super().__init__(text.rstrip("\n"))
        self.text, self.status = text, status
        found = re.fullmatch(r"listset: line (\d+): (\w+)\n", text)
        self.line, self.cause = (int(found[1]), found[2]) if found else (None, None)


def _library():
    named = os.environ.get("LISTSET_LIB")
    places = [pathlib.Path(named)] if named else PLACES
    found = next((it / "liblistset.so" for it in places if (it / "liblistset.so").exists()), None)
    if found is None:
        told = f"LISTSET_LIB is {named!r}: name the folder that has it" if named else f"it is in none of {', '.join(map(str, places))}"
        raise ImportError(f"liblistset.so is missing ({told}). In a clone, foreign/build makes it")
    return ctypes.CDLL(str(found))


_LIBRARY = _library()


def version():
    """Returns four lines about the library: its version; the version and the logic of the Rattle toolchain (the kit);
    the commit of its sources; and "proof checked" if the library is proved, otherwise "proof missing".
    """
    function = _LIBRARY.listset_version
    function.restype = ctypes.c_char_p
    return function().decode()


def said(name, *texts):
    """Calls the C function listset_NAME with `texts`. Returns the bytes that the function writes, and the status."""
    function, status, size = getattr(_LIBRARY, f"listset_{name}"), ctypes.c_uint8(), FIRST_ROOM
    function.restype = ctypes.c_size_t
    given = [it for text in texts for it in (ctypes.c_char_p(text), ctypes.c_size_t(len(text)))]
    while True:
        room = ctypes.create_string_buffer(size)
        length = function(*given, room, ctypes.c_size_t(size), ctypes.byref(status))
        if length <= size:
            return room.raw[:length], status.value
        size = length


def _bytes(text):
    if isinstance(text, (bytes, bytearray, memoryview)):
        return bytes(text)
    if not isinstance(text, str):
        raise TypeError(f"a text is str or bytes, and {text!r} is of type {type(text).__name__}")
    return text.encode(errors="surrogateescape")


def _asked(name, *texts):
    answer, status = said(name, *map(_bytes, texts))
    answer = answer.decode(errors="replace")
    if status:
        raise Wrong(answer, status)
    return answer


def _words(values):
    return "\0".join(map(str, values))


def replay(schedule):
    """Runs a schedule (calls, and the order of the threads' steps) and returns its report (the calls with their
    replies, and an order that explains them).
    """
    return _asked("replay", schedule)


def judge_text(recording):
    """Judges a recording (calls of any set, with their replies and times). Returns `ok N calls` if some order explains
    the recorded calls. Otherwise raises `Wrong` with calls that show why no order explains the recording.
    """
    return _asked("judge", recording)


def judge_file(path):
    """Judges the recording in the file `path`; the recording can have any length. Returns the text that the program would
    print, and its exit status.
    """
    room, status = ctypes.create_string_buffer(8192), ctypes.c_uint8()
    function = _LIBRARY.listset_judge_from
    function.restype = ctypes.c_size_t
    with builtins.open(path, "rb") as file:
        length = function(ctypes.c_int32(file.fileno()), room, ctypes.c_size_t(len(room)), ctypes.byref(status))
    return room.raw[:length].decode(errors="replace"), status.value


def why(recording):
    """Returns a diagnosis of a recording that `judge_text` refuses: calls that show the error, the wrong operation, how
    often it is wrong, and a likely cause. Returns an empty text if some order explains the recording or the text is not
    a recording.
    """
    diagnosis, status = said("why", _bytes(recording))
    if status > 1:
        raise Wrong(diagnosis.decode(), status)
    return diagnosis.decode()


def check(report):
    """Checks a report. Raises `Wrong` if the report's order does not explain the calls, or if the text is not a report.
    """
    _asked("check", report)


def trace(schedule, with_chains=False):
    """Returns the trace of a schedule: a line for each event. If `with_chains`, the trace includes the chain of nodes
    after each event that changed the chain.
    """
    return _asked("trace_with_chains" if with_chains else "trace", schedule)


def draft(text):
    """Expands a draft (a schedule that states where threads stop rather than how many steps they make) into a schedule.
    """
    return _asked("draft", text)


def show(text, as_svg=False, *, first=None, last=None, width=None):
    """Draws a schedule or a report, as text or as an SVG, from the moment `first` to the moment `last` (numbers of
    events in the run).
    """
    options = _words("" if it is None else f"={it}" for it in (first, last, width))
    return _asked("show_svg" if as_svg else "show", text, options)


def gen(kind, threads, quota, calls, keys, seed):
    """Generates a random schedule. `kind` is coarse, fine, optimistic, lazy or lock-free."""
    return _asked("gen", _words([kind, threads, quota, calls, keys, seed]))


def examples():
    """Returns the names of all examples, each with its list and a description."""
    return _asked("examples")


def example(name, is_broken=False):
    """Returns the schedule of the example called `name`. If `is_broken`, returns the report of a run on a list without
    the check that the example is about.
    """
    return _asked("broken_example" if is_broken else "example", name)


def faults():
    """Returns a line about each error message, and a sentence about each cause."""
    return _asked("faults")


LISTS = ["coarse", "fine", "optimistic", "lazy", "lock-free"]
FULL, AT, MAY_BLOCK, NO_SEAT = 2, 3, 254, 255  # the numbers of replies; 0 and 1 are False and True
NO_MORE, NO_GATHER, SEATS_OUT, BAD_KEYS, READS_BLOCK, TIMED_OUT = 17, 18, 16, 12, 19, 20  # faults
GREATEST, MOST_OPENING = 2**32 - 1, 2**20
POLL, LONG = 50e-6, 5e-3  # seconds between two attempts to lock; seconds until other threads' new calls must wait
_NUMBERS = itertools.count()


class Fault(Exception):
    """Raised if a call is refused. `code` is the number of the fault in listset.h."""

    def __init__(self, code, text=None):
        super().__init__(text or _function("fault_text", ctypes.c_char_p)(ctypes.c_uint8(code)).decode())
        self.code = code


class Full(Fault):
    """Raised by an add if the key is absent but the seat (one thread's access to the set) has used up its quota of
    adds. `renew` returns seats with a new quota.
    """

    def __init__(self, key):
        super().__init__(FULL, f"{key} is not in the set, and the seat has used its quota of adds")


class TimedOut(Fault, TimeoutError):
    """Raised by a call to a `RenewedSet` that had to wait too long for calls of other threads. The call has no effect.
    """

    def __init__(self):
        super().__init__(TIMED_OUT)


class Added(enum.Enum):
    """The reply of `try_add`. FULL means that the key is absent but the seat (one thread's access to the set) has used
    up its quota of adds. A reply cannot be used as a condition: compare it with a value of `Added`.
    """

    FALSE, TRUE, FULL = 0, 1, 2

    def __bool__(self):
        raise TypeError(f"{self} is no condition, since FULL is neither true nor false: compare it with listset.Added.TRUE")


def _function(name, returns, *takes):
    function = getattr(_LIBRARY, f"listset_{name}")
    function.restype, function.argtypes = returns, takes or None
    return function


class _Raw(ctypes.Structure):
    _fields_ = [("full", ctypes.c_bool), ("at", ctypes.c_void_p)]


_RAW, _U8, _U32, _U64, _SIZE = ctypes.POINTER(_Raw), ctypes.c_uint8, ctypes.c_uint32, ctypes.c_uint64, ctypes.c_size_t
_OPEN = _function("open", _U8, _U8, _U32, _U32, _U64, ctypes.POINTER(_U32), _SIZE, _RAW)
_SPLIT, _GATHER, _RECEIPT_OF, _AFTER = (_function(it, _U8, _RAW, _RAW) for it in ("split", "gather", "receipt_of", "after"))
_ADD, _REMOVE, _CONTAINS, _NOW = (_function(it, _U8, _RAW, _U32) for it in ("add", "remove", "contains", "contains_now"))
_CEILING = _function("ceiling", _U8, _RAW, _U32, ctypes.POINTER(_U32))
_CLOSE, _CLOSE_ALL = _function("close", _U8, _RAW), _function("close_all", _U8, _RAW, _SIZE)
_RENEW = _function("renew", _U8, _RAW, _SIZE, _U8, _U32, _U32, _U64)
_KEYS, _DROP = _function("keys", _SIZE, _RAW, ctypes.POINTER(_U32), _SIZE), _function("drop", None, _RAW)
_MOST_READS = _function("most_reads", _U64, _U32, _U32, _U32)


def _told(code):
    if code:
        raise Fault(code)


def _number(given, what="key"):
    """Returns `given` as an integer from 0 to 2**32 - 1, or raises. (ctypes would truncate a larger integer.)"""
    try:
        number = operator.index(given)
    except TypeError:
        span = f" from 0 to {GREATEST}" if what == "key" else ""
        raise TypeError(f"the {what} must be an integer{span}, and {given!r} is of type {type(given).__name__}") from None
    if not 0 <= number <= GREATEST:
        raise ValueError(f"the {what} {number} is not in the range 0 to {GREATEST}")
    return number


def _list(kind):
    if kind not in LISTS:
        raise ValueError(f"there is no list {kind!r}: the lists are {', '.join(LISTS)}, as in listset.open('lazy', 2, 1000)")
    return kind


def _keys(keys):
    return (_U32 * max(len(keys), 1))(*map(_number, keys))


def _closed_keys(closed):
    """Returns the keys of a closed set, or None if `closed` is not a closed set."""
    count = _KEYS(closed, _keys([]), 0)
    if count == _SIZE(-1).value:
        return None
    room = _keys([0] * count)
    _KEYS(closed, room, count)
    return list(room[:count])


class Receipt:
    """A receipt: proof of the calls that a seat has made so far. A receipt also covers the calls of merged seats and of
    accepted receipts. In the order of all calls, the covered calls precede the later calls of each seat that accepts
    the receipt. A receipt can be passed to any thread.
    """

    def __init__(self):
        self.raw = _Raw()

    def drop(self):
        """Drops the contents of the receipt (proof of the calls that a seat has made). Afterwards the receipt is empty.
        """
        _DROP(self.raw)

    __del__ = drop


class Seat:
    """A thread's seat (its access to a set). After the seat was merged into another seat or closed, it is empty. Only
    one thread at a time may use a seat: a call raises `Fault` if another thread is making a call through the same seat.
    """

    def __init__(self):
        self.raw, self._use = _Raw(), threading.Lock()

    @contextlib.contextmanager
    def _used(self):
        if not self._use.acquire(blocking=False):
            raise Fault(NO_SEAT)
        try:
            yield
        finally:
            self._use.release()

    def _reply(self, function, key, *values):
        number = _number(key)
        if not self._use.acquire(blocking=False):
            raise Fault(NO_SEAT)
        try:
            reply = function(self.raw, number, *values)
        finally:
            self._use.release()
        if reply == NO_SEAT:
            raise Fault(reply)
        return reply

    def split(self):
        """Splits a seat off this seat, so that one more thread can call the set. No seat can be split off a seat into
        which another seat was merged.
        """
        made = Seat()
        with self._used():
            _told(_SPLIT(self.raw, made.raw))
        return made

    def add(self, key):
        """Adds a key. Returns True if the key was absent, False if it was present. Raises `Full` if the key is absent but
        the seat has used up its quota of adds.
        """
        reply = self._reply(_ADD, key)
        if reply == FULL:
            raise Full(key)
        return bool(reply)

    def try_add(self, key):
        """Adds a key. Returns `Added.TRUE` if the key was absent, `Added.FALSE` if the key was present, and
        `Added.FULL` if the key is absent but the seat has used up its quota of adds.
        """
        return Added(self._reply(_ADD, key))

    def remove(self, key):
        """Removes a key. Returns whether the key was present."""
        return bool(self._reply(_REMOVE, key))

    def discard(self, key):
        """Removes a key if it is present."""
        self._reply(_REMOVE, key)

    def contains(self, key):
        """Returns whether a key is in the set, like `key in seat`."""
        return bool(self._reply(_CONTAINS, key))

    __contains__ = contains

    def contains_now(self, key):
        """Returns whether a key is in the set, like `contains`, but waits for no lock and executes at most `most_reads`
        steps, whatever other threads do. Only for lazy and lock-free lists: on any other list, raises `Fault`.
        """
        reply = self._reply(_NOW, key)
        if reply == MAY_BLOCK:
            raise Fault(READS_BLOCK)
        return bool(reply)

    def ceiling(self, key):
        """Returns the smallest key of the set that is at least `key`, or None. On a lock-free list, the call can wait
        until another thread adds or removes a key.
        """
        at = _U32()
        return at.value if self._reply(_CEILING, key, at) == AT else None

    def receipt(self):
        """Returns a receipt (a record of this seat's calls so far). Pass the receipt to `after` of another thread's
        seat.
        """
        made = Receipt()
        with self._used():
            _told(_RECEIPT_OF(self.raw, made.raw))
        return made

    def after(self, receipt):
        """Accepts a receipt (a record of another seat's calls). In the order of all calls, later calls of this seat
        follow every call that the receipt covers.
        """
        with self._used():
            _told(_AFTER(self.raw, receipt.raw))

    def gather(self, other):
        """Merges `other`, another thread's seat of the same set, into this seat. `other` is empty afterwards."""
        if other is self:
            raise Fault(NO_GATHER)
        with self._used(), other._used():
            _told(_GATHER(self.raw, other.raw))

    def close(self):
        """Closes the set and returns its final keys. Every seat of the set (one for each thread) must be part of this
        seat, that is, either never split off or merged back. If `close` raises, nothing is lost, and the call can be
        repeated.
        """
        with self._used():
            code = _CLOSE(self.raw)
            keys = _closed_keys(self.raw)
            if keys is None:
                raise Fault(code)
            _DROP(self.raw)
        return keys

    def drop(self):
        """Drops the contents of the seat. If a seat of a set (one for each thread) has been dropped, the set cannot be
        closed.
        """
        _DROP(self.raw)

    __del__ = drop


def most_reads(seats, quota, keys=0):
    """Returns the maximum number of steps of `Seat.contains_now` on a list that is opened for `seats` threads, with the
    quota `quota` and with `keys` keys. Returns 0 if no set can be opened with these numbers.
    """
    return _MOST_READS(_number(seats, "number of seats"), _number(quota, "quota"), _number(keys, "number of keys"))


def open_set(kind, seats, quota, keys=()):
    """Opens a set with keys in strictly increasing order. Returns a seat (one thread's access to the set). All other
    seats can be split off this seat.
    """
    made, keys, index = Seat(), list(keys), LISTS.index(_list(kind))
    sizes = _number(seats, "number of seats"), _number(quota, "quota"), next(_NUMBERS)
    _told(_OPEN(index, *sizes, _keys(keys), len(keys), made.raw))
    return made


open = open_set  # listset.open; not in __all__, so that `from listset import *` keeps Python's own open


def _of_all(seats, call):
    """Calls `call` with an array of the seats in `seats` (one for each thread)."""
    raws = (_Raw * max(len(seats), 1))(*(it.raw for it in seats))
    code = call(raws)
    for seat, raw in zip(seats, raws):
        seat.raw = _Raw(raw.full, raw.at)
    _told(code)


def _renew(seats, kind, quota):
    _of_all(seats, lambda raws: _RENEW(raws, len(seats), LISTS.index(kind), len(seats), quota, next(_NUMBERS)))


def renew(seats, kind, count, quota):
    """Closes a set, and opens a set of the list `kind` with the same keys. `seats` must contain all seats of the old
    set (one for each thread). Returns `count` seats of the new set, each with the quota `quota`. During the call, no
    thread may use a seat in `seats`. If `renew` raises, nothing is lost. If the set is still open, `seats` contains all
    its seats (some merged into others). Otherwise the first seat in `seats` is the closed set, and its `close` returns
    the keys.
    """
    given, many, kind = list(seats), _number(count, "number of seats"), _list(kind)
    places = given + [Seat() for _ in range(len(given), min(many, 64))]
    with contextlib.ExitStack() as uses:
        for it in places:
            uses.enter_context(it._used())
        number = next(_NUMBERS)
        _of_all(places, lambda raws: _RENEW(raws, len(places), LISTS.index(kind), many, _number(quota, "quota"), number))
    return places[:many]


class Shared:
    """A set that any number of threads may call, with a pool of seats (each serves one call at a time). A call uses a
    seat that no other call is using, or waits until a seat is free. Two calls of one thread can use different seats, so
    not even the order of a thread's own calls is guaranteed.
    """

    def __init__(self, kind, seats, quota, keys=()):
        first = open_set(kind, seats, quota, keys)
        self._seats = [first, *(first.split() for _ in range(1, seats))]
        self._locks = [threading.Lock() for _ in self._seats]

    def _by(self, call):
        if not self._seats:
            raise Fault(NO_SEAT)
        begin = threading.get_ident() // 64
        places = [(begin + it) % len(self._seats) for it in range(len(self._seats))]
        place = next((it for it in places if self._locks[it].acquire(blocking=False)), None)
        if place is None:
            place = places[0]
            self._locks[place].acquire()
        try:
            return call(self._seats[place])
        finally:
            self._locks[place].release()

    def try_add(self, key):
        """Adds a key. Returns `Added.TRUE` if the key was absent, `Added.FALSE` if the key was present, and
        `Added.FULL` if the key is absent but every seat has used up its quota of adds.
        """
        added = self._by(lambda it: it.try_add(key))
        for seat, lock in zip(self._seats, self._locks):
            if added is Added.FULL:
                with lock:
                    added = seat.try_add(key)
        return added

    def add(self, key):
        """Adds a key. Returns True if the key was absent, False if it was present. Raises `Full` if the key is absent but
        every seat has used up its quota of adds.
        """
        added = self.try_add(key)
        if added is Added.FULL:
            raise Full(key)
        return added is Added.TRUE

    def remove(self, key):
        """Removes a key. Returns whether the key was present."""
        return self._by(lambda it: it.remove(key))

    def discard(self, key):
        """Removes a key if it is present."""
        self.remove(key)

    def contains(self, key):
        """Returns whether a key is in the set, like `key in shared`."""
        return self._by(lambda it: it.contains(key))

    __contains__ = contains

    def ceiling(self, key):
        """Returns the smallest key of the set that is at least `key`, or None. Can block, like `Seat.ceiling`."""
        return self._by(lambda it: it.ceiling(key))

    def close(self):
        """Closes the set and returns its final keys. No later call may use the set. If `close` raises an error, it can
        be repeated.
        """
        if not self._seats:
            raise Fault(NO_SEAT)
        while len(self._seats) > 1:
            self._seats[0].gather(self._seats[-1])
            self._seats.pop()
        keys = self._seats[0].close()
        self._seats.clear()
        return keys


class _Place:
    """A place in the set: a seat with its lock, and whether a thread has the seat."""

    def __init__(self, seat):
        self.lock, self.seat, self.is_taken, self.adds, self.removes = threading.Lock(), seat, False, 0, 0

    def try_add(self, key):
        added = self.seat.try_add(key)
        self.adds += added is Added.TRUE
        return added


class RenewedSet:
    """A set that renews itself: when a seat (one thread's access) has used up its quota of adds, a new set with the
    same keys replaces the set.

    A thread gets its own seat from `split`, and returns it with `drop` or at the end of a `with` block. Calls wait
    during a renewal. The renewal waits for pending calls, but not for threads that are between two calls. A call waits
    for other calls for at most `patience` seconds (without limit if `patience` is None). After that, the call raises
    `TimedOut` and has no effect. docs/FOREIGN.md states the promised order of calls.
    """

    def __init__(self, kind, seats, quota, keys=(), *, patience=None):
        keys = list(keys)
        first = open_set(kind, seats, quota, keys)
        self._kind, self._quota, self._patience, self._opened_with = kind, _number(quota, "quota"), patience, len(keys)
        self._places = [_Place(it) for it in (first, *(first.split() for _ in range(1, seats)))]
        self._renewing, self._stage = threading.Lock(), "open"  # The stage changes only while the locks of all seats are held.
        self._splitting = threading.Lock()
        self._is_wanted = False  # Whether a thread has waited so long for the locks that new calls of other threads must wait.

    def split(self):
        """Returns a seat (one thread's access to the set). Raises `Fault` if all seats are in use."""
        with self._splitting:
            place = next((it for it in self._places if not it.is_taken), None)
            if place is None or self._stage == "closed":
                raise Fault(NO_SEAT if self._stage == "closed" else NO_MORE)
            place.is_taken = True
        return OwnSeat(self, place)

    def keys(self):
        """Renews the set and returns its keys at the renewal. Raises `Fault` if the set has more than 1,048,576 keys.
        """
        with self._all_taken(self._places[0]):
            if self._keys_now() > MOST_OPENING:
                raise Fault(BAD_KEYS)
            keys = self._close_taken()
            self._renew_taken()
            return keys

    def close(self):
        """Closes the set and returns its final keys. If a thread has a seat, raises `Fault` and does not change the set."""
        with self._all_taken(self._places[0]):
            if any(it.is_taken for it in self._places):
                raise Fault(SEATS_OUT)
            keys = self._close_taken()
            self._places[0].seat.drop()
            self._stage = "closed"
            return keys

    def _lock(self, lock, helper=None):
        """Locks `lock`. On a lock-free list, the holder of `lock` can be in a `ceiling` that retries until another call
        unlinks a marked node. If the seat in `helper` has used up its quota of adds, the waiting thread therefore calls
        `add` with the seat: the `add` unlinks the node, but adds no key.

        `helper` is the caller's own place (its seat with the seat's lock) if the caller is locking all places,
        otherwise None. After a caller with a `helper` has waited for 5 ms, new calls of other threads wait too, except
        calls that could be needed to unlink the node.
        """
        if lock.acquire(blocking=False):
            return
        patience = threading.TIMEOUT_MAX if self._patience is None else min(max(self._patience, 0), threading.TIMEOUT_MAX)
        if helper is None or self._kind != "lock-free":
            if helper:
                if lock.acquire(timeout=min(patience, LONG)):
                    return
                self._is_wanted = True
            if not lock.acquire(timeout=patience):
                raise TimedOut
            return
        begun = time.monotonic()
        while not lock.acquire(blocking=False):
            waited, is_full = time.monotonic() - begun, helper.adds == self._quota
            if waited > patience:
                raise TimedOut
            if is_full and self._stage == "open":
                helper.try_add(GREATEST)
            if is_full and waited > LONG:
                self._is_wanted = True
            time.sleep(POLL)

    def _wait_for_renewal(self):
        """Waits while another thread renews the set."""
        self._lock(self._renewing)
        self._renewing.release()

    @contextlib.contextmanager
    def _all_taken(self, mine):
        """Locks all places (the seats with their locks), starting with `mine`, the caller's own."""
        with contextlib.ExitStack() as all_taken:

            def take(lock, helper=None):
                self._lock(lock, helper)
                all_taken.callback(lock.release)

            take(self._renewing)
            all_taken.callback(setattr, self, "_is_wanted", False)
            take(mine.lock)
            for place in self._places:
                if place is not mine:
                    take(place.lock, mine)
            if self._stage == "closed":
                raise Fault(NO_SEAT)
            yield

    def _keys_now(self):
        return self._opened_with + sum(it.adds - it.removes for it in self._places)

    def _close_taken(self):
        self._stage, seats = "to be renewed", [it.seat for it in self._places]
        _of_all(seats, lambda raws: _CLOSE_ALL(raws, len(seats)))
        return _closed_keys(seats[0].raw)

    def _renew_taken(self):
        self._stage, seats = "to be renewed", [it.seat for it in self._places]
        _renew(seats, self._kind, self._quota)
        self._opened_with = self._keys_now()
        for place in self._places:
            place.adds = place.removes = 0
        self._stage = "open"

    def _by(self, place, call):
        """Calls `call` with `place`, the thread's seat and its lock. If an allocation failed during the last renewal, renews
        the set first.
        """
        while True:
            if self._is_wanted:
                self._wait_for_renewal()
            self._lock(place.lock)
            try:
                if self._stage == "open":
                    return call(place)
            finally:
                place.lock.release()
            with self._all_taken(place):
                if self._stage != "open":
                    self._renew_taken()

    def _add_renewed(self, place, key):
        """Adds a key with the seat in `place` (the thread's access to the set), after an add returned FULL. Renews the
        set if an earlier renewal failed, or if the add returns FULL again. Does not renew the set if a renewal cannot
        help (the quota is 0, or the set has too many keys).
        """
        with self._all_taken(place):
            if self._stage == "open":
                added = place.try_add(key)  # Before this call, another thread could have renewed the set.
                if added is not Added.FULL or self._keys_now() > MOST_OPENING or self._quota == 0:
                    return added
            self._renew_taken()
            return place.try_add(key)


class OwnSeat:
    """A thread's seat (its access to a `RenewedSet`), as returned by `RenewedSet.split`. An `add` renews the set if the
    seat has used up its quota of adds. A call can raise `TimedOut` if the set has a `patience`.
    """

    def __init__(self, of, place):
        self._of, self._place = of, place

    def _by(self, call):
        if self._place is None:
            raise Fault(NO_SEAT)
        return self._of._by(self._place, call)

    def try_add(self, key):
        """Adds a key, and renews the set if the thread's seat has used up its quota of adds. Returns `Added.FULL` only
        if the quota is 0, or if the set has more than 1,048,576 keys (the maximum for opening a set).
        """
        added = self._by(lambda it: it.try_add(key))
        if added is Added.FULL:
            self._of._wait_for_renewal()  # Waits while another thread renews the set.
            added = self._by(lambda it: it.try_add(key))
        return self._of._add_renewed(self._place, key) if added is Added.FULL else added

    def add(self, key):
        """Adds a key, and renews the set if the thread's seat has used up its quota of adds. Returns True if the key
        was absent, False if it was present. Raises `Full` only if the quota is 0, or if the set has more than 1,048,576
        keys (the maximum for opening a set).
        """
        added = self.try_add(key)
        if added is Added.FULL:
            raise Full(key)
        return added is Added.TRUE

    def remove(self, key):
        """Removes a key. Returns whether the key was present."""

        def removed(place):
            was_there = place.seat.remove(key)
            place.removes += was_there
            return was_there

        return self._by(removed)

    def discard(self, key):
        """Removes a key if it is present."""
        self.remove(key)

    def contains(self, key):
        """Returns whether a key is in the set, like `key in seat`."""
        return self._by(lambda it: it.seat.contains(key))

    __contains__ = contains

    def ceiling(self, key):
        """Returns the smallest key of the set that is at least `key`, or None. Can block, like `Seat.ceiling`."""
        return self._by(lambda it: it.seat.ceiling(key))

    def drop(self):
        """Returns the seat to the set, so that another thread can get it from `split`."""
        if self._place is not None:
            self._place.is_taken = False
        self._place = None

    __del__ = drop

    def __enter__(self):
        return self

    def __exit__(self, *raised):
        self.drop()
