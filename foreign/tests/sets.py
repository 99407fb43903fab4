"""Tests the lists from Python. In some tests, four threads call a set and count their changes. Other tests expect
errors from refused calls. PYTHONPATH must contain the folder of listset.py.
"""

import concurrent.futures
import random
import threading
import unittest.mock

import listset
from listset import Added

THREADS, CALLS, KEYS, OPENING = 4, 3000, 64, [1, 7, 63]
ENDS = [0, 2**32 - 1]  # the smallest and the largest key


def calls_of(seat, number, kinds):
    """Calls operations with keys that all threads use, and with keys that only thread `number` uses. Returns, for each
    shared key, the number of adds minus the number of removes that returned true. Also returns the thread's own keys
    that the set contains at the end. `kinds` is the number of operations: 4, or 3 without `ceiling`.
    """
    draws, net, own = random.Random(number), [0] * KEYS, set()
    for _ in range(CALLS):
        key, kind = draws.randrange(KEYS), draws.randrange(kinds)
        if kind == 0:
            net[key] += seat.add(key)
        elif kind == 1:
            net[key] -= seat.remove(key)
        elif kind == 2:
            assert seat.contains(key) in (True, False)
        else:
            assert (seat.ceiling(key) or key) >= key
    begin, end = KEYS * (number + 1), KEYS * (number + 2)
    for _ in range(CALLS):
        key, kind = draws.randrange(begin, end), draws.randrange(kinds)
        if kind == 0:
            assert seat.add(key) is (key not in own)
            own.add(key)
        elif kind == 1:
            assert seat.remove(key) is (key in own)
            own.discard(key)
        elif kind == 2:
            assert seat.contains(key) is (key in own)
        else:
            found, due = seat.ceiling(key), min((it for it in own if it >= key), default=None)
            assert found == due if due is not None else found is None or found >= end
    return net, own


def trial(kind):
    first = listset.open_set(kind, THREADS, 2 * CALLS, OPENING)
    seats = [first, *(first.split() for _ in range(1, THREADS))]
    kinds = 3 if kind == "lock-free" else 4  # (on a lock-free list, ceiling calls could wait for a remove that no thread calls)
    with concurrent.futures.ThreadPoolExecutor(THREADS) as threads:
        nets, owns = zip(*threads.map(calls_of, seats, range(THREADS), [kinds] * THREADS))
    for it in seats[1:]:
        first.gather(it)
    left = [key for key in range(KEYS) if (key in OPENING) + sum(net[key] for net in nets)]
    assert first.close() == left + sorted(set().union(*owns)), kind


def code(call, *values):
    """Returns the code of the fault that a call raises."""
    try:
        call(*values)
    except listset.Fault as fault:
        return fault.code
    return None


def refusals():
    mine, other = listset.open_set("lazy", 2, 1, [5, 9]), listset.open_set("lazy", 1, 1)
    split = mine.split()
    assert code(mine.split) == 17 and code(mine.close) == 16 and code(mine.gather, other) == code(mine.gather, mine) == 18
    assert code(listset.Seat().add, 1) == 255 and code(listset.open_set, "lazy", 0, 1) == 10
    assert (split.add(7), split.try_add(8), mine.add(7), mine.try_add(7)) == (True, Added.FULL, False, Added.FALSE)
    assert raised(split.add, 8) == (listset.Full, "8 is not in the set, and the seat has used its quota of adds")
    assert raised(bool, Added.TRUE)[0] is raised(bool, Added.FULL)[0] is TypeError
    assert (mine.remove(5), mine.contains(5), mine.ceiling(6), mine.ceiling(10)) == (True, False, 7, None)
    assert (7 in mine, 5 in split, split.discard(5)) == (True, False, None)
    mine.gather(split)
    assert mine.close() == [7, 9] and code(mine.add, 1) == code(mine.close) == code(other.gather, mine) == 255 and other.close() == []
    lists = "the lists are coarse, fine, optimistic, lazy, lock-free, as in listset.open('lazy', 2, 1000)"
    assert raised(listset.open_set, "Lazy", 1, 1) == (ValueError, f"there is no list 'Lazy': {lists}")
    assert raised(listset.open, 2, "lazy", 1) == (ValueError, f"there is no list 2: {lists}")
    assert raised(listset.open, "lazy", "2", 1) == (TypeError, "the number of seats must be an integer, and '2' is of type str")
    assert raised(other.remove, "alice") == (TypeError, "the key must be an integer from 0 to 4294967295, and 'alice' is of type str")
    assert raised(listset.judge_text, 5) == (TypeError, "a text is str or bytes, and 5 is of type int")
    assert listset.open_set("lazy", 1, 1, iter([5, 9])).close() == [5, 9]


def ends(kind):
    """Tests each operation with the smallest and with the largest possible key."""
    mine = listset.open_set(kind, 1, 2, ENDS)
    assert [mine.ceiling(key) for key in (0, 1, ENDS[1])] == [0, ENDS[1], ENDS[1]], kind
    assert all(mine.contains(key) and mine.remove(key) and not mine.contains(key) for key in ENDS), kind
    assert mine.ceiling(0) is None and [mine.add(key) for key in ENDS] == [True, True], kind
    assert (mine.ceiling(0), mine.ceiling(1), mine.close()) == (0, ENDS[1], ENDS), kind


def raised(call, *values):
    """Returns the type and the text of the error that a call raises."""
    try:
        call(*values)
    except Exception as fault:
        return type(fault), str(fault)
    return None, ""


def numbers():
    """Checks that integers beyond 32 bits, and values that are no integers, raise an error and do not change the set.
    """
    mine = listset.open_set("lazy", 1, 4, [1, 5])
    calls = [mine.add, mine.remove, mine.contains, mine.ceiling, *(lambda it, at=at: opened(at, it) for at in range(4))]
    for call in calls:
        for number in (-1, -(2**32) + 5, 2**32, 2**32 + 1, 2**32 + 5, 2**64 + 5):
            fault, text = raised(call, number)
            due = f" {number} is not in the range 0 to 4294967295"
            assert fault is ValueError and text.endswith(due), (call, number, fault, text)
        for other in (5.0, "5", None, [5]):
            assert raised(call, other)[0] is TypeError, (call, other)
    assert mine.add(2) and mine.close() == [1, 2, 5]


def apart():
    """Checks that a seat (one thread's access to the set) cannot be merged with a seat of another set, even among more
    sets than 16 bits can number.
    """
    mine, found = listset.open_set("lazy", 1, 0), set()

    def run():
        found.update(code(mine.gather, listset.open_set("lazy", 1, 0)) for _ in range(70_000))

    thread = threading.Thread(target=run)
    thread.start()
    thread.join()
    assert found == {18}, found


def limits():
    """Opens sets with the maximum number of seats (threads) and keys, and with the smallest and the largest quota."""
    keys = [4095 * it for it in range(2**20)]
    assert listset.open_set("lazy", 1, 0, keys).close() == keys
    assert code(listset.open_set, "lazy", 1, 1, [7, 7]) == code(listset.open_set, "lazy", 1, 1, [9, 5]) == 12
    assert code(listset.open_set, "lazy", 1, 16385) == 11 and code(listset.open_set, "lazy", 65, 1) == 10
    assert listset.open_set("lazy", 1, 0).try_add(1) is Added.FULL
    most = listset.open_set("lazy", 1, 16384)
    assert all(most.add(key) for key in range(16384, 0, -1)) and most.try_add(0) is Added.FULL
    first = listset.open_set("lazy", 64, 1)
    seats = [first, *(first.split() for _ in range(63))]
    assert all(it.add(key) for key, it in enumerate(seats)) and [it.try_add(64) for it in seats] == [Added.FULL] * 64
    for it in seats[1:]:
        first.gather(it)
    assert first.close() == [*range(64)]


def closed_again():
    """Checks that `close` returns the keys at the second attempt if an allocation failed during the first attempt."""
    keys, mine = listset._keys, listset.open_set("lazy", 1, 1, [5, 9])
    for refused in (1, 2):
        with unittest.mock.patch.object(listset, "_keys", side_effect=[*[keys([])] * (refused - 1), MemoryError]):
            assert raised(mine.close)[0] is MemoryError, refused
    assert mine.close() == [5, 9]


def reads_and_receipts(kind):
    mine, apart = listset.open(kind, 2, 3, [5, 9]), listset.open(kind, 1, 1)
    other = mine.split()
    if kind in ("lazy", "lock-free"):
        assert [mine.contains_now(key) for key in (4, 5, 9)] == [False, True, True] and mine.remove(5) and not mine.contains_now(5)
    else:
        assert code(mine.contains_now, 5) == 19
    first, second = mine.receipt(), mine.receipt()
    assert code(apart.after, first) == 18 and other.after(first) is None and code(other.after, first) == 255
    del second
    assert listset.most_reads(2, 3, 2) == 18 and listset.most_reads(64, 16384, 2**20) == 2**22 + 2 and listset.most_reads(65, 1) == 0


def renewed_by_hand():
    """Replaces a set with a set of another list that has the same keys (`renew`). Checks that a refused renewal loses
    nothing.
    """
    first = listset.open("lazy", 3, 1, [5])
    seats = [first, first.split(), first.split()]
    assert seats[0].add(7) and seats[1].add(8) and raised(seats[0].add, 9)[0] is listset.Full
    assert code(listset.renew, seats[:2], "fine", 1, 1) == 16 and code(listset.renew, seats, "fine", 65, 1) == 10
    assert code(listset.renew, seats, "fine", 1, 16385) == 11 and raised(listset.renew, seats, "none", 1, 1)[0] is ValueError
    for kind, count in zip(listset.LISTS, (1, 64, 2, 5, 3)):
        seats = listset.renew(seats, kind, count, 1)
        assert len(seats) == count and seats[-1].ceiling(0) == 5 and 8 in seats[0], kind
    assert seats[2].add(9) and seats[0].remove(7)
    (last,) = listset.renew(seats, "lazy", 1, 0)
    assert last.close() == [5, 8, 9] and code(seats[0].contains, 5) == 255


def by_threads(run):
    with concurrent.futures.ThreadPoolExecutor(THREADS) as threads:
        return list(threads.map(run, range(THREADS)))


def renewed_by_itself(kind, quota):
    """Adds keys in four threads to a set with a small quota. Each call must reply as if the set had no quota."""
    of = listset.RenewedSet(kind, THREADS, quota, [KEYS * 9])

    def run(number):
        own, draws = set(), random.Random(number)
        with of.split() as mine:
            for _ in range(600):
                key = KEYS * (number + 1) + draws.randrange(KEYS)
                assert mine.add(key) is (key not in own) and key in mine and (kind == "lock-free" or mine.ceiling(key) == key)
                own.add(key)
                if draws.random() < 0.5:
                    assert mine.remove(key) and not mine.contains(key)
                    own.discard(key)
        return own

    due = sorted(set().union(*by_threads(run), [KEYS * 9]))
    assert of.keys() == due and of.close() == due and code(of.close) == code(of.keys) == code(of.split) == 255, kind


def seats_of_a_renewed_set():
    of = listset.RenewedSet("lazy", 2, 2, patience=0.02)
    mine, rests = of.split(), of.split()
    assert code(of.split) == 17 and code(of.close) == 16 and all(mine.add(key) for key in range(20))
    with of._places[1].lock:  # (as if another thread stayed in a call)
        for call, key in ((mine.add, 20), (rests.contains, 1)):
            assert raised(call, key) == (listset.TimedOut, "timed out: another thread was in a call for too long")
        assert 19 in mine and 20 not in mine
    assert mine.add(20) and 20 in rests
    mine.drop()
    assert code(mine.add, 1) == 255 and code(of.split().try_add, 30) is None
    rests.drop()
    assert of.close() == [*range(21), 30]
    none = listset.RenewedSet("lazy", 1, 0)
    assert none.split().try_add(1) is Added.FULL


def waits_without_patience(kind):
    """Checks that a call without a time limit waits during a long call of another thread, and succeeds after the long
    call has ended.
    """
    of = listset.RenewedSet(kind, 2, 1)
    mine, rests = of.split(), of.split()
    assert mine.add(1)
    with concurrent.futures.ThreadPoolExecutor(1) as thread:
        with of._places[1].lock:
            waits = thread.submit(mine.add, 2)
            assert not concurrent.futures.wait([waits], timeout=0.05).done
        assert waits.result() and 2 in rests


def shared(kind):
    of = listset.Shared(kind, 2, 500, [7])
    found = by_threads(lambda number: [of.try_add(KEYS + number + THREADS * key) for key in range(300)])
    assert [it.count(Added.FULL) for it in found].count(0) < THREADS and sum(it.count(Added.TRUE) for it in found) == 1000
    assert 7 in of and of.remove(7) and of.discard(7) is None and of.ceiling(0) == KEYS and raised(of.add, 7)[0] is listset.Full
    assert len(of.close()) == 1000 and code(of.add, 1) == code(of.close) == 255


def two_users():
    """Checks that a call through a seat raises an error while another thread is making a call through the same seat."""
    mine = listset.open("lazy", 1, 1)
    with mine._used():
        text = "no seat is here: it was moved, dropped, gathered or closed, or another thread is in a call from it"
        assert [raised(it, 1) for it in (mine.add, mine.contains)] == [(listset.Fault, text)] * 2 and raised(mine.close)[1] == text
    assert mine.add(1) and mine.close() == [1]


def pages():
    """Returns the number of memory pages of the current process."""
    with open("/proc/self/statm") as file:
        return int(file.read().split()[1])


def memory():
    """Checks that sets without references are freed. Each set in the test needs about 3 MB."""
    before = pages()
    for _ in range(60):
        listset.open_set("lazy", 8, 16384).split()
    assert pages() - before < 2**14, f"{pages() - before} pages"


def side_by_side():
    """Checks that other threads run during a call of the judge."""
    counted, is_over = [0], threading.Event()

    def count():
        while not is_over.wait(0.001):
            counted[0] += 1

    calls = "".join(f"call 0 contains 5 {at} {at + 1} false\n" for at in range(1, 1_000_000, 2))
    thread = threading.Thread(target=count)
    thread.start()
    try:
        before = counted[0]
        listset.judge_text(f"listset-calls 1\n{calls}end\n")
        after = counted[0]
    finally:
        is_over.set()
        thread.join()
    assert after - before > 5, after - before


def opened(at, number):
    """Opens a set with `number` as one of the arguments. `at` selects which: 0 is the number of seats, 1 the quota, 2
    the first key, 3 the last key.
    """
    seats, quota, first, last = [number if at == it else it + 1 for it in range(4)]
    listset.open_set("lazy", seats, quota, [first, last])


for it in listset.LISTS:
    trial(it)
    ends(it)
    reads_and_receipts(it)
    renewed_by_itself(it, 1 if it == "fine" else 50)
    waits_without_patience(it)
    shared(it)
renewed_by_hand()
seats_of_a_renewed_set()
two_users()
refusals()
for place in range(4):
    opened(place, place + 1)
numbers()
apart()
limits()
closed_again()
memory()
side_by_side()
