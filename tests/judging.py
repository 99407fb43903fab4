"""Compares `judge` with a search through all orders: the verdict, and, for a refusal, the key and the moment (a time in
the recording) in the message. Also tests texts that arrive in pieces. `--few` tries a tenth of the texts.
"""

import collections
import random
import re
import subprocess

import pytest

from harness.programs import SECONDS, ran
from harness.set_model import CHANGES, SetModel, reply_of

TEXTS, SEEDS = 100, range(1, 5)  # the number of texts for each seed; a tenth of it with --few
THREADS, KEYS = 4, 3
LAST = 2**63 - 1
TITLE = "listset-calls 1"

Call = collections.namedtuple("Call", "thread word key begin end reply")


def drawn(rng, calls):
    """Returns random overlapping calls of threads, sorted by start, and the keys of the set at the start and at the
    end. The set occasionally returns a wrong reply. The starts and ends of calls are the moments 1, 2, 3 and so on.
    """
    opening = sorted(rng.sample(range(KEYS), rng.randrange(KEYS)))
    opened, found, pending, moment = SetModel(keys=opening), [], {}, 0
    wrong = rng.choice([0, 0, 0.05, 0.2])
    while len(found) < calls or pending:
        moment += 1
        idle = [it for it in range(THREADS) if it not in pending]
        if len(found) < calls and idle and (not pending or rng.random() < 0.5):
            thread = rng.choice(idle)
            pending[thread] = len(found)
            found.append([thread, rng.choice(["add", "remove", "contains"]), rng.randrange(KEYS), moment, None, None, None])
        elif len(found) == calls and rng.random() < 0.2:
            break
        else:
            thread = rng.choice(list(pending))
            made = found[pending.pop(thread)]
            reply = made[6] or opened.reply(*made[:3])
            made[4:6] = moment, reply if rng.random() >= wrong else {"true": "false", "false": "true"}[reply]
        for thread, number in pending.items():
            if not found[number][6] and rng.random() < 0.3:
                found[number][6] = opened.reply(*found[number][:3])
    return [Call(*it[:6]) for it in found], opening, sorted(opened.keys)


def with_pending(rng, calls):
    """Returns `calls`, with the last call of some threads changed to a pending call."""
    last, share = {it.thread: it for it in calls}, rng.choice([0, 0.3, 0.9])
    pending = {it.begin for it in last.values() if rng.random() < share}
    return [it._replace(end=None, reply=None) if it.begin in pending else it for it in calls]


def spread(rng, calls, opening, keys):
    """Spreads the calls over more keys. In some recordings, a final key is missing, or an absent key is listed as a
    final key.
    """
    names = rng.sample(range(3 * KEYS), 3 * KEYS)
    others = [it for it in names[KEYS:] if rng.random() < 0.5]
    opened, left = [names[it] for it in opening] + others, {names[it] for it in keys} | {*others}
    for wrong in rng.sample(names, rng.choice([0, 0, 1, 3])):
        left ^= {wrong}
    return [it._replace(key=names[it.key]) for it in with_pending(rng, calls)], sorted(opened), sorted(left)


def moved(calls, far):
    return [it._replace(begin=it.begin + far, end=it.end and it.end + far) for it in calls]


def call_line(made):
    return " ".join(["call", *("-" if it is None else str(it) for it in made)])


def text_of(calls, opening, keys):
    """Returns the text of a recording. If `keys` is None, the recording ends with `cut` in place of the final keys."""
    ends = ["cut"] if keys is None else [*(f"key {it}" for it in keys), "end"]
    return "".join(f"{it}\n" for it in [TITLE, *(f"opening {it}" for it in opening), *map(call_line, calls), *ends])


# ---- The search through all orders


def changes(it):
    """Returns whether a call changed its key, or is pending and can still change its key."""
    return it.word in CHANGES and it.reply in ("true", None)


def ways_left(calls, is_there):
    """Returns the possible states of a key after `calls`. `is_there` states whether the key was present before `calls`.
    Tries all orders of the completed calls, with each subset of the pending calls that can change the key.
    """
    calls = [it for it in calls if it.end or changes(it)]
    ended = {number for number, it in enumerate(calls) if it.end}
    before = [{other for other in ended if calls[other].end < it.begin} for it in calls]
    reached, left, seen = [(frozenset(), is_there)], set(), set()
    while reached:
        placed, is_there = reached.pop()
        if placed >= ended:
            left.add(is_there)
        for number, it in enumerate(calls):
            if number not in placed and placed >= before[number] and reply_of(it.word, it.key, [it.key] * is_there) == (it.reply or "true"):
                further = placed | {number}, is_there != changes(it)
                reached += [further] * (further not in seen)
                seen.add(further)
    return left


def known_at(calls, moment):
    """Returns `calls` as they are known at `moment` (a time in the recording). An add or remove that has begun but not
    ended by `moment` is pending. Other calls that have not ended are left out.
    """
    ended = [it for it in calls if it.end and it.end <= moment]
    return ended + [it._replace(end=None, reply=None) for it in calls if it.begin <= moment and it not in ended and changes(it)]


class Judged:
    """A recording, and the result of a search through all orders of its calls."""

    def __init__(self, calls, opening, keys):
        self.calls, self.opening, self.keys = calls, opening, keys
        moments = sorted({it.begin for it in calls} | {it.end for it in calls if it.end})
        self.of_key = {key: [it for it in calls if it.key == key] for key in {it.key for it in calls}.union(opening, keys or [])}
        without = [(moment, key) for key, of_key in self.of_key.items() if not ways_left(of_key, key in opening)
                   for moment in moments if not ways_left(known_at(of_key, moment), key in opening)]
        self.moment, self.key = min(without, default=(None, None))
        if self.moment is None and keys is not None:
            wrong = [key for key, of_key in self.of_key.items() if (key in keys) not in ways_left(of_key, key in opening)]
            self.key = min(wrong, key=lambda it: (it not in opening and not self.may_be_changed(it), it), default=None)

    def may_be_changed(self, key):
        """Returns whether some call on `key` has ended or can change `key`."""
        return any(it.end or changes(it) for it in self.of_key[key])

    def overlapped(self):
        """Returns how many calls overlap a call that changed the same key."""
        def overlap(it, other):
            return it.key == other.key and it.begin < (other.end or LAST) and other.begin < (it.end or LAST)
        return sum(any(it != other and other.reply and changes(other) and overlap(it, other) for other in self.calls) for it in self.calls)

    def lines(self):
        """Returns the first lines that `judge` must print."""
        if self.key is None:
            many, met = len(self.calls), self.overlapped()
            few = ["few calls overlap, and a race shows only if they do: use fewer keys, more threads, or pauses in the set"]
            cut = ["the recording was cut off: some keys left fit, and those that were left are not known"]
            return [f"ok {many} calls", f"{met} of them overlap a change of their key", *few * (20 * met < many), *cut * (self.keys is None)]
        upto = "and leaves it as it was left" if self.moment is None else f"up to moment {self.moment}"
        return ["not linearizable", f"no order explains the calls of key {self.key} {upto}"]


# ---- Checks of the lines about two calls that contradict each other

STATES = {"present": True, "absent": False}
STATE, CALL = "(present|absent)", r"thread (\d+) (\w+) (\d+) (true|false), (\d+) to (\d+)"


def leaves(it):
    """Returns whether a call leaves its key present."""
    return it.word == "add" or (it.word, it.reply) == ("contains", "true")


def needs(it):
    """Returns whether a call needs its key to be present."""
    return leaves(it) != changes(it)


def call_in(line, form, of_key):
    """Returns the call in `of_key` that `line` describes, and the key's states that `line` has after the call. If `line`
    does not match the pattern `form`, returns None and an empty list.
    """
    found = re.fullmatch(form, line)
    if not found:
        return None, []
    made = [it for it in of_key if [str(field) for field in (it.thread, it.word, it.key, it.reply, it.begin, it.end)] == [*found.groups()[:6]]]
    assert len(made) == 1, line
    return made[0], [STATES[it] for it in found.groups()[6:]]


def may_be_made(of_key, word, since, until):
    """Returns whether some call of the operation `word` could have changed the key between `since` and `until`: the
    call overlaps the interval, and returned true or is pending.
    """
    return any(it.word == word and changes(it) and it.begin < until and since < (it.end or LAST + 1) for it in of_key)


def is_true(lines, key, judged):
    """Returns whether every statement in `lines` (about a contradiction) is true for the calls in `of_key`."""
    of_key, word = judged.of_key.get(key, []), {True: "add", False: "remove"}
    first, states = call_in(lines[0], f"contradiction in both orders: {CALL}, needs key {key} {STATE} and leaves it {STATE},", of_key)
    if first:
        second, others = call_in(lines[1], f"  {CALL}, needs key {key} {STATE} and leaves it {STATE},", of_key)
        assert states == [needs(first), leaves(first)] and others == [needs(second), leaves(second)], lines
        assert first.begin < second.end and second.begin < first.end and first != second, lines
        assert leaves(first) != needs(second) and leaves(second) != needs(first), lines
        need, back = word[needs(second)], word[needs(first)]
        assert lines[2:] == [f"  and no {need} {key} that returned true or is pending overlaps {first.begin} to {second.end}, "
                             f"and no such {back} overlaps {second.begin} to {first.end}"], lines
        return not may_be_made(of_key, need, first.begin, second.end) and not may_be_made(of_key, back, second.begin, first.end)
    first, states = call_in(lines[0], f"contradiction: {CALL}, leaves key {key} {STATE},", of_key)
    was = leaves(first) if first else key in judged.opening
    assert states == [was] if first else lines[0] == f"contradiction: key {key} is {'present' if was else 'absent'} at first,", lines
    second, states = call_in(lines[1], f"  {CALL}, needs key {key} {STATE},", of_key)
    need = needs(second) if second else key in judged.keys
    assert states == [need] if second else lines[1] == f"  key {key} is {'present' if need else 'absent'} at the end,", lines
    assert was != need and (not first or not second or first.end < second.begin), lines
    begins = f"  and no {word[need]} {key} "
    third = {
        (True, True): lambda: f"that returned true or is pending overlaps {first.begin} to {second.end}",
        (False, True): lambda: f"that returned true or is pending begins before {second.end}",
        (True, False): lambda: f"that returned true ends after {first.begin}, and none is pending",
        (False, False): lambda: "returned true or is pending",
    }[bool(first), bool(second)]()
    assert lines[2:] == [begins + third], lines
    return not may_be_made(of_key, word[need], first.begin if first else 0, second.end if second else LAST + 2)


def ends_after(line, moment):
    """Returns whether the second call in `line` (about a contradiction) ends after `moment` (a time in the recording).
    """
    return any(int(end) > moment for end in re.findall(r", \d+ to (\d+), needs", line))


MORE = "to learn what is wrong, judge a file: listset judge FILE\n"


@pytest.mark.parametrize("seed", SEEDS)
def test_the_verdict_and_its_lines_are_right(program, few, seed):
    rng, found = random.Random(seed), collections.Counter()
    for _ in range(TEXTS // 10 if few else TEXTS):
        calls, opening, keys = spread(rng, *drawn(rng, rng.randrange(1, 14)))
        judged = Judged(moved(calls, rng.choice([0, 2**32, LAST - 1000])), opening, None if rng.random() < 0.2 else keys)
        text, due, is_refused = text_of(judged.calls, opening, judged.keys), judged.lines(), judged.key is not None
        done = ran(program, "judge", text=text)
        printed, _, more = done.stdout.partition("\n\n")
        assert more == MORE * is_refused, text
        said, shown = printed.splitlines()[:len(due)], printed.splitlines()[len(due):]
        later = [f"  (the calls up to moment {judged.moment} alone already have no order; this contradiction ends later, and is the first that the judge found)"]
        is_later = bool(judged.moment and shown) and ends_after(shown[1], judged.moment)
        assert shown[3:] == (later if is_later else []), text
        shown = shown[:3]
        assert (done.returncode, said, done.stderr) == (int(is_refused), due, ""), text
        assert not shown or is_refused and is_true(shown, judged.key, judged), done.stdout
        found["without a clash"] += is_refused and not shown
        found["right" if not is_refused else "by a moment" if judged.moment else "left wrong"] += 1
    assert few or min(found[it] for it in ("right", "left wrong", "by a moment")) >= TEXTS // 10, found
    assert found["without a clash"] <= (found["by a moment"] + found["left wrong"]) // 10, found


# ---- Tests of texts that arrive in pieces

def in_pieces(program, text, size):
    """Runs `judge` on a text that is written in pieces of `size` bytes."""
    with subprocess.Popen([program, "judge"], stdin=subprocess.PIPE, stdout=subprocess.PIPE, stderr=subprocess.PIPE, bufsize=0) as judge:
        try:
            for at in range(0, len(text), size):
                judge.stdin.write(text[at:at + size].encode())
        except BrokenPipeError:
            pass
        output, faults = judge.communicate(timeout=SECONDS)
    return judge.returncode, output.decode(), faults.decode()


@pytest.mark.parametrize("size", [1, 7, 16, 4096])
def test_the_verdict_does_not_depend_on_the_pieces(program, size):
    """Tests a recording, its copy without the last newline, and its copy with a wrong title. Each text must get the
    same verdict when it arrives in pieces.
    """
    rng = random.Random(size)
    for many in (3, 30, 400):
        calls, opening, keys = drawn(rng, many)
        text = text_of(moved(calls, 10**9), opening, keys)
        for it in (text, text.replace("\nend\n", "\nend"), text.replace(TITLE, "listset-calls 2")):
            done = ran(program, "judge", text=it)
            assert in_pieces(program, it, size) == (done.returncode, done.stdout, done.stderr), it


def test_an_error_is_reported_before_the_input_ends(program):
    """Tests that an error in a line ends the program while the pipe is still open, because a recorder can run for hours."""
    with subprocess.Popen([program, "judge"], stdin=subprocess.PIPE, stdout=subprocess.PIPE, stderr=subprocess.PIPE, bufsize=0) as judge:
        judge.stdin.write(f"{TITLE}\ncall 0 add 5 1 2 true\ncall 0 add 5 2 3 true\n".encode())
        try:
            status = judge.wait(timeout=SECONDS)
        finally:
            judge.kill()
        assert (status, judge.stdout.read(), judge.stderr.read()) == (1, b"", b"listset: line 3: History\n")
