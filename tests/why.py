"""Tests the lines that `judge` prints below a refusal. page/tests/verdicts.js checks in Node that each sentence is
true, and the tests in this file check that the program prints the same sentences. Refusals
that are based on counts of adds and removes are checked by a search through all orders.
"""

import itertools
import random
import re
import subprocess

import pytest
from harness.programs import SECONDS, TOP, ran
from judging import Call, changes, drawn, spread, text_of, ways_left

COUNT = re.compile(r"contradiction: (.*)\n  need key (\d+) to become (present|absent)(?: (\d+) times)?.*\n  and (?:no|only (\d+)) (\w+) \d+ .*(?: overlaps? | begins? before | runs? after |pending(?:: |$)).*")
COUNTED = re.compile(r"(add|remove|contains) (\d+) (true|false) \(thread (\d+), (\d+) to (\d+)\)")


@pytest.fixture
def path(tmp_path):
    return tmp_path / "recorded.calls"


def recordings(seed, count):
    """Yields random recordings, each with its calls and with the keys at the start and at the end."""
    rng = random.Random(seed)
    for _ in range(count):
        yield spread(rng, *drawn(rng, rng.randrange(3, 10)))


def verdict_lines(output):
    """Returns the lines about the contradiction in a refusal."""
    return output.partition("\n\n")[0].splitlines()[2:]


def is_count(calls, opening, keys, lines):
    """Returns whether a message that counts adds and removes is true: no order explains the calls in the message
    together with all calls that could have undone their changes. Returns None if the message does not list all counted
    calls.
    """
    found = COUNT.match("\n".join(lines))
    named, key = found[1], int(found[2])
    counted = [Call(int(thread), op, int(at), int(begin), int(end), reply) for op, at, reply, thread, begin, end in COUNTED.findall(named)]
    assert {*counted} <= {*calls}, lines
    backs = [call for call in calls if call.key == key and call.word == found[6] and changes(call)]
    assert int(found[5] or 0) < int(found[4] or 1) and int(found[5] or 0) <= len(backs), lines
    openings = [key in opening] if " at first" in named else [True, False]
    finals = {key in keys} if " at the end" in named else {True, False}
    return None if " more " in named else not any(ways_left([*counted, *backs], state) & finals for state in openings)


@pytest.mark.needs("node")
def test_the_program_prints_what_the_engine_in_node_prints(program, path, few):
    for calls, opening, keys in recordings(11, 10 if few else 80):
        path.write_text(text_of(calls, opening, keys))
        for words in ([], ["--only", str(calls[0].key)], ["--only", "x"]):
            ours = ran(program, "judge", *words, path)
            theirs = subprocess.run(["node", TOP / "page/listset.js", "judge", *words, path], capture_output=True, text=True, timeout=SECONDS)
            assert (ours.returncode, ours.stdout, ours.stderr) == (theirs.returncode, theirs.stdout, theirs.stderr), path.read_text()


def test_a_message_has_at_most_fifteen_lines_and_its_count_is_true(program, path):
    for calls, opening, keys in recordings(1, 300):
        path.write_text(text_of(calls, opening, keys))
        printed = ran(program, "judge", path).stdout
        assert len([line for line in printed.splitlines() if line]) <= 15, printed
        lines = verdict_lines(printed)
        if len(lines) > 1 and lines[1].startswith("  need "):
            assert is_count(calls, opening, keys, lines) is not False, (path.read_text(), printed)


def mark_not_read(rounds):
    """Returns a recording of a set whose `contains` has a bug: until a `remove` ends, `contains` still finds the key,
    even after a second `remove` has found the key absent.
    """
    made = [("add", 1, 2, 0, "true"), ("remove", 3, 8, 1, "true"), ("remove", 4, 5, 0, "false"), ("contains", 6, 7, 0, "true")]
    calls = [Call(thread, word, 3, moment + begin, moment + end, reply) for moment in range(0, 8 * rounds, 8) for word, begin, end, thread, reply in made]
    return text_of(calls, [], [])


def test_an_operation_that_alone_is_wrong_is_named_with_a_cause(program, path):
    path.write_text(mark_not_read(20))
    said = ran(program, "judge", path).stdout
    assert "\ncontains(3) returned true, expected false\n" in said
    assert "only contains is wrong: 20 of its 20 answers (found an absent key, and never missed a present key)\n" in said
    assert "\nanother add or remove of their key ran during 20 of the 20 wrong answers\n" in said
    assert "\nlikely: contains does not look at what remove changes first" in said


def test_a_few_contradictions_are_listed(program, path):
    """Tests a recording with two keys. For each key, two overlapping adds returned true."""
    calls = [Call(thread, "add", key, 10 * key + thread, 10 * key + 5 + thread, "true") for key in (3, 5) for thread in range(2)]
    path.write_text(text_of(calls, [], [3, 5]))
    said = ran(program, "judge", path).stdout
    assert "\nat least 2 contradictions: key 3 added twice from 30 to 36; key 5 added twice from 50 to 56\n" in said, said


def test_a_key_that_is_lost_without_a_call_is_named_and_has_a_recording(program, path):
    """Tests a key that is present at first and absent at the end, although no call uses it."""
    path.write_text(text_of([Call(0, "add", 1, 1, 2, "true")], [5], [1]))
    said, alone = ran(program, "judge", path).stdout, ran(program, "judge", "--only", "5", path)
    assert "\nkey 5 was lost: key 5 is absent at the end\n" in said and "\nat least 1 contradiction: key 5 lost by the end\n" in said, said
    assert (alone.stdout, alone.returncode) == ("listset-calls 1\nopening 5\nend\n", 0), alone
    assert ran(program, "judge", "--only", "7", path).returncode == 2


class OneSet:
    """A correct set. Each call is a generator; at each `yield`, calls of other threads can run. Each subclass has one
    bug.
    """

    def __init__(self, rng):
        self.rng, self.keys, self.more = rng, set(), set()

    def add(self, thread, key):
        yield
        is_new = key not in self.keys
        self.keys.add(key)
        return is_new

    def remove(self, thread, key):
        yield
        is_there = key in self.keys
        self.keys.discard(key)
        return is_there

    def contains(self, thread, key):
        yield
        return key in self.keys


class AddLooksFirst(OneSet):
    likely = ("add checks, then acts", "check, then act", "the reply does not come from the change itself", "calls of one key at the same time undo each other")

    def add(self, thread, key):
        yield
        is_new = key not in self.keys
        yield
        self.keys.add(key)
        return is_new


class SeenBeforeItIsAdded(OneSet):
    likely = ("contains finds a key whose add is not finished",)

    def add(self, thread, key):
        yield
        while key in self.more:
            yield
        if key in self.keys:
            return False
        self.more.add(key)
        yield
        yield
        self.more.discard(key)
        self.keys.add(key)
        return True

    def contains(self, thread, key):
        yield
        return key in self.keys or key in self.more


class MarkNotRead(OneSet):
    likely = ("contains does not look at what remove changes first",)

    def add(self, thread, key):
        while key in self.more:
            yield
        return (yield from super().add(thread, key))

    def remove(self, thread, key):
        yield
        if key in self.more or key not in self.keys:
            return False
        self.more.add(key)
        yield
        yield
        self.keys.discard(key)
        self.more.discard(key)
        return True


class TakenLater(OneSet):
    likely = ("contains still finds a key after its remove has returned",)

    def add(self, thread, key):
        is_new = yield from super().add(thread, key)
        self.more.add(key)
        return is_new

    def contains(self, thread, key):
        if self.rng.random() < 0.05:
            self.more = {*self.keys}
        yield
        return key in self.more


class RepeatedCall(OneSet):
    likely = ("a call is repeated after it took effect",)

    def add(self, thread, key):
        is_new = yield from super().add(thread, key)
        return (yield from super().add(thread, key)) if self.rng.random() < 0.02 else is_new

    def remove(self, thread, key):
        is_there = yield from super().remove(thread, key)
        return (yield from super().remove(thread, key)) if self.rng.random() < 0.02 else is_there


class InsertedTwice(OneSet):
    likely = ("two adds insert the same key twice",)

    def __init__(self, rng):
        super().__init__(rng)
        self.keys = []

    def add(self, thread, key):
        yield
        if key in self.keys:
            return False
        yield
        self.keys.append(key)
        return True

    def remove(self, thread, key):
        yield
        if key not in self.keys:
            return False
        self.keys.remove(key)
        return True


class TriesToLock(OneSet):
    likely = ("add and remove give up and return false",)

    def __init__(self, rng):
        super().__init__(rng)
        self.is_locked = False

    def locked(self, call):
        if self.is_locked:
            yield
            return False
        self.is_locked = True
        done = yield from call
        self.is_locked = False
        return done

    def add(self, thread, key):
        return (yield from self.locked(super().add(thread, key)))

    def remove(self, thread, key):
        return (yield from self.locked(super().remove(thread, key)))


def recorded(kind, seed, keys=4, threads=4, count=6000):
    """Returns the recording of calls of a set. The threads execute their steps in a random order."""
    rng = random.Random(seed)
    these, calls, running, moment, thread = kind(rng), [], {}, 0, 0
    while len(calls) < count or running:
        thread = thread if rng.random() < 0.9 else rng.randrange(threads)
        if thread in running:
            call, steps = running[thread]
            try:
                next(steps)
            except StopIteration as end:
                moment += 1
                call += [moment, str(bool(end.value)).lower()]
                del running[thread]
        elif len(calls) < count:
            moment += 1
            word, key = rng.choice(["add", "remove", "contains"]), rng.randrange(keys)
            calls.append([thread, word, key, moment])
            running[thread] = (calls[-1], getattr(these, word)(thread, key))
        else:
            thread = rng.choice([*running])
    lines = [f"call {' '.join(map(str, call))}" for call in calls]
    return "\n".join(["listset-calls 1", *lines, "cut", ""])


@pytest.mark.parametrize("kind", [AddLooksFirst, SeenBeforeItIsAdded, MarkNotRead, TakenLater, RepeatedCall, InsertedTwice, TriesToLock])
def test_the_likely_cause_of_a_wrong_set_is_its_bug(program, path, kind):
    guesses = set()
    for seed in range(4):
        path.write_text(recorded(kind, seed))
        guesses |= {*re.findall(r"^likely: (.*)$", ran(program, "judge", path).stdout, re.MULTILINE)}
    assert guesses and all(guess.startswith(kind.likely) for guess in guesses), guesses


def test_few_calls_have_no_likely_cause(program, path):
    path.write_text(mark_not_read(5))
    said = ran(program, "judge", path).stdout
    assert "only contains is wrong: 5 of its 5 answers" in said and "likely:" not in said


def test_a_refusal_from_a_pipe_has_a_hint_to_use_a_file(program):
    done = ran(program, "judge", text=mark_not_read(20))
    assert done.returncode == 1 and "likely:" not in done.stdout
    assert done.stdout.endswith("\nto learn what is wrong, judge a file: listset judge FILE\n")


def test_a_linearizable_recording_has_no_diagnosis(program, path):
    path.write_text(text_of([Call(0, "add", 1, 1, 2, "true")], [], [1]))
    said, brief = ran(program, "judge", path).stdout, ran(program, "judge", "--brief", path).stdout
    assert brief == "ok 1 calls\n0 of them overlap a change of their key\n" and said.startswith(brief) and "contradiction" not in said


def test_a_refusal_without_a_clash_has_a_count(program, path):
    """Tests three adds and one remove that overlap. No two of the four calls contradict each other, so `judge` must
    justify the refusal by counting the adds and removes.
    """
    calls = [Call(thread, "add", 7, 1 + thread, 10 + thread, "true") for thread in range(3)] + [Call(3, "remove", 7, 4, 9, "true")]
    path.write_text(text_of(calls, [], [7]))
    lines = verdict_lines(ran(program, "judge", path).stdout)
    assert len(lines) == 3 and is_count(calls, [], [7], lines), lines


def test_brief_prints_only_the_verdict(program, path):
    path.write_text(mark_not_read(5))
    done = ran(program, "judge", "--brief", path)
    assert (done.stdout, done.returncode) == ("not linearizable\nno order explains the calls of key 3 up to moment 7\n", 1)
    assert ran(program, "judge", path).stdout.startswith(done.stdout)


def test_a_long_recording_is_explained_by_its_first_calls(program, path):
    """Tests a recording of more than a million calls. The message must state that it covers only the first million."""
    lines = (f"call 0 contains {number % 4} {2 * number + 1} {2 * number + 2} {'true' if number == 9 else 'false'}\n" for number in range(1_100_000))
    with path.open("w") as file:
        file.writelines(itertools.chain(["listset-calls 1\n"], lines, ["end\n"]))
    said = ran(program, "judge", path).stdout
    assert "only contains is wrong: 1 of its 1000000 answers" in said and "\nonly the first 1000000 calls were looked at\n" in said
