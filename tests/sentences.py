"""Checks every sentence that `check` and `show` print about a report. For each kind of sentence, a property decides by
a search through all orders whether the sentence is true. The reports have 3 to 9 random calls, and are correct or
wrong. A line that no property covers fails the test. `trace` and `show` must also show the same calls as the report
that `replay` prints. (tests/judging.py checks sentences about recordings.)

The environment variable CASES is the number of random cases of each test per seed. `--few` tests a tenth of them.
"""

import collections
import os
import random
import re

import pytest
from harness.lists_model import LACKING, List
from harness.lists_model import Call as ListCall
from harness.programs import KINDS, TOP, ran
from harness.reports_model import Report, damage, report_text
from harness.set_model import CHANGES, SetModel, reply_of
from harness.traces_model import read_schedule, run_of
from judging import LAST, STATES, Call, changes, leaves, needs, ways_left
from trace_and_show_models import drawn_schedule

CASES, SEEDS = int(os.environ.get("CASES", "60")), range(4)
KEYS, THREADS = 3, 3


@pytest.fixture
def cases(few):
    return range(max(1, CASES // 10) if few else CASES)


class Sentences:
    """Properties of printed lines, each with a pattern that matches the lines to check. A property is a function of a
    case (a report) and of the groups of the match.
    """

    def __init__(self):
        self.properties = []

    def __call__(self, *patterns):
        def noted(holds):
            self.properties += [(re.compile(it), holds) for it in patterns]
            return holds
        return noted

    def are_true(self, case, lines):
        for line in lines:
            matches = [(pattern.fullmatch(line), holds) for pattern, holds in self.properties if pattern.fullmatch(line)]
            assert len(matches) == 1, f"{len(matches)} properties are of the line {line!r} on\n{case.text}"
            (match, holds), = matches
            assert holds(case, *match.groups()), f"{line!r} is false of\n{case.text}"
            case.met[holds.__name__] += 1


# ---- The search through all orders, for calls of a set with several keys, a quota and ceilings


def is_reply(word, key, reply):
    """Returns whether a set can return `reply` to a call of the operation `word` on `key`."""
    if word == "ceiling":
        return reply == "nothing" or (reply.startswith("at-") and int(reply[3:]) >= key)
    return reply in ("true", "false") or (word, reply) == ("add", "full")


def left_by_orders(calls, opening, quota):
    """Returns all possible sets of final keys, one for each order that explains `calls`. A pending call that has no
    effect is left out of the orders.
    """
    calls = [it for it in calls if it.end or changes(it)]
    completed = {number for number, it in enumerate(calls) if it.end}
    before = [{other for other in completed if calls[other].end < it.begin} for it in calls]
    reached, left, seen = [(frozenset(), frozenset(opening))], set(), set()
    while reached:
        placed, keys = reached.pop()
        if placed >= completed:
            left.add(keys)
        added = collections.Counter(calls[it].thread for it in placed if calls[it].word == "add" and changes(calls[it]))
        for number, it in enumerate(calls):
            reply = it.reply or "true"
            if number in placed or not before[number] <= placed or reply_of(it.word, it.key, keys, added[it.thread] < quota) != reply:
                continue
            changed = keys | {it.key} if it.word == "add" else keys - {it.key}
            further = placed | {number}, changed if changes(it) else keys
            reached += [further] * (further not in seen)
            seen.add(further)
    return left


# ---- Random reports, and the properties of the lines that `check` prints


def drawn_calls(rng, quota, opening):
    """Returns random overlapping calls of threads, with the end and the reply of each completed call. Also returns the
    order of the calls' linearization points, as call numbers with the set's replies, and the final keys. Occasionally,
    a call returns a wrong reply.
    """
    held, calls, pending, order, moment = SetModel(quota, opening), [], {}, [], 0
    count, wrong = rng.randrange(3, 10), rng.choice([0, 0.1, 0.3])
    while len(calls) < count or pending:
        moment += 1
        idle = [it for it in range(THREADS) if it not in pending]
        if len(calls) < count and idle and (not pending or rng.random() < 0.5):
            thread, word = rng.choice(idle), rng.choice(["add", "add", "remove", "contains", "ceiling"])
            pending[thread] = len(calls)
            calls.append(Call(thread, word, rng.randrange(KEYS), moment, None, None))
        elif len(calls) == count and rng.random() < 0.2:
            break
        else:
            number = pending.pop(rng.choice([*pending]))
            it, placed = calls[number], dict(order)
            reply = placed[number] if number in placed else held.reply(it.thread, it.word, it.key)
            order += [] if number in placed else [(number, reply)]
            others = ["true", "false", "full"] if it.word == "add" else ["nothing", "at-1", "at-2"] if it.word == "ceiling" else ["true", "false"]
            calls[number] = it._replace(end=moment, reply=rng.choice(others) if rng.random() < wrong else reply)
        for number in pending.values():
            it = calls[number]
            if number not in dict(order) and rng.random() < 0.3:
                order.append((number, held.reply(it.thread, it.word, it.key)))
    done = [(number, reply) for number, reply in order if calls[number].end or (calls[number].word in CHANGES and reply == "true")]
    return calls, [(number, calls[number].reply or reply) for number, reply in done], sorted(held.keys)


class Reported:
    def __init__(self, rng, met):
        self.met = met
        quota, opening = rng.choice([0, 1, 2, 9]), sorted(rng.sample(range(KEYS), rng.randrange(KEYS)))
        calls, order, keys = drawn_calls(rng, quota, opening)
        made = Report(rng.choice(KINDS), THREADS, quota, opening, [ListCall(number, *it[:4]) for number, it in enumerate(calls)],
                      {number: (it.end, it.reply) for number, it in enumerate(calls) if it.end}, order, keys)
        for _ in range(rng.choice([0, 1, 1, 2])):
            damage(rng, made)
        self.text, self.quota, self.opening, self.order, self.keys = report_text(made), quota, opening, made.order, made.keys
        self.calls = [Call(it.thread, it.word, it.key, it.begun, *made.ends.get(it.number, (None, None))) for it in made.calls]
        self.kind = made.kind

    def is_explained(self):
        """Returns whether some order explains the calls and ends with the final keys."""
        return self.keys == sorted({*self.keys}) and frozenset(self.keys) in left_by_orders(self.calls, self.opening, self.quota)

    def before_place(self, place):
        """Returns the set just before entry number `place` of the order. The first entry has number 1."""
        held = SetModel(self.quota, self.opening)
        for number, _ in self.order[: place - 1]:
            if number < len(self.calls):
                held.reply(*self.calls[number][:3])
        return held

    def answer_at(self, place):
        return self.before_place(place).reply(*self.calls[self.order[place - 1][0]][:3])

    def left(self):
        return sorted(self.before_place(len(self.order) + 1).keys)

    def places(self, call):
        return [place for place, (number, _) in enumerate(self.order, 1) if number == int(call)]

    def after(self, call):
        """Returns the calls that follow `call` in the report's order."""
        places = self.places(call)
        return [number for number, _ in self.order[places[0]:] if number < len(self.calls)] if places else []

    def is_early(self, call, other):
        """Returns whether `call` precedes `other` in the order, although `other` had ended when `call` began."""
        ended = self.calls[int(other)].end
        return ended is not None and ended < self.calls[int(call)].begin and int(other) in self.after(int(call))

    def has_wrong_reply(self, place):
        number, reply = self.order[place - 1]
        return (self.calls[number].reply or reply) != reply or self.answer_at(place) != reply

    def explains(self):
        """Returns whether the report's order explains the calls. The order must have each completed call once, keep the
        order of calls that do not overlap, have only correct replies, and end with the report's final keys.
        """
        numbers = [number for number, _ in self.order]
        completed = {number for number, it in enumerate(self.calls) if it.end}
        if len({*numbers}) < len(numbers) or max(numbers, default=-1) >= len(self.calls) or not completed <= {*numbers}:
            return False
        are_right = not any(self.has_wrong_reply(place) for place in range(1, len(numbers) + 1))
        return are_right and not any(self.is_early(it, other) for it in numbers for other in numbers) and self.left() == self.keys

    def read(self):
        """Returns the calls as reads and changes of single keys. A ceiling, or an add that returned full, reads one key."""
        looks = []
        for it in self.calls:
            if it.reply == "full":
                it = it._replace(word="contains", reply="false")
            elif it.word == "ceiling" and it.reply:
                found = it.reply != "nothing"
                it = it._replace(word="contains", key=int(it.reply[3:]) if found else it.key, reply="true" if found else "false")
            looks.append(it)
        return looks

    def ways(self, key, upto=LAST):
        return ways_left([it for it in self.read() if it.key == key and it.begin <= upto], key in self.opening)


of_check = Sentences()


@of_check("ok")
def the_order_explains_the_report(case):
    return case.explains()


@of_check(r"refused Unknown (\d+)")
def there_is_no_such_call(case, call):
    return int(call) >= len(case.calls) and bool(case.places(call))


@of_check(r"refused Twice (\d+)")
def the_call_has_two_places(case, call):
    return len(case.places(call)) > 1


@of_check(r"refused Missing (\d+)")
def the_completed_call_has_no_place(case, call):
    return case.calls[int(call)].end and not case.places(call)


@of_check(r"refused WrongReply (\d+)")
def a_place_has_another_reply(case, call):
    return case.has_wrong_reply(case.places(call)[0])


@of_check(r"refused TooEarly (\d+)")
def the_call_comes_before_one_that_had_ended(case, call):
    return any(case.is_early(call, other) for other in case.after(int(call)))


@of_check(r"refused WrongSet")
def the_order_leaves_other_keys(case):
    return case.left() != case.keys


@pytest.mark.parametrize("seed", SEEDS)
def test_each_line_of_check_about_a_report_is_true(program, cases, few, seed):
    rng, met = random.Random(f"checked {seed}"), collections.Counter()
    for _ in cases:
        case = Reported(rng, met)
        done = ran(program, "check", text=case.text)
        of_check.are_true(case, done.stdout.splitlines())
        assert done.returncode == (not case.explains()), case.text
    assert few or len(met) >= 5, met


# ---- The properties of the lines that `show` prints about a report

of_show = Sentences()


def keys_in(text):
    return [int(it) for it in re.findall(r"\d+", text)]


def has_room(case):
    """Returns whether the quota is large enough for all successful and pending adds of each thread."""
    may = collections.Counter(it.thread for it in case.calls if it.word == "add" and changes(it))
    return max(may.values(), default=0) <= case.quota


@of_show(r"(\S+) list, 3 threads, quota (\d+): (\d+) calls?")
def the_report_has_this_many_calls(case, kind, quota, calls):
    return (kind, int(quota), int(calls)) == (case.kind, case.quota, len(case.calls))


@of_show(r"refused Unknown (\d+): the history has calls 0 to (\d+)")
def the_history_has_no_such_call(case, call, last):
    return there_is_no_such_call(case, call) and int(last) == len(case.calls) - 1


@of_show(r"refused Twice (\d+): it is at places (\d+) and (\d+)")
def the_call_has_these_two_places(case, call, first, second):
    return case.places(call)[:2] == [int(first), int(second)]


@of_show(r"refused Missing (\d+): it ended at (\d+) with (\S+) and has no place")
def the_call_has_this_end_and_no_place(case, call, end, reply):
    return the_completed_call_has_no_place(case, call) and (int(end), reply) == case.calls[int(call)][4:]


@of_show(r"refused WrongReply (\d+): place (\d+) says (\S+), and the history says (\S+)")
def the_history_has_another_reply(case, call, place, says, ended):
    return case.order[int(place) - 1] == (int(call), says) and case.calls[int(call)].reply == ended != says


@of_show(r"refused WrongReply (\d+): place (\d+) says (\S+), and (at first|after .*) the set is {(.*)} and answers (\S+)")
def the_set_returns_another_reply(case, call, place, says, after, keys, answer):
    due = {0: "at first", 1: "after place 1", 2: "after places 1 and 2"}.get(int(place) - 1, f"after places 1 to {int(place) - 1}")
    here = case.order[int(place) - 1] == (int(call), says) and after == due
    return here and keys_in(keys) == sorted(case.before_place(int(place)).keys) and case.answer_at(int(place)) == answer != says


@of_show(r"refused TooEarly (\d+): it begins at (\d+) and is ordered before call (\d+), which ended at (\d+)")
def the_call_is_placed_before_one_that_had_ended(case, call, begin, other, end):
    return case.is_early(call, other) and (case.calls[int(call)].begin, case.calls[int(other)].end) == (int(begin), int(end))


@of_show(r"refused WrongSet: the order leaves {(.*)}, and the keys are {(.*)}")
def the_order_leaves_these_keys(case, left, keys):
    return keys_in(left) == case.left() != case.keys == keys_in(keys)


@of_show(r" +(\d+)  at (\d+) +thread (\d+)  (\w+) (\d+) (\S+)(  \(no change\))?(  \(pending\))?")
def the_call_takes_effect_there(case, place, moment, thread, word, key, reply, no_change, is_open):
    it = case.calls[case.order[int(place) - 1][0]]
    is_it = (it.thread, it.word, it.key, it.end is None) == (int(thread), word, int(key), bool(is_open))
    is_change = word in CHANGES and reply == "true"
    return is_it and it.begin <= int(moment) <= (it.end or LAST) and case.answer_at(int(place)) == reply and is_change != bool(no_change)


@of_show(r" +(\d+) +thread (\d+)  (\w+) (\d+) (\S+)(  \(pending\))?")
def a_refused_order_has_the_place(case, place, thread, word, key, reply, is_open):
    number, says = case.order[int(place) - 1]
    it = case.calls[number]
    return not case.explains() and (it.thread, it.word, it.key, says, it.end is None) == (int(thread), word, int(key), reply, bool(is_open))


@of_show(r" +(\d+) +call (\d+) (\S+)")
def a_refused_order_has_a_place_without_a_call(case, place, call, reply):
    return case.order[int(place) - 1] == (int(call), reply) and int(call) >= len(case.calls)


@of_show(r"keys(?:  (.*))?")
def these_keys_are_left(case, keys):
    return keys_in(keys or "") == case.keys


@of_show("another order explains this report")
def another_order_explains_it(case):
    return case.is_explained() and not case.explains()


@of_show("it is not known whether another order explains this report")
def it_is_no_plain_report(case):
    are_replies = all(is_reply(it.word, it.key, it.reply) for it in case.calls if it.end)
    is_plain = all(it.word != "ceiling" and it.reply != "full" for it in case.calls if it.end)
    return are_replies and case.keys == sorted({*case.keys}) and not (is_plain and has_room(case))


@of_show("not linearizable")
def no_order_explains_the_report(case):
    return not case.is_explained()


@of_show("no order leaves these keys, which do not increase")
def the_keys_do_not_increase(case):
    return case.keys != sorted({*case.keys})


@of_show(r"no order explains call (\d+): (\w+) (\d+) never returns (\S+)")
def no_set_returns_this_reply(case, call, word, key, reply):
    it = case.calls[int(call)]
    return (it.word, it.key, it.reply) == (word, int(key), reply) and not is_reply(it.word, it.key, it.reply)


@of_show(r"no order explains the calls of key (\d+) up to moment (\d+)")
def no_order_explains_what_the_report_has_by_then(case, key, moment):
    begun = [it for it in case.calls if it.begin <= int(moment)]
    return not case.ways(int(key), int(moment)) and not left_by_orders(begun, case.opening, case.quota)


@of_show(r"no order explains the calls of key (\d+) and leaves it as it was left")
def each_order_leaves_the_key_in_the_other_state(case, key):
    return case.ways(int(key)) == {int(key) not in case.keys}


# Properties of the two calls in a contradiction: each call is in the report, and leaves or needs its key in the state
# that the line names.

CALL, STATE = r"thread (\d+) (\w+) (\d+) (\S+), (\d+) to (\d+)", "(present|absent)"


def look_at(case, call):
    """Returns how `call` reads or changes its key (see `read`), or None if the report does not contain `call`."""
    thread, word, key, reply, begin, end = call
    made = Call(int(thread), word, int(key), int(begin), int(end), reply)
    return dict(zip(case.calls, case.read())).get(made)


@of_show(f"contradiction: {CALL}, leaves key (\\d+) {STATE},")
def the_first_call_leaves_the_key_in_this_state(case, *told):
    it = look_at(case, told[:6])
    return it and it.key == int(told[6]) and leaves(it) == STATES[told[7]]


@of_show(f"  {CALL}, needs key (\\d+) {STATE},")
def the_second_call_needs_the_key_in_this_state(case, *told):
    it = look_at(case, told[:6])
    return it and it.key == int(told[6]) and needs(it) == STATES[told[7]]


@of_show(f"(?:contradiction in both orders:| ) {CALL}, needs key (\\d+) {STATE} and leaves it {STATE},")
def the_call_needs_and_leaves_the_key_in_these_states(case, *told):
    it = look_at(case, told[:6])
    return it and it.key == int(told[6]) and (needs(it), leaves(it)) == (STATES[told[7]], STATES[told[8]])


@of_show(f"contradiction: key (\\d+) is {STATE} at first,")
def the_key_has_this_state_at_first(case, key, state):
    return (int(key) in case.opening) == STATES[state]


@of_show(f"  key (\\d+) is {STATE} at the end,")
def the_key_has_this_state_at_the_end(case, key, state):
    return (int(key) in case.keys) == STATES[state]


def may_be_made(case, word, key, since, until):
    """Returns whether some call of the operation `word` could have changed `key` between `since` and `until`: the call
    overlaps the interval, and returned true or is pending.
    """
    return any((it.word, it.key) == (word, key) and changes(it) and it.begin <= until and since <= (it.end or LAST) for it in case.calls)


@of_show(r"  and no (add|remove) (\d+) that returned true or is pending (?:overlaps (\d+) to|begins before) (\d+)")
def no_call_changes_the_key_between(case, word, key, since, until):
    return not may_be_made(case, word, int(key), int(since or 0), int(until))


@of_show(r"  and no (add|remove) (\d+) that returned true or is pending overlaps (\d+) to (\d+), and no such (add|remove) overlaps (\d+) to (\d+)")
def no_call_changes_the_key_in_both_orders(case, word, key, since, until, other, other_since, other_until):
    return not (may_be_made(case, word, int(key), int(since), int(until)) or may_be_made(case, other, int(key), int(other_since), int(other_until)))


@of_show(r"  and no (add|remove) (\d+) that returned true ends after (\d+), and none is pending", r"  and no (add|remove) (\d+) returned true or is pending")
def no_call_changes_the_key_later(case, word, key, since=0):
    return not may_be_made(case, word, int(key), int(since), LAST)


LEGEND = "* changes the set    o changes nothing, its reply fits there    > pending"
DRAWN = ("moment ", "thread ", "set ", "order")


def sentences_in(shown):
    """Returns the lines in the output of `show` that make a statement about a report."""
    above, refusal, below = shown.partition("\nnot linearizable\n")
    return [it for it in above.splitlines() if it and it != LEGEND and not it.startswith(DRAWN)] + f"not linearizable\n{below}".splitlines() * bool(refusal)


@pytest.mark.parametrize("seed", SEEDS)
def test_each_line_of_show_about_a_report_is_true(program, cases, few, seed):
    rng, met = random.Random(f"shown {seed}"), collections.Counter()
    for _ in cases:
        case = Reported(rng, met)
        done = ran(program, "show", "--width", 4000, text=case.text)
        of_show.are_true(case, sentences_in(done.stdout))
        assert done.returncode == (not case.explains()), case.text
    assert few or len(met) >= 15, met


# ---- Comparisons of the trace, the picture and the report of a run


def ends_of_trace(trace):
    """Returns, for each call in a trace, its reply and the moment of its effect (a number of events). A pending call
    has a moment only if the call has changed the set.
    """
    ends, begun = {}, {}
    for line in trace.splitlines():
        if found := re.match(r"event (\d+) line \d+ thread (\d+) (.*)", line):
            moment, thread, told = int(found[1]), int(found[2]), found[3]
            if number := re.match(r"begin .* call (\d+) ", told):
                begun[thread] = int(number[1])
            if re.search(r" (put|took) \d+( |$)", told):
                ends[begun[thread]] = ("true", moment, True)
            if answer := re.search(r" answer (\S+) call (\d+) at (\d+)$", told):
                number, at = int(answer[2]), int(answer[3])
                is_change = number in ends
                assert not is_change or ends[number] == (answer[1], at, True), line
                ends[number] = (answer[1], at, is_change)
    return ends


def order_of(ends):
    """Returns the calls sorted by the moments of their effects (numbers of events). If two calls have the same moment,
    a call that changed the set precedes a call that did not; otherwise the lower number precedes.
    """
    return sorted(ends, key=lambda it: (ends[it][1], not ends[it][2], it))


def compare_run(program, text, *words):
    """Checks that the trace and the picture of a run have the same calls as the run's report. Returns each call's
    reply, and the moment of the call's effect (a number of events).
    """
    report, trace = ran(program, "replay", *words, text=text).stdout, ran(program, "trace", *words, text=text).stdout
    ends, places = ends_of_trace(trace), [tuple(it.split()[1:]) for it in report.splitlines() if it.startswith("place ")]
    assert places == [(str(it), ends[it][0]) for it in order_of(ends)], text
    shown = ran(program, "show", "--width", 100000, *words, text=text).stdout
    order, is_refused = order_of(ends), "\nrefused " in shown
    found = re.findall(r"^ +(\d+)  (?:at (\d+))? +thread \d+  \w+ \d+ (\S+)", shown, re.M)
    due = [(str(place), "" if is_refused else str(ends[it][1]), ends[it][0]) for place, it in enumerate(order, 1)]
    assert [*found] == [it for it in due if it in found] and (len(found) == len(due) or "\nmoments " in shown), text  # (at most 64 columns)
    return ends


@pytest.mark.parametrize("kind", KINDS)
def test_traces_and_pictures_have_the_order_of_the_report(program, few, kind):
    """Compares what `trace` and `show` print with the report that `replay` prints. (`replay` is proved.)"""
    for seed in range(2 if few else 12):
        text = drawn_schedule(kind, 1000 + seed)
        if not ran(program, "replay", text=text).returncode:
            compare_run(program, text)


def continued(name, seed):
    """Returns the schedule that shows the flaw of a broken list (a list without one of its checks), followed by calls
    on all keys of the schedule, one after another.
    """
    text, draw = (TOP / f"examples/schedules/lacks/{name}.schedule").read_text(), random.Random(f"{name} {seed}")
    plan = read_schedule(text)
    model, lines = List(plan.kind, plan.threads, plan.quota, plan.opening, name), []

    def finish(thread):
        steps = 0
        while model.threads[thread].pc and steps < 100:
            model.go(thread)
            steps += 1
        lines.extend([f"go {thread} {steps}"] if steps else [])

    for _, (word, thread, *rest) in plan.lines:
        for _ in range(1 if word == "begin" else int(rest[0])):
            model.begin(int(thread), ListCall(0, int(thread), rest[0], int(rest[1]), 0)) if word == "begin" else model.go(int(thread))
    for thread in range(plan.threads):
        finish(thread)
    keys = sorted({int(it[3]) for _, it in plan.lines if it[0] == "begin"} | {*plan.opening})
    for key in draw.sample(keys, len(keys)):
        for word in draw.sample(["contains", "remove", "ceiling"], 2):
            idle = [it for it in range(plan.threads) if model.threads[it].pc == 0]
            if not idle:
                break  # (each thread has a pending call: the links can form a cycle, and a call in a cycle never ends)
            thread = draw.choice(idle)
            lines.append(f"begin {thread} {word} {key}")
            model.begin(thread, ListCall(0, thread, word, key, 0))
            finish(thread)
    return text + "".join(f"{it}\n" for it in lines)


def fits_nowhere(run, number):
    """Returns whether call `number` completed, changed nothing, and has a reply that is wrong at every moment of the call."""
    it, (end, reply), (_, is_change) = run.calls[number], run.ends[number], run.points[number]
    return not is_change and reply != "full" and all(reply_of(it.word, it.key, run.sets[at]) != reply for at in range(it.begun, end + 1))


@pytest.mark.parametrize("name", LACKING)
def test_a_call_whose_reply_is_never_correct_is_placed_at_its_end(program, few, name):
    """Tests the linearization point of each call that changes nothing: the end of the call if its reply is never correct,
    otherwise the first moment when its reply is correct.
    """
    found = 0
    for seed in range(1 if few else 4):
        text = continued(name, seed)
        run, ends = run_of(read_schedule(text), name), compare_run(program, text, "--lacks", name)
        assert {number: at for number, (_, at, _) in ends.items()} == {number: at for number, (at, _) in run.points.items()}, text
        for number in run.ends:
            if fits_nowhere(run, number):
                found += 1
                assert ends[number][1] == run.ends[number][0], text
    assert few or found or name == "mark-in-remove"  # (the schedule of mark-in-remove loses no key)
