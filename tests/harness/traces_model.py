"""A model of a schedule's run (lists_model) and of the output of `trace`, written from docs/TEXTS.md alone: one line
for each event, with the value that its step loaded; the chain after a change; and the end and the linearization point
of each call.
"""

import collections

from harness.lists_model import REGISTERS, TAIL_KEY, Call, List
from harness.set_model import fits_without_change

Schedule = collections.namedtuple("Schedule", "version kind threads quota opening lines")
# A run: the lines of its trace with chains, the calls and their ends, the set at each moment (number of events so far),
# the linearization points of the calls, and the refused event.
Run = collections.namedtuple("Run", "trace calls ends sets points refused events")


def read_schedule(text):
    lines = [it.split() for it in text.splitlines()]
    opening = [int(it[1]) for it in lines[4:] if it[0] == "opening"]
    events = [(number, it) for number, it in enumerate(lines, 1) if number > 4 and it[0] != "opening"]
    return Schedule(int(lines[0][1]), lines[1][1], int(lines[2][1]), int(lines[3][1]), opening, events)


def node_text(node):
    return ["head", "tail"][node] if node < 2 else f"n{node}"


def key_text(word):
    return {0: "-inf", TAIL_KEY: "+inf"}.get(word, str(word - 1))


def value_text(index, value):
    if index == 0 or index > 2 and index % 3 == 2:
        return f"t{value - 1}" if value else "free"
    return key_text(value) if index % 3 == 0 else node_text(value // 2) + "*" * (value % 2)


def name_text(index):
    return "list.lock" if index == 0 else f"{node_text((index - 3) // 3)}.{['key', 'link', 'lock'][index % 3]}"


def access_text(action, seen):
    index = action[1]
    told = f"{action[0]} {name_text(index)}"
    if action[0] == "store":
        return f"{told} {value_text(index, seen)}"
    if action[0] == "exchange":
        told += f" from {value_text(index, action[2])} to {value_text(index, action[3])}"
    return f"{told} saw {value_text(index, seen)}"


def changes_text(before, after):
    told = [f" {it} {(key_text if it.endswith('key') else node_text)(after[it])}" for it in REGISTERS if before[it] != after[it]]
    told += [f" used {after['used']}"] if before["used"] != after["used"] else []
    return "".join(told + ([f" reply {after['reply'] or 'none'}"] if before["reply"] != after["reply"] else []))


def content(chain):
    return {key for key, is_marked in chain if not is_marked}


class Tracing:
    """A run in progress: the parts of the Run that are known so far. On an intact list, the set is computed from the
    chain; on a broken list (a list without one of its checks), from the changes that the rows report.
    """

    def __init__(self, plan, lacks):
        self.plan, self.list = plan, List(plan.kind, plan.threads, plan.quota, plan.opening, lacks)
        self.chain, self.counts, self.keys = self.list.chain(), [0] * plan.threads, set(plan.opening)
        self.sets, self.tallies = [frozenset(plan.opening)], [tuple(self.counts)]
        self.lines, self.calls, self.ends, self.points = [], [], {}, {}

    def cause(self, t, is_begin):
        """Returns the name of the error (its cause) if the next event of thread `t` is refused, otherwise None."""
        if t >= self.plan.threads:
            return "NoThread"
        is_busy = self.list.threads[t].pc != 0
        return ("Busy" if is_begin else "Idle") if is_busy == is_begin else None

    def event(self, number, pieces):
        """Executes the event on line `number` of the schedule: the start of a call, or one step."""
        t, moment = int(pieces[1]), len(self.sets)
        told = f"event {moment} line {number} thread {t} "
        if pieces[0] == "begin":
            call = Call(len(self.calls), t, pieces[2], int(pieces[3]), moment)
            self.calls.append(call)
            self.list.begin(t, call)
            self.lines.append(f"{told}begin {call.word} {call.key} call {call.number} pc {self.list.threads[t].pc}")
        else:
            self.step(told, t, moment)
        self.sets.append(frozenset(self.keys))
        self.tallies.append(tuple(self.counts))

    def changes(self, it, later):
        """Returns the keys that a step added and removed. On an intact list, compares the chains before and after the
        step. On a broken list (a list without one of its checks), uses the row of the step.
        """
        if self.list.lacks:
            key = {it.call.key}
            self.keys = self.keys | key if it.change == "put" else self.keys - key if it.change else self.keys
            return [(it.change, key)] if it.change else []
        was, self.keys = self.keys, content(later)
        return [("put", self.keys - was), ("took", was - self.keys)]

    def step(self, told, t, moment):
        it = self.list.threads[t]
        before = dict(vars(it))
        action, seen, reply = self.list.go(t)
        later = self.list.chain()
        told += f"{access_text(action, seen)} pc {it.pc}{changes_text(before, vars(it))}"
        for word, keys in self.changes(it, later):
            for key in keys:
                told += f" {word} {key}"
                self.points[it.call.number] = (moment, True)
                self.counts[t] += word == "put"
        if reply is not None:
            self.end(it.call, reply, moment)
            told += f" answer {reply} call {it.call.number} at {self.points[it.call.number][0]}"
        self.lines.append(told)
        if later != self.chain:
            self.lines.append("chain" + "".join(f" {key}{'*' * mark}" for key, mark in later))
            self.chain = later

    def end(self, call, reply, moment):
        """Ends a call. If the call changed nothing, its linearization point is the first moment when its reply is correct.
        (On a broken list, `full` counts as correct at every moment. If the reply is correct at no moment, the point is the
        end of the call.)
        """
        self.ends[call.number] = (moment, reply)
        if call.number not in self.points:
            states = zip([*self.sets, frozenset(self.keys)], [*self.tallies, tuple(self.counts)])
            fits = (at for at, (held, tally) in enumerate(states) if at >= call.begun and fits_without_change(
                call.word, call.key, reply, held, reply != "full" if self.list.lacks else tally[call.thread] < self.plan.quota))
            self.points[call.number] = (next(fits, moment) if self.list.lacks else next(fits), False)


def run_of(plan, lacks=None):
    """Runs a schedule on a list or a broken list (a list without one of its checks), up to the first refused event."""
    run = Tracing(plan, lacks)
    events = ((number, pieces) for number, pieces in plan.lines for _ in range(1 if pieces[0] == "begin" else int(pieces[2])))
    refused = None
    for number, pieces in events:
        if cause := run.cause(int(pieces[1]), pieces[0] == "begin"):
            refused = (number, cause)
            break
        run.event(number, pieces)
    head = ["listset-trace 1", f"list {plan.kind}", *([f"lacks {lacks}"] if lacks else []), f"threads {plan.threads}", f"quota {plan.quota}"]
    head += [f"opening {it}" for it in plan.opening]
    last = f"refused line {refused[0]} {refused[1]}" if refused else "end"
    return Run([*head, *run.lines, last], run.calls, run.ends, run.sets, run.points, refused, len(run.sets) - 1)
