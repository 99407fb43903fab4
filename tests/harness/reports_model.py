"""A model of the pictures of reports, written from docs/TEXTS.md alone. If the order of a report has an error, the
model returns the message for the first error. Otherwise it returns, for each call, the first moment when the call can
take effect. `damage` damages a report at random.
"""

import collections
import itertools

from harness.lists_model import Call
from harness.pictures_model import GREATEST, Picture, Place, Refusal, keys_text
from harness.set_model import CHANGES, SetModel

Report = collections.namedtuple("Report", "kind threads quota opening calls ends order keys")
HEADER = 4  # the number of lines in the header of a report

# ---- The text of a report


def read_report(text):
    lines = [it.split() for it in text.splitlines()]
    report = Report(lines[1][1], int(lines[2][1]), int(lines[3][1]), [], [], {}, [], [])
    for word, *rest in lines[HEADER:]:
        if word in ("opening", "key"):
            (report.opening if word == "opening" else report.keys).append(int(rest[0]))
        elif word == "call":
            number, thread, name, key, begun, end, *reply = rest
            report.calls.append(Call(int(number), int(thread), name, int(key), int(begun)))
            report.ends.update({int(number): (int(end), reply[0])} if reply else {})
        elif word == "place":
            report.order.append((int(rest[0]), rest[1]))
    return report


# ---- The errors in an order


def faults_of(report):
    """Yields each reason to refuse the order of a report. The checks run in the same sequence as in the program."""
    def about(said, number):
        """Returns a refusal that concerns call `number`: the picture begins at the start of the call."""
        return Refusal(said, report.calls[number].begun, None)

    numbers = [it for it, _ in report.order]
    has = f"calls 0 to {len(report.calls) - 1}" if report.calls else "no calls"
    yield from (Refusal(f"Unknown {it}: the history has {has}", None, it) for it in numbers if it >= len(report.calls))
    yield from (about(f"Twice {it}: it is at places {numbers.index(it) + 1} and {at + 1}", it)
                for at, it in enumerate(numbers) if it in numbers[:at])
    yield from (about(f"Missing {it}: it ended at {end} with {reply} and has no place", it)
                for it, (end, reply) in sorted(report.ends.items()) if it not in numbers)
    yield from (about(f"WrongReply {it}: {why}", it) for it, why in wrong_replies(report))
    for at, it in enumerate(numbers):
        begun = report.calls[it].begun
        yield from (about(f"TooEarly {it}: it begins at {begun} and is ordered before call {other}, which ended at {report.ends[other][0]}", other)
                    for other in numbers[at:] if other in report.ends and report.ends[other][0] < begun)
    yield from wrong_sets(report)


def wrong_replies(report):
    """Yields each call whose reply in the order of a report is wrong, with a message. A reply in the order is wrong if
    it differs from the call's reply in the history, or from the reply that a set would return.
    """
    held, after = SetModel(report.quota, report.opening), {0: "at first", 1: "after place 1", 2: "after places 1 and 2"}
    for place, (it, says) in enumerate(report.order):
        call, before = report.calls[it], keys_text(sorted(held.keys))
        answer, told = held.reply(call.thread, call.word, call.key), f"place {place + 1} says {says}, and "
        if report.ends.get(it, (0, says))[1] != says:
            yield it, f"{told}the history says {report.ends[it][1]}"
        elif answer != says:
            yield it, f"{told}{after.get(place, f'after places 1 to {place}')} the set is {{{before}}} and answers {answer}"


def wrong_sets(report):
    held = SetModel(report.quota, report.opening)
    for it, _ in report.order:
        held.reply(report.calls[it].thread, report.calls[it].word, report.calls[it].key)
    left = sorted(held.keys)
    if left != report.keys:
        apart = next({*pair} - {None} for pair in itertools.zip_longest(left, report.keys) if pair[0] != pair[1])
        begun = next((it.begun for it in report.calls if it.key == min(apart)), None)
        yield Refusal(f"WrongSet: the order leaves {{{keys_text(left)}}}, and the keys are {{{keys_text(report.keys)}}}", begun, None)


def first_fault(report):
    """Returns the first reason to refuse the order of a report, or None if the order explains the calls."""
    return next(faults_of(report), None)


# ---- The picture of a report


class Sets:
    """The set at each moment (position in the history), computed from the entries of an order."""

    def __init__(self, report, places):
        self.opening, self.changes = report.opening, [(it.at, report.calls[it.number]) for it in places if it.change]

    def __getitem__(self, moment):
        held = SetModel(keys=self.opening)
        for call in (call for at, call in self.changes if at <= moment):
            held.change(call.thread, call.word, call.key)
        return held.keys


def places_of(report):
    """Returns the entries of an order, each with its moment (position in the history). An entry's moment is the start
    of its call or, if later, the moment of the previous entry.
    """
    at = 0
    for it, reply in report.order:
        at = max(at, report.calls[it].begun)
        yield Place(it, reply, at, report.calls[it].word in CHANGES and reply == "true")


def picture_of_report(it):
    refusal = first_fault(it)
    places = [Place(number, reply, None, None) for number, reply in it.order] if refusal else [*places_of(it)]
    return Picture(it.kind, it.threads, it.quota, None, it.calls, it.ends, places, Sets(it, places), it.keys, refusal, None)


# ---- Reports with larger moments, and damaged reports


def spread(it):
    """Multiplies the moments (starts and ends of calls) of a report by a factor, so that the last moment is about
    400,000,000.
    """
    last = max([1, *(one.begun for one in it.calls), *(end for end, _ in it.ends.values())])
    it.calls[:] = [one._replace(begun=one.begun * 400_000_000 // last) for one in it.calls]
    it.ends.update({number: (end * 400_000_000 // last, reply) for number, (end, reply) in it.ends.items()})


def report_text(it):
    """Writes a report as text."""
    head = ["listset-report 2", f"list {it.kind}", f"threads {it.threads}", f"quota {it.quota}", *(f"opening {key}" for key in it.opening)]
    calls = (f"call {one.number} {one.thread} {one.word} {one.key} {one.begun} {' '.join(map(str, it.ends.get(one.number, ['open'])))}" for one in it.calls)
    return "\n".join([*head, *calls, *(f"place {number} {reply}" for number, reply in it.order), *(f"key {key}" for key in it.keys), "end", ""])


def damage(draw, it):
    """Damages a report at random. The damage is one of these: an entry of the order is lost, duplicated, moved, or
    changed to a different reply or an unknown call; a call ends with a different reply; or final keys are lost, added,
    or reordered.
    """
    at, other = (draw.randrange(max(1, len(it.order))) for _ in range(2))
    number, reply = it.order[at] if it.order else (0, "true")
    another = draw.choice(["true", "false", "full", "nothing", "at-3", f"at-{GREATEST}"])
    how = draw.choice(["lost", "twice", "of no call", "elsewhere", "elsewhere", "reply", "end", "keys", "keys"])
    if how == "elsewhere" and it.order:
        it.order.insert(other, it.order.pop(at))
    elif how in ("lost", "reply"):
        it.order[at:at + 1] = [(number, another)] * (how == "reply")
    elif how == "twice":
        it.order.insert(other, (number, reply))
    elif how == "of no call":
        it.order.insert(at, (draw.choice([len(it.calls), len(it.calls) + 1, GREATEST]), another))
    elif how == "end" and number in it.ends:
        it.ends[number] = it.ends[number][0], another
    elif how == "keys":
        del it.keys[at:at + draw.randrange(2)]
        it.keys.extend(draw.sample([*range(12), GREATEST], draw.randrange(3)))
        it.keys.sort(reverse=draw.random() < 0.2)
