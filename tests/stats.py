"""Compares the counts of `stats` with counts over all pairs of calls and all moments (times in the recording). `stats`
must report the same errors as `judge`. `--few` tries a tenth of the recordings.
"""

import random

import pytest

from harness.programs import ran, well
from judging import drawn, moved, spread, text_of, with_pending

RECORDINGS, SEEDS, NEVER = 60, range(1, 5), float("inf")


def end_of(call):
    return call.end or NEVER


def overlap(one, other):
    return one is not other and one.begin < end_of(other) and other.begin < end_of(one)


def counted(calls):
    """Returns what `stats` must print for `calls`."""
    lines = [("calls", len(calls))]
    for word in ("add", "remove", "contains"):
        for reply, name in (("true", "true"), ("false", "false"), (None, "pending")):
            lines.append((f"{word} {name}", sum((it.word, it.reply) == (word, reply) for it in calls)))
    of_key = [it for it in calls if any(overlap(it, other) for other in calls if other.key == it.key)]
    lines += [("threads", len({it.thread for it in calls})), ("keys", len({it.key for it in calls}))]
    lines += [("overlap another call", sum(any(overlap(it, other) for other in calls) for it in calls)), ("overlap another call of the key", len(of_key))]
    moments = [moment for it in calls for moment in (it.begin, it.end) if moment]
    lines.append(("most pending at once", max((sum(it.begin <= at < end_of(it) for it in calls) for at in moments), default=0)))
    return "".join(f"{name} {count}\n" for name, count in lines)


@pytest.mark.parametrize("seed", SEEDS)
def test_the_counts_are_those_of_all_pairs_of_calls(program, few, seed):
    rng = random.Random(seed)
    for _ in range(RECORDINGS // (10 if few else 1)):
        calls, opening, keys = drawn(rng, rng.choice([0, 1, 2, 7, 60]))
        if rng.random() < 0.5:
            calls, opening, keys = spread(rng, calls, opening, keys)
        calls = moved(with_pending(rng, calls), rng.choice([0, 2**62]))
        text = text_of(calls, opening, rng.choice([keys, None]))
        assert ran(program, "stats", text=text).stdout == counted(calls), text


def test_a_long_recording_is_counted_in_pieces(program, room):
    calls, opening, keys = drawn(random.Random(5), 3000)
    (room / "long.calls").write_text(text_of(calls, opening, keys))
    assert well(program, "stats", room / "long.calls") == counted(calls)


def test_errors_are_those_of_judge(program, room):
    rng, errors = random.Random(6), 0
    calls, opening, keys = drawn(rng, 9)
    text = text_of(calls, opening, keys)
    for at in rng.sample(range(len(text)), 60):
        (room / "damaged.calls").write_text(text[:at] + rng.choice(["", "x", " ", "\n"]) + text[at + 1 :])
        due, done = (ran(program, command, room / "damaged.calls") for command in ("judge", "stats"))
        errors += due.stderr != ""
        assert done.stderr == due.stderr and (done.stderr == "" or (done.returncode, done.stdout) == (due.returncode, "")), at
    assert errors > 30
    assert ran(program, "stats", room).stderr == "listset: cannot read\n"
