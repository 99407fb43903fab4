"""Compares the output of `trace` and `show` with models that were written independently of the crates
(tests/harness/traces_model.py, pictures_model.py, reports_model.py and lists_model.py). No contract covers the output
of `trace` and `show`. Of an SVG, the tests compare only the texts and the numbers of points and bars.

The schedules are the files in examples/schedules/, and random schedules for the lists and the broken lists. The reports have
random calls; most are damaged, so that every kind of error in an order occurs. The options --from, --to and --width are
random, and sometimes missing.
"""

import collections
import random
import re
from xml.etree import ElementTree

from harness.lists_model import LACKING, Call, List
from harness.pictures_model import Drawn, fitted, picture_of_run
from harness.programs import KINDS, TOP, ran
from harness.reports_model import damage, first_fault, picture_of_report, read_report, report_text, spread
from harness.traces_model import read_schedule, run_of

EXAMPLES = {file.stem: file for file in sorted((TOP / "examples" / "schedules").glob("*.schedule"))}
GREATEST = 4294967295


def drawn_schedule(kind, seed, lacks=None, overruns=False):
    """Returns a random schedule for a list. If `overruns` is true, the schedule has steps after the end of a call, and
    the first of these steps is refused.
    """
    draw = random.Random(f"{kind} {seed}")
    version, threads, quota = draw.choice([1, 2, 2]), draw.choice([64, 9]) if seed % 10 == 9 else draw.choice([1, 2, 3]), draw.randrange(5)
    opening = sorted(draw.sample([*range(12), GREATEST], draw.randrange(11 if seed % 7 == 3 else 4))) if version == 2 else []
    lines = [f"listset-schedule {version}", f"list {kind}", f"threads {threads}", f"quota {quota}", *(f"opening {it}" for it in opening)]
    model, words = List(kind, threads, quota, opening, lacks), ["add", "add", "remove", "contains", *["ceiling"] * (version - 1)]
    for _ in range(draw.randrange(1, 60)):
        thread = draw.randrange(threads)
        if model.threads[thread].pc == 0:
            word, key = draw.choice(words), draw.choice([*range(12), *range(6), 1000000000, GREATEST])
            model.begin(thread, Call(0, thread, word, key, 0))
            lines.append(f"begin {thread} {word} {key}")
        else:
            asked, made = draw.choice([1, 2, 3, 5, 8, 13]), 0
            while made < asked and model.threads[thread].pc:
                model.go(thread)
                made += 1
            lines.append(f"go {thread} {asked if overruns else made}")
    return "\n".join(lines) + "\n"


class Compared:
    """Compares the outputs of the program and the models for the same input. `words` are the options that name a
    broken list (a list without one of its checks), if any.
    """

    def __init__(self, program, name, text, *words):
        self.program, self.name, self.text, self.words = program, name, text, words

    def said(self, *words):
        done = ran(self.program, *words, *self.words, text=self.text.encode())
        return done.stdout.decode().splitlines(), done.returncode

    def compare(self, words, due, found):
        at = next((n for n, it in enumerate(zip(due, found)) if it[0] != it[1]), min(len(due), len(found)))
        assert found == due, f"{' '.join(words)} of {self.text!r}: line {at + 1} is {found[at:at + 1]}, that of the model {due[at:at + 1]}"

    def traces(self, run):
        status = 1 if run.refused else 0
        for words in (["trace", "--chain"], ["trace"]):
            lines, ended = self.said(*words)
            due = [it for it in run.trace if len(words) == 2 or not it.startswith("chain")]
            self.compare(words, [*due, status], [*lines, ended])

    def picture(self, picture, asked, below=()):
        """Compares the program's text picture with the model's. `asked` contains the values of --from, --to and
        --width; None stands for a missing option.
        """
        words, first, last, width = options("show", asked)
        lines, ended = self.said(*words)
        due = [2] if is_past(picture, first) else [*fitted(picture, first, last, width).text(), *below, status_of(picture)]
        self.compare(words, due, [*lines, ended])

    def svg(self, picture, asked):
        words, first, last, _ = options("show --svg", asked)
        lines, ended = self.said(*words)
        if is_past(picture, first):
            return self.compare(words, [2], [*lines, ended])
        svg, (texts, points, bars) = ElementTree.fromstring("\n".join(lines)), fitted(picture, first, last).in_svg()
        classes = collections.Counter(it.get("class", "").split(" ")[0] for it in svg.iter())
        self.compare(words, [status_of(picture), points, bars], [ended, classes["point"], classes["bar"]])
        assert texts <= {it.text for it in svg.iter()}, f"{' '.join(words)} of {self.text!r}"

    def pictures(self, picture, below=()):
        """Compares three text pictures and two SVGs. One text picture and one SVG show the whole run. The other
        pictures and the other SVG begin or end near the start, effect or end of some call. Options are left out at
        random.
        """
        draw = random.Random(self.name)
        moments = Drawn(picture, 1, GREATEST).all or [1]
        first = max(1, draw.choice(moments) - draw.randrange(3))
        last, width = min(first + draw.randrange(30), GREATEST), draw.randrange(20, draw.choice([60, 200]))
        self.picture(picture, (None, None, draw.choice([None, 1, GREATEST, width])), below)
        self.picture(picture, (first, draw.choice([None, first, last]), draw.choice([None, width])), below)
        self.picture(picture, draw.choice([(None, first, None), (moments[-1] + draw.randrange(2), None, None)]), below)
        self.svg(picture, (None, None, None))
        self.svg(picture, (draw.choice([None, first]), draw.choice([None, last]), draw.choice([None, width])))


def options(words, asked):
    """Returns a command with its options. `asked` contains the first moment (position in the history), the last moment
    and the width; None stands for a missing option.
    """
    given_words = [it for name, value in zip(["--from", "--to", "--width"], asked) if value is not None for it in (name, str(value))]
    first, last, width = (default if it is None else it for it, default in zip(asked, [1, GREATEST, 100]))
    return [*words.split(), *given_words], first, last, width


def is_past(picture, first):
    """Returns whether all starts, effects and ends of calls in a picture are before a moment (a position in the
    history).
    """
    return bool(picture.calls) and first > max(Drawn(picture, 1, GREATEST).all)


def status_of(picture):
    return 1 if picture.refusal or picture.refused else 0


def pytest_generate_tests(metafunc):
    """Parametrizes tests with the names and seeds of random schedules; with --few, with a tenth of them."""
    is_few = metafunc.config.option.few
    drawn = [f"{kind} {seed}" for kind in KINDS for seed in range(2 if is_few else 20)]
    named = {"schedule": [*EXAMPLES, *drawn], "report": drawn, "broken": [f"{name} {seed}" for name in LACKING for seed in range(1 if is_few else 5)]}
    for it in named.keys() & {*metafunc.fixturenames}:
        metafunc.parametrize(it, named[it])


def test_trace_and_pictures_match_the_model(program, schedule):
    if schedule in EXAMPLES:
        text, seed = EXAMPLES[schedule].read_text(), 1
    else:
        kind, seed = schedule.split()
        seed = int(seed)
        text = drawn_schedule(kind, seed, overruns=seed % 4 == 0)
    if ran(program, "trace", text=text.encode()).stdout.startswith(b"listset-trace"):  # (otherwise the text is not a schedule)
        plan = read_schedule(text)
        run = run_of(plan)
        looked, picture = Compared(program, schedule, text), picture_of_run(plan, run)
        looked.traces(run)
        looked.pictures(picture)
        for width in range(20, 201, 10) if seed % 5 == 0 else ():
            looked.picture(picture, (None, None, width))


# ---- Pictures of reports, and traces and pictures of broken lists (lists without one of their checks)


def compare_report(looked, report):
    """Compares pictures of a report with the model's. If the report is refused, one or two lines about other orders
    follow the picture.
    """
    picture, below = picture_of_report(report), []
    if picture.refusal:
        said = looked.said("show")[0]
        below = said[len(said) - 1 - said[::-1].index(""):]
        assert below[1].startswith(("not linearizable", "another order explains this report", "it is not known whether another order"))
    looked.pictures(picture, below)


def test_pictures_of_reports_match_the_model(program, report):
    """Compares pictures of a random schedule's report, intact or damaged, and the answer of `check`."""
    kind, seed = report.split()
    replayed, draw = ran(program, "replay", text=drawn_schedule(kind, int(seed))).stdout, random.Random(report)
    made = read_report(replayed)
    for _ in range([0, 1, 1, 2][int(seed) % 4]):
        damage(draw, made)
    if int(seed) % 5 == 2:
        spread(made)
    text = report_text(made)
    if "report 1" in replayed and not re.search("at-|nothing", text):
        text = text.replace("report 2", "report 1")
    fault, checked = first_fault(made), ran(program, "check", text=text)
    assert checked.stdout == (f"refused {fault.said.partition(':')[0]}\n" if fault else "ok\n"), text
    compare_report(Compared(program, report, text), made)


def test_traces_and_pictures_of_a_broken_list_match_the_model(program, broken):
    """Compares the trace with the model's trace. If `replay` prints a report, also compares the picture of the report
    with the model's picture. If `replay` prints an error, `show` must print the same error.
    """
    name, seed = broken.split()
    text = drawn_schedule(LACKING[name][0], int(seed), name, overruns=int(seed) % 4 == 0)
    looked, report = Compared(program, broken, text, "--lacks", name), ran(program, "replay", "--lacks", name, text=text)
    looked.traces(run_of(read_schedule(text), name))
    if report.returncode:
        shown = ran(program, "show", "--lacks", name, text=text)
        assert (shown.returncode, shown.stderr) == (report.returncode, report.stderr), text
    else:
        compare_report(looked, read_report(report.stdout))
