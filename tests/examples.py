"""Tests that the program turns the schedules in examples/schedules into the reports in the same folder. docs/CLASSIC.md
must show the program's output.

For each NAME.schedule, `replay` must print NAME.report. For each report, `check` must print `ok`. For a file in
refused-files.txt, `replay` must print the error listed in that file and no report. `example NAME` must print the
schedule of a classic interleaving. If the example has a broken list (a list without one of its checks), `example
--broken NAME` must print the report of the broken list. page/tests/break_it.js tests how a broken list reveals its
missing check. One test checks that README, the pages in docs/ and two more pages show what their commands print
(harness/pages.py).
"""

import re

import lists
import pytest
from harness import pages
from harness.programs import TOP, ran

EXAMPLES = TOP / "examples" / "schedules"
LACKS = EXAMPLES / "lacks"
REFUSED = dict(line.split(": ", 1) for line in (EXAMPLES / "refused-files.txt").read_text().splitlines())
FILES = {it.name for it in EXAMPLES.iterdir() if it.suffix in (".schedule", ".report")}
BLOCK = r"(?:^    .*\n|^\n(?=    ))+"
LACKING = re.compile(r"^- `([a-z-]+)` \(([a-z-]+)\): (.*)$", re.M)
EXPLAINED = "he order is refused, and another order explains the calls."
INTRODUCTION, *SECTIONS, BROKEN = re.split(r"^## ", (TOP / "docs" / "CLASSIC.md").read_text(), flags=re.M)
NAMES = [section.split()[0] for section in SECTIONS]


SHOWN = [pytest.param(page, steps, id=f"{page.relative_to(TOP)}:{number}") for page in pages.OTHER_PAGES for number, steps in pages.tests_shown(page)]


@pytest.mark.parametrize("page, steps", SHOWN)
def test_commands_print_what_the_page_shows(page, steps, program, room):
    pages.print_what_the_page_has(page, steps, program, room)


def lines_of(*words, text="", status=0):
    """Runs the program with the arguments `words` and the input `text`. Returns the lines of the program's output and
    of its standard error.
    """
    done = ran(*words, text=text)
    assert done.returncode == status, done.stderr
    return (done.stdout + done.stderr).splitlines()


def picture_of(program, name):
    schedule = "\n".join(lines_of(program, "example", name)) + "\n"
    return schedule, lines_of(program, "show", text=schedule)


@pytest.mark.parametrize("name", sorted(FILES | REFUSED.keys()))
def test_a_file_is_replayed_or_checked(program, name):
    file = EXAMPLES / name
    is_schedule, is_another = file.suffix == ".schedule", REFUSED.get(name, "").startswith("another report")
    found = lines_of(program, "replay" if is_schedule else "check", file, status=int(name in REFUSED and not is_another))
    due = file.with_suffix(".report").read_text().splitlines() if is_schedule and (is_another or name not in REFUSED) else [REFUSED.get(name, "ok")]
    assert (found == due) != is_another


def test_examples_of_the_program_are_the_files(program):
    """Tests that `example` prints the files in examples/schedules, and that each report of a broken list (a list
    without one of its checks) belongs to an example.
    """
    broken = {it.name.partition(".")[0]: it for it in EXAMPLES.glob("*.broken.report")}
    assert [line.split()[0] for line in lines_of(program, "example")] == NAMES and broken.keys() <= {*NAMES}
    for name in NAMES:
        assert ran(program, "example", name).stdout == (EXAMPLES / f"{name}.schedule").read_text()
        due = broken[name].read_text().splitlines() if name in broken else ["listset: bad NAME: this example has no broken report"]
        assert lines_of(program, "example", "--broken", name, status=0 if name in broken else 2) == due


@pytest.mark.parametrize("file", sorted(EXAMPLES.glob("*.broken.report")), ids=lambda it: it.name)
def test_no_order_explains_a_broken_report(program, file):
    """Tests that `show` prints, below the picture of a broken list's report, that no order explains the calls."""
    assert "\n\nnot linearizable\nno order explains the calls of key " in "\n".join(lines_of(program, "show", file, status=1))


@pytest.mark.parametrize("name, section", zip(NAMES, SECTIONS), ids=NAMES)
def test_the_page_shows_the_picture_and_the_trace_of_an_example(program, name, section):
    """Tests the two code blocks in a section of docs/CLASSIC.md about an example. The first must be the example's
    picture without the lines about the order, and the second must consist of lines of the example's trace.
    """
    drawn, traced = (re.sub("^    ", "", block, flags=re.M).strip("\n").split("\n") for block in re.findall(BLOCK, section, re.M))
    schedule, picture = picture_of(program, name)
    assert [*drawn, ""] == picture[:picture.index("order")]
    trace = iter(lines_of(program, "trace", text=schedule))
    assert [line for line in traced if line not in trace] == []  # (`trace` is an iterator, so this also checks their order)


@pytest.mark.parametrize("name, kind, told", LACKING.findall(BROKEN))
def test_the_page_describes_a_broken_list(program, name, kind, told):
    """Tests that `check` refuses the order in a broken list's report, and that docs/CLASSIC.md states correctly whether
    some other order explains the calls.
    """
    file = LACKS / f"{name}.schedule"
    assert f"\nlist {kind}\n" in file.read_text()
    report = "\n".join(lines_of(program, "replay", "--lacks", name, file)) + "\n"
    assert lines_of(program, "check", text=report, status=1)[0].startswith("refused ")
    picture = lines_of(program, "show", "--lacks", name, file, status=1)
    assert any(line.startswith("refused ") for line in picture)
    assert ("another order explains this report" if told.endswith(EXPLAINED) else "not linearizable") in picture


def test_the_page_lists_all_examples_and_broken_lists(program):
    examples, types = [line.split(None, 2) for line in lines_of(program, "example")], {it.word: it.type for it in lists.lists()}
    assert [section.partition("\n")[0] for section in SECTIONS] == [f"{name} ({types[kind]})" for name, kind, _ in examples]
    legends = {picture_of(program, name)[1][-1] for name in NAMES}
    assert {*re.findall(r"^    (.*)$", INTRODUCTION.rpartition("In a picture")[2], re.M)} == legends
    said, = lines_of(program, "replay", "--lacks", "none", status=2)
    told, = (line for line in lines_of(program, *re.search("'listset (.*)'", said)[1].split()) if "--lacks" in line)
    names = {name for name, _, _ in LACKING.findall(BROKEN)}
    assert names == {*re.findall(r"([a-z-]+) \(", told)} == {file.stem for file in LACKS.iterdir()}
    assert names == {*re.findall(r"\(`([a-z-]+)`\)", "".join(SECTIONS))}
