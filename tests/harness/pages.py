"""Tests that each command in tests/transcripts/*.md prints exactly the output below the command. The commands in README
and other pages must print the output that the pages show.

A heading `## NAME` begins a test. Lines with an indent of four spaces are commands and their output:

    $ COMMAND     run by bash, in a new folder with the files of tests/transcripts/data; `listset` is the program
    > LINE        the next line of the command (as in a here-document)
    ! LINE        a line of standard error; ! alone is an empty line
    ? N           the exit status; if no line begins with ?, the status must be 0
    .             after a command: the command's output does not end with a newline
    LINE          any other line: a line of the output

All other lines are prose. The commands of a test run one after another in the same folder. A command that runs for 300
seconds fails. No command pipes `listset` into `head`, since head can exit before the program has written everything.

In README and the other pages, a test is a block that is indented by four spaces or follows ```sh, if the block's first
line is a command. The test runs in a folder with the files of the repository, and ./listset is the program. The test
compares the output, followed by standard error, but not the exit status. A line .. matches any number of lines.
"""

import os
import re
import shutil
import subprocess
from dataclasses import dataclass, field

import pytest
from harness.programs import SECONDS, TOP

PAGES = TOP / "tests" / "transcripts"
OTHER_PAGES = [TOP / "README.md", TOP / "page" / "README.md", TOP / "examples" / "README.md", *sorted((TOP / "docs").glob("*.md"))]
SHOWN_BLOCK = re.compile(r"(?:^    .*\n|^\n(?=    ))+|^```sh\n(?:.*\n)*?```$", re.MULTILINE)
LEFT_OUT = ".."
INDENT = "    "


@dataclass
class PageCommand:
    """A command on a page, the command's line number, and the lines that the page shows below the command."""

    command: list
    number: int
    lines: list = field(default_factory=list)

    def told(self):
        """Returns the lines that the command must print, as the page shows them."""
        return "\n".join(self.lines).rstrip("\n").split("\n") if any(self.lines) else []


def steps_of(lines, first):
    """Returns the commands in `lines`. `first` is the number of the first line."""
    steps = []
    for number, line in enumerate(lines, first):
        if line.startswith("$ "):
            steps.append(PageCommand([line.removeprefix("$ ")], number))
        elif steps and line.startswith("> ") and not steps[-1].lines:
            steps[-1].command.append(line.removeprefix("> "))
        elif steps:
            steps[-1].lines.append(line)
    return steps


def tests_of(page):
    """Returns the tests on a transcript page, each with its name and its steps (commands)."""
    number = 1
    for section in re.split(r"^(?=## )", page.read_text(encoding="utf-8"), flags=re.MULTILINE):
        lines = section.split("\n")
        if section.startswith("## "):
            steps = steps_of([line.removeprefix(INDENT) if line.startswith(INDENT) else "" for line in lines], number)
            assert steps, f"{page.name}: {lines[0]} has no command"
            yield lines[0].removeprefix("## "), steps
        number += len(lines) - 1


def tests_shown(page):
    """Yields the tests on a page that shows commands to a reader, each with its line number and its steps (commands).
    """
    text = page.read_text(encoding="utf-8")
    for block in SHOWN_BLOCK.finditer(text):
        shown = re.sub("^```(?:sh)?$|^    ", "", block[0], flags=re.MULTILINE).strip("\n").split("\n")
        number = text.count("\n", 0, block.start()) + 1
        if shown[0].startswith("$ "):
            yield number, steps_of(shown, number)


def lines_of_transcript(run):
    """Returns the output of a run in the format of a transcript page."""
    output, faults = (text.decode("utf-8", "backslashreplace") for text in (run.stdout, run.stderr))
    lines = output.split("\n")
    lines = lines[:-1] if lines[-1] == "" else [*lines, "."]
    lines += [f"! {line}" if line else "!" for line in faults.splitlines()]
    return [*lines, f"? {run.returncode}"] if run.returncode else lines


def lines_as_shown(run):
    """Returns the lines of a run's output, followed by the lines of its standard error."""
    return (run.stdout + run.stderr).decode("utf-8", "backslashreplace").splitlines()


def repository_in(work, program):
    """Creates a folder with the files of the repository and, as ./listset, the program under test."""
    work.mkdir()
    for it in TOP.iterdir():
        (work / it.name).symlink_to(program if it.name == "listset" else it)
    return work


def printed_by_commands(page, steps, program, room):
    """Runs the commands in `steps` in one folder, and returns the output of each command."""
    is_shown = page.parent != PAGES
    (room / "bin").mkdir()
    (room / "bin/listset").symlink_to(program)
    work = repository_in(room / "work", program) if is_shown else shutil.copytree(PAGES / "data", room / "work")
    environment = {**os.environ, "PATH": f"{room}/bin:{os.environ['PATH']}", "LC_ALL": "C.UTF-8"}
    how = {"cwd": work, "env": environment, "stdin": subprocess.DEVNULL, "capture_output": True, "timeout": SECONDS}
    for step in steps:
        yield (lines_as_shown if is_shown else lines_of_transcript)(subprocess.run(["bash", "-c", "\n".join(step.command)], **how))


def is_as_shown(told, printed):
    """Returns whether the lines `told` on a page match the printed lines. A line `..` on the page matches any number of
    printed lines.
    """
    pieces = [re.escape(line) + "\n" if line != LEFT_OUT else "(?:.*\n)*?" for line in told]
    return re.fullmatch("".join(pieces), "".join(f"{line}\n" for line in printed))


def print_what_the_page_has(page, steps, program, room):
    """Checks that the commands of a test print the lines that the page shows."""
    for step, printed in zip(steps, printed_by_commands(page, steps, program, room)):
        told, where = step.told(), f"{page.relative_to(TOP)}:{step.number}"
        if not (page.parent != PAGES and is_as_shown(told, printed)):
            assert printed == told, f"the program prints what is on the left, {where} has what is on the right"


def show(name, page, steps, program, room):
    """Prints a test with its current output, in the format of the page."""
    print(f"\n## {name}\n")
    for step, lines in zip(steps, printed_by_commands(page, steps, program, room)):
        print(f"{INDENT}$ " + f"\n{INDENT}> ".join(step.command))
        for line in lines:
            print(INDENT + line if line else "")


class Page(pytest.File):
    """A page in tests/transcripts."""

    def collect(self):
        for name, steps in tests_of(self.path):
            yield pytest.Function.from_parent(self, name=name, callobj=self.test_of(name, steps))

    def test_of(self, name, steps):
        def prints_what_the_page_has(program, room, pytestconfig):
            if not pytestconfig.option.show:
                return print_what_the_page_has(self.path, steps, program, room)
            with pytestconfig.pluginmanager.getplugin("capturemanager").global_and_fixture_disabled():
                show(name, self.path, steps, program, room)

        return prints_what_the_page_has
