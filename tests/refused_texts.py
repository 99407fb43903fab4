"""Tests, for texts of each kind, that the program names the first error in the text. The texts are from a table, or
are prefixes of a valid text. The program must print an error message of exactly one line, and exit with status 1.
"""

import re

import pytest
from harness.programs import TOP, ran

DATA = TOP / "tests/transcripts/data"
# For each kind of text, the command that reads it, and the valid lines that precede the lines of the table.
READERS = {
    "schedule": ("replay", "listset-schedule 1\nlist coarse\nthreads 1\nquota 1\n"),
    "schedule 2": ("replay", "listset-schedule 2\nlist coarse\nthreads 1\nquota 1\n"),
    "draft": ("draft", "listset-draft 2\nlist coarse\nthreads 2\nquota 1\n"),
    "report": ("check", "listset-report 1\nlist coarse\nthreads 2\nquota 4\n"),
    "report 2": ("check", "listset-report 2\nlist coarse\nthreads 1\nquota 1\n"),
    "recording": ("judge", "listset-calls 1\n"),
    "keys": ("serve lazy 1 4 0 0 -", ""),
}
# Each line of the table has a kind of text, an error (a line number and a cause), and texts with this first error. The
# lines of a text end with \n.
TABLE = r"""
schedule: line 5: Event | take 0 5\n | go  0 1\n | begin 0 add\n | opening 5\n
schedule: line 5: Number | begin 0 add 05\n | begin 0 add 4294967296\n | go 0 0\n | go 0 10001\n
schedule: line 5: NoThread | begin 64 add 5\n
schedule: line 6: Idle | begin 0 add 5\ngo 0 8\n | begin 0 add 5\ngo 0 10000\n
schedule: line 6: Busy | begin 0 add 5\nbegin 0 add 6\n
schedule 2: line 5: Event | opening 5 6\n | opening\n | opened 5\n
schedule 2: line 6: Opening | opening 9\nopening 5\n | opening 5\nopening 5\ngo 0 0\n
draft: line 5: Event | go 0 into 4\n
draft: line 5: Number | go 0 past\n | go 0 to 0\n | go 0 to 256\n | go x out\n
draft: line 5: Idle | go 0 out\n
draft: line 5: NoThread | go 2 to 4\n
draft: line 6: Opening | opening 9\nopening 5\n
draft: line 6: Idle | begin 0 add 5\ngo 0 to 30\n
draft: line 6: Busy | begin 0 add 5\nbegin 0 add 7\n
draft: line 8: Waits | begin 0 add 5\ngo 0 to 2\nbegin 1 add 5\ngo 1 out\n
report: line 5: Line | call 0 0 add 5 1 8 done\n | call 0 0 add 5 1 shut\n | opening 5\n
report: line 5: Number | call 0 0 add 5 0 open\n | call 0 0 add 5 1 4294967296 true\nend\n | place 4294967296 true\n
report: line 5: History | call 1 0 add 5 1 8 true\n | call 0 2 add 5 1 8 true\n | call 0 0 add 5 8 8 true\n
report: line 6: History | call 0 0 add 5 1 3 true\ncall 1 1 add 5 2 3 true\n | call 0 0 add 5 1 open\ncall 1 0 add 5 2 4 true\n
report 2: line 6: Line | call 0 0 add 1 1 8 true\nopening 5\n | key 5\nopening 5\n | end\nopening 5\n
report 2: line 6: Opening | opening 9\nopening 5\n | opening 5\nopening 5\nend\n
recording: line 2: Line | call 0 insert 5 1 2 true\n | call 0 add 5 1 2\n | call 0 add 5 1 2 done\n | opening 5 6\n | key\n | \n | cut off\n
recording: line 2: Number | call 0 add 05 1 2 true\n | call 0 add 5 1 - true\n | call 0 add 5 0 2 true\n | call 4294967296 add 5 1 2 true\n | opening x\n
recording: line 2: Number | call 0 add 5 1 9223372036854775808 true\n | call 0 add 4294967296 1 - -\n | key 4294967296\nend\n
recording: line 2: History | call 0 add 5 2 2 true\n | call 0 add 5 3 2 true\n
recording: line 3: History | call 0 add 5 1 4 true\ncall 0 add 5 2 5 true\n | call 0 add 5 2 4 true\ncall 1 add 5 1 5 true\n
recording: line 3: History | call 0 add 5 1 4 true\ncall 1 add 5 2 4 true\n | call 0 add 5 1 - -\ncall 0 add 5 2 3 true\n
recording: line 3: Opening | opening 5\nopening 5\n | opening 5\nopening 4\n | key 5\nkey 4\n
recording: line 3: Line | end\nend\n | cut\nend\n | key 5\ncut\n | key 5\ncall 0 add 5 1 2 true\n | call 0 add 5 1 2 true\nopening 5\n
keys: line 1: Line | \n | key\n | key 1 2\n | key  1\n | Key 1\n | keys 1\n | listening\nkey 1\n | sessions 1 2\n
keys: line 1: Number | key \n | key 01\n | key +1\n | key x\n | key 1\r\n | key 4294967296\n
keys: line 2: Line | key 1\n\nkey 2\n | key 1\nkeys 2\n | sessions 1\nsessions 1\n | sessions 2\nlistening a\nkey 1\n
keys: line 2: Line | calls 1\nsessions 1\n | key 1\nsessions 2\n
keys: line 2: Opening | key 5\nkey 5\n | key 5\nkey 4\nkey x\n
keys: line 4: Opening | sessions 1\ncalls 2\nkey 3\nkey 2\n
keys: line 5: Opening | listening a\nsessions 1\ncalls 2\nkey 3\nkey 3\n
"""
HEADER = ["Header", "Kind", "Threads", "Quota"]  # the cause of the error, by the number of complete header lines


def rows():
    """Returns the rows of the table: for each refused text its kind, the text, and the line and cause of the error."""
    for line in TABLE.strip().splitlines():
        about, *texts = line.split(" | ")
        kind, due = about.split(": ", 1)
        yield from ((kind, it.replace(r"\r", "\r").replace(r"\n", "\n"), due) for it in texts)


def refused(program, words, text, due):
    done = ran(program, *words.split(), text=text)
    assert (done.returncode, done.stdout, done.stderr) == (1, "", f"listset: {due}\n"), repr(text)


@pytest.mark.parametrize("kind", READERS)
def test_the_first_error_of_a_text_is_named(program, kind):
    words, head = READERS[kind]
    for its_kind, lines, due in rows():
        if its_kind == kind:
            refused(program, words, head + lines, due)


def test_faults_explains_each_cause(program):
    explained = re.findall(r"^  (\w+) +\S", ran(program, "faults").stdout, re.MULTILINE)
    assert {due.split()[-1] for _, _, due in rows()} <= set(explained)


@pytest.mark.parametrize("title, words", [("listset-schedule 1", "replay"), ("listset-schedule 2", "replay"), ("listset-draft 2", "draft"),
                                          ("listset-report 1", "check"), ("listset-report 2", "check")])
def test_the_first_error_of_a_header_is_named(program, title, words):
    for wrong in ("", "\n", "listset-calls 1\n", f"{title} \n", f"{title}\r\n", f"{title[:-1]}3\n"):
        refused(program, words, wrong, "line 1: Header")
    for line, wrong in [(2, "list skip"), (2, "list  lazy"), (3, "threads 0"), (3, "threads 65"), (3, "thread 1"), (4, "quota 16385"), (4, "quota 01")]:
        header = [title, "list lazy", "threads 64", "quota 16384"]
        header[line - 1] = wrong
        refused(program, words, "".join(f"{it}\n" for it in header), f"line {line}: {HEADER[line - 1]}")


def test_the_first_error_of_each_prefix_of_a_draft_is_named(program):
    """Tests each prefix of a draft. If a prefix ends within a line, the error is that the line has no newline. If a
    prefix consists of complete lines, either the next header line is missing, or the prefix is a valid draft.
    """
    text = (DATA / "drafts/opens-with-keys.draft").read_text()
    for front in (text[:at] for at in range(len(text))):
        lines = front.count("\n")
        if front[-1:] not in ("", "\n"):
            refused(program, "draft", front, f"line {lines + 1}: NotEnded")
        elif lines < len(HEADER):
            refused(program, "draft", front, f"line {lines + 1}: {HEADER[lines]}")
        else:
            assert "listset: line" not in ran(program, "draft", text=front).stderr


@pytest.mark.parametrize("words, front", [("check", "listset-report 1\nlist lazy\nthreads 1\nquota 1\n"), ("judge", "listset-calls 1\n"),
                                          ("judge", "listset-calls 1\ncall 0 add 5 1 2 true\n"), ("serve lazy 1 4 0 0 -", "key 1\nkey 2"),
                                          ("serve lazy 1 4 0 0 -", "sessions 3\ncalls 2\nkey 7"), ("replay", "listset-schedule 1\nlist")])
def test_a_text_without_its_end_is_refused_at_its_last_line(program, words, front):
    refused(program, words, front, f"line {front.count(chr(10)) + 1}: NotEnded")
