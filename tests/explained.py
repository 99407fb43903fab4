"""Tests how `explain` explains mistakes. A command that writes to a pipe reports a mistake in exactly one line. For
that line, `explain` prints the wrong line of the input, an explanation of the mistake, and how to correct the input.
tests/hints.py tests the further lines that a command prints at a terminal.
"""

import bz2
import gzip
import lzma
import os
import random
import re
import shlex
import shutil

import pytest
from harness.programs import ran, wants, well

SCHEDULE = "listset-schedule 1\nlist lazy\nthreads 2\nquota 4\n"
DRAFT = "listset-draft 2\nlist coarse\nthreads 2\nquota 4\n"
CALLS = "listset-calls 1\n"
REPORT = "listset-report 1\nlist coarse\nthreads 1\nquota 4\n"
RIGHT = SCHEDULE + "begin 0 add 5\ngo 0 11\n"
RIGHT_REPORT = REPORT + "call 0 0 add 5 1 8 true\nplace 0 true\nkey 5\nend\n"
ADD = "call 0 add 5 1 4 true\n"
RIGHT_CALLS = f"{CALLS}{ADD}key 5\nend\n"

# Mistakes, keyed by name: the command, its input, the error line that the command prints to a pipe, and parts of the
# explanation
ROWS = {
    "no bytes": ("replay", "", "line 1: Header", ["no bytes", "command before a pipe"]),
    "no bytes of a recording": ("judge", "", "line 1: Header", ["no bytes"]),
    "CR LF": ("replay", RIGHT.replace("\n", "\r\n"), "line 1: Header", [r"listset-schedule 1\r", "CR LF", r"sed -i 's/\r$//' FILE"]),
    "CR LF in a report": ("check", RIGHT_REPORT.replace("\n", "\r\n"), "line 1: Header", [r"sed -i 's/\r$//' FILE"]),
    "CR LF in a recording": ("judge", RIGHT_CALLS.replace("\n", "\r\n"), "line 1: Header", [r"sed -i 's/\r$//' FILE"]),
    "CR in one line": ("replay", RIGHT[:-1] + "\r\n", "line 6: Number", [r"go 0 11\r", "CR LF"]),
    "byte order mark": ("replay", "\ufeff" + RIGHT, "line 1: Header", [r"\xef\xbb\xbf", r"sed -i '1s/^\xef\xbb\xbf//' FILE"]),
    "byte order mark of a recording": ("judge", "\ufeff" + RIGHT_CALLS, "line 1: Header", [r"sed -i '1s/^\xef\xbb\xbf//' FILE"]),
    "UTF-16": ("replay", RIGHT.encode("utf-16"), "line 1: Header", ["UTF-16", "iconv -f UTF-16 -t UTF-8"]),
    "packed by gzip": (None, gzip.compress(RIGHT_CALLS.encode()), None, ["packed by gzip", "gzip -dc FILE"]),
    "packed by bzip2": (None, bz2.compress(RIGHT_CALLS.encode()), None, ["packed by bzip2", "bzip2 -dc FILE"]),
    "packed by xz": (None, lzma.compress(RIGHT_CALLS.encode()), None, ["packed by xz", "xz -dc FILE"]),
    "packed by zstd": ("judge", b"\x28\xb5\x2f\xfd\x04\n", "line 1: Header", ["packed by zstd", "zstd -dc FILE"]),
    "packed by zip": ("judge", b"PK\x03\x04\n", "line 1: Header", ["packed by zip", "unzip -p FILE"]),
    "another version": ("judge", RIGHT_CALLS.replace("calls 1", "calls 2"), "line 1: Header", ["'listset-calls 2' is no title that this version reads", "listset-calls 1"]),
    "a title in capitals": ("replay", RIGHT.replace("listset", "Listset"), "line 1: Header", ["'Listset-schedule 1' is no title that this version reads", "in lower case"]),
    "CR alone": (None, RIGHT_CALLS.replace("\n", "\r"), None, ["CR before its end", r"tr '\r' '\n' < FILE > FILE.new"]),
    "commas": ("judge", CALLS + ADD.replace(" ", ",") + "end\n", "line 2: Line", ["commas", "sed -i 's/,/ /g' FILE"]),
    "capitals": ("judge", CALLS + ADD.upper() + "end\n", "line 2: Line", ["lower case", r"sed -i 's/.*/\L&/' FILE"]),
    "a recording for replay": ("replay", RIGHT_CALLS, "line 1: Header", ["recorded calls", "listset judge FILE"]),
    "a report for replay": ("replay", RIGHT_REPORT, "line 1: Header", ["a report", "listset show FILE"]),
    "a schedule for judge": ("judge", RIGHT, "line 1: Header", ["a schedule", "listset replay FILE"]),
    "a schedule for check": ("check", RIGHT, "line 1: Header", ["a schedule", "listset replay FILE"]),
    "a recording for check": ("check", RIGHT_CALLS, "line 1: Header", ["recorded calls", "listset judge FILE"]),
    "a recording for show": ("show", RIGHT_CALLS, "line 1: Header", ["recorded calls", "listset judge FILE"]),
    "a schedule for draft": ("draft", RIGHT, "line 1: Header", ["a schedule", "listset replay FILE"]),
    "no first line": ("judge", ADD + "key 5\nend\n", "line 1: Header", ["sed -i '1i listset-calls 1' FILE"]),
    "empty line": ("replay", RIGHT.replace("go", "\ngo"), "line 6: Event", ["is empty", "sed -i '/^$/d' FILE"]),
    "comment": ("replay", SCHEDULE + "# add\n", "line 5: Event", ["# add", "no comments"]),
    "space at the end": ("replay", SCHEDULE + "begin 0 add 5 \n", "line 5: Event", ["ends with a space", "sed -i 's/ *$//' FILE"]),
    "tab": ("replay", SCHEDULE + "begin\t0 add 5\n", "line 5: Event", [r"begin\t0 add 5", "a tab"]),
    "two spaces": ("replay", SCHEDULE + "go  0 1\n", "line 5: Event", ["two spaces"]),
    "insert": ("replay", SCHEDULE + "begin 0 insert 4\n", "line 5: Event", ["'insert' is no call", "add, remove, contains"]),
    "ceiling in version 1": ("replay", SCHEDULE + "begin 0 ceiling 4\n", "line 5: Event", ["make line 1 'listset-schedule 2'"]),
    "key below 0": ("replay", SCHEDULE + "begin 0 add -5\n", "line 5: Number", ["'-5'", "from 0 to 4294967295"]),
    "key too large": ("replay", SCHEDULE + "begin 0 add 4294967296\n", "line 5: Number", ["'4294967296'", "from 0 to 4294967295"]),
    "out in a schedule": ("replay", SCHEDULE + "begin 0 add 5\ngo 0 out\n", "line 6: Number", ["a line of a draft", "listset draft FILE"]),
    "no such thread": ("replay", SCHEDULE + "begin 2 add 5\n", "line 5: NoThread", ["no thread 2", "threads 2", "from 0 to 1"]),
    "second begin": ("replay", SCHEDULE + "begin 0 add 5\nbegin 0 add 6\n", "line 6: Busy", ["Thread 0", "since line 5", "add the line 'go 0 11' above"]),
    "second begin of a draft": ("draft", DRAFT + "begin 0 add 5\nbegin 0 add 6\n", "line 6: Busy", ["since line 5", "add the line 'go 0 out' above"]),
    "second begin while a lock is held": ("replay", SCHEDULE + "begin 0 add 5\ngo 0 5\nbegin 1 add 5\ngo 1 3\nbegin 1 add 6\n", "line 9: Busy", ["since line 7", "waits for head.lock, which thread 0 holds", "add the lines 'go 0 6' and 'go 1 13' above"]),
    "second begin of a draft while a lock is held": ("draft", DRAFT + "begin 0 add 5\ngo 0 2\nbegin 1 add 7\ngo 1 1\nbegin 1 add 6\n", "line 9: Busy", ["waits for list.lock, which thread 0 holds", "add the lines 'go 0 out' and 'go 1 out' above"]),
    "step without a call": ("replay", SCHEDULE + "go 0 1\n", "line 5: Idle", ["Thread 0 has begun no call", "begin 0 add 5"]),
    "one step too many": ("replay", SCHEDULE + "begin 0 add 5\ngo 0 12\n", "line 6: Idle", ["line 5 ends after 11 steps", "Write 'go 0 11'"]),
    "step after the end": ("replay", RIGHT + "go 0 1\n", "line 7: Idle", ["no pending call", "line 5 has ended"]),
    "Lazy": ("replay", SCHEDULE.replace("lazy", "Lazy"), "line 2: Kind", ["list Lazy", "lower case"]),
    "an opening key that is a key line": ("replay", SCHEDULE + "key 5\nbegin 0 add 5\n", "line 5: Event", ["'opening K'", "listset-schedule 2"]),
    "65 threads": ("replay", SCHEDULE.replace("threads 2", "threads 65"), "line 3: Threads", ["threads 65", "from 1 to 64"]),
    "large quota": ("replay", SCHEDULE.replace("quota 4", "quota 20000"), "line 4: Quota", ["quota 20000", "from 0 to 16384"]),
    "no newline": ("replay", SCHEDULE + "begin 0 add 5", "line 5: NotEnded", ["no newline", "echo >> FILE"]),
    "a lock": ("draft", DRAFT + "begin 0 add 5\ngo 0 2\nbegin 1 add 7\ngo 1 out\n", "line 8: Waits", ["Thread 1 waits for list.lock", "thread 0 holds", "'go 0 out' above this one"]),
    "no such row": ("draft", DRAFT + "begin 0 add 5\ngo 0 to 9\n", "line 6: Idle", ["line 5 ends after 7 steps", "Write 'go 0 7'"]),
    "a row that is missing": ("draft", DRAFT + "begin 0 add 5\ngo 0 to\n", "line 6: Number", ["row is missing", "'go 0 to 4'"]),
    "a number that is missing in a draft": ("draft", DRAFT + "begin 0 add 5\ngo 0\n", "line 6: Event", ["'go THREAD out'", "'go THREAD to ROW'"]),
    "too many events": ("replay", SCHEDULE + "begin 0 add 5\n" + "go 0 10000\n" * 100, "line 105: TooMany", ["head -n 104 FILE > FILE.new"]),
    "True": ("judge", CALLS + "call 0 add 5 1 4 True\nend\n", "line 2: Line", ["'True' is no reply", "true or false"]),
    "1 as a reply": ("judge", CALLS + "call 0 add 5 1 4 1\nend\n", "line 2: Line", ["'1' is no reply"]),
    "insert in a recording": ("judge", CALLS + "call 0 insert 5 1 4 true\nend\n", "line 2: Line", ["'insert' is no call", "Leave out lines of other calls"]),
    "full": ("judge", CALLS + "call 0 add 5 1 4 full\nend\n", "line 2: Line", ["grep -v -e ceiling -e full FILE"]),
    "end before begin": ("judge", CALLS + "call 0 add 5 4 1 true\nend\n", "line 2: History", ["ends at moment 1", "begins", "Take the begin before the call's first step"]),
    "end before begin in a report": ("check", RIGHT_REPORT.replace("1 8", "8 1"), "line 5: History", ["ends at moment 1", "listset replay"]),
    "one moment twice": ("judge", CALLS + ADD + "call 1 add 7 4 6 true\nend\n", "line 3: History", ["Moment 4", "line 2", "one counter"]),
    "not sorted": ("judge", CALLS + "call 0 add 5 5 6 true\ncall 1 add 7 1 2 true\nend\n", "line 3: History", ["before the call of line 2", "sort -n -k 5,5"]),
    "two calls of a thread": ("judge", CALLS + "call 0 add 5 1 4 true\ncall 0 add 7 2 3 true\nend\n", "line 3: History", ["line 2 has not ended", "one call at a time"]),
    "a pending call with a reply": ("judge", CALLS + "call 0 add 5 1 - true\nend\n", "line 2: Number", ["A pending call has '-' for END and for REPLY", "write '-' for both"]),
    "a key above the calls": ("judge", CALLS + "key 5\n" + ADD + "end\n", "line 3: Line", ["move this line up", "'opening K'"]),
    "large moment": ("judge", CALLS + "call 0 add 5 1 9223372036854775808 true\nend\n", "line 2: Number", ["'9223372036854775808'", "from 1 to 9223372036854775807"]),
    "moment 0": ("judge", CALLS + "call 0 add 5 0 4 true\nend\n", "line 2: Number", ["BEGIN '0'", "from 1 to", "one counter that starts at 1"]),
    "1.5": ("judge", CALLS + "call 0 add 5 1.5 4 true\nend\n", "line 2: Number", ["BEGIN '1.5'", "point"]),
    "a key abc": ("judge", CALLS + "call 0 add abc 1 4 true\nend\n", "line 2: Number", ["KEY 'abc'", "from 0 to 4294967295", "a number of its own for each key"]),
    "a thread main": ("judge", CALLS + "call main add 5 1 4 true\nend\n", "line 2: Number", ["THREAD 'main'", "Number the threads"]),
    "no end": ("judge", CALLS + ADD, "line 3: NotEnded", ["stops after line 2, without final keys", "echo end >> FILE", "echo cut >> FILE"]),
    "no end after final keys": ("judge", CALLS + ADD + "key 5\n", "line 4: NotEnded", ["stops after line 3, a final key", "echo end >> FILE", "(grep -v '^key' FILE; echo cut) > FILE.new"]),
    "no newlines": ("judge", CALLS + ADD[:-1] * 9, "line 2: NotEnded", ["no newline", "more than the 128 bytes", "a line of its own"]),
    "keys do not increase": ("judge", CALLS + ADD + "key 7\nkey 5\nend\n", "line 4: Opening", ["'key 5' comes after 'key 7'", "increase"]),
    "a line after the end": ("judge", RIGHT_CALLS + "\n", "line 5: Line", ["is empty"]),
    "a call after the end": ("judge", RIGHT_CALLS + ADD, "line 5: Line", ["ended with line 4"]),
    "no key lines": ("judge", CALLS + ADD + "end\n", None, ["No order explains the calls and leaves the keys", "write 'cut'"]),
    "refused without final keys": ("judge", CALLS + ADD + "call 0 contains 5 5 6 false\ncut\n", None, ["No order explains the calls. What is wrong: listset judge FILE"]),
    "an order that is refused": ("check", RIGHT_REPORT.replace("key 5\n", ""), None, ["is refused", "listset show FILE"]),
    "a number that is missing": ("check", RIGHT_REPORT.replace("call 0 0", "call 1 0"), "line 5: History", ["must be 0"]),
    "a report that is cut off": ("check", RIGHT_REPORT[:-4], "line 8: NotEnded", ["stops after line 7", "'end'"]),
    "keys": (None, "key 5\nkey 7\nkey 6\n", "line 3: Opening", ["'key 6' comes after 'key 7'", "sort -u -n -k 2,2"]),
    "a comment above the title": (None, "# a run\n" + RIGHT, None, ["no comments", "sed -i '1d' FILE"]),
    "keys after the lines of a server": (None, "listening 127.0.0.1:1\nsessions 3\ncalls 9\nkey 5\nkey 5\n", "line 5: Opening", ["grep '^key' FILE | sort -u -n -k 2,2 > FILE.new"]),
    "lines of a server in another order": (None, "calls 9\nsessions 3\nkey 5\n", "line 2: Line", ["must be 'key K'"]),
    "opening keys of a schedule": ("replay", SCHEDULE.replace("schedule 1", "schedule 2") + "opening 7\nopening 5\nbegin 0 add 5\n", "line 6: Opening", ["head -n 4 FILE"]),
    "opening keys of a recording": ("judge", CALLS + "opening 7\nopening 5\n" + ADD + "cut\n", "line 3: Opening", ["grep '^opening' FILE | sort"]),
    "numbers for keys": (None, "5\n7\n", None, ["each line must be 'key K'", "sed -i 's/^/key /' FILE"]),
}


@pytest.mark.parametrize("name", ROWS)
def test_a_mistake_is_explained(program, name):
    command, text, line, explained = ROWS[name]
    given = text if isinstance(text, bytes) else text.encode()
    if command:
        done = ran(program, command, text=given)
        assert done.stderr == (f"listset: {line}\n".encode() if line else b""), done
        assert done.returncode == 1
    done = ran(program, "explain", text=given)
    said = done.stdout.decode()
    assert (done.returncode, done.stderr) == (0, b""), done
    assert all(it in said for it in explained), said
    if line and "Header" not in line:
        assert f"line {line[5:].split(':')[0]} has an error, {line.split(': ')[1]}:\n    " in said, said


# Matches a command in an explanation, up to the end of the line
COMMAND = re.compile(r"(?:sed -i|\(head|head -n|\(grep|grep|gzip|bzip2|xz|iconv|tr|echo cut) .*")


@pytest.mark.parametrize("name", ROWS)
def test_a_command_in_an_explanation_corrects_the_line(program, room, name):
    (room / "listset").symlink_to(program)
    text = ROWS[name][1]
    (room / "FILE").write_bytes(text if isinstance(text, bytes) else text.encode())
    before = well(program, "explain", "FILE", cwd=room)
    found = COMMAND.search(before.splitlines()[-1])
    if not found or "packed" in name and not shutil.which(found[0].split()[0]):
        return
    done = ran("sh", "-c", found[0].split(";")[0] if found[0].startswith("echo") else found[0], cwd=room, env={**os.environ, "PATH": f"{room}:{os.environ['PATH']}"})
    assert done.stderr == "", (found[0], done)
    new = room / "FILE.new"
    assert not new.exists() or (room / "FILE").read_bytes() == (text if isinstance(text, bytes) else text.encode())
    after = well(program, "explain", "FILE.new" if new.exists() else "FILE", cwd=room)
    assert ("listset judge" in found[0] and done.stdout.startswith(("ok ", "not linearizable"))) or error_in(after) != error_in(before), (found[0], after)


# Matches the name of the file that a command writes its output to.
WRITTEN = re.compile(r"(?<!>)> *((?:'[^']*'|\\'|[^\s;'>)])+)")


def files_written(program, room, file, text, size=0):
    """Runs `explain` on a file with the text `text`, extended to `size` bytes. Returns the files that the commands in
    the explanation write.
    """
    (room / file).write_bytes(text if isinstance(text, bytes) else text.encode())
    os.truncate(room / file, max(size, (room / file).stat().st_size))
    said = re.sub("awk '[^']*'", "awk", well(program, "explain", "--", file, cwd=room).splitlines()[-1])
    return [os.path.normpath(shlex.split(it)[0]) for it in WRITTEN.findall(said)]


@pytest.mark.parametrize("file", ["FILE", "NEW", "FILE.new", "a b", "it's", "-x"])
def test_no_command_in_an_explanation_writes_to_the_file_that_it_reads(program, room, file):
    written = [it for _, text, *_ in ROWS.values() for it in files_written(program, room, file, text)]
    assert len(written) > 10 and {*written} == {f"{file}.new"}


def test_no_command_for_a_long_text_writes_to_the_file_that_it_reads(program, room):
    for title in ("listset-schedule 1", "listset-draft 2", "listset-report 1", "key 5"):
        assert files_written(program, room, "a b", f"{title}\n", 67_108_865) == ["a b.new"]
    for title in ("listset-trace 1", "listset-calls 1", "x"):
        assert files_written(program, room, "a b", f"{title}\n", 67_108_865) == []


def test_a_long_schedule_is_shortened_to_whole_lines(program, room):
    (room / "FILE").write_text(SCHEDULE + "begin 0 contains 4294967295\ngo 0 2\n" * 2_000_000)
    said = well(program, "explain", "FILE", cwd=room)
    well("sh", "-c", said[said.index("awk ") :], cwd=room)
    assert well(program, "replay", "FILE.new", cwd=room).endswith("\nend\n")
    assert (room / "FILE.new").read_text() == SCHEDULE + "begin 0 contains 4294967295\ngo 0 2\n" * 333_333 + "begin 0 contains 4294967295\n"


def test_the_lines_that_end_a_pending_call_end_it(program, room, few):
    """Tests a thread that begins a second call while its first call is pending. The lines that the explanation suggests
    must end the first call, even if the first call waits for a lock.
    """
    dice, waited = random.Random(13), 0
    for _ in range(20 if few else 100):
        title, kind = dice.choice(["listset-schedule 1", "listset-draft 2"]), dice.choice(["coarse", "fine", "optimistic", "lazy", "lock-free"])
        above = f"{title}\nlist {kind}\nthreads 2\nquota 4\nbegin 0 add 5\ngo 0 {dice.randrange(1, 6)}\nbegin 1 {dice.choice(['add', 'remove', 'contains'])} 5\ngo 1 1\n"
        (room / "FILE").write_text(above + "begin 1 add 6\n")
        said = well(program, "explain", "FILE", cwd=room).splitlines()[-1]
        added = re.findall(r"'(go [01] (?:\d+|out))'", said)
        waited += "waits for" in said
        assert added, said
        (room / "FILE").write_text(above + "".join(f"{it}\n" for it in added) + "begin 1 add 6\n")
        assert "no line has an error" in well(program, "explain", "FILE", cwd=room), (above, said)
    assert waited > 3


def error_in(explanation):
    """Returns the line and the cause of the error that an explanation names. Returns the whole explanation if the
    explanation names no error.
    """
    found = re.search(r"line (\d+) has an error, (\w+)", explanation)
    return found.groups() if found else explanation


LINES_OF_KEYS = ["listening 127.0.0.1:1", "sessions 3", "calls 9", "key 1", "key 2", "key 3", "key 2", "key x", "key", "key 5 5", "calls", "calls 9 9", ""]


def test_explain_finds_the_errors_in_keys_that_serve_finds(program, room, few):
    """Tests random texts that consist of lines from a server's output, lines with keys, and wrong lines. In most texts,
    the lines are in the right order. Some texts do not end with a newline.
    """
    dice = random.Random(11)
    for _ in range(20 if few else 200):
        lines = [LINES_OF_KEYS[it] for it in sorted(dice.sample(range(len(LINES_OF_KEYS)), dice.randrange(1, 6)))]
        if dice.random() < 0.3:
            dice.shuffle(lines)
        (room / "keys").write_text("\n".join(lines) + dice.choice(["\n", "\n", "\n", ""]))
        served = ran(program, "serve", "lazy", "1", "4", "0", "0", "keys", cwd=room)
        explained = well(program, "explain", "keys", cwd=room)
        due = re.fullmatch(r"listset: line (\d+): (\w+)\n", served.stderr)
        if explained.startswith("keys has keys for serve"):
            assert error_in(explained) == (due.groups() if due else explained), (lines, served, explained)
        elif not explained.startswith("keys has no bytes"):
            assert due and due.groups() in (("1", "Line"), ("1", "NotEnded")), (lines, served, explained)


def test_explain_suggests_no_edit_of_another_programs_file(program):
    for text in ("# A project\n", "\n\nText\n", "// code\nint main;\n", "a file\r\n", "  indented\n", "a\tb\n", "call me\n", "list of things\n"):
        said = ran(program, "explain", text=text.encode()).stdout.decode()
        assert "is no text of listset" in said and "sed " not in said and said.splitlines()[-1].startswith("Line 1 must be one of"), said


def test_a_file_that_is_not_read_is_explained(program, room):
    wants(ran(program, "explain", "no-such", cwd=room), output="no-such: there is no such file. Look at its name, and at the folder that you are in: ls\n")
    wants(ran(program, "explain", "."), output=".: this is a folder. Name a file in it. To see its files: ls .\n")
    wants(ran(program, "explain", "/dev/null/a"), output="/dev/null/a: a part of this path is a file, and no folder. To see which: namei /dev/null/a\n")
    wants(ran(program, "replay", "."), status=1, output="")
    long = room / "long"
    long.write_text(SCHEDULE)
    os.truncate(long, 67_108_865)
    assert "has more than 67108864 bytes" in well(program, "explain", long)


NAMES = {"a b.calls": "'a b.calls'", "-x.calls": "./-x.calls", "it's": "'it'\\''s'", "$x;y": "'$x;y'", "-a b": "'./-a b'", "d/a-b_1.calls": "d/a-b_1.calls"}


@pytest.mark.parametrize("name", NAMES)
def test_a_shell_reads_the_name_in_a_command(program, room, name):
    (room / "d").mkdir()
    (room / name).write_text(RIGHT_CALLS)
    said = well(program, "explain", "--", name, cwd=room)
    assert said.splitlines()[-1].endswith(f"listset judge {NAMES[name]}"), said
    assert ran("sh", "-c", f"cat {NAMES[name]}", cwd=room).stdout == RIGHT_CALLS


def test_explain_succeeds_for_every_text(program, few):
    """Tests texts with parts that were removed, repeated or replaced. `explain` must succeed, and name the same line as
    the error message of the command that reads the text.
    """
    dice = random.Random(7)
    of_commands = {"replay": RIGHT, "draft": DRAFT + "begin 0 add 5\ngo 0 out\n", "check": RIGHT_REPORT, "judge": RIGHT_CALLS}
    for _ in range(40 if few else 400):
        command = dice.choice([*of_commands])
        text = of_commands[command].encode()
        at = dice.randrange(len(text))
        to = at + dice.randrange(1, 9)
        part = dice.choice([b"", b" ", b"\n", b"-", text[at:to] * 2, b"\xff", b"9999999999", b"call ", b"\r\n", b"end\n", b"key 3\n"])
        text = text[:at] + part + text[to:]
        due, explained = ran(program, command, text=text), ran(program, "explain", text=text)
        assert (explained.returncode, explained.stderr) == (0, b""), (text, explained)
        assert explained.stdout.endswith(b"\n") and b"\n\n" not in explained.stdout, (text, explained)
        if (found := re.fullmatch(rb"listset: (line \d+): (\w+)\n", due.stderr)) and found[2] != b"Header":
            assert b"%s has an error, %s:" % (found[1], found[2]) in explained.stdout, (text, due, explained)


def test_faults_prints_the_lines_about_a_cause(program):
    whole = well(program, "faults")
    busy = well(program, "faults", "Busy")
    assert busy == well(program, "faults", "busy") == well(program, "faults", "listset: line 6: Busy")
    assert busy.count("\n") == 2 and all(it in whole.splitlines() for it in busy.splitlines())
    causes = set(re.findall(r"^  ([A-Z]\w+)  ", whole, re.M))
    for cause in causes:
        said = well(program, "faults", cause)
        assert re.findall(r"^  ([A-Z]\w+)  ", said, re.M) in ([cause] * said.count(f"  {cause}  "), [cause] * said.count(f"\n  {cause}  ")), said
    assert "listset-calls 1" in well(program, "faults", "Header")
    assert well(program, "faults", "bad SEED") == well(program, "faults", "listset: bad SEED")
    assert well(program, "faults", "refused TooEarly 1") == well(program, "faults", "TooEarly")
    for wrong in ("Nothing", "", " ", "I", "Idl", "a", "a file", "Error", "Error messages"):
        wants(ran(program, "faults", wrong), status=2, output="", tells=["listset: bad CAUSE\n"])
