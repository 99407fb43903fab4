"""Tests the lines that the script ./listset adds at a terminal: help below an error and, before a command starts, the
kind of text that the command reads. If the output is a pipe, the script adds nothing.
"""

import os
import pty
import re
import shutil
import socket
import subprocess

import pytest
from explained import ADD, CALLS, RIGHT, RIGHT_CALLS, RIGHT_REPORT, SCHEDULE
from harness.programs import SECONDS, TOP, ran, wants, well

# Maps the arguments of a command to the error line (the same at a terminal and in a pipe), and to the lines below it
# that only a terminal receives.
AT_TERMINAL = {
    "replay no-such": ["listset: cannot read\n", "no-such: there is no such file"],
    "judge .": ["listset: cannot read\n", ".: this is a folder"],
    "replay a.schedule": ["listset: line 6: Idle\n", "Write 'go 0 11'"],
    "replay --lacks mark a.schedule": ["listset: line 2: Kind\n", "mark is a check of the lock-free list, and line 2 is 'list lazy'. The checks of the lazy list: marks-in-validation,"],
    "replay --lacks mark c.schedule": ["listset: line 2: Kind\n", "Line 2 must be 'list KIND'."],
    "replay --lacks lock lock.schedule": ["listset: line 16: Idle\n", "On the list that lacks lock, calls can take other steps than on the whole list. For each step above this line: ./listset trace --lacks lock lock.schedule; for the cause: ./listset faults Idle\n"],
    "replay --lacks mark -": ["listset: line 1: Header\n", "replay reads a schedule"],
    "replay --lacks nothing a.schedule": ["listset: bad NAME: 'listset help replay' lists the names\n", "NAME 'nothing' is wrong. --lacks takes one of lock (coarse), second-lock (fine)"],
    "show --lacks mark a.report": ["listset: line 1: Header\n", "a.report is a report, and show --lacks reads a schedule."],
    "judge empty": ["listset: line 1: Header\n", "empty has no bytes, and judge reads recorded calls: line 1 must be 'listset-calls 1'."],
    "judge half": ["listset: line 1: NotEnded\n", "half is no text of listset."],
    "judge https://example.org/a": ["listset: cannot read\n", "curl -s https://example.org/a | ./listset judge\n"],
    "judge ~/a": ["listset: cannot read\n", "A shell replaces ~"],
    "judge a.schedule/b": ["listset: cannot read\n", "To see which: namei a.schedule/b\n"],
    "judge two words": ["unexpected argument 'words' found\n", "If you mean one file, quote its name: ./listset judge 'two words'\n"],
    "example two": ["listset: bad NAME\n", "Perhaps you mean two-removers\n"],
    "run --threads 4": ["unexpected argument '--threads' found\n", "THREADS is known by its place, without --threads. Usage: ./listset run KIND THREADS"],
    "trace --chain=yes b.schedule": ["unexpected value 'yes' for '--chain' found; no more were expected\n", "--chain has no value"],
    "show --from 5 --from 6 b.schedule": ["the argument '--from <M>' cannot be used multiple times\n", "Keep one of them"],
    "show --width": ["a value is required for '--width <N>' but none was supplied\n", "N: Maximum width of the text in characters"],
    "-": ["unrecognized subcommand '-'\n", "A command comes first, such as: ./listset replay -\n"],
    "check a.schedule": ["listset: line 1: Header\n", "a.schedule is a schedule, and check reads a report. For its report: ./listset replay a.schedule; for its picture: ./listset show a.schedule\n"],
    "judge my.csv": ["listset: line 1: Header\n", "my.csv is no text of listset. judge reads recorded calls: line 1 must be 'listset-calls 1', and docs/TEXTS.md"],
    "show my.csv": ["listset: line 1: Header\n", "line 1 must be 'listset-schedule 1' or 'listset-report 1' (or 2)"],
    "judge b.schedule": ["listset: line 1: Header\n", "b.schedule is a schedule, and judge reads recorded calls. For its report: ./listset replay b.schedule"],
    "replay -- -x.calls": ["listset: line 1: Header\n", "./-x.calls has recorded calls, and replay reads a schedule. For the verdict: ./listset judge ./-x.calls\n"],
    "judge it's_unsorted": ["listset: line 3: History\n", r"grep '^call' 'it'\''s_unsorted' | sort -n -k 5,5;", "| ./listset judge\n"],
    "judge -": ["listset: line 1: Header\n", "judge reads recorded calls: line 1 must be 'listset-calls 1', and the input is empty or closed, or begins otherwise."],
    "replay b": ["listset: cannot read\n", "b: there is no such file.", "Perhaps you mean b.schedule\n"],
    "replay snip": ["listset: cannot read\n", "If you mean the example: ./listset example snip | ./listset replay\n"],
    "judge snip": ["listset: cannot read\n", "snip: there is no such file. Look at its name, and at the folder that you are in: ls\n"],
    "show help": ["listset: cannot read\n", "To read about this command: ./listset help show\n"],
    "judge -x": ["unexpected argument '-x' found\n", "./listset help judge lists its arguments and options\n"],
    "judge old.calls": ["listset: line 1: Header\n", "'listset-calls 2' is no title that this version reads."],
    "gen": ["listset: bad KIND\n", "KIND is missing. List: coarse, fine, optimistic, lazy or lock-free. Usage: ./listset gen KIND THREADS QUOTA CALLS KEYS SEED"],
    "gen lazy": ["listset: bad THREADS\n", "THREADS is missing. Number of threads: 1 to 64. Usage"],
    "serve lazy 2 4": ["listset: bad PORT\n", "PORT is missing. Port to listen on: 0 to 65535"],
    "gen Lazy 2 4 9 5 1": ["listset: bad KIND\n", "KIND 'Lazy' is wrong. List: coarse, fine", "Perhaps you mean lazy."],
    "gen LockFreeList 2 4 9 5 1": ["listset: bad KIND\n", "Perhaps you mean lock-free."],
    "gen lazy 1,000 4 9 5 1": ["listset: bad THREADS\n", "1 to 64. A number has decimal digits alone, and no leading zero. Usage"],
    "gen lazy 2 4 9 5 1 1": ["unexpected argument '1' found\n", "gen has fewer arguments: leave out '1'\n"],
    "gen lazy 65 4 9 5 1": ["listset: bad THREADS\n", "THREADS '65' is wrong. Number of threads", "1 to 64"],
    "gen lazy 2 4 9 5 0x10": ["listset: bad SEED\n", "SEED '0x10' is wrong", "0 to 18446744073709551615"],
    "gen lazy 2 4 9 5 -1": ["unexpected argument '-1' found\n", "SEED '-1' is wrong", "0 to 18446744073709551615"],
    "show --from 0 b.schedule": ["listset: bad FROM\n", "FROM '0' is wrong.", "; of this file, 1 to 12\n"],
    "show --from=abc": ["listset: bad FROM\n", "FROM 'abc' is wrong. First moment to draw: 1 to the last one"],
    "show --from 700 long.schedule": ["listset: bad FROM\n", "; of this file, 1 to 600\n"],
    "show --from 5 --to 3 b.schedule": ["listset: bad TO\n", "TO '3' is wrong.", "; here, 5 or a later one\n"],
    "show --width 0 b.schedule": ["listset: bad WIDTH\n", "WIDTH '0' is wrong.", "1 to 4294967295"],
    "example nosuch": ["listset: bad NAME\n", "There is no example 'nosuch'. ./listset example lists the names"],
    "example --broken full": ["listset: bad NAME: this example has no broken report\n", "These examples have one: ", "snip"],
    "judge --only x b.schedule": ["listset: bad KEY\n", "KEY 'x' is wrong. It is a number from 0 to 4294967295"],
    "judge --only 9 -- -x.calls": ["listset: bad KEY\n", "The recording has no call of key 9. To see its keys: grep '^call' ./-x.calls | cut -d ' ' -f 4"],
    "judge --only -5 b.schedule": ["unexpected argument '-5' found\n", "KEY '-5' is wrong. It is a number from 0 to 4294967295"],
    "show --from -5 b.schedule": ["unexpected argument '-5' found\n", "FROM '-5' is wrong. First moment to draw: 1 to the last one"],
    "judge b.schedule -v": ["unexpected argument '-v' found\n", "./listset help judge lists its arguments and options\n"],
    "JUDGE": ["unrecognized subcommand 'JUDGE'\n", "Commands are in lower case: ./listset judge\n"],
    "example examples/schedules/snip.schedule": ["listset: bad NAME\n", "The name of this example is snip: ./listset example snip\n"],
    "gen lazy 1000 4 9 5 1": ["listset: bad THREADS\n", "THREADS '1000' is wrong. Number of threads: 1 to 64. Usage: ./listset gen KIND THREADS QUOTA CALLS KEYS SEED\n"],
    "judge -only 5 b.schedule": ["unexpected argument '-o' found\n", "An option has two hyphens: --only"],
    "replay b.schedule -o out": ["unexpected argument '-o' found\n", "To write it to a file: ./listset replay .. > FILE"],
    "example snip full": ["unexpected argument 'full' found\n", "example prints one schedule"],
    "faults Idle Busy": ["unexpected argument 'Busy' found\n", "faults explains one cause"],
    "--prov": ["unexpected argument '--prov' found\n", "./listset --help lists the commands"],
    "version": ["unrecognized subcommand 'version'\n", "./listset --version prints the version"],
    "show --brief b.schedule": ["unexpected argument '--brief' found\n", "--brief is an option of judge"],
    "faults nosuch": ["listset: bad CAUSE\n", "There is no cause 'nosuch'. ./listset faults lists all causes"],
    "b.schedule": ["unrecognized subcommand 'b.schedule'\n", "If you mean the file: b.schedule is a schedule. For its report: ./listset replay b.schedule; "],
    "judge -x.calls": ["unexpected argument '-x' found\n", "If you mean the file: ./listset judge ./-x.calls"],
    "serve lazy 1 4 0 0 b.schedule": ["listset: line 1: Line\n", "b.schedule is a schedule, and serve reads lines 'key K'."],
    "replay --lacks": ["a value is required for '--lacks <NAME>' but none was supplied\n", "NAME: Run a broken list, with one check removed: lock (coarse)"],
    "explain a.schedule b.schedule": ["unexpected argument 'b.schedule' found\n", "explain reads one file"],
    "judge a.schedule b.schedule": ["unexpected argument 'b.schedule' found\n", "judge reads one file"],
    "show --chain b.schedule": ["unexpected argument '--chain' found\n", "--chain is an option of trace"],
    "shwo": ["unrecognized subcommand 'shwo'\n", "'show'"],
}


def at_terminal(words, cwd, typed=None, env=None, at=(None, None)):
    """Returns the text that a command prints at a terminal, and the command's exit status. `typed` is the command's
    standard input. `at` is a pair of a text and a function: as soon as the command has printed the text, the function
    is called with the output so far.
    """
    text, call = at
    ours, theirs = pty.openpty()
    stdin = theirs if typed else subprocess.DEVNULL
    running = subprocess.Popen(words, cwd=cwd, stdin=stdin, stdout=theirs, stderr=theirs, env=env)
    os.close(theirs)
    os.write(ours, typed or b"")
    said = b""
    while True:
        try:
            piece = os.read(ours, 65536)
        except OSError:
            break
        if not piece:
            break
        said += piece
        if text and text in said:
            text = call(said.decode())
    os.close(ours)
    return running.wait(timeout=SECONDS), said.decode().replace("\r\n", "\n")


@pytest.fixture
def script(program, room):
    """Creates a folder with the script, with the program under test in place of the proved program, and with schedules and
    recordings.
    """
    tree = room / "tree"
    (tree / "crates/listset/out").mkdir(parents=True)
    for folder in ("build", "examples/schedules"):
        shutil.copytree(TOP / folder, tree / folder)
    (tree / "page").mkdir()
    for name in ("listset", "crates.txt", "page/help.json"):
        shutil.copy2(TOP / name, tree / name)
    shutil.copy(program, tree / "crates/listset/out/listset")
    (tree / "a.schedule").write_text(SCHEDULE + "begin 0 add 5\ngo 0 12\n")
    (tree / "b.schedule").write_text(RIGHT)
    (tree / "c.schedule").write_text(RIGHT.replace("lazy", "Lazy"))
    (tree / "a.report").write_text(RIGHT_REPORT)
    (tree / "lock.schedule").write_text(well(program, *"gen coarse 3 4 7 2 1".split()))
    (tree / "two words").write_text(RIGHT_CALLS)
    (tree / "empty").write_text("")
    (tree / "half").write_text("half a line")
    (tree / "long.schedule").write_text(SCHEDULE + "begin 0 contains 5\ngo 0 2\n" * 200)
    (tree / "-x.calls").write_text(RIGHT_CALLS)
    (tree / "old.calls").write_text(RIGHT_CALLS.replace("calls 1", "calls 2"))
    (tree / "my.csv").write_text("thread,call,key\n0,add,5\n")
    (tree / "it's_unsorted").write_text(CALLS + "call 0 add 5 5 6 true\ncall 1 add 7 1 2 true\nend\n")
    return tree


def test_broken_reports_are_those_of_the_examples(program):
    here = {it.name.split(".")[0] for it in (TOP / "examples/schedules").glob("*.broken.report")}
    assert here == {it for it in (line.split()[0] for line in well(program, "example").splitlines()) if ran(program, "example", "--broken", it).returncode == 0}


@pytest.mark.parametrize("words", AT_TERMINAL)
def test_a_terminal_has_a_line_below_an_error(script, words):
    fixed, *more = AT_TERMINAL[words]
    status, said = at_terminal(["./listset", *words.split()], script)
    assert status in (1, 2) and fixed in said, said
    below = said.split(fixed, 1)[1]
    assert all(it in below for it in more) and "to pass '-" not in said, said
    in_pipe = ran("./listset", *words.split(), cwd=script)
    assert (in_pipe.stdout, in_pipe.stderr, in_pipe.returncode) == ("", ran(script / "crates/listset/out/listset", *words.split(), cwd=script).stderr, status)


def test_an_explanation_at_a_terminal_has_the_name_that_the_user_typed(script):
    of_program = well(script / "crates/listset/out/listset", "explain", "b.schedule", cwd=script)
    assert "For its report: listset replay b.schedule" in of_program
    assert at_terminal(["./listset", "explain", "b.schedule"], script) == (0, of_program.replace("listset ", "./listset "))
    assert well("./listset", "explain", "b.schedule", cwd=script) == of_program


def test_commands_in_a_hint_have_the_name_that_the_user_typed(script):
    in_path = {**os.environ, "PATH": f"{script}:{os.environ['PATH']}"}
    for called, how in (("listset", in_path), (f"{script}/listset", None)):
        _, said = at_terminal([called, "judge", "b.schedule"], script, env=how)
        assert f"For its report: {called} replay b.schedule; for its picture: {called} show b.schedule\n" in said, said


# Command lines whose input cannot be read or whose output cannot be written, each with the fixed error line and the
# hint.
NOT_OPEN = {
    "./listset replay <&-": ("cannot read", "Standard input is closed. Name a file: ./listset replay FILE"),
    "./listset example >&-": ("cannot write", "Standard output is closed. To see the output, leave out '>&-'; to keep it: ./listset example .. > FILE"),
    "./listset example > /dev/full": ("cannot write", "The output could not be written to /dev/full: the device is full, or failed. To see how full it is: df -h /dev/full"),
    "cp b.schedule d.schedule; ./listset judge d.schedule > d.schedule": ("line 1: Header", "d.schedule has no bytes: the output goes to the file that is read, so the shell emptied it."),
}


@pytest.mark.parametrize("words", NOT_OPEN)
def test_an_input_or_output_that_is_not_open_is_named(script, words):
    line, hint = NOT_OPEN[words]
    status, said = at_terminal(["sh", "-c", words], script)
    assert (status, said.startswith(f"listset: {line}\n{hint}")) == (1, True), said
    wants(ran("sh", "-c", words, cwd=script), status=1, tells=[f"listset: {line}\n"], no=[hint])


def test_a_pipe_whose_reader_has_ended_is_named(script):
    _, said = at_terminal(["sh", "-c", "./listset gen lazy 2 40 9000 9 1 | head -n 1"], script)
    assert "listset: cannot write\nThe command after the pipe ended before it had read all of the output, as head does." in said, said


def test_a_file_without_the_right_to_read_it_is_explained(script):
    (script / "b.schedule").chmod(0)
    if os.access(script / "b.schedule", os.R_OK):
        return  # the user root can read every file
    _, said = at_terminal(["./listset", "replay", "b.schedule"], script)
    assert said.startswith("listset: cannot read\nb.schedule: you have no right to read this file (of a file of yours: chmod u+r) or to enter its folder. To see whose they are: namei -l b.schedule\n"), said


def test_a_long_input_is_explained(script):
    for name, text, use in (("a.schedule", SCHEDULE, "exit; print }' a.schedule > a.schedule.new\n"), ("a.report", RIGHT_REPORT, "A part of a report is no report"), ("half", "x\n", ": head -c 1000 half\n"), ("empty", "key 5\n", "'^key' empty > empty.new\n")):
        (script / name).write_text(text)
        os.truncate(script / name, 67_108_865)
        _, said = at_terminal(["./listset", "show", name], script)
        assert said.startswith(f"listset: too long\n{name} has more than 67108864 bytes. Only recorded calls can have more") and use in said, said


def test_a_refused_port_is_explained(script):
    with socket.socket() as taken:
        taken.bind(("127.0.0.1", 0))
        port = taken.getsockname()[1]
        for is_listening, hint in ((False, f"The system refused port {port}."), (True, f"Port {port} is in use, perhaps by another server.")):
            if is_listening:
                taken.listen()
            _, said = at_terminal(["./listset", "serve", "lazy", "1", "4", str(port), "0"], script)
            assert said == f"listset: cannot listen\n{hint} Use another PORT, or 0 to let the system choose one\n"


def test_an_argument_that_is_not_utf_8_is_explained(script):
    assert at_terminal(["./listset", "judge", b"\xff.calls"], script) == (2, "listset: an argument is not UTF-8\nA file with such a name can be read from standard input: ./listset judge < FILE\n")


def test_a_recording_without_final_keys_is_named(script):
    texts = {"none": CALLS + ADD + "end\n", "other": CALLS + ADD + "key 6\nend\n", "bug": CALLS + ADD + "call 1 contains 5 5 6 false\nend\n", "right": CALLS + "end\n"}
    for name, text in texts.items():
        (script / name).write_text(text)
        status, said = at_terminal(["./listset", "judge", name], script)
        verdict = ran("./listset", "judge", name, cwd=script)
        assert (status, verdict.stderr) == (verdict.returncode, "") and said.startswith(verdict.stdout), said
        below = "none has no 'key' lines, so it says that the set is empty at the end. If its final keys are not known, write 'cut' instead of 'end': sed -i '$s/^end$/cut/' none\n"
        assert said[len(verdict.stdout) :] == (below if name == "none" else ""), said
    well("sh", "-c", "sed -i '$s/^end$/cut/' none && ./listset judge none", cwd=script)


def test_an_error_in_a_long_recording_is_shown(script):
    long = script / "my long.calls"
    with open(long, "w") as file:
        file.write(CALLS)
        for at in range(1, 2_000_001):
            file.write(f"call 0 contains 5 {10_000_000 + 2 * at} {10_000_001 + 2 * at} false\n")
        file.write("call 0 contains 5 4 5 false\nend\n")
    status, said = at_terminal(["./listset", "judge", "my long.calls"], script)
    _, fixed, hint, _ = said.split("\n")
    assert (status, fixed) == (1, "listset: line 2000002: History")
    assert hint.startswith("Line 2000002 is 'call 0 contains 5 4 5 false'. The call does not end after it begins; or ")
    assert "grep '^call' 'my long.calls' | sort -n -k 5,5" in hint, hint


def test_a_long_line_of_a_long_recording_is_shown(script):
    (script / "long.calls").write_text("call 0 add 5 1 4 true " * 3_100_000)
    _, said = at_terminal(["./listset", "judge", "long.calls"], script)
    assert "listset: line 1: NotEnded\nLine 1 is 'call 0 add 5 1 4 true call " in said and "Write the title and each call in a line of its own, which ends with LF." in said, said[:600]


# Matches arguments that the engine in Node cannot handle: commands that only a built program has, errors with a tip of
# clap (the parser of the command line), and a wrong command line with a hint.
NOT_OF_NODE = re.compile(r"(run|serve) |shwo|--prov|show --from (-5|5 --from)|trace --chain=")


@pytest.mark.needs("node")
def test_node_without_a_program_shows_the_same_hints(program, script):
    shutil.copytree(TOP / "page", script / "page", ignore=shutil.ignore_patterns("src", "tests", "shots"), dirs_exist_ok=True)
    (script / "none").write_text(CALLS + ADD + "end\n")
    for words in [*filter(lambda it: not NOT_OF_NODE.match(it), AT_TERMINAL), "judge none"]:
        by_script, by_node = (at_terminal([*it, *words.split()], script) for it in (["./listset"], ["node", "page/listset.js"]))
        assert by_node == (by_script[0], by_script[1].replace("./listset", "node page/listset.js")), words


def test_a_terminal_shows_a_result_unchanged(script):
    status, said = at_terminal(["./listset", "example", "snip"], script)
    assert (status, said) == (0, well(script / "crates/listset/out/listset", "example", "snip"))


READ = {"judge": "recorded calls", "stats": "recorded calls", "replay": "a schedule", "replay --lacks mark": "a schedule", "trace --chain -": "a schedule", "judge --only 5": "recorded calls", "show --from 2 --to=9": "a schedule or a report", "check": "a report",
        "draft": "a draft", "show --svg": "a schedule or a report", "show --lacks=mark": "a schedule or a report", "explain": "a text", "serve lazy 1 4 0 0 -": "the keys of the set"}


@pytest.mark.parametrize("words", READ)
def test_a_terminal_shows_what_a_command_reads(script, words):
    _, said = at_terminal(["./listset", *words.split()], script, typed=b"\x04")
    assert f"listset: reading {READ[words]} from the terminal, up to Ctrl-D (see listset help {words.split()[0]})\n" in said, said


def test_what_clients_write_is_shown_when_the_server_listens(script):
    (script / "keys").write_text("key 5\n")
    words, answers = ["./listset", "serve", "lazy", "1", "4", "0", "1"], []

    def ask(said):
        note = r"listening 127\.0\.0\.1:(\d+)\r\nlistset: a client writes lines such as ADD 7, .*: nc -N 127\.0\.0\.1 (\d+) .* After session 1 the server ends, and later connections are refused"
        port, same = re.match(note, said).groups()
        assert port == same
        with socket.create_connection(("127.0.0.1", int(port)), SECONDS) as client:
            client.sendall(b"CEILING 4\nadd 7\nQUIT\n")
            answers.append(client.makefile().read())

    status, said = at_terminal([*words, "keys"], script, at=(b"are refused", ask))
    assert (status, answers) == (0, ["AT 5\nBAD\nBYE\n"]) and said.endswith("are refused\nsessions 1\ncalls 1\nkey 5\n"), said
    (script / "keys").write_text("key 5\nkey 3\n")
    assert at_terminal([*words, "keys"], script)[1].startswith("listset: line 2: Opening\n")
    assert ran(*words, "keys", cwd=script).stderr == "listset: line 2: Opening\n"


def test_the_size_of_a_long_recording_is_shown(script):
    long = script / "long.calls"
    long.write_text(SCHEDULE)
    os.truncate(long, 60_000_000)
    note = "listset: judging 60 MB; a recording that is refused is read twice\n"
    assert at_terminal(["./listset", "judge", "long.calls"], script)[1].startswith(note + "listset: line 1: Header\n")
    assert ran("./listset", "judge", "long.calls", cwd=script).stderr == "listset: line 1: Header\n"


def test_a_note_is_printed_once_and_after_a_result(script):
    out = script / "crates/listset/out"
    (out / "unproved").mkdir()
    (out / "listset").rename(out / "unproved/listset")
    note = "listset: this program was built without a proof; ./listset --prove proves and builds the program first\n"
    assert at_terminal(["./listset", "replay", "no-such"], script)[1].startswith("listset: cannot read\n")
    first, second = (at_terminal(["./listset", "example", "snip"], script) for _ in range(2))
    assert first == (0, second[1] + note) and second[1].startswith("listset-schedule 1\n")
    assert wants(ran("./listset", "example", "snip", cwd=script), output=second[1]).stderr == ""
