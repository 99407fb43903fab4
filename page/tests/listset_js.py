"""Compares page/listset.js in node with the program on random arguments: both outputs and the exit status must be equal. For wrong arguments, standard
output must be empty, and the status, the first line of the message and the command in the usage line must be equal. page/test compares the engine
itself.
"""

import json
import os
import pathlib
import random
import subprocess
from concurrent.futures import ThreadPoolExecutor

SECONDS = 120
DRAWN = 300
HELP = json.loads((pathlib.Path(__file__).resolve().parent.parent / "help.json").read_text())
COMMANDS = [*(it for it in HELP if it.isalpha() and it not in ("run", "serve")), "report"]
FLAGS = "--chain --svg --broken -- - -x --svg=yes --no-such".split()
OPTIONS = ["--from 3", "--from", "--from=9", "--from --", "--to 9", "--to=x", "--to=", "--from -5", "--from==3", "--width 40", "--width 0", "--from 4294967295",
           "--lacks lock", "--lacks luck", "--lacks=", "--lacks"]
VALUES = "no-such-file . ./- Snip snip full lazy 2 4 9 00 -1 18446744073709551616".split()
LONG_CALLS = 1_800_000  # in a recording of more than 64 MiB (the limit for other texts)
REFUSED = "listset-schedule 1\nlist lazy\nthreads 2\nquota 4\nbegin 0 add 5\ngo 0 3\nbegin 0 add 7\n"


def said(words, text=b"", output=subprocess.PIPE):
    """Runs a program. Returns its output, its standard error, and its exit status."""
    done = subprocess.run(words, input=text, stdout=output, stderr=subprocess.PIPE, timeout=SECONDS)
    return done.stdout, done.stderr, done.returncode


def parts_of_error(text):
    """Returns the first line of a message about wrong arguments, and the program and the command that its usage line
    names.
    """
    lines = text.split(b"\n")
    return lines[0], [it.split()[:3] for it in lines if it.startswith(b"Usage: ")]


def difference(words, ours, due):
    """Returns a line that shows both results if they differ, otherwise None. If the arguments are wrong, compares only
    the first line and the usage, and not clap's tips.
    """
    if due[1].startswith(b"error: "):
        is_right = (ours[0], ours[2]) == (due[0], due[2]) == (b"", 2) and parts_of_error(ours[1]) == parts_of_error(due[1])
    else:
        is_right = ours == due
    return None if is_right else f"listset.js {' '.join(words)}: {ours}, not {due}"[:2000]


def compared_unwritten(program, script, words):
    """Compares the script with the program when standard output accepts no bytes, and when it is closed."""
    with open("/dev/full", "wb") as full:
        ours, due = (said([*which, *words], output=full) for which in (script, program))
    closed, due_closed = (said(["sh", "-c", 'exec "$@" >&-', "sh", *which, *words]) for which in (script, program))
    is_right = (ours, closed) == (due, due_closed) and due[2] == due_closed[2] == 1
    return None if is_right else f"listset.js {' '.join(words)}, unwritten: {ours}, {closed}, not {due}, {due_closed}"


def drawn_words(dice):
    """Returns a random command with random arguments, right or wrong."""
    some = [dice.choice(dice.choice([FLAGS, OPTIONS, OPTIONS, VALUES])) for _ in range(dice.choice([0, 1, 1, 2, 2, 3, 4]))]
    command = dice.choice(COMMANDS)
    return [command, *(["lazy", "2", "4", "9", "8"] if command == "gen" and dice.random() < 0.5 else []), *" ".join(some).split()]


def asked(program, names):
    """Yields the arguments to compare, each with a text for standard input (read if the arguments name no file)."""
    dice, schedule = random.Random(1), said([*program, "example", names[0]])[0]
    report = said([*program, "replay"], schedule)[0]
    texts = [schedule, report, REFUSED.encode(), b""]
    yield from (([*words.split()], text) for words in ("replay", "check", "trace", "trace --chain", "show", "show --svg", "draft", "judge", "stats") for text in texts)
    yield from ((drawn_words(dice), dice.choice(texts)) for _ in range(DRAWN))
    yield from ((["example", *flag, name], b"") for name in names for flag in ([], ["--broken"]))
    yield from ((words, schedule) for words in (["replay", ""], ["gen", ""], ["show", "--to", ""], ["gen", "lazy\n2", "4"]))
    calls = b"".join(b"call 0 contains 5 %d %d false\n" % (2 * it + 1, 2 * it + 2) for it in range(LONG_CALLS))
    yield from (([command], b"listset-calls 1\n%send\n" % calls) for command in ("judge", "stats"))
    yield from ((words.split(), b"") for words in ("--version", "-V", "--help", "-h", "help", "help help", "help show", "show -h", "trace --help", "run -h", "serve --help"))
    yield from ((words.split(), b"") for words in ("faults Busy", "faults idle", "faults nothing", "explain no-such", "explain .", "explain /dev/null/a"))
    yield from ((["explain"], text) for text in (*texts, b"key 5\nkey 4\n", b"listset-draft 2\nlist fine\nthreads 1\nquota 1\nbegin 0 add 1\ngo 0 to 99\n", b"\xff\xfe"))
    yield from ((["replay"], b"x" * length) for length in (67_108_864, 67_108_865))


def in_node(program, script, names):
    """Returns how many comparisons passed, and a line for each failed comparison."""
    def compared(given):
        words, text = given
        return difference(words, said([*script, *words], text), said([*program, *words], text))

    with ThreadPoolExecutor(os.cpu_count()) as pool:
        found = [*pool.map(compared, asked(program, names))]
    found += [compared_unwritten(program, script, words) for words in (["example"], ["example", "snip"], ["faults"])]
    failed = [line for line in found if line]
    return {"passed": len(found) - len(failed), "failed": failed}
