"""Makes test cases for the page's engine from the program's answers. Each function of the engine that reads a text is
called with every example, with generated texts (schedules, drafts, recorded calls and reports), and with damaged texts.
Other cases draw pictures with options, run broken lists, generate schedules with `gen`, and pass right and wrong names.
"""

import base64
import hashlib
import pathlib
import random
import re
import subprocess
from concurrent.futures import ThreadPoolExecutor

TOP = pathlib.Path(__file__).resolve().parent.parent.parent
LISTS = ["coarse", "fine", "optimistic", "lazy", "lock-free"]
GENERATED = 80  # schedules for each list
BROKEN = 300
SECONDS = 900
DATA = TOP / "tests" / "transcripts" / "data"
LACKS = TOP / "examples" / "schedules" / "lacks"
OF_SCHEDULES = {"replay": ["replay"], "trace": ["trace"], "trace_with_chains": ["trace", "--chain"], "show": ["show"], "show_svg": ["show", "--svg"]}
OF_TEXTS = {**OF_SCHEDULES, "check": ["check"], "draft": ["draft"], "judge": ["judge"]}
DRAWN = 600  # the number of random cases with options, and with arguments of gen
OF_A_FILE = b"\nto learn what is wrong, judge a file: listset judge FILE\n"  # printed below a refusal from a pipe; the module returns it from listset_why
MOMENTS = ["1", "3", "9", "12", "40", "0", "x", "", "4294967295"]
VALUES = ["1", "2", "3", "8", "20", "", "x", "00", "-1", "18446744073709551615", "18446744073709551616"]


class Program:
    """A program, by its path."""

    def __init__(self, path):
        self.path = path

    def program_answers(self, *words, text=b""):
        """Runs the program. Returns its output, or its line about an error, and its exit status."""
        done = subprocess.run([self.path, *words], input=text, stdout=subprocess.PIPE, stderr=subprocess.PIPE, timeout=SECONDS)
        return done.stdout + done.stderr, done.returncode

    def case(self, function, words, *texts, given=b""):
        """Returns a test case: a function of the module with its argument texts, and the program's output for the arguments `words` and the input `given`.
        """
        output, status = self.program_answers(*words, text=given)
        output = output.removesuffix(OF_A_FILE)
        return {"function": f"listset_{function}", "words": words, "texts": [base64.b64encode(it).decode() for it in texts], "status": status,
                "length": len(output), "sum": hashlib.sha256(output).hexdigest()}

    def names_of_examples(self):
        return [line.split()[0] for line in self.program_answers("example")[0].decode().splitlines()]


def generated(program, dice):
    """Generates schedules of each list: a long one, and others with few or many threads and small or large quotas. In
    some of these, each `contains` is replaced by a ceiling. The `ceiling` can have another number of steps than the
    `contains`, so that a later event is refused.
    """
    for kind in LISTS:
        yield program.program_answers("gen", kind, "4", "300", "1100", "4", "1")[0]
        for number in range(GENERATED):
            values = [dice.choice([1, 2, 2, 3, 4, 8, 64]), dice.choice([0, 1, 2, 8, 200]), dice.randrange(0, 40), dice.choice([1, 3, 12, 200]), number]
            text = program.program_answers("gen", kind, *map(str, values))[0]
            yield text.replace(b"schedule 1", b"schedule 2").replace(b" contains ", b" ceiling ") if number % 4 == 0 else text


def broken(dice, texts, many=BROKEN):
    """Yields texts with one to three bytes changed, dropped or inserted. Some of the texts are also cut off."""
    for _ in range(many):
        text = bytearray(dice.choice(texts))
        for _ in range(dice.randrange(1, 4)):
            at, put = dice.randrange(len(text)), bytes([dice.choice(b"0123456789 abgo\n\r\t\x00\xff")])
            text[at:at + dice.randrange(2)] = dice.choice([put, b""])
        yield bytes(text[:dice.randrange(1, len(text) + 1)] if dice.random() < 0.2 else text)


def texts_of(program, dice):
    """Returns texts of all kinds, right and wrong."""
    names = program.names_of_examples()
    examples = [program.program_answers("example", *flag, name)[0] for name in names for flag in ([], ["--broken"])]
    of_versions = [re.sub(rb"(?<=^listset-schedule )\d", version, text) for text in examples for version in (b"1", b"2", b"3", b"02", b"2 ")]
    refused = [text + line for text in examples for line in (b"go 0 1\n", b"go 9 1\n", b"go 0 0\n")]
    recorded = [file.read_bytes() for file in sorted([*DATA.glob("drafts/*.draft"), *DATA.glob("recorded/*.calls")])]
    schedules = [*examples, *generated(program, dice)]
    reports = [program.program_answers("replay", text=text)[0] for text in schedules[::2]]
    right = [*schedules, *recorded, *reports]
    return [*right, *of_versions, *refused, *broken(dice, right), b""]


def cases_of_options(program, dice, texts):
    """Yields test cases for functions with right and wrong options. An empty text means that the option is not set.
    Also yields test cases that run schedules on broken lists: the schedules that break these lists, and generated
    schedules.
    """
    files = {it.stem: it.read_bytes() for it in sorted(LACKS.glob("*.schedule"))}
    for _ in range(DRAWN):
        function, lacks = dice.choice([*OF_SCHEDULES]), dice.choice([*files, "luck"])
        options = {name: dice.choice(MOMENTS) for name in ("from", "to", "width") if "show" in function and dice.random() < 0.4}
        words = [*OF_SCHEDULES[function], *(f"--{name}={value}" for name, value in options.items())]
        asked = "\0".join(f"={options[name]}" if name in options else "" for name in ("from", "to", "width")).encode()
        text, own = dice.choice(texts), files.get(lacks, texts[0])
        yield program.case(function, words, text, asked, given=text)
        kind = re.search(rb"^list (.*)$", own, re.M)[1].decode()
        drawn = program.program_answers("gen", kind, "3", "8", "20", "3", str(dice.randrange(1000)))[0]
        text = dice.choice([own, drawn, *broken(dice, [drawn], 1)])
        yield program.case("lacking", [*words, "--lacks", lacks], lacks.encode(), text, function.encode() + b"\0" + asked, given=text)


def cases_of_values(program, dice):
    """Yields test cases for the command `gen` with random values, most of them right. Also yields test cases that print
    each example, the names of all examples, and all errors.
    """
    for _ in range(DRAWN):
        values = [dice.choice([*LISTS * 4, "", "skip"]), *(dice.choice(VALUES[:4] * 6 + VALUES) for _ in range(dice.choice([5, 5, 5, 3, 0])))]
        yield program.case("gen", ["gen", "--", *values], "\0".join(values).encode(), b"")
    for name in [*program.names_of_examples(), "no-such-name", "Snip", "snip "]:
        yield program.case("example", ["example", name], name.encode(), b"")
        yield program.case("broken_example", ["example", "--broken", name], name.encode(), b"")
    yield program.case("examples", ["example"], b"", b"")
    yield program.case("faults", ["faults"], b"", b"")


def all_cases(path):
    """Returns all test cases: functions of the module with arguments, each with the answer of the program at `path`."""
    program, dice = Program(path), random.Random(26)
    texts = texts_of(program, dice)
    made = [*cases_of_values(program, dice), *cases_of_options(program, dice, texts)]
    asked = [(function, words, text) for text in texts for function, words in OF_TEXTS.items()]
    with ThreadPoolExecutor(2) as pool:
        made += pool.map(lambda it: program.case(it[0], it[1], it[2], b"", given=it[2]), asked)
    return made
