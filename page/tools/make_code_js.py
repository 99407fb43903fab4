"""Makes made/code.js from the proved crates. The made file contains the functions that execute the steps of calls, with
the rows of the step table that each line executes. (Comments such as '// row 3' or '// rows 5, 6, 7' name the rows of a
line.) The page uses the rows to show the current line of each thread. On lists with marks, `ceiling` has no loop of its
own: the interpreter of the step tables executes it.
"""

import json
import re

import rattle_sources
from lists import TOP, lists

READS = "lset_loops/src/reads.rt"
LOOPS = {it.word: [f"lset_loops/src/{it.table}.rt", *[READS] * it.has_reads()] for it in lists()}
LISTS = {word: files if (TOP / "crates" / files[0]).is_file() else [] for word, files in LOOPS.items()}  # (on other lists, the interpreter executes the calls)
BEGINS = ("begin_at_head", "begin_locked")  # the first step of a call
STEP = re.compile(r"\bcaller\.(\w+)(?:::<N>)?\(place")
HEAD = """// The proved loops of the lists as they stand in crates/, with the rows of its list's table that each line makes, by page/build: for
// show alone.
"""


def lines_of(lines):
    """Yields each line that names rows of the step table: the number of the line, the step, and the rows."""
    for number, line in enumerate(lines, 1):
        code, _, said = line.partition(" // row")
        if said:
            step = STEP.search(code)
            yield number, step and step[1], [int(it) for it in re.findall(r"\d+", said)]


def is_last(lines, number):
    """Returns whether the call returns at line `number`, or later in the block that contains the line."""
    for line in lines[number - 1:]:
        if re.search(r"_last\(|\breturn\b", line):
            return True
        if line.strip() == "}":
            return False
    return False


def steps_of(found, lines):
    """Yields the steps of a file. If several steps execute the same row, each of these steps also states whether a call
    begins, and whether a call returns, at the step's line."""
    rows = [row for *_, made in found for row in made]
    for number, step, made in found:
        told = {"line": number, "rows": made}
        if any(rows.count(row) > 1 for row in made):
            told |= {"begins": step in BEGINS, "answers": step not in BEGINS and is_last(lines, number)}
        yield told


def code_of(file):
    """Returns the functions of a file that execute steps: each with its lines, its steps, and the lines that call other
    functions of the file.
    """
    source = rattle_sources.Source((TOP / "crates" / file).read_text(encoding="utf-8"))
    lines = source.lines
    steps = [*steps_of([*lines_of(lines)], lines)]
    made = {}
    for it in source.functions:
        own = [step for step in steps if it.top <= step["line"] <= it.last]
        if own and not it.block:
            made[it.name] = {"name": it.name, "first": it.top, "steps": own, "lines": lines[it.top - 1 : it.last]}
    for code in made.values():
        calls = [re.findall(r"(?<![\w.:])(\w+)(?:::<[\w, ]+>)?\(", line.partition("//")[0]) for line in code["lines"]]
        code["calls"] = [[code["first"] + at, name] for at, names in enumerate(calls) for name in names if name in made
                         and name != code["name"]]
    return made.values()


def function_text(code):
    """Returns a function as JavaScript."""
    text = "\n".join(code["lines"]).replace("\\", "\\\\").replace("`", "\\`").replace("${", "\\${")
    told = ", ".join(f"{name}: {json.dumps(code[name])}" for name in ("name", "first", "steps", "calls"))
    return f"    {{ {told}, text: `\n{text}` }},\n"


def code_text():
    """Returns the text of made/code.js."""
    files = dict.fromkeys(file for some in LISTS.values() for file in some)
    functions = [f'  "crates/{file}": [\n{"".join(map(function_text, code_of(file)))}  ],\n' for file in files]
    lists = [f'  "{name}": {json.dumps([f"crates/{file}" for file in some])},\n' for name, some in LISTS.items()]
    return f"{HEAD}\nexport const CODE = {{\n{''.join(functions)}}};\n\nexport const CODE_OF = {{\n{''.join(lists)}}};\n"
