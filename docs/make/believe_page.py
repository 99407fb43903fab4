"""Checks docs/BELIEVE.md and believed.txt, two lists of the definitions that a reader of the public contracts must
believe. Reports definitions and files that the lists lack, and listed names without a definition, function or clause.

The search for definitions begins with the names in the signature and the clauses of each public function, and in the
statements of public types and traits. The search continues with the names in each definition found, but not in lemmas
(the prover checks them) or in invariants of types.
"""

import functools
import re
from pathlib import Path
from typing import NamedTuple

from rattle_sources import Source

TOP = Path(__file__).resolve().parent.parent.parent
CRATES, BELIEVED, PAGE = TOP / "crates", Path(__file__).resolve().parent / "believed.txt", "docs/BELIEVE.md"
NAME = r"[^\W\d][\w'\-]*"  # a name in the logic
USE = re.compile(r"^\s*(?:ghost )?(?:pub )?use Rattle\.([^\s{;]+?)(?:\.\{([^}]*)\})?(?: as (" + NAME + r"))?;?[ ]*$", re.M)
KINDS = {"abbrev", "unfoldable", "opaque", "record", "data"}
IMPORT = re.compile(r"(?:pub )?(?:use|mod|infixl|infixr|infix|syntax)\b")
HEAD = re.compile(rf"((?:(?:pub|{'|'.join(KINDS)}) )*)({NAME})((?: [({{].*?[)}}])* :)?")
# Matches the functions in a table cell, and the clauses that follow the functions in parentheses.
SAID_BY = re.compile(r"((?:`[a-z]\w+::[\w:{}, ]+`,? ?)+)(?:\(((?:`\w+`,? ?)+)\))?")
IN_BRACKETS = re.compile(r"(?<!\w)\[([A-Z][a-z ][^][]*)\](?!\()")


class Module(NamedTuple):
    """A file of definitions: its path, its text, its definitions by name, and the names and modules that its `use` lines
    import.
    """

    file: str
    definitions: dict
    names: dict
    modules: dict


def uses(text):
    """Returns the imports of a file: a dict of the imported names, and a dict of the modules that the file renames."""
    names, modules = {}, {}
    for path, listed, other in USE.findall(text):
        for entry in filter(None, (listed or "").split(",")):
            given, _, here = entry.strip().partition(" as ")
            names[here or given] = (path, given)
        if not listed and other:
            modules[other] = path
    return names, modules


def definitions_in(text):
    """Returns a dict that maps the name of each definition in a file to its text without comments."""
    found, lemmas, into = {}, {}, None
    for line in text.split("\n"):
        if not line.strip() or line.strip().startswith("--"):
            continue
        head = HEAD.match(line)
        if IMPORT.match(line):
            into = None
        elif head and (head[1] or head[3] and head[2] not in {**found, **lemmas}):
            into = (found if KINDS & {*head[1].split()} else lemmas).setdefault(head[2], [])
        if into is not None:
            into.append(line)
    return {name: "\n".join(lines) for name, lines in found.items()}


@functools.cache
def modules():
    """Returns the files of definitions of all crates, keyed by module name."""
    found = {}
    for path in sorted({*CRATES.glob("*/specs/**/*.antt"), *CRATES.glob("*/proofs/**/*.antt")}):
        text, file = path.read_text(encoding="utf-8"), path.relative_to(CRATES)
        if path.name != "Lib.antt":
            found[".".join(file.with_suffix("").parts)] = Module(str(file), definitions_in(text), *uses(text))
    return found


def named(text, sign, names, others, own=()):
    """Yields the definitions that `text` names outside of comments, as pairs of module and name. A definition of the
    file that contains `text` has no module.
    """
    text = " ".join(re.sub(rf"(^|\s){sign}.*", "", text, flags=re.M).split())
    text = re.sub(r"\bpub " + NAME + r" :", ":", re.sub(r"(?<=[{;])\s*" + NAME + r"\s*=(?![=>])", "", text))
    for word in re.findall(NAME + r"(?:\." + NAME + ")*", text):
        first, *rest = word.split(".")
        if first in own:
            yield "", first
        elif first in names:
            yield names[first]
        elif first in others and rest:
            yield others[first], rest[0]
    for operator, given in names.items():
        if operator.startswith("◌") and (operator.strip("◌") in text or (operator == "◌>>=◌" and re.search(r"\bdo\b", text))):
            yield given


@functools.cache
def public_contracts():
    """Returns the contracts in the sources, computed only once."""
    return list(contracts_in_sources())


def contracts_in_sources():
    """Yields, for each public function, type and trait: the library, the item's name, its contract, and the definitions
    that names in the contract can refer to.
    """
    for root in sorted(CRATES.glob("*/src/lib.rt")):
        texts = {it.stem: it.read_text(encoding="utf-8") for it in sorted(root.parent.rglob("*.rt"))}
        above = {"lib", *re.findall(r"pub mod (\w+);", texts["lib"])}
        public = {*re.findall(r"\w+", " ".join(re.findall(r"pub use ([^;]*);", texts["lib"])))}
        public.update(*(re.findall(r"^pub (?:fn|extern \S+ fn|struct|enum|trait) (\w+)", texts[it], re.M) for it in above))
        for stem, text in texts.items():
            source, can_be = Source(text), uses(text)
            for it in source.functions:
                owner = it.block.subject if it.block else None
                if it.is_public and (owner or it.name) in public:
                    before = f"{owner}::" if owner else f"{stem}::" * (stem in above - {"lib"})
                    yield root.parent.parent.name, before + it.name, it.contract, can_be
            for it in source.blocks:
                if it.subject in public:
                    functions = [one.contract for one in source.functions if one.block is it and it.kind == "trait"]
                    yield root.parent.parent.name, it.subject, it.ghosts + "".join(functions), can_be


@functools.cache
def reached(items=""):
    """Returns the definitions that public contracts reach, as pairs of module and name. If the pattern `items` is given,
    considers only the contracts of functions whose name, in the form LIBRARY::NAME, matches the pattern.
    """
    contracts = [it for it in public_contracts() if re.match(items, f"{it[0]}::{it[1]}")]
    found, waiting = set(), [it for _, _, text, can_be in contracts for it in named(text, "//", *can_be)]
    while waiting:
        path, name = waiting.pop()
        above, _, behind = path.rpartition(".")
        path, name = (above, behind) if path not in modules() and above in modules() else (path, name)
        module = modules().get(path)
        if module and name in module.definitions and (path, name) not in found:
            found.add((path, name))
            following = named(module.definitions[name], "--", module.names, module.modules, module.definitions)
            waiting += [(where or path, what) for where, what in following]
    return found


def print_reached():
    """Prints each file with definitions that public contracts reach, and the names of the definitions."""
    for path, module in modules().items():
        if names := [it for it in module.definitions if (path, it) in reached()]:
            print(f"{module.file}: {', '.join(names)}")


# Maps each row of the page's table of line counts to a pattern that matches the functions that the row is about. The
# key is the row's first word in code font or, if none is in code font, the row's first word.
OF_ROWS = {"check_order": "lset_history::check_order$", "laws": "lset_steps::laws::", "headline": "lset_lists::runs_are_linearizable$",
           "replay": "lset_replay::replay$", "LiveSet::call": "lset_live::LiveSet::call$", "LiveSet::close": "lset_live::LiveSet::close$",
           "work": "lset_work::work$", "session": "lset_session::session$", "serve": "lset_server::serve$", "everything": ""}  # fmt: skip


def wrong_numbers(page):
    """Yields the rows, in the page's table of line counts, whose number is wrong by more than five percent. The right
    number is the number of lines of the definitions that the row's contracts reach.
    """
    said = {row: int(number) for row, number in re.findall(r"^\| (.*) \| (\d+) \|$", page, re.M)}
    for word, items in OF_ROWS.items():
        row = next((it for it in said if re.search(rf"`{word}`|^(the )?{word}\b", it)), None)
        lines = [line for path, name in reached(items) for line in modules()[path].definitions[name].splitlines()]
        count = sum(1 for it in lines if it.strip() and not it.strip().startswith("--"))
        if row is None or abs(said[row] - count) > count / 20:
            yield f"has to say that {row or word} takes {count} lines"


def entries():
    """Yields the file and the defined names in each line of believed.txt."""
    for line in BELIEVED.read_text(encoding="utf-8").splitlines():
        if line and not line.startswith("#"):
            file, _, names = line.partition(": ")
            yield file, names.split("; ")


def problems(top):
    rows = "\n".join(line for line in (top / PAGE).read_text(encoding="utf-8").split("\n") if line.startswith("|"))
    yield from (f"{PAGE} {it}" for it in [*file_faults(), *name_faults(top, rows), *function_faults(rows), *wrong_numbers(rows)])


def file_faults():
    """Yields the files that public contracts reach but believed.txt does not list, and vice versa."""
    found, listed = {modules()[path].file for path, _ in reached()}, {file for file, _ in entries()}
    yield from (f"needs a line of believed.txt for {it}, which a public contract reaches" for it in sorted(found - listed))
    yield from (f"would have to list {it}: move what is reached there to specs/" for it in sorted(found) if "/proofs/" in it)
    yield from (f"lists in believed.txt {it}, which no public contract reaches" for it in sorted(listed - found) if it.endswith(".antt"))


def name_faults(top, rows):
    """Yields an error for each name in brackets, in a comment or on a page, without a definition; and for each
    definition that no row names.
    """
    known = {name for _, names in entries() for name in names}
    texts = {it: re.sub(r"^    .*$|`[^`\n]*\[[^`\n]*`", "", it.read_text(encoding="utf-8"), flags=re.M) for it in (top / "docs").glob("*.md")}
    for path in [*CRATES.glob("*/*/**/*.antt"), *CRATES.glob("*/src/**/*.rt")]:
        texts[path] = "\n".join(re.findall(r"(?:--|//)(.*)", path.read_text(encoding="utf-8")))
    for path, text in sorted(texts.items()):
        yield from (f"has no definition [{name}], which {path.relative_to(top)} names" for name in IN_BRACKETS.findall(text) if name not in known)
    yield from (f"has no row that names [{name}], which believed.txt lists" for name in sorted(known - {*IN_BRACKETS.findall(rows)}))


def function_faults(rows):
    """Yields a message for each missing function in `rows`, and for each clause that is no `ensures` clause of the
    functions in its row.
    """
    stated = {}
    for crate, name, text, _ in public_contracts():
        stated[crate, name] = stated.get((crate, name), "") + text
    for listed, clauses in SAID_BY.findall(rows):
        cells = re.findall(r"`(\w+)::((?:\w+::)*)(\w+|\{[^}]*\})`", listed)
        functions = [(crate, before + name) for crate, before, names in cells for name in re.findall(r"[\w:]+", names)]
        yield from (f"names {crate}::{name}, which is not there" for crate, name in functions if (crate, name) not in stated and not is_declared(crate, name))
        text = "".join(stated.get(it, "") for it in functions)
        lost = [it for it in re.findall(r"\w+", clauses) if not re.search(rf"\bensures {it}\b", text)]
        yield from (f"names a clause {it} of {listed.strip()}, which is not there" for it in lost)


def is_declared(crate, name):
    """Returns whether `crate` declares a function, type or trait named `name`."""
    declared = re.compile(rf"\b(?:fn|struct|enum|trait|type|mod) {name.rpartition('::')[2]}\b")
    return any(declared.search(it.read_text(encoding="utf-8")) for it in (CRATES / crate / "src").rglob("*.rt"))
