"""Reads crates.txt: the crates, and the dependencies of each crate. `lay_out` makes a copy of the repository with some
of the crates.
"""

import pathlib
import re
import shutil

TOP = pathlib.Path(__file__).resolve().parent.parent
# Matches the names of the test crates. ./gate builds test crates without a proof.
TESTS = re.compile(r"tests_\w+|memory_calls")
LEFT_OUT = shutil.ignore_patterns(".git", "out", "dist", "target", "__pycache__", "must-fail")
NO_EDITS = shutil.ignore_patterns("out", "must-fail")


def lines_by_crate(text):
    """Returns the lines of a crates.txt, keyed by crate, dependencies first."""
    lines = [line.partition("#")[0].strip() for line in text.splitlines()]
    return {line.partition(":")[0].split()[0]: line for line in lines if line}


def lines_of(root=TOP):
    """Returns the lines of a repository's crates.txt."""
    return lines_by_crate((root / "crates.txt").read_text())


def tests():
    """Returns the names of the test crates."""
    return [it for it in lines_of() if TESTS.fullmatch(it)]


def static_libraries():
    """Returns the names of the crates that are static libraries. foreign/build and page/build prove and build the
    static libraries.
    """
    return [it for it, line in lines_of().items() if line.partition(":")[0].split()[1:] == ["staticlib"]]


def below(names, root=TOP, lines=None):
    """Returns the crates `names` and all their dependencies, dependencies first. (crates.txt lists each crate after its
    dependencies.)
    """
    lines, wanted = lines or lines_of(root), set(names)
    for name in reversed(lines):
        if name in wanted:
            wanted.update(lines[name].partition(":")[2].split())
    return [it for it in lines if it in wanted]


def lay_out(to, names, is_whole=False):
    """Creates, in the folder `to`, a copy of the repository that has only the crates `names`, without their must-fail
    edits (edits that the prover must refuse). If `is_whole` is true, the copy also has the files outside of the crates,
    so that rt ci checks the whole repository.
    """
    to.mkdir(parents=True, exist_ok=True)
    (to / ".git").mkdir()
    lines = lines_of()
    left_out = {f"{TOP}/crates": lines.keys() - set(names), str(TOP): {"crates.txt"}}
    if is_whole:
        shutil.copytree(TOP, to, symlinks=True, dirs_exist_ok=True, ignore=lambda at, all_names: {*LEFT_OUT(at, all_names), *left_out.get(at, ())})
    else:
        shutil.copy2(TOP / "HANDLES", to)
        for name in names:
            shutil.copytree(TOP / "crates" / name, to / "crates" / name, symlinks=True, ignore=NO_EDITS)
    (to / "crates.txt").write_text("".join(f"{lines[name]}\n" for name in names))
