"""The version text of a program or a library: four lines that scripts can read. The lines state the version, the kit
and the logic, the commit (zeros if the build is not from a commit), and whether the build is proved.
"""

import pathlib
import re

import gate_verdict

TOP = pathlib.Path(__file__).resolve().parent.parent
SOURCE = TOP / "crates/lset_command/src/command_line.rt"  # the only file that contains the version
IN_SOURCE = re.compile(r'^pub const VERSION: &str = "([^"\\]+)\\n([^"\\]+)";$', re.M)
NO_COMMIT = "0" * 40
PROVED, NOT_PROVED, UNKNOWN = PROOFS = "checked", "missing", "unknown"  # of equal length: the program reserves bytes for one word
PLACE = "commit {}\nproof {}\n"


def version_and_kit():
    return IN_SOURCE.search(SOURCE.read_text()).groups()


def version():
    return version_and_kit()[0]


def number():
    """Returns the version as a number for C: version 1.2.3 becomes 10203."""
    first, second, third = map(int, version().split("."))
    return first * 10_000 + second * 100 + third


def built(proof):
    """Returns the last two of the version text's four lines, for a build of the repository's current state."""
    return PLACE.format(gate_verdict.clean_commit() or NO_COMMIT, proof)


def told(proof):
    """Returns all four lines of the version text, for a build of the repository's current state."""
    number, kit = version_and_kit()
    return f"listset {number}\n{kit}\n{built(proof)}"


def stamp(file, proof):
    """Writes the last two lines of the version text into a program or an object file, over the bytes that
    crates/listset/src/main.rt reserves for them. Returns how often the reserved bytes occur in the file.
    """
    file, place = pathlib.Path(file), PLACE.format(NO_COMMIT, UNKNOWN).encode()
    content = file.read_bytes()
    file.write_bytes(content.replace(place, built(proof).encode()))
    return content.count(place)
