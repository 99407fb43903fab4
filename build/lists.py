"""The lists in crates.txt: the names of each list, and the files outside of the list's crate that contain the names."""

import os
import re
import subprocess

from crates_txt import TOP, lines_of


class List:
    """A list's names: its name in texts (`lock-free`), and the names of its step table, its variant of Kind, its crate and
    its type.
    """

    def __init__(self, word):
        self.word, self.table = word, word.replace("-", "_")
        self.kind = "".join(it.capitalize() for it in word.split("-"))
        self.crate, self.type = f"lset_{self.table}", f"{self.kind}List"

    def has_reads(self, root=TOP):
        """Returns whether the list's `contains` and `ceiling` use no lock. If so, they have rows in the list's step
        table.
        """
        return f"impl OpenReads for {self.type}" in (root / "crates" / self.crate / "src/lib.rt").read_text()


def lists(root=TOP):
    """Returns the lists in the order of crates.txt. A crate is a list if it has the file specs/Lawful/Outline.antt."""
    found = [it for it in lines_of(root) if (root / "crates" / it / "specs/Lawful/Outline.antt").is_file()]
    return [List(it.removeprefix("lset_").replace("_", "-")) for it in found]


# Maps each source file that must name every list to the lines or items that contain the name. build/new_list writes the
# lines and items.
CODE = {
    "crates/lset_words/src/lib.rt": ["    {kind},"],
    "crates/lset_text/src/words.rt": ['Kind::{kind} => "{word}"', "is_word_of(piece, Kind::{kind})"],
    "crates/lset_text/specs/Spellings.antt": ['kind_text kind.{kind} = codes "{word}"', "kind.{kind} ∷"],
    "crates/lset_lists/specs/Tables.antt": ["table_of kind.{kind} = {table}"],
    "crates/lset_lists/src/lib.rt": ["impl List for {type}", "Kind::{kind} => task.run::<{type}>()"],
    "crates/lset_live/src/running_machine.rt": ["impl Running for {type}"],
    "crates/tool_replay/src/trace_command/traced_run.rt": ["Kind::{kind} => trace_on::<{type}"],
    "crates/tool_threads/src/run_command.rt": ["Kind::{kind} => run_rounds::<{type}"],
    "crates/tool_threads/src/serve_command.rt": ["Kind::{kind} => serve_list::<{type}"],
}
# The crates that use every list's crate, according to crates.txt.
USERS = ["lset_lists", "lset_live", "tool_replay", "tool_threads"]
# The files that describe each list in prose, and that must be written by hand.
TEXTS = {
    "crates/tool_base/src/faults.rt": ["{word}"],
    "crates/lset_command/src/table.rt": ["{word}"],
    "docs/TABLES.md": ["## {type}"],
    "docs/TEXTS.md": ["`{word}`"],
    "docs/make/believed.txt": ["{crate}/specs/{kind}.antt"],
}


def add_exercises(root):
    """Adds the crates of the exercises in examples/lists to a copy of the repository. Each crate is a copy of the list
    that the exercise's page names, with the exercise's patch applied.
    """
    for patch in sorted((root / "examples/lists").glob("*.patch")):
        words = re.search(r"build/new_list (\S+) (\S+)", patch.with_suffix(".md").read_text()).groups()
        subprocess.run([root / "build/new_list", *words], stdout=subprocess.DEVNULL, check=True)
        # If the copy is inside of a git repository, git must ignore that repository.
        outside = {**os.environ, "GIT_CEILING_DIRECTORIES": str(root.parent)}
        subprocess.run(["git", "apply", "--whitespace=nowarn", patch], cwd=root, env=outside, check=True)


def missing(one, places, root=TOP):
    """Returns, for each missing text, a line with the path of the file and the text. `places` maps each file to the
    texts that it must contain, with placeholders for the names of the list `one`.
    """
    texts = {path: (root / path).read_text() for path in places}
    wanted = [(path, form.format(**vars(one))) for path, forms in places.items() for form in forms]
    lacks = [f"{path}: {words}" for path, words in wanted if words not in texts[path]]
    if places is CODE:
        users = lines_of(root)
        lacks += [f"crates.txt, the line of {it}: {one.crate}" for it in USERS if not re.search(rf"\b{one.crate}\b", users[it].partition(":")[2])]
    return lacks
