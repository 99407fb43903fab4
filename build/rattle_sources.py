"""Parses Rattle sources: the functions of a file with their contracts, and the blocks that contain them. The sources
must have been formatted by rt fmt: an item ends at the first line that has the item's indentation and is, or ends with,
a closing bracket.
"""

import re
from dataclasses import dataclass
from functools import cached_property

FUNCTION = re.compile(r'( *)(pub(?:\(\w+\))? )?((?:const |unsafe |extern "C" )*)fn (\w+)')
BLOCK = re.compile(r"^(?:pub )?(impl|trait)\b([^{;]*)(?=\{)", re.M)
GHOST = re.compile(r"^\s+ghost (?!use\b|invariant\b)", re.M)  # (invariants are left out: they only restrict the values of a type)
CLAUSES = re.compile(r"\s*(?:(?://[^\n]*)\s*)*(?:requires|ensures)\b")
END_OF_SIGNATURE = re.compile(r"\n\s*(?:requires|ensures|//)|\s*\{|;(?![^\[\]\n]*\])")


def braced(text, start):
    """Returns the position just after the first pair of matching braces that follows `start`."""
    depth = 0
    for it in re.compile("[{}]").finditer(text, start):
        depth += 1 if it[0] == "{" else -1
        if depth == 0:
            return it.end()
    return len(text)


@dataclass(frozen=True)
class Block:
    """An `impl` or a trait: its keyword, its head, and its first and last line, counted from 1."""

    kind: str
    head: str
    first: int
    last: int
    text: str

    @property
    def subject(self):
        head = re.sub(r"^<[^>]*>", "", self.head).strip()
        return re.search(r"(\w+)(?:<[^>]*>)?$", head)[1] if self.kind == "impl" else re.match(r"\w+", head)[0]

    @property
    def ghosts(self):
        """Returns the block's ghost items: definitions that are not functions and that only contracts use."""
        return "".join(self.text[it.start() : braced(self.text, it.start())] for it in GHOST.finditer(self.text))


@dataclass(frozen=True)
class Function:
    """A function: the block that contains the function (or None), and its lines, counted from 1. `top` is the first
    line of the comments and attributes; `first` and `last` are the first and the last line of the function itself.
    """

    block: Block
    name: str
    is_public: bool
    top: int
    first: int
    last: int
    contract: str


class Source:
    """A file with its blocks and functions."""

    def __init__(self, text):
        self.text, self.lines = text, text.split("\n")

    @cached_property
    def blocks(self):
        texts = ((it, self.text[it.start() : braced(self.text, it.start())]) for it in BLOCK.finditer(self.text))
        starts = ((it, text, self.text.count("\n", 0, it.start()) + 1) for it, text in texts)
        return [Block(it[1], it[2].strip(), first, first + text.count("\n"), text) for it, text, first in starts]

    @cached_property
    def functions(self):
        heads = ((at, head) for at, line in enumerate(self.lines, 1) if (head := FUNCTION.match(line)))
        return [self.function(first, head) for first, head in heads]

    def function(self, first, head):
        block = next((it for it in self.blocks if it.first <= first <= it.last), None) if head[1] else None
        contract = self.contract_at(first)
        return Function(block, head[4], head[2] == "pub ", self.top_of(first, head[1]), first, self.last_of(first, head[1], contract), contract)

    def contract_at(self, first):
        """Returns the signature of the function that begins at line `first`, with its `requires` and `ensures` clauses.
        """
        text = "\n".join(self.lines[first - 1 :])
        place = END_OF_SIGNATURE.search(text, text.index(")")).start()
        while CLAUSES.match(text, place):
            place = braced(text, place)
        return text[:place]

    def last_of(self, first, depth, contract):
        """Returns the last line of the function that begins at line `first`. If the function has no body, returns the last
        line of its contract.
        """
        behind = first + contract.count("\n")
        if "\n".join(self.lines[first - 1 : behind]).removeprefix(contract).startswith(";"):
            return behind
        ends = re.compile(depth + r"(\}$|\S.*[;}]$)")
        return next((at for at, text in enumerate(self.lines[first - 1 :], first) if ends.match(text)), first)

    def top_of(self, first, depth):
        """Returns the first line of the comments and attributes above the function that begins at line `first`."""
        top = first
        while top > 1 and self.lines[top - 2].strip() and self.lines[top - 2] != depth + "}" and self.lines[top - 2].startswith(depth):
            top -= 1
        return top

    @property
    def exports(self):
        """Returns the functions exported to C, each with its parameter types."""
        found = re.findall(r'extern "C" fn (\w+)\(([^)]*)\)', self.text)
        return {name: re.findall(r": ([^,\n]+)", parameters) for name, parameters in found}
