"""A model of the five lists: executes the step tables of docs/TABLES.md literally, one step of a thread at a time. A
step uses the words of the nodes (key, link, lock) and the registers of the thread (pred, curr, ..). A broken list (a
list without one of its checks) has a table that differs in some rows.
"""

import collections
import re

import lists
from harness.programs import TOP

TAIL_KEY = 4294967297
REGISTERS = ["pred", "curr", "succ", "node", "pkey", "ckey"]

# ---- The five step tables, read from docs/TABLES.md

Table = collections.namedtuple("Table", "rows begin add remove leave")
PAGE = re.split(r"^## ", (TOP / "docs/TABLES.md").read_text(encoding="utf-8"), flags=re.M)
SECTIONS = {it.split("\n")[0]: re.sub(r"`|\*\*", "", it) for it in PAGE}


def row_of(step, then):
    """Parses a row of a step table: a step, and the actions after the step."""
    then = then.replace("if pred is", "pred is").replace(" that there is none", " nothing").removesuffix(" whatever was seen")
    return step.split(), [it.strip() for it in then.split(";")]


def rows_of(text):
    """Parses the rows of a step table. A row consists of a number, a step, and the actions after the step."""
    cells = re.findall(r"^\|? *(\d+) \|([^|]*)\|([^|\n]*)", text, re.M)
    return {int(number): row_of(step.strip(), then.strip()) for number, step, then in cells}


def table(one):
    """Returns the step table of a list: the rows, the first row of each operation, and the rows where a call adds its
    key, removes its key, and exits. (On some lists, a call exits by returning and has no row for the exit.)
    """
    own, reads = SECTIONS[one.type], SECTIONS["Reads without locks"] if one.has_reads() else ""
    places = {word: int(row) for text in (own, reads) for word, row in re.findall(r"(begin|begins|add|remove|leave|ceiling) at row (\d+)", text)}
    begin = {"contains": places.get("begins", places["begin"]), "ceiling": places.get("ceiling", places["begin"])}
    begin |= dict.fromkeys(("add", "remove"), places["begin"])
    return Table(rows_of(own) | rows_of(reads), begin, places["add"], places["remove"], places.get("leave"))


TABLES = {it.word: table(it) for it in lists.lists() if it.type in SECTIONS}

# The broken lists of docs/CLASSIC.md (lists without one of their checks): the intact list, and the changed rows of its
# table. `pass` attempts to acquire a lock, and continues whether or not the attempt succeeds. `curr^` is a link to curr
# with the mark in register pkey.
LACKING = {
    "lock": ("coarse", "1 | pass list.lock | 2"),
    "second-lock": ("fine", ""),  # (see ROWS_OF_ONE_LOCK)
    "hand-over-hand": ("fine", """
 6 | load curr.link                         | pred = curr, curr = next(s), 14
14 | store 0 in pred.lock                   | 3
"""),
    "second-walk": ("optimistic", "5 | try curr.lock | node = head, 8"),
    "same-node": ("optimistic", "7 | load node.key | above pkey: reply none, 14; pkey: 8; else 6"),
    "marks-in-validation": ("lazy", """
 6 | load pred.link                         | it leads to curr: 7; else reply none, 13
 7 | load curr.link                         | succ = next(s), decide on ckey
"""),
    "mark-in-contains": ("lazy", "22 | load curr.link | answers true"),
    "mark-in-ceiling": ("lazy", "25 | load curr.link | answers the key of ckey"),
    "mark": ("lock-free", """
 8 | load curr.link                         | succ = next(s), 10
10 | exchange pred.link from curr to succ   | success: -k, answers true; else 1
"""),
    "mark-in-add": ("lock-free", """
 7 | load pred.link                         | it leads to curr: pkey = mark(s), 11; else 1
11 | exchange pred.link from curr^ to own^  | success: +k, answers true; else 7
"""),
    "mark-in-remove": ("lock-free", "9 | exchange curr.link from succ to succ* | success but for a mark: -k, 10; else 1"),
    "mark-at-key": ("lock-free", "22 | load curr.link | answers true"),
    "new-slot": ("lock-free", ""),  # (each add uses the first slot)
}
# The broken list second-lock: a remove locks only pred. The remove first reads the key of a node, and locks the node
# only to move past the node. ROWS_OF_ONE_LOCK maps the next row of a remove in the intact table to the next row in
# second-lock.
ROWS_OF_ONE_LOCK = {3: 4, 4: 5, 5: 3, 12: 13}

# The conditions in the step tables, as functions of a thread, the value s that the thread's step loaded, the key word
# K, and the value that an exchange expects.
TESTS = {
    "below K": lambda it, s, key, old: s < key,
    "K": lambda it, s, key, old: s == key,
    "the tail's": lambda it, s, key, old: s == TAIL_KEY,
    "above pkey": lambda it, s, key, old: s > it.pkey,
    "pkey": lambda it, s, key, old: s == it.pkey,
    "marked": lambda it, s, key, old: s % 2 == 1,
    "curr, unmarked": lambda it, s, key, old: s == 2 * it.curr,
    "it leads to curr": lambda it, s, key, old: s // 2 == it.curr,
    "pred is the head": lambda it, s, key, old: it.pred == 0,
    "node is pred": lambda it, s, key, old: it.node == it.pred,
    "without a reply": lambda it, s, key, old: it.reply is None,
    "success": lambda it, s, key, old: s == old,
    "success but for a mark": lambda it, s, key, old: s // 2 == old // 2,
}

# ---- The words and threads of a list

Call = collections.namedtuple("Call", "number thread word key begun")


class Thread:
    def __init__(self):
        self.pc, self.used, self.reply, self.call, self.change = 0, 0, None, None, None
        for it in REGISTERS:
            setattr(self, it, 0)


class List:
    """A list: its words in memory and its threads. `go` executes one step of a thread."""

    def __init__(self, kind, threads, quota, opening, lacks=None):
        self.table, self.quota, self.threads, self.lacks = TABLES[kind], quota, [Thread() for _ in range(threads)], lacks
        if lacks:
            self.table = self.table._replace(rows=self.table.rows | rows_of(LACKING[lacks][1]))
        self.first = 2 + threads * quota
        nodes = self.first + len(opening)
        self.words = [0] * (3 + 3 * nodes)
        chain = [0, *range(self.first, nodes), 1]
        for node, key in zip(chain, [0, *(it + 1 for it in opening), TAIL_KEY]):
            self.words[3 + 3 * node] = key
        for node, after in zip(chain, [*chain[1:], 1]):
            self.words[4 + 3 * node] = 2 * after

    def chain(self):
        """Returns the keys from the head to the tail, each with its mark. On a broken list (a list without one of its
        checks), the chain can be a cycle, and can contain a reserved node without a key.
        """
        node, told = self.words[4] // 2, []
        while node > 1 and len(told) < len(self.words) // 3:
            link = self.words[4 + 3 * node]
            told.append((max(self.words[3 + 3 * node] - 1, 0), link % 2 == 1))
            node = link // 2
        return told

    def begin(self, t, call):
        it = self.threads[t]
        it.call, it.reply, it.pc = call, None, self.table.begin[call.word]
        for name in REGISTERS:
            setattr(it, name, 0)

    def node(self, t, name):
        """Returns the node that a name in a table row refers to."""
        own = 2 + t * self.quota + (0 if self.lacks == "new-slot" else self.threads[t].used)
        return {"head": 0, "own": own}[name] if name in ("head", "own") else getattr(self.threads[t], name)

    def index(self, t, name):
        """Returns the index of the word that a name in a table row refers to."""
        node, part = name.split(".")
        return 0 if node == "list" else 3 + 3 * self.node(t, node) + ["key", "link", "lock"].index(part)

    def value(self, t, name):
        """Returns the value that a row of the step table stores or expects."""
        if name in ("0", "K"):
            return 0 if name == "0" else self.threads[t].call.key + 1
        mark = self.threads[t].pkey if name.endswith("^") else name.endswith("*")
        return 2 * self.node(t, name.rstrip("*^")) + mark

    def action(self, t, step):
        """Returns the memory access of a row's step: its kind, the index of the word, and the values."""
        kind, *words = step
        if kind == "load":
            return "load", self.index(t, words[0])
        if kind in ("try", "pass"):
            return "exchange", self.index(t, words[0]), 0, t + 1
        if kind == "store":
            return "store", self.index(t, words[2]), self.value(t, words[0])
        return "exchange", self.index(t, words[0]), self.value(t, words[2]), self.value(t, words[4])

    def go(self, t):
        """Executes one step of a thread. Returns the step's memory access, the value that the step loaded, and the
        reply if the call ends.
        """
        it = self.threads[t]
        it.change = None
        step, parts = self.table.rows[it.pc]
        action = self.action(t, step)
        seen = self.words[action[1]] if action[0] != "store" else action[2]
        if action[0] == "store" or action[0] == "exchange" and seen == action[2]:
            self.words[action[1]] = action[-1]
        is_kept_out = step[0] == "try" and seen
        reply = None if is_kept_out else self.follow(it, parts, seen, action[2] if action[0] == "exchange" else None)
        if self.lacks == "second-lock" and it.call.word == "remove":
            it.pc = ROWS_OF_ONE_LOCK.get(it.pc, it.pc)
        return action, seen, reply

    def follow(self, it, parts, seen, old):
        """Executes the actions that a row has after its step, up to and including the first action whose condition is
        true (or `else`). Returns the reply if the call ends.
        """
        for part in parts:
            test, is_test, then = part.rpartition(": ")
            if is_test and not TESTS[test](it, seen, it.call.key + 1, old):
                continue
            reply = None
            for done in then.removeprefix("else ").split(", "):
                reply = self.do(it, done, seen) or reply
            if is_test or part.startswith("else "):
                break
        return reply

    def do(self, it, done, seen):
        """Executes one action of a row of the step table. Returns the reply if the call ends. (On an intact list, the
        changes to the set are read from the chain.)
        """
        if done.isdigit():
            it.pc = int(done)
        elif " = " in done:
            name, value = done.split(" = ")
            values = {"head": 0, "0": 0, "s": seen, "next(s)": seen // 2, "mark(s)": seen % 2}
            setattr(it, name, values[value] if value in values else getattr(it, value))
        elif done in ("+k", "-k"):
            it.change = "put" if done == "+k" else "took"
            it.used += done == "+k"
        elif done.startswith("reply "):
            it.reply = {"true": "true", "none": None}[done.removeprefix("reply ")]
        elif done.startswith("decide"):
            return self.decide(it, it.ckey if done == "decide on ckey" else seen)
        elif done.startswith("answers"):
            it.pc = 0
            return {"answers": it.reply, "answers the key of ckey": f"at-{it.ckey - 1}"}.get(done, done.removeprefix("answers "))
        return None

    def decide(self, it, found):
        """Decides how a call continues after its traversal. `found` is the word with the key of the node where the traversal ended."""
        word, same = it.call.word, found == it.call.key + 1
        if word == "add" and not same and it.used < self.quota:
            it.pc = self.table.add
        elif word == "remove" and same:
            it.pc = self.table.remove
        else:
            it.reply = {"add": "false" if same else "full", "remove": "false", "contains": "true" if same else "false",
                        "ceiling": "nothing" if found == TAIL_KEY else f"at-{found - 1}"}[word]
            it.pc = self.table.leave or 0
            return None if self.table.leave else it.reply
        return None
