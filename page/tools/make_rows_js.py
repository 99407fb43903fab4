"""Makes made/rows.js from docs/TABLES.md, the step tables of the lists. The made file contains the text that the page
shows for each row of a step table, and the properties of rows that the page's sentences depend on.
"""
import json
import re

from lists import lists as all_lists

REGISTERS = ["pred", "curr", "succ", "node", "pkey", "ckey"]
CALLS = ["add", "remove", "contains", "ceiling"]
# Patterns for the column "Then" of a step table, keyed by the reason for the jump to another row.
LEADS = {
    "below": r"below K: (?:[^;]*, )?(\d+)",  # the walk continues
    "invalid": r"reply none, (\d+)",  # the validation failed
    "again": r"^success: .*; else (\d+)$|without a reply: (\d+)|curr = head, (\d+)",  # the walk begins again
}


def plain(text):
    """Returns a cell or a paragraph without Markdown's marks."""
    return re.sub(r"\*\*|`", "", text).strip()


def leads_of(then):
    """Returns the targets of a row's jumps, keyed by the reason for the jump. `then` is the text of the row in the
    column "Then".
    """
    found = {name: re.search(pattern, then) for name, pattern in LEADS.items()}
    return {name: int(next(filter(None, match.groups()))) for name, match in found.items() if match}


def rows_of(section):
    """Returns the rows of a section's table."""
    rows = {}
    for line in section.splitlines():
        cells = [plain(cell) for cell in line.strip("|").split("|")]
        if len(cells) == 4 and cells[0].isdigit():
            rows[int(cells[0])] = {"step": cells[1], "then": cells[2], "book": cells[3], **leads_of(cells[2])}
    return rows


def deciding_rows(section):
    """Returns three rows: a call adds its key at the first, removes its key at the second, and leaves at the third. If
    the section names no row for leaving, the third number is one more than the number of the table's last row.
    """
    def row_of(pattern):
        found = re.search(pattern, section)
        return int(found[1]) if found else max(number for number in rows_of(section)) + 1
    return row_of(r"add at row (\d+)"), row_of(r"remove at row (\d+)"), row_of(r"leave at row (\d+)")


def reads_of(section):
    """Returns the rows of the step table that `contains` and `ceiling` execute. These calls must acquire no lock."""
    rows = rows_of(section)
    ceiling = int(re.search(r"`ceiling` at row (\d+)", section)[1])
    return {"contains": {number: row for number, row in rows.items() if number < ceiling},
            "ceiling": {number: row for number, row in rows.items() if number >= ceiling}}


def registers_in(rows):
    """Returns the registers that the steps in these rows of a step table set."""
    return [name for name in REGISTERS if any(f"{name} = " in row["then"] for row in rows)]


def calls_of(section, reads):
    """Returns the numbers of the rows that each operation can execute, and the registers that these rows set."""
    rows = rows_of(section)
    adds, removes, leaves = deciding_rows(section)
    left_out = {"add": range(removes, leaves), "remove": range(adds, removes)}
    calls = {}
    for call in CALLS:
        without = left_out.get(call, range(adds, leaves))
        own = reads.get(call) or {number: row for number, row in rows.items() if number not in without}
        calls[call] = {"rows": [*own], "registers": registers_in(own.values())}
    return calls


def rows_text(tables):
    """Returns the text of made/rows.js for the text of docs/TABLES.md."""
    sections = {part.split("\n", 1)[0].strip(): part for part in tables.split("\n## ")}
    reads = reads_of(sections["Reads without locks"])
    lists = {}
    for one in all_lists():
        name, kind, own = one.type, one.word, reads if one.has_reads() else {}
        adds, removes, _ = deciding_rows(sections[name])
        rows = rows_of(sections[name]) | {number: row for some in own.values() for number, row in some.items()}
        lists[kind] = {"name": name, "registers": registers_in(rows.values()), "adds": adds, "removes": removes,
                       "calls": calls_of(sections[name], own), "rows": rows}
    return ("// The rows of the step tables, from docs/TABLES.md by page/build: for show alone, no state is computed from them.\n"
            f"\nexport const LISTS = {json.dumps(lists, ensure_ascii=False, indent=1)};\n")
