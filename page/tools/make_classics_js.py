"""Makes made/classics.js from docs/CLASSIC.md. For each example, the file contains the question, the answer, the
deciding events, the error without the check, and the broken lists that lack the check. The file also contains the kind
of each broken list.
"""
import json
import re

from make_rows_js import plain

LACKING = re.compile(r"^- `([a-z-]+)` \(([a-z-]+)\): ", re.M)  # a broken list: its name and its kind
PARAGRAPHS = {"question": "Question.", "turns_on": "Answer.", "without": "Without it."}


def paragraph(section, title):
    found = re.search(rf"^\*\*{re.escape(title)}\*\* (.*)$", section, re.M)
    return plain(found[1]) if found else None


def turns_of(section):
    """Returns the numbers of the deciding events. docs/CLASSIC.md shows the trace lines of these events in the answer."""
    part = section.split("**Answer.**", 1)[1].split("**Without it.**", 1)[0]
    return [int(number) for number in re.findall(r"^    event (\d+) line ", part, re.M)]


def classics_text(page):
    """Returns the text of made/classics.js for the text of docs/CLASSIC.md."""
    lacking = dict(LACKING.findall(page))
    kinds = {kind.replace("-", ""): kind for kind in lacking.values()}
    classics = {}
    for section in page.split("\n## ")[1:]:
        if "**Question.**" not in section:
            continue
        name, kind = re.match(r"([a-z-]+) \((\w+)List\)", section).groups()
        said = {key: paragraph(section, title) for key, title in PARAGRAPHS.items()}
        named = re.findall(r"\(`([a-z-]+)`\)", section)
        lacks = [one for one in named if lacking.get(one) == kinds.get(kind.lower())]
        classics[name] = {"question": said["question"], "turnsOn": said["turns_on"], "without": said["without"],
                          "turns": turns_of(section), "lacks": lacks}
    return ("// What docs/CLASSIC.md says, by page/build: of each example its question, the answer, the events that decide it, what goes\n"
            "// wrong without it, and which lists of its kind lack that check; and the kind of each list that lacks one.\n"
            f"\nexport const CLASSICS = {json.dumps(classics, ensure_ascii=False, indent=1)};\n\nexport const LACKING = {json.dumps(lacking, indent=1)};\n")
