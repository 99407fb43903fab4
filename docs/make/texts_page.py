"""Generates parts of two pages. The tables of errors in docs/TEXTS.md are generated from the comments of the causes and
the text of `listset faults`. The usage and arguments in docs/COMMANDS.md are generated from `listset help`. Also
reports limits in docs/TEXTS.md that differ from the sources.
"""

import re

# The kinds of files that can contain a wrong line, each with its name in `listset faults`.
FILES = {"schedule": "a schedule", "draft": "a draft", "report": "a report", "recording": "recorded calls", "keys": "the keys"}


def table(head, rows):
    return "\n".join([f"| {' | '.join(head)} |", "|---" * len(head) + "|", *(f"| {' | '.join(cells)} |" for cells in rows)])


def faults_below(top, head):
    """Returns the entries in the output of `listset faults` below a line that begins with `head`: the name of each
    error, and the first line of the error's text.
    """
    said = (top / "crates/tool_base/src/faults.rt").read_text().split(f"\n{head}")[1].split("\n\n")[0]
    return dict(re.findall(r"^  (\S+) +(.*?)\.?$", said, re.M))


def table_of_causes(top):
    """Returns the table of the causes of a refused line: the comment of each variant of `Cause`, and the kinds of files
    that `listset faults` names for the variant.
    """
    text = (top / "crates/lset_text/src/causes.rt").read_text()
    causes = re.findall(r"((?:^    /// .*\n)+)    (\w+),$", text.split("pub enum Cause {")[1].split("\n}")[0], re.M)
    named = {file: faults_below(top, f"listset: line L: CAUSE, in {its}") for file, its in FILES.items()}
    others = named["draft"].pop("(others)")
    named["draft"] |= {it: "" for it in named["schedule"] if it not in others}
    rows = []
    for comment, name in causes:
        files = [file for file in FILES if name in named[file]]
        said = " ".join(re.findall(r"/// (.*)", comment)).removesuffix(".")
        rows.append([f"`{name}`", "all" if files == [*FILES] else ", ".join(files), said])
    return table(["Cause", "In", "When"], [row for row in rows if row[1]])


def table_of_orders(top):
    """Returns the table of the errors in an order, as `listset faults` lists them for `listset check`."""
    return table(["Fault", "When"], [[f"`{name}`", when] for name, when in faults_below(top, "refused FAULT ID").items()])


def helps(top):
    """Returns the output of `listset help COMMAND` in tests/transcripts, keyed by command."""
    page = (top / "tests/transcripts/help.md").read_text()
    return dict(it.split("\n", 1) for it in page.split("    $ listset help ")[1:])


def commands_page(top):
    """Returns docs/COMMANDS.md with the usage and the arguments of each command as in `listset help COMMAND`. (The help of
    `faults` has no arguments. Only the section of `replay` has the names for `--lacks`.)
    """
    page = (top / "docs/COMMANDS.md").read_text()
    for command, told in helps(top).items():
        found = re.findall(r"^      +(--\w+(?: <\w+>)?|\[\w+\])  +(.+)$", told, re.M)
        rows = [[f"`{re.sub('[][<>]', '', name)}`", said if command == "replay" else said.partition(": lock (")[0]] for name, said in found]
        if rows:
            usage = re.search(r"^    Usage: (.*)$", told, re.M)[1]
            made = f"Usage: `{usage}`\n\n{table(['Argument', 'Meaning'], rows)}\n"
            page = re.sub(rf"(\n## {command}\n(?:(?!\n## ).)*?\n)Usage: [^\n]*\n\n(?:\|[^\n]*\n)+", lambda it: it[1] + made, page, flags=re.S)
    return page


def problems(top):
    """Yields limits that differ from the constants in the sources, and commands without a section in docs/COMMANDS.md."""
    sources = "\n".join(it.read_text() for it in top.glob("crates/*/src/**/*.rt"))
    for value, name in re.findall(r"\| ([\d,]+) \| `(\w+)` \|", (top / "docs/TEXTS.md").read_text()):
        if not re.search(rf"^pub const {name}: \w+ = {value.replace(',', '_?')};", sources, re.M):
            yield f"docs/TEXTS.md: {name} is not {value}"
    page = (top / "docs/COMMANDS.md").read_text()
    for command in helps(top):
        if command != "help" and not re.search(rf"\n## {command}\n(?:(?!\n## ).)*?\nUsage: ", page, re.S):
            yield f"docs/COMMANDS.md: there is no section {command} with a line 'Usage: ..'"


WHOLE = {"docs/COMMANDS.md": commands_page}
MADE = {"causes": table_of_causes, "orders": table_of_orders}
