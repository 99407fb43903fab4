"""Converts pages of docs/ to HTML, in the frame of page/index.html. Each moment in a picture and each line of a trace links to the corresponding
event of the run. Each row of a step table links to an event of an example that executes the row (traces.js), if there is one. Each broken list links
to the schedule that breaks it (examples/schedules/lacks).

Python-Markdown makes the HTML, and the script changes it. The script leaves out text for the terminal: lines of code blocks that begin with `$`, and
everything between the comments `<!-- terminal -->` and `<!-- end -->`.
"""

import html
import os
import re

import markdown
from lists import lists

PAGES = {"HOW-IT-WORKS.md": "how-it-works.html", "CLASSIC.md": "classic.html", "TABLES.md": "tables.html"}
NAMES = {"HOW-IT-WORKS.md": "How it works", "CLASSIC.md": "The examples", "TABLES.md": "The step tables"}
KINDS = {it.type: it.word for it in lists()}
PICTURE = re.compile(r"[a-z-]+ list, \d+ threads?, quota \d+: \d+ calls? in (\d+) events?$")
TRACE_LINE = re.compile(r"event \d+ line \d+ thread (\d+) (begin )?.*? pc (\d+)(?: |$)")
FILE = re.compile(r"<code>examples/schedules/([a-z-]+)\.schedule</code>")
LACKING = re.compile(r"<li>(<code>([a-z-]+)</code>)(?= \([a-z-]+\): )")  # the beginning of an item of CLASSIC.md about a broken list
LEFT_OUT = re.compile(r"^<!-- terminal -->$.*?^<!-- end -->$|^<!--.*?-->\n|^    \$ [^\n]*\n", re.M | re.S)
PART = re.compile(r"<h\d.*?</h\d>|<p>.*?</p>|<pre>.*?</pre>|<table>.*?</table>", re.S)
PAGE = """<!doctype html>
<html lang="en">
<!-- docs/{source}, by page/build -->
<head>
<meta charset="utf-8">
<title>{title}</title>
<meta name="viewport" content="width=device-width, initial-scale=1">
<meta name="color-scheme" content="light dark">
<meta property="og:title" content="{title}">
<meta property="og:description" content="{about}">
<meta property="og:image" content="og.png">
{links}
<link rel="stylesheet" href="style/docs.css">
</head>
<body class="doc" data-view="">
{header}
<main>
<nav>{nav} <small>A number that is a link opens a run at that event.</small></nav>
{body}
</main>
</body>
</html>
"""


def frame(index):
    """Returns the `<link>` elements and the header of index.html, for use in the other pages."""
    header = re.search(r"<header\b.*?</header>", index, re.S)[0]
    header = re.sub(r' (data-to|aria-current)="[^"]*"', "", header.replace('href="#', 'href="index.html#'))
    return {"links": "\n".join(re.findall(r"^<link .*>$", index, re.M)), "header": header}


class Runs:
    """The runs of the classic examples, read from traces. Contains the lines of each example's events and, for each row
    of a step table, the first event that executes the row."""

    def __init__(self, text):
        self.events, self.rows = {}, {kind: {} for kind in KINDS.values()}
        for name, trace in re.findall(r'^  "([a-z-]+)": `\n(.*?)^`', text, re.M | re.S):
            self.events[name] = re.findall(r"^event .*$", trace, re.M)
            rows, stood = self.rows[re.search(r"^list (.*)$", trace, re.M)[1]], {}
            for number, line in enumerate(self.events[name], 1):
                thread, begins, row = TRACE_LINE.match(line).groups()
                if not begins:  # (the row is in the previous line of the event's thread)
                    rows.setdefault(int(stood[thread]), (name, number))
                stood[thread] = row

    def link(self, name, event, said):
        """Returns the text `said` as a link to an event of an example's run. If the run has fewer events, returns the text without a link.
        """
        if event > len(self.events.get(name, [])):
            return said
        return f'<a href="index.html#example={name}&amp;event={event}">{said}</a>'

    def numbers(self, name, text):
        """Returns `text` with each number linked to the event of that number in the example `name`."""
        return re.sub(r"\d+", lambda it: self.link(name, int(it[0]), it[0]), text)


class Document:
    """A page that is being converted: the current section, with its example and its lists."""

    def __init__(self, runs, broken):
        self.runs, self.broken, self.example, self.kinds, self.lists_told = runs, broken, None, [], 0

    def body(self, text):
        """Converts the Markdown text of a page to HTML and adds the links."""
        made = markdown.markdown(text, extensions=["tables", "toc", "sane_lists"], extension_configs={"toc": {"slugify": slug_of}})
        made = re.sub(r'<a href="([^"]*)">(.*?)</a>', link_of, made)
        made = FILE.sub(lambda it: self.runs.link(it[1], 0, it[0]) if it[1] in self.runs.events else it[0], made)
        return LACKING.sub(self.broken_list, PART.sub(self.part, made))

    def part(self, found):
        made = found[0]
        if made.startswith("<pre>"):
            return self.code(made.removeprefix("<pre><code>").removesuffix("\n</code></pre>").split("\n"))
        if made.startswith("<table>"):
            return f'<div class="scrolls">{self.table(made)}</div>'
        plain = re.sub("<[^>]*>", "", made)
        if made.startswith("<h"):
            name = plain.split()[0]
            self.example, self.kinds = name if name in self.runs.events else None, kinds_in(plain)
        else:
            named = re.findall(r"examples/schedules/([a-z-]+)\.schedule", plain)
            self.example, self.kinds = next((it for it in named if it in self.runs.events), self.example), self.kinds or kinds_in(plain)
        return made

    def table(self, made):
        """Returns a table with links in the first column. The number of a row links to an event that executes the row,
        and the number of an event links to that event.
        """
        kind = re.search("<th>(.*?)</th>", made)[1]
        first = {"Row": self.row, "Events": lambda cell: self.runs.numbers(self.example, cell)}.get(kind, str)
        return re.sub(r"(?<=<tr>\n<td>)(.*?)(?=</td>)", lambda it: first(it[1]), made)

    def row(self, cell):
        found = next((self.runs.rows[kind][int(cell)] for kind in self.kinds if int(cell) in self.runs.rows[kind]), None)
        return self.runs.link(*found, cell) if found else cell

    def broken_list(self, found):
        """Links the name of a broken list to the schedule that breaks the list. In the link, the list is named by its number."""
        if found[2] not in self.broken:
            return found[0]
        self.lists_told += 1
        address = html.escape(f"index.html#{address_of(self.broken[found[2]])}&event=0&lacks={self.lists_told}")
        return f'<li><a href="{address}">{found[1]}</a>'

    def code(self, lines):
        """Returns the HTML of a code block. If the block is a picture or a trace of the section's example, it gets links to the example's run."""
        events = self.runs.events.get(self.example, [])
        is_picture = (found := PICTURE.match(lines[0])) and int(found[1]) == len(events)
        return "<pre>" + "\n".join(self.of_run(line, is_picture, html.unescape(line) in events) for line in lines) + "</pre>"

    def of_run(self, line, is_picture, is_event):
        """Returns a line of a code block. In the picture and the trace of the section's example, each moment links to the event of the run.
        """
        if is_picture and line.startswith("moment "):
            return self.runs.numbers(self.example, line)
        found = re.match(r"(event | +\d+ +at )(\d+)\b", line) if is_picture or is_event else None
        return found[1] + self.runs.link(self.example, int(found[2]), found[2]) + line[found.end():] if found else line


def address_of(schedule):
    """Encodes a schedule for an address (see src/run/address.js)."""
    title, *lines = schedule.splitlines()
    words = [line.split() for line in lines]
    opening = [values[0] for word, *values in words[3:] if word == "opening"]
    events = [word[0] + ".".join(values) for word, *values in words[3:] if word != "opening"]
    needed = "2" if opening or " ceiling " in schedule else "1"
    parts = [f"{word}={value}" for word, value in words[:3]]
    parts += [f"version={title.split()[1]}"] * (title.split()[1] != needed)
    parts += [f"opening={'.'.join(opening)}"] * bool(opening)
    return "&".join([*parts, f"s={','.join(events)}"])


def slug_of(heading, _separator):
    return re.sub(r"[^\w\- ]", "", heading.lower()).replace(" ", "-")


def kinds_in(text):
    """Returns the kinds of lists that a text names."""
    return [kind for name, kind in KINDS.items() if name in text]


def link_of(found):
    """Rewrites a link in a page of docs/ for the folder page/."""
    target, said = found.groups()
    said = f"“{NAMES[said]}”" if said in NAMES else said
    path, sign, heading = target.partition("#")
    if path and not re.match("[a-z]+:", path):
        target = (PAGES.get(path) or os.path.relpath(os.path.normpath(f"docs/{path}"), "page")) + sign + heading
    if target.startswith("../"):  # a page that is served alone does not have this file
        return f'<span title="{target.removeprefix("../")} of the repository">{said}</span>'
    return f'<a href="{target}">{said}</a>'


def page_of(source, text, document, framed):
    """Returns the HTML of a page."""
    body = document.body(LEFT_OUT.sub("", text))
    nav = [f'<a href="{PAGES[it]}">{name}</a>' if it != source else f"<b>{name}</b>" for it, name in NAMES.items()]
    # (the table of contents follows the introduction, unless the introduction already links to most sections)
    contents = [f'<a href="#{slug}">{re.sub("</?a[^>]*>", "", said)}</a>' for slug, said in re.findall(r'<h2 id="(.*?)">(.*?)</h2>', body)]
    before, sign, after = body.partition("<h2")
    if before.count('href="#') < len(contents) / 2:
        body = f'{before}<nav class="contents">{" · ".join(contents)}</nav>\n{sign}{after}'
    title, about = (re.search(rf"<{tag}\b[^>]*>(.*?)</{tag}>", body, re.S)[1] for tag in ("h1", "p"))
    about = re.sub(r"<[^>]*>", "", about).replace("\n", " ").split(". ")[0]
    return PAGE.format(source=source, title=title, about=about, nav=" · ".join(nav), body=body, **framed)


def docs_made(top):
    """Returns the pages, keyed by name, made of docs/, page/index.html, page/made/traces.js and examples/schedules/lacks."""
    runs = Runs((top / "page" / "made" / "traces.js").read_text(encoding="utf-8"))
    broken = {it.stem: it.read_text(encoding="utf-8") for it in (top / "examples" / "schedules" / "lacks").glob("*.schedule")}
    framed = frame((top / "page" / "index.html").read_text(encoding="utf-8"))
    return {name: page_of(it, (top / "docs" / it).read_text(encoding="utf-8"), Document(runs, broken), framed) for it, name in PAGES.items()}
