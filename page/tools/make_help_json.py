"""Generates page/help.json: the program's help texts, for page/listset.js."""

import json
import re

HELP = re.compile(r"^    \$ listset (--help|--version|help \w+)\n((?:    (?!\$ ).*\n|\n)*)", re.M)


def help_text(page):
    """Returns the text of page/help.json, made from a page of transcripts. The file contains the program's help texts,
    keyed by `--help`, `--version` and the names of commands.
    """
    found = {words.removeprefix("help "): re.sub("^    ", "", text, flags=re.M).rstrip("\n") + "\n" for words, text in HELP.findall(page)}
    return json.dumps(found, ensure_ascii=False, indent=1) + "\n"
