"""Generates the program's man page, and its completions for bash, zsh and fish, from the output of `listset --help` and
`listset help COMMAND`.

    python3 build/man_page_and_completions.py man | man -l -       shows the man page
    source <(python3 build/man_page_and_completions.py bash)       completes in the current bash; also: zsh, fish

The program is ./listset, or the second argument.
"""

import datetime
import re
import subprocess
import sys

sys.dont_write_bytecode = True
import lists  # noqa: E402
import version_stamp  # noqa: E402

COMMAND = re.compile(r"^  (\w+) +(.+)$", re.M)
OPTION = re.compile(r"^ +(?:-\w, )?--([\w-]+)(?: <(\w+)>)? +(.*)$", re.M)
LISTS = " ".join(it.word for it in lists.lists())
OF_A_LIST = ["gen", "run", "serve"]  # the commands that have a list as their first argument


class Help:
    """The help texts of the program and of each of its commands."""

    def __init__(self, program):
        def said(*words):
            return subprocess.run([program, *words], stdin=subprocess.DEVNULL, stdout=subprocess.PIPE, text=True, check=True).stdout

        self.whole = said("--help")
        self.about = dict(COMMAND.findall(self.whole.split("Commands:\n")[1].split("\n\n")[0]))
        self.pages = {name: said("help", name) for name in self.about if name != "help"}

    def examples(self):
        """Returns the examples at the end of each help text."""
        return [it for text in self.pages.values() for it in re.findall(r"^Example: (.*)$", text, re.M)]

    def broken_lists(self):
        """Returns the names that the option --lacks accepts."""
        about = next(about for option, _, about in self.options("replay") if option == "lacks")
        return re.findall(r"([\w-]+) \([\w-]+\)", about)

    def causes(self):
        """Returns the names that the command `faults` accepts: causes and messages."""
        return sorted(set(re.findall(r"^  ([A-Z]\w+)  ", self.pages["faults"], re.M)))

    def options(self, name):
        """Returns the options of a command except --help: the name, the name of the value (or ""), and a description."""
        return [it for it in OPTION.findall(self.pages[name]) if it[0] != "help"]


STATUSES = {
    "0": "The result was printed, or the help or version that the user requested.",
    "1": "The answer is negative, such as 'not linearizable' or 'refused'; or there is an error in the input or in the system, which one line on standard error names.",
    "2": "An argument, an option or the command line is wrong. Standard error says which.",
    "3": "An allocation failed.",
}
ENTRY = re.compile(r"^ {2,8}(\S.*?)(?: {2,}(\S.*))?$")


def man_page(said, version, date):
    """Returns the man page for section 1, in roff."""
    first, rest = said.whole.split("\n\n", 1)
    parts = [f'.TH LISTSET 1 "{date}" "listset {version}"', ".nh", ".ad l", ".SH NAME", f"listset \\- {first[0].lower()}{first[1:]}"]
    parts += [".SH SYNOPSIS", *filled(rest)]
    for name, text in said.pages.items():
        parts += [f'.SH "listset {name}"', *filled(text)]
    parts += ['.SH "EXIT STATUS"', *(line for it, text in STATUSES.items() for line in entry(it, text))]
    parts += [".SH EXAMPLES", *(line for it in said.examples() for line in (".PP", ".nf", quoted(it), ".fi"))]
    # Leaves out an empty paragraph, such as the one before an omitted example.
    parts = [it for it, below in zip(parts, [*parts[1:], ".SH"]) if it != ".PP" or not below.startswith((".PP", ".SH"))]
    return "\n".join(parts) + "\n"


def quoted(text):
    """Escapes a line for roff."""
    return "\\&" + text.replace("\\", "\\e").replace("-", "\\-").replace("'", "\\(aq")


def entry(name, text):
    """Returns an entry of a list in roff: `name`, and `text` (the first line of its description) unless it is empty."""
    return [".TP", f"\\fB{quoted(name)}\\fR", *([quoted(text)] if text else [])]


def filled(text):
    """Converts a help text to lines of roff. A help text consists of paragraphs and lists. Each entry of a list is a
    name and a text, and the text can continue on more deeply indented lines.
    """
    for line in text.splitlines():
        if not line:
            yield ".PP"
        elif line.startswith("          "):
            yield quoted(line.strip())
        elif (found := ENTRY.match(line)):
            yield from entry(found[1], found[2])
        elif not line.startswith("Example: "):
            yield quoted(line)


def for_bash(said):
    rows = [f'    {name}) said="{" ".join(f"--{it}" for it, _, _ in said.options(name))}" ;;' for name in said.pages]
    lists = f'  case $COMP_CWORD:${{COMP_WORDS[1]}} in {" | ".join(f"2:{it}" for it in OF_A_LIST)}) said="$said {LISTS}" ;; esac'
    with_value = sorted({f"--{it}" for name in said.pages for it, value, _ in said.options(name) if value})
    return f"""# bash completion for listset
_listset() {{
  local said="" before=${{COMP_WORDS[COMP_CWORD - 1]}} word=$2
  case "${{COMP_WORDS[1]}}" in
{chr(10).join(rows)}
  esac
{lists}
  case "$COMP_CWORD:${{COMP_WORDS[1]}}" in
    2:help) said="{" ".join(said.pages)}" ;;
    2:faults) said="{" ".join(said.causes())}" ;;
    *:example) said="$said $(listset example | cut -d' ' -f1)" ;;
  esac
  # bash splits --lacks=NAME into three words
  [ "$before" != = ] || before=${{COMP_WORDS[COMP_CWORD - 2]}}
  [ "$word" != = ] || {{ before=${{COMP_WORDS[COMP_CWORD - 1]}} && word=""; }}
  case "$before" in
    --lacks) said="{" ".join(said.broken_lists())}" ;;
    {" | ".join(it for it in with_value if it != "--lacks")}) said="" ;;
  esac
  [ "$COMP_CWORD" -gt 1 ] || said="{" ".join(said.about)} --help --version"
  mapfile -t COMPREPLY < <(compgen -W "$said" -- "$word")
}}
complete -o default -F _listset listset
"""


def for_zsh(said):
    def told(about):
        """Shortens a description, and removes the characters that are special in the quoted arguments of _arguments and
        _describe.
        """
        return re.sub(r"[:\[\]'\\]", "", about[:70])

    def spec(name, value, about):
        names = f"({' '.join(said.broken_lists())})" if name == "lacks" else ""
        return f"'--{name}[{told(about)}]" + (f":{value}:{names}'" if value else "'")

    rows = []
    for name in said.pages:
        options = " ".join(spec(*it) for it in said.options(name))
        files = "'*:list:(" + LISTS + ")'" if name in OF_A_LIST else "'*:file:_files'"
        rows.append(f"  {name}) _arguments {options} {files} ;;")
    rows.append(f"  help) _arguments '1:command:({' '.join(said.pages)})' ;;")
    rows = [it if not it.startswith("  faults)") else f"  faults) _arguments '1:cause:({' '.join(said.causes())})' ;;" for it in rows]
    words = [f"  '{name}:{told(about)}'" for name, about in said.about.items()]
    return f"""#compdef listset
local -a words_of_listset
words_of_listset=(
{chr(10).join(words)}
)
if (( CURRENT == 2 )); then _describe command words_of_listset; return; fi
local name=$words[2]
shift words; (( CURRENT-- ))
case $name in
{chr(10).join(rows)}
esac
"""


def for_fish(said):
    def in_quotes(text):
        return "'" + text.replace("\\", "\\\\").replace("'", "\\'")[:70] + "'"

    rows = [f"complete -c listset -n __fish_use_subcommand -f -a {name} -d {in_quotes(about)}" for name, about in said.about.items()]
    rows.append(f"complete -c listset -n '__fish_seen_subcommand_from help' -f -a '{' '.join(said.pages)}'")
    rows.append(f"complete -c listset -n '__fish_seen_subcommand_from faults' -f -a '{' '.join(said.causes())}'")
    for name in said.pages:
        seen = f"-n '__fish_seen_subcommand_from {name}'"
        for it, value, about in said.options(name):
            names = f" -a '{' '.join(said.broken_lists())}'" if it == "lacks" else ""
            rows.append(f"complete -c listset {seen} -l {it}{' -x' * bool(value)}{names} -d {in_quotes(about)}")
        rows += [f"complete -c listset {seen} -a '{LISTS}'"] * (name in OF_A_LIST)
    examples = "complete -c listset -n '__fish_seen_subcommand_from example' -f -a \"(listset example | string split -f1 ' ')\""
    return "\n".join(["# completions of listset for fish", *rows, examples, ""])


def main(words):
    made = {"man": lambda it: man_page(it, version_stamp.version(), datetime.date.today()), "bash": for_bash, "zsh": for_zsh, "fish": for_fish}
    if len(words) not in (1, 2) or words[0] not in made:
        print(__doc__, file=sys.stderr)
        return 2
    print(made[words[0]](Help([*words[1:], lists.TOP / "listset"][0])), end="")
    return 0


if __name__ == "__main__":
    sys.exit(main(sys.argv[1:]))
