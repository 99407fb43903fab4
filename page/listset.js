// Runs the commands of ./listset in node, without a proof and without the toolchain. The engine is the proved replayer, as the WebAssembly module listset.wasm.
//
//     node page/listset.js COMMAND ..               node page/listset.js --help
//
// The commands, arguments and options are those in the program's help texts (help.json, made from crates/lset_command/src/table.rt). FILE can be - (standard
// input). The output, the error message and the exit status are those of the program (docs/TEXTS.md). At a terminal, a hint follows an error message. If node
// cannot run the module, or if the command is `run` or `serve`, the script reads nothing, prints an error and exits with status 70. With LISTSET_ENGINE=other,
// the script exits with status 70 and prints no error whenever it would need the module.
"use strict";

const fs = require("fs");
const path = require("path");
const { isatty } = require("tty");
const { NO_ENGINE, NOT_RUN, onlyKey, startedEngine } = parts();

const LONGEST = 67108864; // the maximum number of bytes of an input that is no recording; a longer input is not read to its end
const WRONG = 2; // the exit status for wrong arguments
const MORE = "For more information, try '--help'.";

// The program's help and version texts, keyed by --help, --version and command.
const HELP = require("./help.json");

const ORIGIN = `commit ${"0".repeat(40)}\nproof unknown\n`; // the lines of a program without a known commit and proof

// The commands without a function `listset_COMMAND` of the engine. Such a command uses two other functions (without and with its flag), a function that reads
// the input in pieces, or a function of this script, or it needs a built program.
const ANSWERS = {
  judge: { isJudge: true },
  stats: { inPieces: "listset_stats_from" },
  show: { functions: ["listset_show", "listset_show_svg"] },
  trace: { functions: ["listset_trace", "listset_trace_with_chains"] },
  example: { functions: ["listset_example", "listset_broken_example"] },
  run: { isBuilt: true },
  serve: { isBuilt: true },
  explain: { isExplain: true },
};

// Parses the help of a command. Returns the command's flag, its options with the names of their values, the maximum number of its arguments, whether the first
// argument is a file, and the help about the first argument.
function described(name) {
  const options = [...HELP[name].matchAll(/^ +--(\w+)(?: <(\w+)>)?  /gm)].map(([, option, value]) => [`--${option}`, value]);
  const values = [...HELP[name].matchAll(/^  \[(\w+)\]  (.*?)[;\n]/gm)];
  const [, value, about] = values[0] ?? [];
  return {
    flag: options.find(([, value]) => value === undefined)?.[0],
    options: Object.fromEntries(options.filter(([, value]) => value !== undefined)),
    most: Math.max(1, values.length),
    isOfFile: value === "FILE",
    about,
  };
}

// All commands that the program's help lists.
const COMMANDS = Object.fromEntries(
  Object.keys(HELP)
    .filter((name) => !/^-|^help$/.test(name))
    .map((name) => [name, { functions: [`listset_${name}`], ...described(name), ...ANSWERS[name] }]),
);

// Thrown to end the script: a text to print in place of an answer of the engine, and the exit status.
class Printed extends Error {
  constructor(text, status) {
    super(text);
    this.status = status;
  }
}

const usageOf = (name) => /^Usage: (.*)$/m.exec(HELP[name] ?? "")?.[1] ?? `listset ${name} [CAUSE]`;

// Returns the message that the program prints if the arguments of a command are wrong, and the exit status.
function wrongWords(error, usage, tip) {
  const parts = [`error: ${error}`, ...(tip ? [`  tip: ${tip}`] : []), ...(usage ? [`Usage: ${usage}`] : []), MORE];
  return new Printed(`${parts.join("\n\n")}\n`, WRONG);
}

const helpOf = (name) => new Printed(HELP[name] ?? HELP["--help"], 0);

function parts() {
  try {
    return { ...require("./in_node.js"), ...require("./only.js") };
  } catch (fault) {
    if (fault.code !== "MODULE_NOT_FOUND") throw fault;
    process.stderr.write("listset: in_node.js or only.js is not beside listset.js: take judge/listset.js, which needs no other file\n");
    process.exit(1);
  }
}

// Parses the arguments. Returns the command, whether the command's flag is set, the options (keyed by name, without hyphens), and the other arguments (perhaps
// after a `--`).
function asked([name = "replay", ...words]) {
  answerFirst(name, words);
  if (!Object.hasOwn(COMMANDS, name)) throw unknownCommand(name);
  const found = { ...COMMANDS[name], name, isOn: false, texts: {}, values: [] };
  while (words.length > 0 && words[0] !== "--") take(found, words);
  words.slice(1).forEach((word) => addValue(found, word));
  return found;
}

// Handles --help and --version.
function answerFirst(name, words) {
  if (name === "--help" || name === "-h") throw helpOf("--help");
  if (name === "--version" || name === "-V") {
    const isLong = name === "--version" && words.length === 1 && words[0] === "--long";
    throw new Printed(HELP["--version"] + (isLong ? ORIGIN : ""), 0);
  }
  if (name === "help") {
    if (words.length > 0 && words[0] !== "help" && !Object.hasOwn(COMMANDS, words[0])) throw unknownCommand(words[0]);
    throw helpOf(words[0] ?? "--help");
  }
  if (name.startsWith("-") && name !== "-") throw wrongWords(`unexpected argument '${name.split("=")[0]}' found`, "listset [COMMAND]");
}

function unknownCommand(word) {
  const alike = Object.keys(COMMANDS).filter((name) => distance(name, word) <= 2);
  const tip = alike.length === 1 ? `a similar subcommand exists: '${alike[0]}'` : `some similar subcommands exist: ${alike.map((it) => `'${it}'`).join(", ")}`;
  return wrongWords(`unrecognized subcommand '${word}'`, "listset [COMMAND]", alike.length > 0 ? tip : undefined);
}

// Returns the edit distance between two words: how many times a letter must be changed, inserted, deleted or swapped with the next letter to make the words
// equal.
function distance(one, other) {
  const rows = Array.from({ length: one.length + 1 }, (_, at) => [at]);
  for (let to = 1; to <= other.length; to += 1) rows[0][to] = to;
  for (let from = 1; from <= one.length; from += 1) {
    for (let to = 1; to <= other.length; to += 1) {
      const isSame = one[from - 1] === other[to - 1];
      rows[from][to] = Math.min(rows[from - 1][to] + 1, rows[from][to - 1] + 1, rows[from - 1][to - 1] + (isSame ? 0 : 1));
      const isExchanged = from > 1 && to > 1 && one[from - 1] === other[to - 2] && one[from - 2] === other[to - 1];
      if (isExchanged) rows[from][to] = Math.min(rows[from][to], rows[from - 2][to - 2] + 1);
    }
  }
  return rows[one.length][other.length];
}

const isValue = (word) => word === "-" || !word.startsWith("-");

function addValue(found, word) {
  const { name, values, most } = found;
  if (values.length === most) throw unexpected(name, word);
  values.push(word);
}

const unexpected = (name, word) => wrongWords(`unexpected argument '${word}' found`, usageOf(name));

// Parses the first argument in `words` and adds the result to `found`. Removes the argument from `words`, together with its value if it is an option.
function take(found, words) {
  const word = words.shift();
  const [name, ...behind] = word.split("=");
  if (isValue(word)) {
    addValue(found, word);
  } else if (word === "--help" || word === "-h") {
    throw helpOf(found.name);
  } else if (name === found.flag) {
    takeFlag(found, word, behind);
  } else if (Object.hasOwn(found.options, name)) {
    const shown = `${name} <${found.options[name]}>`;
    const text = behind.length > 0 ? behind.join("=") : textBehind(shown, words, found);
    if (found.texts[name.slice(2)] !== undefined) throw wrongWords(`the argument '${shown}' cannot be used multiple times`, usageOf(found.name));
    found.texts[name.slice(2)] = text;
  } else {
    throw unexpected(found.name, name.startsWith("--") ? name : word.slice(0, 2));
  }
}

function takeFlag(found, word, behind) {
  if (behind.length > 0) throw wrongWords(`unexpected value '${behind.join("=")}' for '${found.flag}' found; no more were expected`, usageOf(found.name));
  if (found.isOn) throw wrongWords(`the argument '${word}' cannot be used multiple times`, usageOf(found.name));
  found.isOn = true;
}

// Returns the value of an option and removes the value from `words`. As in clap, an error in the next argument is reported before a missing value.
function textBehind(shown, words, found) {
  const [word = "--"] = words;
  if (isValue(word)) return words.shift();
  const [name, ...behind] = word.split("=");
  if (name === found.flag && behind.length > 0) takeFlag(found, word, behind);
  const isKnown = name === found.flag || Object.hasOwn(found.options, name) || ["--", "--help", "-h"].includes(name);
  if (!isKnown) throw unexpected(found.name, name.startsWith("--") ? name : word.slice(0, 2));
  throw wrongWords(`a value is required for '${shown}' but none was supplied`);
}

// Opens a file and returns its descriptor. Returns the descriptor of standard input if no file is named.
const opened = (file = "-") => (file === "-" ? 0 : fs.openSync(file, "r"));

// Returns the bytes of an input. Reads at most `LONGEST + 1` bytes.
function bytesOf(input) {
  const pieces = [];
  let length = 0;
  while (length <= LONGEST) {
    const piece = Buffer.alloc(65536);
    const count = readSome(input, piece);
    if (count === 0) break;
    pieces.push(piece.subarray(0, count));
    length += count;
  }
  return Buffer.concat(pieces).subarray(0, LONGEST + 1);
}

// Reads bytes from an input. If the input (such as a terminal) has no data yet, waits for data.
function readSome(input, piece) {
  for (;;) {
    try {
      return fs.readSync(input, piece);
    } catch (fault) {
      if (fault.code !== "EAGAIN") throw fault;
      Atomics.wait(new Int32Array(new SharedArrayBuffer(4)), 0, 0, 10);
    }
  }
}

// Reads bytes for the engine. Returns -1 after an error; the engine reports the error.
function readForEngine(input, piece) {
  try {
    return readSome(input, piece);
  } catch {
    return -1;
  }
}

// Handles `judge --only KEY`: returns the recording of the calls on one key or, if no order explains these calls, a few calls that show the contradiction.
function keyed(engine, only, file) {
  const bad = { status: WRONG, bytes: Buffer.from("listset: bad KEY\n") };
  if (!isKey(only)) return bad;
  const bytes = bytesOf(opened(file));
  if (bytes.length > LONGEST) return { status: 1, bytes: Buffer.from("listset: too long\n") };
  const whole = engine.askBytes("listset_judge", bytes);
  if (whole.text.startsWith("listset: ")) return whole;
  const found = onlyKey(bytes.toString("latin1"), only, (text) => engine.ask("listset_judge", text).text);
  return found === null ? bad : { status: 0, bytes: Buffer.from(found) };
}

const REFUSED = "not linearizable\n";
const OF_A_FILE = "\nto learn what is wrong, judge a file: listset judge FILE\n";
const NOT_TOLD = "\nno explanation: memory ran out, or the file has changed since it was judged\n";

// Matches the lines of a verdict that `judge --brief` prints. Lines with advice, and with calls that contradict each other, do not match.
const BRIEF = /^(ok |\d+ of them |the recording was cut off|not linearizable|no order explains )/;

function briefly(verdict) {
  const lines = Buffer.from(verdict.bytes).toString().split("\n");
  if (!BRIEF.test(lines[0])) return verdict;
  return { ...verdict, bytes: Buffer.from(lines.filter((line) => line === "" || BRIEF.test(line)).join("\n")) };
}

// Returns the verdict on a recording or, if `only` names a key, the recorded calls on that key. If a recording in a file is refused, reads the file a second
// time and also returns a diagnosis.
function judged(engine, isBrief, only, file = "-") {
  if (only !== undefined) return keyed(engine, only, file);
  const verdict = engine.answerFrom("listset_judge_from", opened(file));
  if (isBrief) return briefly(verdict);
  if (!Buffer.from(verdict.bytes).toString().startsWith(REFUSED)) return verdict;
  const more = file === "-" ? Buffer.from(OF_A_FILE) : whatIsWrong(engine, file, verdict.bytes.filter((byte) => byte === 10).length);
  return { ...verdict, bytes: Buffer.concat([verdict.bytes, more]) };
}

// Returns the diagnosis of the recording in a file, or a line that states that the recording could not be diagnosed. `used` is the number of lines in the
// verdict.
function whatIsWrong(engine, file, used) {
  try {
    const { status, bytes } = engine.whyFrom(opened(file), used);
    if (status === 1) return bytes;
  } catch {
    // (the line NOT_TOLD reports an error)
  }
  return Buffer.from(NOT_TOLD);
}

// Returns the engine's answer to the arguments. Options are checked before the file is opened.
function answerTo(engine, { name, functions, inPieces, isJudge, isExplain, isOn, texts: { lacks, only, ...texts }, isOfFile, values }) {
  if (inPieces) return engine.answerFrom(inPieces, opened(values[0]));
  if (isJudge) return judged(engine, isOn, only, values[0]);
  if (isExplain) return explained(engine, values[0]);
  const wanted = functions[Number(isOn)];
  if (name === "faults" && values.length > 0) return engine.ask("listset_fault", values[0]);
  if (name === "example") return values.length > 0 ? engine.ask(wanted, values[0]) : engine.ask("listset_examples");
  if (!isOfFile) return engine.ask(wanted, values.join("\0"));
  const options = ["from", "to", "width"].map((name) => (texts[name] === undefined ? "" : `=${texts[name]}`)).join("\0");
  const broken = (text) => engine.askBytes("listset_lacking", Buffer.from(lacks), text, Buffer.from(`${wanted.slice("listset_".length)}\0${options}`));
  const ask = (text) => (lacks === undefined ? engine.askBytes(wanted, text, Buffer.from(options)) : broken(text));
  const tried = ask(Buffer.alloc(0));
  return tried.status === WRONG ? tried : ask(bytesOf(opened(values[0])));
}

// Returns the output of `explain` for a file, or a line with the reason why the file cannot be read. `name` is the file's name in the output.
function explained(engine, file = "-", name = file === "-" ? "FILE" : file) {
  try {
    return engine.askBytes("listset_explain", Buffer.from(name), bytesOf(opened(file)));
  } catch (fault) {
    if (fault.syscall === undefined) throw fault;
    const why = (NOT_READ[fault.code] ?? NOT_READ.other).replaceAll("FILE", quoted(file));
    return { status: 0, bytes: Buffer.from(`${file}: ${why}\n`) };
  }
}

const NO_RIGHT = "you have no right to read this file (of a file of yours: chmod u+r) or to enter its folder. To see whose they are: namei -l FILE";
const NOT_READ = {
  ENOENT: "there is no such file. Look at its name, and at the folder that you are in: ls",
  EACCES: NO_RIGHT,
  EPERM: NO_RIGHT,
  EISDIR: "this is a folder. Name a file in it. To see its files: ls FILE",
  ENOTDIR: "a part of this path is a file, and no folder. To see which: namei FILE",
  other: "the system did not read this file. To see what it is: ls -l FILE",
};

function answerOrTrouble(engine, words) {
  try {
    return answerTo(engine, words);
  } catch (fault) {
    if (fault.syscall === undefined) throw fault;
    return { status: 1, bytes: Buffer.from("listset: cannot read\n") };
  }
}

// Decides whether standard output was closed when node started. In that case, node has opened /dev/null for reading and writing in place of standard output. (A
// shell's `>` opens /dev/null for writing only. Python's DEVNULL and node's own "ignore" cannot be distinguished from a closed output. Only Linux shows how a
// file was opened.)
function isOutputClosed() {
  try {
    const [, flags] = /^flags:\s*(\d+)/m.exec(fs.readFileSync("/proc/self/fdinfo/1", "latin1"));
    const isBoth = (parseInt(flags, 8) & fs.constants.O_RDWR) !== 0;
    return isBoth && fs.readlinkSync("/proc/self/fd/1") === "/dev/null";
  } catch {
    return false;
  }
}

// Writes an answer to standard output, or an error to standard error.
function write({ status, bytes }, hint) {
  const text = Buffer.from(bytes);
  process.exitCode = status;
  if (status !== 0 && text.subarray(0, 9).toString("latin1") === "listset: ") return tellError(text, hint);
  if (text.length > 0 && isOutputClosed()) return tellError("listset: cannot write\n", hint);
  process.stdout.on("error", () => tellError("listset: cannot write\n", hint));
  process.stdout.write(text);
  if (status === 1 && process.stderr.isTTY && hint) process.stderr.write(hint("", bytes));
}

// Writes an error, and a hint if standard error is a terminal.
function tellError(text, hint = noHint) {
  if (process.exitCode === 0) process.exitCode = 1;
  process.stderr.write(process.stderr.isTTY ? `${text}${hint(text.toString())}` : text);
}

const noHint = () => "";

// Returns a function that computes a hint (or an empty one) for a failed command with the arguments `words`. The hint is about the error message `said` or, if
// `said` is empty, about the refused recording with the output `bytes`.
function hintOn(engine, words) {
  return (said, bytes) => {
    const hint = asCalled(said === "" ? keysHint(words, bytes) : hintOf(engine, words, said));
    return hint === "" ? "" : `${hint}\n`;
  };
}

// Returns a hint for an error.
function hintOf(engine, { name, isOfFile, texts, values }, said) {
  const [file = "-"] = values;
  const [, value] = /^listset: bad (\w+)\n/.exec(said) ?? [];
  const [, number, cause] = /^listset: line (\d+): (\w+)/.exec(said) ?? [];
  if (value) return valueHint(engine, { name, texts, values }, value);
  if (said.startsWith("listset: bad NAME: this example")) return `These examples have one: ${brokenExamples(engine).join(", ")}`;
  if (said.startsWith("listset: bad ")) return `NAME '${texts.lacks}' is wrong. --lacks takes one of ${BROKEN_LISTS}`;
  if (said.startsWith("listset: cannot write")) return unwrittenHint(name);
  if (cause === "Kind" && texts.lacks !== undefined) return lacksHint(engine, texts.lacks, file);
  if (isOfFile && file !== "-") return fileHint(engine, { name, texts, file, number, cause });
  if (said.startsWith("listset: too long")) return tooLongHint(name);
  if (cause === "Header") return `${name} reads ${READS[name]}: line 1 must be ${TITLES[READS[name]]}, and the input is empty or closed, or begins otherwise. For a text in a file, listset explain FILE says what is wrong`;
  if (cause) return `listset faults ${cause} explains this error; for a text in a file, listset explain FILE says what is wrong`;
  return /cannot read/.test(said) ? `Standard input could not be read. Name a file: listset ${name} FILE` : "";
}

// The kinds of texts. Each kind has the start of a text's first line, a description, and the commands that read such a text.
const KINDS = [
  ["listset-schedule", "is a schedule", "For its report: listset replay FILE; for its picture: listset show FILE"],
  ["listset-draft", "is a draft", "For its schedule: listset draft FILE"],
  ["listset-report", "is a report", "To check its order: listset check FILE; for its picture: listset show FILE"],
  ["listset-calls", "has recorded calls", "For the verdict: listset judge FILE"],
  ["listset-trace", "is a trace", "No command reads a trace"],
  ["listset-course", "is a course", "No command reads a course: paste it into page/index.html, under Solve"],
  [/^(key |(listening|sessions|calls) [^ ]*$)/, "has keys for serve", "A server opens with these keys: listset serve KIND SEATS QUOTA PORT SESSIONS FILE"],
];

// The kind of text that each command reads, found in the help of the command's argument FILE.
const READS = { "show --lacks": "a schedule" };
for (const [name, { about }] of Object.entries(COMMANDS)) {
  const [, plain, kinds] = /^File of (recorded calls)|^(.*) file$/.exec(about) ?? [];
  READS[name] = plain ?? (kinds ? `a ${kinds.toLowerCase().replace(" or ", " or a ")}` : "a text");
}

const SCHEDULE = "'listset-schedule 1' (or 2)";

// The first line of each kind of text that a command reads.
const TITLES = {
  "a schedule": SCHEDULE,
  "a report": "'listset-report 1' (or 2)",
  "a draft": "'listset-draft 2'",
  "recorded calls": "'listset-calls 1'",
  "a schedule or a report": "'listset-schedule 1' or 'listset-report 1' (or 2)",
};

// Quotes a file name for a shell's command line.
function quoted(file) {
  const name = file.startsWith("-") ? `./${file}` : file;
  return /^[\w./+:=@%,\u0080-\uffff-]+$/.test(name) ? name : `'${name.replaceAll("'", "'\\''")}'`;
}

// Returns the kind of a file, and what can be done with such a file. Returns null if the kind is unknown.
function kindOf(file) {
  const first = lineOf(file, 1);
  const found = KINDS.find(([title]) => (title instanceof RegExp ? title.test(first) : first.startsWith(title)));
  return found ? { is: `${quoted(file)} ${found[1]}`, use: found[2].replaceAll("FILE", quoted(file)) } : null;
}

// Returns the first 100 bytes of line `number` of a file, with invisible characters replaced.
function lineOf(file, number) {
  const input = fs.openSync(file, "r");
  let [line, at] = ["", 1];
  for (const piece = Buffer.alloc(65536); at <= number && line.length < 100; ) {
    const text = piece.toString("latin1", 0, readSome(input, piece));
    if (text === "") break;
    const lines = text.split("\n");
    if (at <= number && number < at + lines.length) line += lines[number - at];
    at += lines.length - 1;
    if (at > number) break;
  }
  fs.closeSync(input);
  return line.slice(0, 100).replace(/[^ -~]/g, (byte) => `\\x${byte.charCodeAt(0).toString(16).padStart(2, "0")}`);
}

// Returns a hint for an error in a file. The hint names the error and a remedy.
function fileHint(engine, { name, texts, file, number, cause }) {
  const isLong = fs.existsSync(file) && fs.statSync(file).size > LONGEST;
  if (isLong && READS[name] === "recorded calls" && cause) return longHint(engine, file, number, cause);
  const lines = Buffer.from(explained(engine, file).bytes).toString().trimEnd().split("\n");
  const [first, last] = [lines[0], lines.at(-1)];
  const reader = name === "show" && texts.lacks !== undefined ? "show --lacks" : name;
  if (cause === "Header" || first.endsWith(", and line 1 has an error, Header:")) return headerHint(reader, file, first, last);
  if (cause && !first.endsWith(`, and line ${number} has an error, ${cause}:`)) return otherHint(texts.lacks, file, cause);
  if (first.endsWith(` has more than ${LONGEST} bytes.`)) return `${first} ${last}`;
  return last.includes(": there is no such file") ? `${last}\n${meant(engine, name, file)}`.trimEnd() : last;
}

// Returns a hint for a file whose first line is wrong for a command: the kind of the file, and the kind that the command reads. `first` and `last` are lines of
// the file's explanation.
function headerHint(name, file, first, last) {
  const reads = `${name} reads ${READS[name]}: line 1 must be ${TITLES[READS[name]]}`;
  const kind = KINDS.find(([, is]) => first.startsWith(`${quoted(file)} ${is},`));
  if (first === `${quoted(file)} has no bytes.`) return isOutput(file) ? EMPTIED.replace("FILE", quoted(file)) : `${quoted(file)} has no bytes, and ${reads}. If a command wrote the file, look at what that command printed for an error`;
  if (kind) return `${quoted(file)} ${kind[1]}, and ${name} reads ${READS[name]}. ${kind[2].replaceAll("FILE", quoted(file))}`;
  if (last.startsWith("Line 1 must be one of")) return `${quoted(file)} is no text of listset. ${reads}, and docs/TEXTS.md has the lines below it`;
  return last;
}

const EMPTIED = "FILE has no bytes: the output goes to the file that is read, so the shell emptied it. Write the output to another file";

// Decides whether standard output goes to a file.
function isOutput(file) {
  const [one, other] = [fs.statSync(file), fs.fstatSync(1)];
  return one.ino === other.ino && one.dev === other.dev;
}

// Returns a hint for an error that `explain` does not find in the file. With --lacks, the calls of a broken list can execute steps that no call of the intact
// list executes.
function otherHint(lacks, file, cause) {
  if (lacks === undefined) return `listset faults ${cause} explains this error`;
  return `On the list that lacks ${lacks}, calls can take other steps than on the whole list. For each step above this line: listset trace --lacks ${lacks} ${quoted(file)}; for the cause: listset faults ${cause}`;
}

// The names of all broken lists, each followed by the kind of list in parentheses.
const BROKEN_LISTS = /^ *--lacks <NAME> [^:]*: (.*)$/m.exec(HELP.replay)?.[1] ?? "";

// Returns a hint for an option `--lacks` whose broken list is of a different kind than the list in the schedule.
function lacksHint(engine, lacks, file) {
  const all = [...BROKEN_LISTS.matchAll(/([\w-]+) \(([\w-]+)\)/g)].map(([, name, list]) => ({ name, list }));
  const of = all.find((it) => it.name === lacks)?.list;
  const list = file === "-" ? undefined : /^list (.*)$/.exec(lineOf(file, 2))?.[1];
  const fitting = all.filter((it) => it.list === list).map((it) => it.name);
  if (fitting.length > 0) return `${lacks} is a check of the ${of} list, and line 2 is 'list ${list}'. The checks of the ${list} list: ${fitting.join(", ")}`;
  if (list) return fileHint(engine, { name: "replay", texts: {}, file });
  return `${lacks} is a check of the ${of} list, and line 2 is of another list. All checks: ${BROKEN_LISTS}`;
}

// Explains why the output could not be written. The explanation depends on whether standard output is closed, is a pipe whose reader has ended, or is a file or
// device.
function unwrittenHint(name) {
  if (isOutputClosed()) return `Standard output is closed. To see the output, leave out '>&-'; to keep it: listset ${name} .. > FILE`;
  if (fs.fstatSync(1).isFIFO()) return "The command after the pipe ended before it had read all of the output, as head does. If it should read all, look there for an error";
  const to = linkOf("/proc/self/fd/1");
  if (!fs.existsSync(to)) return `The output could not be written. Write it to a file: listset ${name} .. > FILE`;
  return `The output could not be written to ${quoted(to)}: the device is full, or failed. To see how full it is: df -h ${quoted(to)}`;
}

function linkOf(file) {
  try {
    return fs.readlinkSync(file);
  } catch {
    return "";
  }
}

function tooLongHint(name) {
  if (READS[name] === "recorded calls") return `Only a recording can have more than ${LONGEST} bytes: line 1 must be 'listset-calls 1', and no line has more than 128 bytes`;
  const shortened =
    name === "check"
      ? "For a report of fewer calls, shorten its schedule: .. | head -n 1000 | listset replay | listset check"
      : `To let ${name} read the first 1000 lines of a ${name === "draft" ? "draft" : "schedule"} alone: .. | head -n 1000 | listset ${name}`;
  return `Standard input has more than ${LONGEST} bytes, and only recorded calls can have more. ${shortened}`;
}

// Returns a hint about the name of a missing file, or an empty string. There are hints for `help`, a leading `~`, a URL, the name of an example, and a name that
// lacks only its extension (if exactly one file fits).
function meant(engine, name, file) {
  if (file === "help") return `To read about this command: listset help ${name}`;
  if (file.startsWith("~")) return "A shell replaces ~ by your folder only outside of quotes";
  if (file.includes("://")) return `listset reads files, no addresses. To read it from a pipe: curl -s ${quoted(file)} | listset ${name}`;
  const ended = onlyWithEnding(file);
  if (ended) return `Perhaps you mean ${quoted(ended)}`;
  return ["replay", "show", "trace"].includes(name) && isExample(engine, file) ? `If you mean the example: listset example ${file} | listset ${name}` : "";
}

// Returns the only file whose name is the given name with an extension. Returns an empty string if no file or several files have such a name.
function onlyWithEnding(file) {
  try {
    const found = fs.readdirSync(path.dirname(file)).filter((it) => it.startsWith(`${path.basename(file)}.`));
    const ended = path.join(path.dirname(file), found[0] ?? "");
    return found.length === 1 && fs.statSync(ended).isFile() ? ended : "";
  } catch {
    return "";
  }
}

const isExample = (engine, name) => engine.ask("listset_example", name).status === 0;

// Decides whether the last line of a file has no newline and more bytes than a line of a recording can have.
function isEndLong(file) {
  const input = fs.openSync(file, "r");
  const piece = Buffer.alloc(129);
  const count = fs.readSync(input, piece, 0, 129, Math.max(0, fs.statSync(file).size - 129));
  fs.closeSync(input);
  return count === 129 && !piece.includes(10);
}

// Returns a hint for a recording that is too long for the command explain. The hint has the refused line and the cause.
function longHint(engine, file, number, cause) {
  const [, part] = engine.ask("listset_fault", cause).text.split(", in recorded calls; exit status 1\n");
  const [why] = part.split("\n\n");
  const line = lineOf(file, Number(number));
  const shown = line ? `Line ${number} is '${line}'. ` : "";
  const name = quoted(file);
  if (cause === "NotEnded" && isEndLong(file)) {
    return `${shown}The line has more than the 128 bytes that a line can have, and no newline at its end. Write the title and each call in a line of its own, which ends with LF. If another sign is between the calls, such as a semicolon: tr ';' '\\n' < ${name} > ${name}.new`;
  }
  return `${shown}${why.replace(/\s+/g, " ").trim().slice(cause.length).trim().replaceAll("FILE", name)}`;
}

// Returns a hint if a recording without `key` lines is refused for its final keys.
function keysHint({ name, values: [file = "-"] }, bytes) {
  const verdict = Buffer.from(bytes).toString();
  if (name !== "judge" || file === "-" || !/^not linearizable\nno order .* and leaves it as it was left\n/.test(verdict)) return "";
  const text = bytesOf(opened(file)).toString("latin1");
  if (/^key /m.test(text) || !text.endsWith("\nend\n")) return "";
  return `${quoted(file)} has no 'key' lines, so it says that the set is empty at the end. If its final keys are not known, write 'cut' instead of 'end': sed -i '$s/^end$/cut/' ${quoted(file)}`;
}

const namesOfExamples = (engine) => engine.ask("listset_examples").text.trimEnd().split("\n").map((line) => line.split(" ")[0]);

function brokenExamples(engine) {
  return namesOfExamples(engine).filter((it) => engine.ask("listset_broken_example", it).status === 0).sort();
}

// Returns a sentence about a misspelled value, to follow the sentence about the value's range. The sentence states how numbers are written, or which kind of
// list is probably meant.
function spelling(range, value) {
  if (/[0-9] to |: the first/.test(range)) return /^(0|[1-9][0-9]*)$/.test(value) ? "" : ". A number has decimal digits alone, and no leading zero";
  const plain = value.toLowerCase().replace(/[^a-z]/g, "").replace(/list$/, "");
  const kind = ["coarse", "fine", "optimistic", "lazy", "lock-free"].find((it) => it.replace("-", "") === plain);
  return kind ? `. Perhaps you mean ${kind}` : "";
}

// Returns a hint for an argument or option with a wrong value: the range of the value, from the command's help.
function valueHint(engine, { name, texts, values }, value) {
  const help = HELP[name] ?? "";
  const given = texts[value.toLowerCase()];
  const ofOption = new RegExp(`--${value.toLowerCase()} <[MN]> +(.*)`).exec(help)?.[1];
  if (ofOption) return `${value} '${given}' is wrong. ${ofOption}${spelling(ofOption, given)}${ofThisFile(engine, { texts, values }, value)}`;
  if (name === "example") return exampleHint(engine, values[0]);
  if (name === "faults") return `There is no cause '${values[0]}'. listset faults lists all causes`;
  if (value === "KEY") return keyHint(texts.only, values[0]);
  const range = new RegExp(`^ +\\[${value}\\] +(.*)`, "m").exec(help)?.[1];
  return argumentHint(value, values[usageOf(name).split(" ").indexOf(value) - 2], range, usageOf(name));
}

// Returns a hint for a missing or wrong argument.
function argumentHint(value, given, range, usage) {
  if (given === undefined) return `${value} is missing. ${range}. Usage: ${usage}`;
  if (given === "") return `${value} is empty. Perhaps a variable of the shell has no value. ${range}. Usage: ${usage}`;
  return `${value} '${given}' is wrong. ${range}${spelling(range, given)}. Usage: ${usage}`;
}

function exampleHint(engine, given = "") {
  if (given === "") return `NAME is missing. listset example lists the names. Some have a broken report: ${brokenExamples(engine).join(", ")}`;
  const name = path.basename(given).replace(/\.schedule$/, "");
  if (name !== given && isExample(engine, name)) return `The name of this example is ${name}: listset example ${name}`;
  const alike = namesOfExamples(engine).filter((it) => it.includes(name.toLowerCase().replaceAll(" ", "-")));
  if (alike.length > 0) return `There is no example '${given}'. Perhaps you mean ${alike.join(", ")}`;
  return `There is no example '${given}'. listset example lists the names`;
}

const isKey = (text) => /^(0|[1-9][0-9]{0,9})$/.test(text) && Number(text) < 2 ** 32;

function keyHint(only, file = "FILE") {
  const range = "It is a number from 0 to 4294967295";
  if (!isKey(only)) return `KEY '${only}' is wrong. ${range}${spelling(range, only)}`;
  return `The recording has no call of key ${only}. To see its keys: grep '^call' ${quoted(file)} | cut -d ' ' -f 4 | sort -n -u`;
}

// Returns a phrase about the range of `--from` or `--to` for the given file. Returns an empty string if the range is unknown.
function ofThisFile(engine, { texts, values: [file = "-"] }, value) {
  if (value === "TO") return `; here, ${texts.from ?? 1} or a later one`;
  if (value !== "FROM" || file === "-" || texts.lacks !== undefined) return "";
  const picture = engine.askBytes("listset_show", bytesOf(opened(file)), Buffer.from("\0\0")).bytes;
  const [, all, drawn] = /^moments .* of (\d+);|^moment .* (\d+)$/m.exec(Buffer.from(picture).toString()) ?? [];
  return all || drawn ? `; of this file, 1 to ${all ?? drawn}` : "";
}

// Returns a hint whose commands begin with the command that started this script, instead of with `listset`.
function asCalled(hint) {
  const [from, whole] = [path.relative("", process.argv[1]), process.argv[1]];
  const called = `node ${quoted(from.length < whole.length ? from : whole)}`;
  return hint.replace(NAMED, `${called} `);
}

// Matches the program's name before a command.
const NAMED = new RegExp(`\\blistset (?=((${Object.keys(COMMANDS).join("|")}|help)\\b|--version|--help))`, "g");

// Returns a hint for wrong arguments with the error message `said`. Returns an empty string if there is no hint.
function wordsHint(given, said) {
  const [name = ""] = given;
  const [, word] = /unexpected argument '([^' ]*)/.exec(said) ?? [];
  if (/unrecognized subcommand/.test(said)) return commandHint(name, said);
  const [, option] = /^error: a value is required for '(--\w+)/.exec(said) ?? [];
  if (option) return noValueHint(name, option);
  const [, flag] = /^error: unexpected value .* for '([^']*)' found/.exec(said) ?? [];
  if (flag) return `${flag} has no value: leave out the = and what comes after it`;
  if (/^error: the argument .* multiple times/.test(said)) return "Keep one of them: the command takes it once";
  if (word?.startsWith("-")) return optionHint(given, word);
  if (!word) return "";
  if (COMMANDS[name]?.most > 1) return `${name} has fewer arguments: leave out '${word}'`;
  if (name === "example") return "example prints one schedule. Run the command once for each";
  if (name === "faults") return "faults explains one cause, the last word of an error line. Run the command once for each";
  const whole = given.slice(1).filter(isValue).join(" ");
  if (fs.existsSync(whole) && fs.statSync(whole).isFile()) return `If you mean one file, quote its name: listset ${name} ${quoted(whole)}`;
  return `${name} reads one file. Run the command once for each`;
}

// Returns a hint for an option without a value.
function noValueHint(name, option) {
  const [, value, about] = new RegExp(`^ *${option} <([A-Z]*)> *(.*)`, "m").exec(HELP[name] ?? "") ?? [];
  return `Write the value after ${option}. ${value ? `${value}: ${about}` : `listset help ${name} says what it can be`}`;
}

// Returns a hint for a word that was typed in place of a command.
function commandHint(word, said) {
  if (fs.existsSync(word) && fs.statSync(word).isFile()) {
    const kind = kindOf(word);
    return `If you mean the file: ${kind ? `${kind.is}. ${kind.use}` : `listset explain ${quoted(word)}`}`;
  }
  if (/tip:/.test(said)) return "";
  if (word === "") return "The command is empty. Perhaps a variable of the shell has no value. listset --help lists the commands";
  if (word === "-") return "A command comes first, such as: listset replay -";
  if (word === "version") return "listset --version prints the version";
  const isCapital = word !== word.toLowerCase() && Object.hasOwn(COMMANDS, word.toLowerCase());
  return isCapital ? `Commands are in lower case: listset ${word.toLowerCase()}` : "listset --help lists the commands";
}

const optionsOf = (name) => [...Object.keys(COMMANDS[name].options), ...(COMMANDS[name].flag ? [COMMANDS[name].flag] : [])];

// Returns a hint for an argument that begins with a hyphen.
function optionHint(given, word) {
  const [name] = given;
  if (/^-[0-9]/.test(word)) return negativeHint(given, word);
  const owners = Object.keys(COMMANDS).filter((it) => optionsOf(it).includes(word));
  if (owners.length > 0) return `${word} is an option of ${owners.join(", ").replace(/, (\w+)$/, " and $1")}`;
  if (name === word && /^-(v|-v|-ver)$/.test(word)) return "listset --version prints the version";
  const all = Object.keys(COMMANDS).flatMap(optionsOf);
  const single = all.find((it) => given.some((other) => other.split("=")[0] === it.slice(1)));
  if (single) return `An option has two hyphens: ${single}`;
  if (["-o", "--out", "--output"].includes(word)) return `The result goes to standard output. To write it to a file: listset ${name} .. > FILE`;
  const file = given.find((it) => it.startsWith(word) && fs.existsSync(`./${it}`));
  if (file) return `If you mean the file: listset ${name} ${quoted(file)}`;
  const alike = Object.hasOwn(COMMANDS, name) && optionsOf(name).find((it) => distance(it, word) <= 2);
  if (alike) return `If you mean the option: ${alike}`;
  if (Object.hasOwn(HELP, word.replace(/^-*/, ""))) return `A command has no hyphens: listset ${word.replace(/^-*/, "")}`;
  const value = word.slice(2).toUpperCase();
  if (value !== "" && Object.hasOwn(COMMANDS, name) && usageOf(name).split(/[[\] ]+/).includes(value)) return `${value} is known by its place, without ${word}. Usage: ${usageOf(name)}`;
  return name.startsWith("-") ? "listset --help lists the commands" : `listset help ${name} lists its arguments and options`;
}

// Returns a hint for a negative number: the range of the number's option or argument.
function negativeHint([name, ...words], word) {
  const at = words.findIndex((it) => it.startsWith(word));
  const option = Object.hasOwn(COMMANDS[name]?.options ?? {}, words[at - 1]) && words[at - 1];
  if (option === "--only") return keyHint(words[at]);
  if (option) return valueHint(null, { name, texts: { [option.slice(2)]: words[at] }, values: [] }, option.slice(2).toUpperCase());
  const before = words.slice(0, at).filter(isValue).length;
  const value = (usageOf(name).split(" ")[before + 2] ?? "").replace(/[[\]]/g, "");
  const range = new RegExp(`^ +\\[?${value}\\]? +(.*)`, "m").exec(HELP[name] ?? "")?.[1];
  return range ? `${value} '${word}' is wrong. ${range}` : `listset help ${name} lists its arguments and options`;
}

// If the command reads from a terminal, prints the kind of text that the command reads, and how to end the input. (If ./listset has started this script,
// ./listset has printed that message.)
function tellWhatIsRead({ name, isOfFile, values: [file = "-"] }) {
  if (!isOfFile || file !== "-" || process.env.LISTSET_ENGINE !== undefined || !isatty(0) || !isatty(2)) return;
  process.stderr.write(`listset: ${asCalled(`reading ${READS[name]} from the terminal, up to Ctrl-D (see listset help ${name})`)}\n`);
}

async function main(given) {
  const words = asked(given);
  tellWhatIsRead(words);
  const isOther = process.env.LISTSET_ENGINE === "other";
  const engine = words.isBuilt || isOther ? null : await startedEngine(readForEngine);
  if (engine !== null) return write(answerOrTrouble(engine, words), hintOn(engine, words));
  const instead = words.name === "run" ? asCalled(". To see random calls in Node, step by step: listset gen lazy 2 4 9 5 1 | listset replay") : "";
  const why = words.isBuilt ? `${words.name} needs a built program, which Node does not have. The script ./listset builds one with the command rt of the Rattle toolchain (README.md, "Try it")${instead}` : NOT_RUN;
  if (process.env.LISTSET_ENGINE === undefined) process.stderr.write(`listset: ${why}\n`);
  process.exitCode = NO_ENGINE;
}

main(process.argv.slice(2)).catch((fault) => {
  if (!(fault instanceof Printed)) {
    process.exitCode = 1;
    return process.stderr.write(`listset: ${fault.message}\n`);
  }
  process.exitCode = fault.status;
  if (fault.status === 0) return write({ status: 0, bytes: Buffer.from(fault.message) });
  const hint = process.stderr.isTTY ? asCalled(wordsHint(process.argv.slice(2), fault.message)) : "";
  process.stderr.write(hint === "" ? fault.message : `${fault.message}${hint}\n`);
});
