// Usage: `node tests/handed.js`. Checks hand-ins, including those that were sent by mail, and the teacher's tool check_lessons.js. Prints as JSON how many
// checks passed, and which checks failed.
"use strict";

const { spawnSync } = require("child_process");
const fs = require("fs");
const os = require("os");
const path = require("path");
const { inPage, startedEngine } = require("../in_node.js");

const [textsIn, readHandIn, handInText, triedCourse] = ["textsIn", "readHandIn", "handInText", "triedCourse"].map(inPage);
const PAGE = path.join(__dirname, "..");
const BOOK = path.join(PAGE, "book.course");
const NAME = inPage("BOOK_NAME");
const ORDER = "judge read-in-anothers-step replies 0-true,2-true,1-false,3-true";
const ORDER_OF_RUN =
  "judge #list=lazy&threads=2&quota=4&s=b0.add.5,g0.11,b1.remove.5,g1.11,b0.contains.5,g0.1,g0.1,g0.2,b1.contains.5,g1.4&event=33 replies 0-true,1-true,2-false,3-false";
const BROKEN = "break new-slot #list=lock-free&threads=1&quota=2&s=b0.add.4,g0.6,b0.add.5,g0.8&event=16";
const BROKEN_OWN =
  "break mark-in-remove #list=lock-free&threads=2&quota=2&opening=3.7&s=b0.remove.3,g0.4,b1.remove.3,g1.4,g0.2,g1.2&event=14";
const result = { passed: 0, failed: [] };

function check(name, isGood) {
  if (isGood) result.passed++;
  else result.failed.push(name);
}

const same = (one, other) => JSON.stringify(one) === JSON.stringify(other);
const quoted = (text) => text.replace(/^/gm, "> ");
const folded = (text, width) => text.replace(new RegExp(`(\\S{${width}})(?=\\S)`, "g"), "$1\n");
const atSpaces = (text) => text.replace(/^(?!student|course|listset).*$/gm, (line) => line.replaceAll(" ", "\n"));
const isShort = (line) => /^(student|course|listset|end)/.test(line);
const wrappedHard = (text, width) => text.replace(/^.+$/gm, (line) => (isShort(line) ? line : line.replace(new RegExp(`(.{${width}})(?=.)`, "g"), "$1\n")));
// Breaks each line after the last space, comma, hyphen or `&` that fits in the width. A line without these characters is broken at the width.
const wrappedAtSigns = (text, width) =>
  text.replace(/^.+$/gm, (line) => (isShort(line) ? line : line.replace(new RegExp(`(.{1,${width - 1}}[ ,&-]|.{${width}})(?=.)`, "g"), "$1\n").replace(/ \n/g, "\n")));
const coded = (text) => text.replaceAll("=", "=3D").replace(/(.{60}[^=]{3})(?=.)/g, "$1=\n");

// Changes that mail programs make to a hand-in: quoted, wrapped or encoded lines, and additional lines around the hand-in.
const MAILED = {
  "as it is": (text) => text,
  "with CRLF": (text) => text.replaceAll("\n", "\r\n"),
  "with old line ends": (text) => text.replaceAll("\n", "\r"),
  quoted,
  "quoted three times": (text) => quoted(quoted(quoted(text))),
  "folded at 40": (text) => folded(text, 40),
  "folded at 76, quoted, CRLF": (text) => quoted(folded(text, 76)).replaceAll("\n", "\r\n"),
  "folded at spaces": atSpaces,
  "quoted-printable": coded,
  "quoted-printable, quoted": (text) => quoted(coded(text)),
  "as HTML": (text) => text.replaceAll("&", "&amp;"),
  ...Object.fromEntries([45, 46, 47, 52, 53, 60, 64, 71, 72, 73, 74, 75, 76, 77, 78, 79, 80, 98].map((width) => [`wrapped hard at ${width}`, (text) => wrappedHard(text, width)])),
  ...Object.fromEntries([45, 60, 72, 76, 80].map((width) => [`wrapped at signs before ${width}`, (text) => wrappedAtSigns(text, width)])),
  "with links": (text) => text.replaceAll("#", "https://lists.example/page/index.html#"),
  "with links in brackets": (text) => text.replace(/(#\S+)/g, "<https://lists.example/page/index.html$1>"),
  "with blank lines and spaces": (text) => text.replaceAll("\n", "  \n\n"),
  "with no-break spaces": (text) => text.replaceAll(" ", "\u00a0"),
  "between other words": (text) => `Dear Professor,\nhere it is: judge me mildly.\n\n${text}\nBest wishes\nAda #1\n`,
};

function checkMail(course) {
  const answers = course.lessons.map(({ name, solution }) => ({ name, schedule: solution }));
  const text = handInText(NAME, "Ada Lovelace", answers, [ORDER, ORDER_OF_RUN, `${BROKEN} named`]);
  const wanted = readHandIn(textsIn(text)[0]);
  check(
    "a text that is made is read",
    wanted.solutions.length === 15 && wanted.student === "Ada Lovelace" && wanted.faults.length === 0,
  );
  for (const [how, mailed] of Object.entries(MAILED)) {
    const found = textsIn(mailed(text));
    const read = found.length === 1 ? readHandIn(found[0]) : {};
    const linesOf = ({ solutions }) => solutions?.map(({ line }) => line.replace(/<?https:\S*?(?=#)/, "").replace(/>( |$)/, "$1"));
    const isWhole = read.student === wanted.student && read.course === NAME && read.faults.length === 0;
    const isSame = isWhole && same(linesOf(read), linesOf(wanted));
    check(`${how}: ${JSON.stringify(read).slice(0, 600)}`, isSame);
  }
  const class_ = textsIn(`${text}${fs.readFileSync(BOOK, "utf8")}${quoted(text)}`);
  check("a class and a course in one file", same(class_.map(({ kind }) => kind), ["hand-in", "course", "hand-in"]));
  check("the course as it stands", class_[1].text === fs.readFileSync(BOOK, "utf8").replace(/\n$/, ""));
}

// Writes the texts to files, and returns the output and the exit status of the teacher's tool for these files.
function said(folder, ...texts) {
  const files = texts.map((text, index) => {
    const file = path.join(folder, `${index}.txt`);
    fs.writeFileSync(file, text);
    return file;
  });
  return told(...files);
}

function told(...words) {
  const done = spawnSync(process.execPath, [path.join(PAGE, "check_lessons.js"), ...words], { encoding: "utf8" });
  return { status: done.status, lines: done.stdout.split("\n").slice(0, -1), fault: done.stderr };
}

function checkTeacher(course, folder) {
  const answers = course.lessons.map(({ name, solution }) => ({ name, schedule: solution }));
  const text = (student, solutions, orders = []) => handInText(NAME, student, solutions, orders);
  const all = said(folder, text("Ada", answers, [ORDER, BROKEN]));
  const very = `Ada: ${course.lessons.map(({ title }) => title).join("; ")}: same schedule as the answer that the page shows`;
  check(`all: ${all.lines}`, same(all, { status: 0, lines: ["Ada: 14 of 14 solved", very], fault: "" }));
  const whole = said(folder, text("Ada", answers, [BROKEN.replace(",b0.add.5,g0.8", "")]));
  check(`explained: ${whole.lines[1]}`, whole.status === 1 && whole.lines[1].endsWith("Not broken yet: some order explains this run."));
  const two = `${text("Ada", answers)}\n${quoted(text("Bo", answers.slice(1)))}`;
  const group = said(folder, two, text("Cy", [], ["judge snip points 0-true"]));
  check(`a class: ${group.lines.join("; ")}`, group.status === 1 && group.lines.includes("Bo: 11 of 13 solved; open: judge snip points; The one lock"));
  check("how many have all", group.lines.at(-1) === "0 of 3 students have solved all");
  const wrong = group.lines.find((line) => line.startsWith("Cy: judge snip points"));
  check(`an order that is wrong: ${wrong}`, wrong?.includes("Still missing: "));
  const twice = said(folder, text("Ada (7)", answers.slice(0, 6)), text("ada (7)", answers.slice(6)));
  check(`two texts of one student: ${twice.lines}`, twice.status === 0 && /merged from .*0.txt, .*1.txt$/.test(twice.lines[1]));
  const followed = said(folder, text("Di", answers).replace(/^(one-lock .*)$/m, "$1\n=====\nDi,4711\n-"));
  check(`lines after a solution do not make it wrong: ${followed.lines[0]}`, followed.lines[0] === "Di: 12 of 12 solved");
  const named = said(folder, text("Max", answers.slice(0, 6)), text("Max", answers.slice(6)));
  check(`two of one name: ${named.lines}`, named.status === 1 && named.lines.filter((line) => line.startsWith("Max: 2 rows with this name")).length === 2);
}

// Checks the tool's options and inputs: hand-ins in a folder and in UTF-16, results as CSV, and a wrong link. With an assignment's link, only the tasks of this
// assignment count.
function checkAssignment(course, folder) {
  const link = "https://lists.example/page/#assignment=Week+3&learn=one-lock";
  const [answer, other] = course.lessons.map(({ name, solution }) => ({ name, schedule: solution }));
  const inner = fs.mkdtempSync(path.join(folder, "class-"));
  const text = handInText(NAME, "Jörg (1)", [answer, other], [], "Week 3");
  fs.writeFileSync(path.join(inner, "utf-16.txt"), Buffer.from(`\ufeff${text}`, "utf16le"));
  const table = path.join(folder, "table.csv");
  const { status, lines } = told("--assignment", link, "--csv", table, inner);
  const due = ["Jörg (1): 1 of 1 solved", "Jörg (1): 1 solution of tasks not asked: Hand over hand"];
  check(`an assignment: ${lines}`, status === 0 && due.every((line) => lines.includes(line)));
  const csv = fs.readFileSync(table, "utf8").split("\r\n");
  check(`its table: ${csv}`, csv[1].startsWith("Jörg,1,1,1,1,") && csv[0].includes("The one lock"));
  fs.writeFileSync(path.join(inner, "other.txt"), Buffer.from(handInText(NAME, "Käthe (2)", [answer], [], "Week 2"), "latin1"));
  const late = told("--assignment", link, inner);
  check(`another week, in Windows-1252: ${late.lines}`, late.status === 1 && late.lines.includes("Käthe (2): handed in for “Week 2”: not counted"));
  for (const wrong of ["http://example.org/foo", "#assignment=x&learn=one-lok", "#assignment=x"]) {
    const { status, lines, fault } = told("--assignment", wrong, inner);
    check(`the link ${wrong}: ${fault}`, status === 2 && lines.length === 0 && /^lessons: .* link .*\n$/.test(fault));
  }
}

// Checks that copied solutions are found: schedules with the same steps from two students, even if the steps are grouped into different lines. A schedule that
// many students hand in, or that is an example, does not count as copied.
function checkOwn(ask, course, folder) {
  const text = (student, solutions, lines = []) => handInText(NAME, student, solutions, lines);
  const own = ({ name, solution }, from, to) => ({ name, schedule: solution.replace(from, to) });
  const [waits, marked] = ["one-lock", "marked-in-chain"].map((name) => course.lessons.find((lesson) => lesson.name === name));
  const first = [own(waits, "go 0 1\n", "go 0 2\n"), own(marked, "go 0 3\n", "go 0 1\ngo 0 2\n")];
  const grouped = [first[0], own(marked, "go 0 3\n", "go 0 2\ngo 0 1\n")];
  const many = ["Bo", "Cy", "Di", "Ed", "Flo"].map((name) => text(name, [], [BROKEN_OWN]));
  const group = said(folder, text("Ada", first, [BROKEN_OWN]), text("Dee", grouped, [BROKEN_OWN]), ...many).lines;
  const copies = group.filter((line) => line.includes("same schedules: "));
  const due = ["Ada: same schedules: 3 of 3 with Dee", "Dee: same schedules: 3 of 3 with Ada"];
  check(`the same schedules: ${copies}`, same(copies.slice(0, 2), due) && copies.length === 3 && /: one schedule is shared by \d+ students; short ones often are\.$/.test(copies[2]));
  const table = path.join(folder, "groups.csv");
  const files = ["Ada", "Bo", "Cy", "Di", "Ed"].map((name, at) => [`g${at}.txt`, text(name, [], [`${BROKEN_OWN}${at % 2 === 0 ? " named" : ""}`, at < 2 ? ORDER : ORDER.replace(/replies/, "points")])]);
  for (const [name, words] of files) fs.writeFileSync(path.join(folder, name), words);
  told("--csv", table, ...files.map(([name]) => path.join(folder, name)));
  const rows = fs.readFileSync(table, "utf8").split("\r\n").slice(1);
  check(`the group of a schedule is named: ${rows[0]}`, rows[0].includes("Break 7: LockFreeList: as Bo, Cy and 2 more"));
  check(`how a task was solved: ${rows}`, rows[0].includes("check named") && rows[1].includes("check not named") && rows[0].includes("replies and moments") && rows[2].includes("moments alone"));
  const example = ask("listset_example", "stale-pred").text;
  const trace = new (inPage("Trace"))(ask("listset_lacking", "second-walk", example, "trace").text, inPage("versionOf")(example));
  const shown = inPage("scheduleOfTrace")(trace);
  const line = `break second-walk ${inPage("addressOf")(shown, trace.total)}`;
  const [named] = said(folder, text("Eve", [], [line])).lines.slice(-1);
  check(`that of an example: ${named}`, named.endsWith("exactly the run of the example stale-pred"));
  const other = said(folder, text("Eve", [], [BROKEN_OWN])).lines;
  check(`but not one's own: ${other}`, same(other, ["Eve: 1 of 1 solved"]));
  const nowhere = said(folder, "listset-lessons 2\ncourse Another\nstudent Eve\nend\n");
  check(`a course that is not there: ${nowhere.lines}`, nowhere.status === 1 && nowhere.lines.includes("Eve: the course “Another” is not among the files"));
}

function checkBadTexts(folder) {
  const text = `listset-lessons 2
student \u001bEve (2)
one-lock
two-at-once #list=fine&threads=2&quota=4&opening=3.6.9&s=b0.remove.9,g0.12,b1.add.3,g1.6&event=20
two-at-once #list=fine&threads=2&quota=4&opening=3.6.9&s=b0.remove.9,g0.99
lost-pred #example=stale-pred&event=30
changed-link #list=optimistic&threads=2&quota=4&s=
marked-in-chain #list=lazy&threads=2&quota=4&opening=5&s=b0.add &event=3
over-removed-nodes #list=lazy&threads=2&quota=4&s=b0.add.5,g0.x
no-lesson #list=lazy&threads=2&quota=4&s=
judge snip points 0-true
judge nosuch points 0-true
judge snip deep 0-true
judge snip replies 0-foo,2-true,1-true
This is not a line of a solution.
`;
  const { status, lines } = said(folder, text);
  const due = [
    `line 15: "This is not a line of a solution." is not a line of a solution`,
    'line 1: the text that begins here has no final line "end"; its solutions are counted',
    "The one lock: the address of a schedule is missing, from # on",
    "Two at once: missing: B has an add that answers true.",
    "Two at once: Line 9 of the schedule is refused: the thread has no pending call.",
    "The lost predecessor: the address is not that of a schedule",
    "The changed link: The list, the number of threads, the quota and the opening keys must be those of the lesson.",
    "Marked, and still in the chain: more follows the address",
    'Over removed nodes: "g0.x" is no s of an address',
    'there is no lesson "no-lesson"',
    "judge snip points: Still missing: the moment of remove(5) of A, the moment of add(7) of B.",
    'judge nosuch points: there is no example "nosuch"',
    "judge snip deep: expected a level, one of points, replies",
    "judge snip replies: This order is not judged: listset: line 8: Line.",
  ];
  for (const line of due) check(`told: ${line}; ${lines.slice(0, 16).join("; ")}`, lines.some((one) => one.startsWith("?Eve (2): ") && one.endsWith(line)));
  check(`nothing is solved: ${lines[0]}`, status === 1 && lines[0].startsWith("?Eve (2): 0 of "));
}

function checkCourses(folder) {
  const own = `listset-course 1
course Mine
lesson first
title First
list lazy
threads 2
quota 4
question
  Let thread 0 add 5.
answer
  begin 0 add 5
  go 0 11
goal
  call C of 0: add, key 5, answers true
  say Thread 0 has added 5.
`;
  const good = said(folder, own);
  check(`a course: ${good.lines}`, good.status === 0 && good.lines[0].endsWith("Mine: 1 lesson, 0 faults"));
  const bad = said(folder, own.replace("go 0 11", "go 0 12"));
  check(
    `its answer is refused: ${bad.lines}`,
    bad.status === 1 && bad.lines[0].includes('line 12: first: its answer is refused at "go 0 12": the thread has no pending call'),
  );
  const handed = "listset-lessons 2\ncourse Mine\nstudent Ada\nfirst #list=lazy&threads=2&quota=4&s=b0.add.5,g0.11&event=12\nend\n";
  const both = said(folder, own, handed);
  check(`of one's own course: ${both.lines}`, both.status === 0 && both.lines[0].startsWith("Ada: 1 of 1 solved"));
  check("in one file", said(folder, own + handed).status === 0);
  fs.writeFileSync(path.join(folder, "own.course"), own);
  const ofCourse = told("--link", path.join(folder, "own.course"));
  check(
    `the link of a course: ${ofCourse.lines}`,
    ofCourse.status === 0 && /^page\/index\.html#course=[\w-]+$/.test(ofCourse.lines[1]),
  );
}

// Checks that the tool reports wrong arguments and unreadable files, and still judges the other files.
function checkWords(folder) {
  for (const words of [[], ["--help"], ["-x", BOOK], ["--link"], [path.join(folder, "no-such-file")]]) {
    const { status, lines, fault } = told(...words);
    check(`the words ${words}: ${fault}`, status === 2 && lines.length === 0 && /^lessons: .+\n$/.test(fault));
  }
  const mixed = said(folder, "listset-schedule 1\n", "listset-lessons 2\nstudent Ada\nend\n");
  check(
    `a bad file among others: ${mixed.fault}`,
    mixed.status === 2 && mixed.fault.includes("0.txt: no line is") && mixed.lines.length > 0,
  );
  check("an empty file", said(folder, "").status === 2);
}

async function main() {
  const engine = await startedEngine();
  const course = triedCourse((name, text) => engine.ask(name, text), fs.readFileSync(BOOK, "utf8"));
  const folder = fs.mkdtempSync(path.join(os.tmpdir(), "lessons-"));
  checkMail(course);
  checkTeacher(course, folder);
  checkAssignment(course, folder);
  checkOwn((...asked) => engine.ask(...asked), course, folder);
  checkBadTexts(folder);
  checkCourses(folder);
  checkWords(folder);
  fs.rmSync(folder, { recursive: true });
  process.stdout.write(JSON.stringify(result));
}

main();
