// Usage: `node tests/lessons.js`. Checks the texts and the goals of the lessons, and the sentences about a student's attempt. Prints as JSON how many checks
// passed, and which checks failed. The file recorded.txt has schedules for each lesson. A schedule has a digit for each condition of the lesson's goal: 1 if
// the run meets the condition, otherwise 0.
"use strict";

const fs = require("fs");
const path = require("path");
const { inPage, startedEngine } = require("../in_node.js");

const [readCourse, triedCourse, judged] = ["readCourse", "triedCourse", "judged"].map(inPage);
const [missingIn, scheduleText] = ["missingIn", "scheduleText"].map(inPage);
const TEXT = fs.readFileSync(path.join(__dirname, "..", "book.course"), "utf8");

const result = { passed: 0, failed: [] };

function check(name, isGood) {
  if (isGood) result.passed++;
  else result.failed.push(name);
}

const scheduleOf = (lesson, events) => scheduleText(lesson, events.split(",").map(inPage("longLine")));

const SPLIT = ["one-lock"]; // lessons with conditions that were split later: a schedule meets all new conditions if it met all old ones

// Checks that each run in recorded.txt meets those conditions of the lesson's goal that the file marks with 1, and no others.
function checkRecorded(ask, { lessons }) {
  for (const line of fs.readFileSync(path.join(__dirname, "recorded.txt"), "utf8").trimEnd().split("\n")) {
    const [name, bits, events] = line.split(" ");
    const lesson = lessons.find((one) => one.name === name);
    const trace = new (inPage("Trace"))(ask("listset_trace", scheduleOf(lesson, events)).text);
    const found = inPage("conditionsOf")(lesson.goal, new (inPage("Run"))(trace)).map(({ isMet }) => Number(isMet)).join("");
    const isAsKnown = SPLIT.includes(name) ? found.includes("0") === bits.includes("0") : found === bits;
    const { isSolved } = judged(ask, lesson, scheduleOf(lesson, events));
    check(`${name}: ${events} meets ${found}, and not ${bits}`, isAsKnown && isSolved === (!bits.includes("0") && trace.refused === null));
  }
}

function checkBook(ask, { name, lessons, faults }) {
  check(`the book's course has no fault: ${JSON.stringify(faults)}`, faults.length === 0 && lessons.length === 12);
  check("the page has its text", inPage("BOOK") === TEXT && inPage("BOOK_NAME") === name);
  const head = TEXT.slice(0, TEXT.indexOf("\ncourse ")).replace(/\n# */g, " ");
  for (const [sort, clauses] of Object.entries(inPage("CLAUSES"))) {
    for (const [pattern] of clauses) {
      const words = pattern.source.replace(/^\^|\$$/g, "").split("(")[0].trim() || "add, remove, contains, ceiling";
      check(`its head tells of the clause "${words}" of a ${sort}`, head.includes(words));
    }
  }
  for (const lesson of lessons) {
    const others = lessons.filter((other) => other !== lesson && judged(ask, lesson, other.solution).isSolved);
    check(`${lesson.name}: the answer of another solves it: ${others.map((other) => other.name)}`, others.length === 0);
    check(`${lesson.name}: no event solves it no more`, !judged(ask, lesson, scheduleText(lesson, [])).isSolved);
  }
}

// The most likely wrong attempt at each lesson, and the beginning of the text that explains why it fails.
const LIKELY = {
  "one-lock": { lines: ["go 0 out"], deadEnd: "The add of thread 0 has ended before that of thread 1." },
  "hand-over-hand": { lines: ["go 0 out", "go 1 out"], deadEnd: "Both calls have ended" },
  "two-at-once": { lines: ["go 0 out"], deadEnd: "The remove has ended: thread 0 no longer holds a lock." },
  "changed-link": { lines: ["go 0 out"], deadEnd: "The remove has answered true without such a failure." },
  "lost-pred": { lines: ["go 0 out"], deadEnd: "The add has answered true, and its second walk did not miss pred" },
  "marked-in-chain": { lines: ["go 1 out", "begin 0 contains 5", "go 0 out"], deadEnd: "That remove has ended" },
  "stopped-thread": { lines: ["go 0 out"], deadEnd: "The remove of thread 0 has ended" },
  "over-removed-nodes": { lines: ["go 0 out"], deadEnd: "This contains has ended" },
  "in-anothers-step": { lines: ["go 0 out"], deadEnd: "This contains has answered true" },
  "left-to-others": { lines: ["go 1 out"], deadEnd: "This remove has unlinked its node itself" },
  "not-wait-free": { lines: ["go 0 out"], deadEnd: "That add has ended" },
  "ceiling-in-anothers-step": { lines: ["go 0 out"], deadEnd: "This ceiling has answered 7" },
};

// Checks the sentences about an attempt that misses a lesson's goal. The sentences must state the first condition that is not met and, if the goal can no
// longer be reached, the reason.
function checkTries(ask, { lessons }) {
  const lesson = lessons.find(({ name }) => name === "in-anothers-step");
  const tries = [
    ["b0.contains.5,g0.2", "missing: Thread 0's contains returns false.", null],
    ["b0.contains.5,g0.3", "missing: Thread 0's contains returns false.", "This contains has answered true"],
    ["b1.remove.5,g1.10,b0.contains.5,g0.2", "missing: Just after each of its own events", "It answers false, but"],
  ];
  for (const [events, missing, deadEnd] of tries) {
    const verdict = judged(ask, lesson, scheduleOf(lesson, events));
    check(`${events}: ${missingIn(verdict)}`, missingIn(verdict).startsWith(missing));
    check(`${events}: ${verdict.deadEnd}`, deadEnd === null ? verdict.deadEnd === null : verdict.deadEnd?.startsWith(deadEnd));
  }
  for (const { name, start, lacks, ...rest } of lessons) {
    const draft = inPage("scheduleOfDraft")(ask, scheduleText({ ...rest, start }, [...start, ...LIKELY[name].lines]), lacks);
    const { isSolved, deadEnd } = judged(ask, lessons.find((one) => one.name === name), draft.text);
    check(`${name}: the most likely wrong try: ${deadEnd}`, !isSolved && deadEnd?.startsWith(LIKELY[name].deadEnd) === true);
  }
  for (const one of lessons) check(`${one.name}: a solution is no dead end`, judged(ask, one, one.solution).deadEnd === null);
}

// Checks that some schedules are not judged, and that the page states the reason.
function checkReasons(ask, [lesson]) {
  const answer = lesson.solution;
  const reasons = [
    [answer.replace("quota 4", "quota 5"), "The list, the number of threads"],
    [answer.replace("list coarse", "list fine"), "The list, the number of threads"],
    [answer.replace("schedule 1", "schedule 2").replace("quota 4\n", "quota 4\nopening 1\n"), "The list, the number of threads"],
    [`${answer}go 0 1\n`, "Line 15 of the schedule is refused: the thread has no pending call."],
    [`${answer}begin 0 add 05\n`, "The schedule is refused: listset: line 15: Number."],
    [`${answer}begin 0 contains 9\ngo 0 999\n`, "A solution has at most 1000 events."],
  ];
  for (const [schedule, reason] of reasons) {
    const verdict = judged(ask, lesson, schedule);
    check(`${reason} of ${schedule}: ${verdict.reason}`, !verdict.isSolved && verdict.reason?.startsWith(reason));
  }
  check(
    "a text of version 2 with the same set is looked at",
    judged(ask, lesson, answer.replace("schedule 1", "schedule 2")).isSolved,
  );
}

// Changes that make the text of a course wrong. A change has the text to replace, the replacement, a part of the line that the error message must name, and the
// error message.
const BROKEN = [
  ["listset-course 1", "listset-course 2", "listset-course 2", 'expected "listset-course 1" here'],
  [/^course .*$/m, "", "listset-course 1", 'expected the line "course NAME"'],
  ["title The one lock\n", "", "lesson one-lock", 'the lesson lacks "title"'],
  ["list coarse", "list course", "list course", '"course" is not a value of "list": expected coarse, fine'],
  ["threads 3", "threads three", "threads three", '"three" is not a value of "threads"'],
  ["quota 4\n", "quota 4 4\n", "quota 4 4", '"4 4" is not a value of "quota"'],
  ["threads 3\n", "threads 3\nquota 5\n", "quota 4", '"quota" is in this lesson already, at line '],
  ["quota 4\nstart", "start\nquota 4", "quota 4", 'expected "quota" above "start"'],
  ["\nquestion\n", "\nqestion\n", "qestion", '"qestion" is not a word of a lesson'],
  ["\nstart\n", "\nstart begin 0 add 5\n", "start begin", 'expected what "start" says in the lines below it'],
  ["lesson hand-over-hand", "lesson one-lock", "lesson one-lock", "there is a lesson one-lock above"],
  ["\n  step S in C: last", "\n  step S in D: last", "in D: last", "nothing above is named D"],
  ["\n  step S: sees a mark", "\n  step S: sees the mark", "sees the mark", '"sees the mark" is not a clause of a step'],
  ["\n  call A: within R", "\n  call A: within A", "within A", "A is a call, and a rest is due there"],
  ["\n  call A: within R", "\n  step A: last", "  step A: last", "A is a call"],
  ["\n  rest R of 0: holding 2", "\n  rest R in A", "rest R in A", "a rest is that of a thread"],
  ["\n  all calls ended", "\n  calls end", "  calls end", '"calls end" is not a line of a goal, such as "call C of 0'],
  ["  say At that moment the node is still in the chain.\n", "", "  step S: in the chain", 'a goal ends with a line "say .."'],
];

// Checks that each error in the text of a course is reported with the line of the error.
function checkFaults() {
  for (const [from, to, mark, says] of BROKEN) {
    const given = TEXT.replace(from, to);
    const wanted = given.split("\n").findLastIndex((line) => line.includes(mark)) + 1;
    const first = given.split("\n").findIndex((line) => line.includes(mark) && !line.startsWith("#")) + 1;
    const { faults } = readCourse(given);
    const isTold = faults.some(({ line, fault }) => fault.startsWith(says) && (line === first || line === wanted));
    check(`${says}, line ${first} or ${wanted}: ${JSON.stringify(faults.slice(0, 3))}`, given !== TEXT && isTold);
  }
  const short = [
    ["", 1, 'expected "listset-course 1" here'],
    ["listset-course 1\ncourse x\n", 1, "there is no lesson below"],
    ["listset-course 1\ncourse x\n  go 0 1\n", 3, "this line belongs to no word"],
    ["listset-course 1\ncourse x\ntitle y\n", 3, 'expected "lesson NAME" above "title"'],
  ];
  for (const [given, line, says] of short) {
    const { faults } = readCourse(given);
    check(`${says}: ${JSON.stringify(faults)}`, faults.some((found) => found.line === line && found.fault.startsWith(says)));
  }
}

// Checks that the start and the answer of a lesson are also accepted as drafts (short forms of schedules, which the engine expands).
function checkDrafts(ask, { lessons }) {
  const drafted = TEXT.replace("  go 1 7\n  begin 0 contains 5\n  go 0 3\n", "  go 1 to 12\n  begin 0 contains 5\n  go 0 out\n");
  const course = triedCourse(ask, drafted);
  const [plain, own] = [lessons, course.lessons].map((all) => all.find(({ name }) => name === "marked-in-chain"));
  check(`a draft is its schedule: ${JSON.stringify(course.faults)}`, drafted !== TEXT && own.solution === plain.solution);
  const [{ fault }] = triedCourse(ask, TEXT.replace("  go 1 7\n", "  go 1 to 99\n")).faults;
  const refused = 'marked-in-chain: its answer is refused at "go 1 to 99": the thread has no pending call';
  check(`one that is refused: ${fault}`, fault.startsWith(refused));
}

// Checks that the schedules of a lesson are run when the lesson is read: the lesson's start and answer must be valid, and only the answer may reach the goal.
function checkTrials(ask) {
  const trials = [
    ["  begin 0 add 5\n", "  begin 0 ad 5\n", "one-lock: its start is refused at \"begin 0 ad 5\": expected "],
    ["  go 0 7\n", "  go 0 70\n", "one-lock: its answer is refused at \"go 0 70\": the thread has no pending call"],
    ["  go 2 1\n  go 0 1\n", "  go 2 1\n", "one-lock: its answer does not solve it: missing: Thread 0 tries to lock the list"],
    ["begin 1 remove 5\nquestion", "begin 1 remove 5\n  go 1 7\n  begin 0 contains 5\n  go 0 3\nquestion",
      "marked-in-chain: its start meets the goal already"],
  ];
  for (const [from, to, says] of trials) {
    const { faults } = triedCourse(ask, TEXT.replace(from, to));
    check(`${says}: ${JSON.stringify(faults)}`, faults.length === 1 && faults[0].fault.startsWith(says));
    const named = /at "([^"]+)"/.exec(says)?.[1];
    const line = TEXT.replace(from, to).split("\n")[faults[0].line - 1];
    check(`it is told by its line, "${line}"`, named === undefined ? line.startsWith("lesson ") : line.trim() === named);
  }
  const other = `\ufeff${TEXT.replaceAll("\n  ", "\n\t").replaceAll("\n", "\r\n")}`;
  check("CRLF, a mark of order and tabs are no fault", triedCourse(ask, other).faults.length === 0);
}

// Checks that the course on the teachers' page is valid, even if its text is indented. The goal must accept exactly the runs that the question describes.
function checkOwnCourse(ask) {
  const [, text] = /<pre [^>]*>(listset-course 1\n[^<]*)<\/pre>/.exec(fs.readFileSync(path.join(__dirname, "..", "index.html"), "utf8"));
  const indented = text.replace(/^(?=.)/gm, "    ");
  for (const given of [text, indented, indented.trimStart(), indented.replaceAll("    ", "\t\t")]) {
    const { lessons, faults } = triedCourse(ask, given);
    check(`the teachers' course: ${JSON.stringify(faults)}`, lessons.length === 1 && faults.length === 0);
  }
  const [asked, begun, removed] = ["begin 0 contains 5", "begin 1 remove 5", "begin 1 remove 5,go 1 out"];
  const answers = [
    [`${asked},${removed},go 0 out`, true],
    [`${removed},${asked},${removed},go 0 out`, false], // 5 was not in the set when the contains began
    [`${begun},${asked},go 1 out,go 0 out`, false],
    [`${asked},${removed},go 0 1`, false],
    [`${removed},${asked},begin 1 add 5,go 1 out,${removed},go 0 out`, false],
  ];
  for (const [lines, isSolved] of answers) {
    const answer = `answer\n${lines.split(",").map((line) => `  ${line}\n`).join("")}`;
    const { faults } = triedCourse(ask, text.replace("goal\n", `${answer}goal\n`));
    const isRefused = faults[0]?.fault.includes("its answer does not solve it") === true;
    check(`the teachers' lesson, ${lines}: ${JSON.stringify(faults)}`, isSolved ? faults.length === 0 : isRefused);
  }
}

async function checkLinks(ask) {
  const address = await inPage("courseAddress")(TEXT);
  const { course } = inPage("readAddress")(address);
  const back = triedCourse(ask, await inPage("courseOfAddress")(course));
  check(
    `a link of ${address.length} letters has the whole course`,
    address.length < 8000 && back.lessons.length === 12 && back.faults.length === 0,
  );
  for (const cut of [course.slice(0, 200), `${course.slice(0, -8)}`, "A", "____"]) {
    const found = await inPage("courseOfAddress")(cut).catch((fault) => fault.message);
    check(`a link that is cut: ${found.slice(0, 60)}`, found.startsWith("the course of the address cannot be unpacked"));
  }
  let seed = 1;
  const noise = Array.from({ length: 60000 }, () => String.fromCharCode(33 + ((seed = (seed * 48271) % 2147483647) % 90))).join("");
  check("a course that is too long has no link", (await inPage("courseAddress")(`${TEXT}  ${noise}`)) === null);
}

async function main() {
  const engine = await startedEngine();
  const ask = (name, text) => engine.ask(name, text);
  const course = triedCourse(ask, TEXT);
  checkBook(ask, course);
  checkRecorded(ask, course);
  checkTries(ask, course);
  checkReasons(ask, course.lessons);
  checkFaults();
  checkTrials(ask);
  checkDrafts(ask, course);
  checkOwnCourse(ask);
  await checkLinks(ask);
  process.stdout.write(JSON.stringify(result));
}

main();
