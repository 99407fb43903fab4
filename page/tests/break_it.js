// Usage: `node tests/break_it.js`. Checks the broken lists: the schedule of each list in examples/schedules/lacks must break the list, as docs/CLASSIC.md
// claims. Also checks drafts, hand-ins and a lesson on broken lists. Prints as JSON how many checks passed, and which checks failed.
"use strict";

const fs = require("fs");
const path = require("path");
const { inPage, startedEngine } = require("../in_node.js");

const LACKING = inPage("LACKING");
const NAMES = Object.keys(LACKING);
const TOP = path.join(__dirname, "..", "..");
const CLASSIC = fs.readFileSync(path.join(TOP, "docs", "CLASSIC.md"), "utf8");
const [verdictOnLacking, departureOf, Trace] = ["verdictOnLacking", "departureOf", "Trace"].map(inPage);
const result = { passed: 0, failed: [] };

function check(name, isGood) {
  if (isGood) result.passed++;
  else result.failed.push(name);
}

const scheduleOf = (name) => fs.readFileSync(path.join(TOP, "examples", "schedules", "lacks", `${name}.schedule`), "utf8");
const startOf = (name) => inPage("scheduleText")({ list: LACKING[name], threads: 2, quota: 2, opening: [3, 7] });
const LOST = /^(\d+) was added once and never removed, and at the end the set does not have it$/; // as docs/CLASSIC.md summarizes it
const isTask = (name) => name !== inPage("NO_TASK");

// Checks that the schedule breaks the list as docs/CLASSIC.md claims. For the list `NO_TASK`, checks instead that the order of the linearization points is
// refused and another order explains the calls. The schedule must not break the list before its last call.
function checkBroken(ask, name) {
  const schedule = scheduleOf(name);
  const { kind, says } = verdictOnLacking(ask, name, schedule);
  check(`${name} is broken: ${says}`, kind === (isTask(name) ? "broken" : "points"));
  check(`${name}: of a refused order alone it says: ${says}`, says.includes("(proved)") === (kind === "broken"));
  const line = CLASSIC.split("\n").find((one) => one.startsWith(`- \`${name}\` (${LACKING[name]}): `)) ?? "";
  const why = says.slice("Broken: ".length, says.indexOf(". No order")).replace(LOST, "$1 is lost").replace(/ of ([AB]) /g, (_, letter) => ` of t${"AB".indexOf(letter)} `);
  const told = kind === "broken" ? `${why}.` : "the order is refused, and another order explains the calls.";
  check(`docs/CLASSIC.md says of ${name}: ${told}`, line.toLowerCase().endsWith(` ${told}`.toLowerCase()));
  const begun = verdictOnLacking(ask, name, startOf(name));
  check(`${name}: nothing breaks it at its start`, begun.kind === "explained" && begun.says === inPage("EXPLAINED"));
  const whole = ask("listset_trace", schedule).text.replace(/^refused .*\n/m, "end\n");
  const replayed = ask("listset_replay", inPage("scheduleOfTrace")(new Trace(whole, 2)));
  check(`${name}: the whole list explains its part of it`, ask("listset_check", replayed.text).text === "ok\n");
  const ofOther = schedule.replace(/^list .*$/m, `list ${LACKING[name] === "lazy" ? "fine" : "lazy"}`);
  check(`${name} is a list of one kind`, verdictOnLacking(ask, name, ofOther).kind === "refused");
}

// Checks that each event in the run of a broken list has a sentence and a picture. The events before the first difference (`departureOf`) must be a run of the
// correct list.
function checkDeparture(ask, name) {
  const trace = new Trace(ask("listset_lacking", name, scheduleOf(name), "trace").text, 2);
  check(`${name} stands in its trace`, trace.lacks === name && trace.kind === LACKING[name]);
  const state = new (inPage("State"))(trace);
  for (let count = 0; count <= trace.total; count++) {
    const moment = inPage("momentAt")(state, count);
    const isDrawn = inPage("drawStage")(state, moment.event, { wide: 900, high: 300, slots: 5, lock: "nodes", hides: [] }).startsWith("<svg");
    check(`${name}: event ${count} is told and drawn`, (count === 0 || inPage("saidOf")(moment) !== "") && isDrawn);
  }
  checkContents(trace);
  const event = departureOf(ask, trace);
  const common = new Trace(ask("listset_trace", inPage("scheduleOfTrace")(trace, event - 1)).text, 2);
  const agree = inPage("eventsInCommon")(trace, common);
  check(`${name}: up to event ${event} they agree`, agree === event - 1 && common.total === event - 1);
}

// Checks the row "set" of the history. The row's label must name the keys that follow from the linearization points. (The chain of a broken list can have other
// keys.)
function checkContents(trace) {
  for (let count = 0; count <= trace.total; count++) {
    const drawn = inPage("drawContents")(trace, inPage("scaleOf")(trace, count, 860, true));
    const [, words] = /aria-label="([^"]*)"/.exec(drawn);
    const isTold = words.startsWith(`the set by the linearization points of the calls after event ${count}: {`);
    check(`${trace.lacks}: event ${count}: ${words}`, isTold && drawn.includes(">have</text>"));
  }
}

// Checks how the page reads a broken list's trace from a file. If the trace does not name the broken list, the page names the first event that differs from the
// correct list's trace of the same schedule.
function checkFile(ask, name) {
  const { text } = ask("listset_lacking", name, scheduleOf(name), "trace");
  check(`${name}: its trace is one`, inPage("traceIn")(text)?.lacks === name);
  const given = text.replace(/^lacks .*\n/m, ""); // (so that the trace does not name the broken list)
  const own = ask("listset_trace", inPage("scheduleOfTrace")(inPage("traceIn")(given))).text;
  const said = inPage("comparedTrace")(given, own);
  const event = departureOf(ask, new Trace(text, 2));
  check(`${name}: as one of the whole list: ${said}`, said.endsWith(`differs from event ${event} on.`));
  check(`${name}: the correct list's own trace`, inPage("comparedTrace")(own, own) === "The proved replayer makes the same events.");
  for (const wrong of ["", text.slice(14), text.replace("thread 0", "thread x"), text.replace(/pc \d+/, ""), text.replace("event 2 ", "event 2 of ")]) {
    check(`${name}: no trace: ${wrong.slice(0, 200)}`, inPage("traceIn")(wrong) === null);
  }
}

// Checks that the page shows the engine's answer unchanged if the answer is neither a verdict nor a trace.
function checkTroubles(ask) {
  const stopped = (name) => (one, ...texts) => (one === name ? { status: 1, text: "the engine stopped: unreachable" } : ask(one, ...texts));
  const unchecked = verdictOnLacking(stopped("listset_check_record"), "lock", scheduleOf("lock"));
  const isTold = unchecked.kind === "refused" && unchecked.says === "The run is not judged: the engine stopped: unreachable.";
  check(`no answer of the judge: ${unchecked.says}`, isTold && unchecked.report === null);
  const trace = new Trace(ask("listset_lacking", "lock", scheduleOf("lock"), "trace").text, 2);
  check("no trace of the whole list", departureOf(stopped("listset_trace"), trace) === null);
}

// Checks that a sentence about a broken run names only the calls that no order explains, even if other calls follow.
function checkReasons(ask) {
  const { text } = inPage("scheduleOfDraft")(ask, `${scheduleOf("mark-at-key")}begin 1 add 7\ngo 1 out\n`, "mark-at-key");
  const later = verdictOnLacking(ask, "mark-at-key", text).says;
  check(`what comes later is not told: ${later}`, later.includes("remove(7) of B returns true, which leaves 7 absent, and contains(7) of A returns true."));
}

// Checks that a draft on a broken list is expanded into a schedule, or is refused as a draft on a correct list would be.
function checkDrafts(ask) {
  const drafted = (name, lines) => inPage("scheduleOfDraft")(ask, `${startOf(name)}${lines.join("\n")}\n`, name);
  const lock = drafted("lock", ["begin 0 add 5", "go 0 to 7", "begin 1 add 4", "go 1 out", "go 0 out"]);
  check(`a draft of a list without its lock: ${lock.text ?? lock.fault}`, lock.text === scheduleOf("lock"));
  check("a plain text is its own", drafted("lock", ["begin 0 add 5", "go 0 2"]).text.endsWith("begin 0 add 5\ngo 0 2\n"));
  const faults = [
    ["lock", "listset: line 7: Idle", ["go 0 out"]],
    ["lock", "listset: line 8: Idle", ["begin 0 contains 5", "go 0 to 8"]],
    ["hand-over-hand", "listset: line 10: Waits", ["begin 0 add 5", "go 0 2", "begin 1 remove 3", "go 1 out"]],
    ["lock", "listset: line 7: Event", ["begin 0 pop 5", "go 0 out"]],
  ];
  for (const [name, fault, lines] of faults) {
    const found = drafted(name, lines).fault;
    check(`${name}: ${lines.join(", ")}: ${found}`, found === fault);
  }
}

// Checks that a hand-in is judged on the broken list that its line names. A run is no solution if some order explains its calls, even if the order of the
// linearization points does not explain them.
function checkHandedIn(ask) {
  const judge = (line) => inPage("judgedPart")(ask, [], line);
  for (const name of NAMES) {
    const address = inPage("addressOf")(scheduleOf(name), 3);
    const { task, isSolved, says } = judge(`break ${name} ${address}`);
    check(`break ${name}: ${says}`, task === `break ${name}` && isSolved === (name !== inPage("NO_TASK")));
    const { text, lacks } = inPage("readAddress")(inPage("addressOf")(scheduleOf(name), 3, name));
    check(`the address of ${name}`, lacks === name && text === scheduleOf(name));
    const start = judge(`break ${name} ${inPage("addressOf")(startOf(name), 0)}`);
    check(`break ${name} by nothing: ${start.says}`, !start.isSolved);
  }
  const own = inPage("addressOf")(scheduleOf("mark"), 0);
  const refused = { "break luck": own, "break mark": "", "break second-walk": own, "break mark-in-add": `${own} more` };
  for (const [task, link] of Object.entries(refused)) check(`${task} ${link}`.slice(0, 60), !judge(`${task} ${link}`).isSolved);
  const points = "#list=lock-free&threads=2&quota=2&opening=3.7&s=b1.remove.7,g1.7,b0.contains.7,g0.5,g1.1&event=15";
  const said = verdictOnLacking(ask, "mark-at-key", inPage("readAddress")(points).text);
  check(`of two calls that overlap another order may be right: ${said.says}`, said.kind === "points");
  check("and that is no solution", !judge(`break mark-at-key ${points}`).isSolved);
}

const LESSON = `listset-course 1
course One list
lesson broken
title A walk without its lock
list fine
lacks hand-over-hand
threads 2
quota 2
opening 3 7
question
  Break it.
answer
  begin 1 add 5
  go 1 to 6
  go 1 2
  begin 0 remove 3
  go 0 out
  go 1 out
`;

// Checks that a student solves a lesson on a broken list by breaking the list. If the lesson also has a goal, the run must reach the goal.
function checkLesson(ask) {
  const tried = (text) => inPage("triedCourse")(ask, text);
  const { lessons, faults } = tried(LESSON);
  check(`a lesson of such a list: ${JSON.stringify(faults)}`, faults.length === 0 && lessons[0].lacks === "hand-over-hand");
  const judged = inPage("judged")(ask, lessons[0], scheduleOf("hand-over-hand"));
  check("another schedule solves it", judged.isSolved && judged.conditions.length === 1);
  const begun = inPage("judged")(ask, lessons[0], lessons[0].begun);
  const [condition] = begun.conditions;
  check(`its start does not: ${JSON.stringify(condition)}`, !begun.isSolved && condition.says === inPage("TO_BREAK"));
  const faultOf = (text) => tried(text).faults[0] ?? { line: 0, fault: "none" };
  const more = faultOf(`${LESSON}goal\n  call C of 0: add\n  say Thread 0 adds.\n`).fault;
  check(`a goal beside it: ${more}`, more.endsWith("its answer does not solve it: missing: Thread 0 adds."));
  const wrong = faultOf(LESSON.replace("lacks hand", "lacks hands"));
  check("a list that there is not", wrong.line === 6 && wrong.fault.startsWith('there is no fine list that lacks "hands'));
  check("a goal is due of a whole list", faultOf(LESSON.replace(/^lacks .*\n/m, "")).fault.includes('lacks "goal"'));
}

async function main() {
  const engine = await startedEngine();
  const ask = (name, ...texts) => engine.ask(name, ...texts);
  const named = ask("listset_lacking", "luck", startOf("lock"), "replay");
  check(`a name of none: ${named.text}`, named.status === 2 && named.text.includes("bad NAME"));
  for (const name of NAMES) {
    checkBroken(ask, name);
    checkDeparture(ask, name);
    checkFile(ask, name);
  }
  checkTroubles(ask);
  checkReasons(ask);
  checkDrafts(ask);
  checkHandedIn(ask);
  checkLesson(ask);
  console.log(JSON.stringify(result));
}

main();
