// Usage: `node tests/judge.js`. Checks the view of two lists side by side, and the verdicts on the order in which a reader places a run's calls. (The engine's
// `check` decides these verdicts.) Prints as JSON how many checks passed, and which checks failed.
"use strict";

const fs = require("fs");
const path = require("path");
const { inPage, startedEngine } = require("../in_node.js");

const [exerciseOf, answerOfWord, wordOfAnswer, verdictOn] = ["exerciseOf", "answerOfWord", "wordOfAnswer", "verdictOn"].map(inPage);
const [reportOfAnswer, OwnAnswer, repliesOf, LEVELS] = ["reportOfAnswer", "OwnAnswer", "repliesOf", "LEVELS"].map(inPage);
const result = { passed: 0, failed: [] };

function check(name, isGood) {
  if (isGood) result.passed++;
  else result.failed.push(name);
}

const wordIn = (report) => [...report.matchAll(/^place (\d+) (\S+)$/gm)].map(([, id, reply]) => `${id}-${reply}`);

// Checks, at each level of difficulty, that the replayer's order is accepted, and that a reversed order is accepted if and only if `check` accepts it.
function checkLevels(ask, name, report) {
  const places = wordIn(report);
  for (const level in LEVELS) {
    const exercise = exerciseOf(report, level);
    const own = answerOfWord(exercise, places.join());
    const verdict = verdictOn(ask, own);
    check(
      `${name}, ${level}: the replayer's own order: ${verdict.says}`,
      verdict.isRight === true && verdict.says.endsWith("has the same order."),
    );
    check(`${name}, ${level}: its report is the engine's`, reportOfAnswer(own) === report);
    check(`${name}, ${level}: and back to its word`, wordOfAnswer(own) === places.join());
    const turned = answerOfWord(exercise, [...places].reverse().join());
    const isOk = ask("listset_check", reportOfAnswer(turned)).text.trim() === "ok"; // a reversed order can still be right: for example, two adds of different keys can be swapped
    const said = verdictOn(ask, turned);
    check(`${name}, ${level}: turned round: ${said.says}`, said.isRight === isOk && !said.says.startsWith("refused"));
    const isAsked = exercise.calls.some((call) => call.ended !== null);
    check(`${name}, ${level}: nothing said`, verdictOn(ask, new OwnAnswer(exercise)).isRight === (isAsked ? null : false));
  }
}

// Checks that no sentence about a run reveals the answer.
function checkHidden(ask, name, schedule) {
  const trace = new (inPage("Trace"))(ask("listset_trace", schedule).text);
  const state = new (inPage("State"))(trace);
  for (const level of ["points", "replies"]) {
    for (let count = 1; count <= trace.total; count++) {
      const text = inPage("sentenceOf")(inPage("momentAt")(state, count), LEVELS[level].hidden).replace(/<[^>]*>/g, "");
      const isPoint = /takes effect|took effect|into the set|out of the set/.test(text);
      const isTold = isPoint || (level === "replies" && /(?:answers?|returns?) (true|false|at-|full|nothing)/.test(text));
      check(`${name}, event ${count}, ${level}: "${text}"`, !isTold);
    }
  }
}

// Checks answers about a `contains` that takes effect in another thread's step: an answer with a wrong reply, one with a wrong moment, and the right answer.
function checkByHand(ask) {
  const report = ask("listset_replay", ask("listset_example", "read-in-anothers-step").text).text;
  const answer = new OwnAnswer(exerciseOf(report, "replies"));
  const [first, contains, remove, second] = answer.exercise.calls;
  [[first, 10], [contains, 39], [remove, 23], [second, 36]].forEach(([call, at]) => answer.place(call, at));
  [first, remove, second].forEach((call) => answer.setReply(call, "true"));
  const says = () => verdictOn(ask, answer).says;
  const without = verdictOn(ask, new OwnAnswer(answer.exercise));
  check(`no reply is chosen: ${without.says}`, without.says === "Choose the four replies first." && without.missing === undefined);
  check(`a reply is missing: ${says()}`, says() === "Still missing: the reply of contains(5) of A.");
  answer.setReply(contains, "true");
  const isPossible = () => says().endsWith(" (Your order is possible, but it is not this run.)");
  check(`the wrong reply: ${says()}`, says().startsWith("contains(5) of A does not return true in this run.") && isPossible());
  answer.place(contains, 23.5);
  check(`the wrong reply, and no set returns it: ${says()}`, says().startsWith("contains(5) of A does not return true in this run.") && !isPossible());
  answer.place(contains, 39);
  answer.setReply(contains, "false");
  const set = "after add(5) of B in your order the set is {5}, and the call would return true.";
  const wrong = `contains(5) of A cannot return false there: ${set}`;
  check(`the wrong moment: ${says()}`, says() === wrong && verdictOn(ask, answer).clash === 1);
  answer.place(contains, 23.6);
  check("the right moment", verdictOn(ask, answer).isRight === true && answer.points.get(1).at === 23.5);
  answer.place(contains, 2);
  check("a point stays in its bar", answer.points.get(1).at === 13);
  answer.take(contains);
  check("a point is taken away", !answer.points.has(1));
  const exercise = exerciseOf(report, "points");
  for (const word of ["", "0", "9-true", "0-true,0-true", "x", "0-true;1-true"]) {
    check(`no answer: ${word}`, answerOfWord(exercise, word) === null);
  }
  const early = verdictOn(ask, answerOfWord(exercise, "2-true,0-true,1-false,3-true")).says;
  check(`told why: ${early}`, /cannot return|is ordered before/.test(early));
  const ceiling = exerciseOf(ask("listset_replay", ask("listset_example", "behind-the-walk").text).text, "replies");
  check("replies of a ceiling", repliesOf(ceiling, { operation: "ceiling" }).join() === "nothing,at-5,at-9");
}

// Checks that the reader's order must contain a pending call that has changed the set, and can leave out any other pending call.
function checkOpenCalls(ask) {
  const head = "listset-schedule 1\nlist lazy\nthreads 2\nquota 4\nbegin 0 add 5\n";
  const judgedAs = (steps, word) => {
    const report = ask("listset_replay", `${head}go 0 ${steps}\nbegin 1 contains 5\ngo 1 ${steps > 8 ? 3 : 2}\n`).text;
    return verdictOn(ask, answerOfWord(exerciseOf(report, "points"), word));
  };
  check("an open call that has changed the set", judgedAs(9, "0-true,1-true").isRight === true);
  check("left out", judgedAs(9, "1-true").isRight === false);
  check("one that has not", judgedAs(4, "1-false").isRight === true);
  check("put in", judgedAs(4, "0-true,1-false").isRight === false);
}

// Returns the labels in the bars of a drawing, and the labels that cover an earlier label.
function labelsOver(drawing) {
  const labels = [...drawing.matchAll(/<text class="call" x="([^"]*)" y="([^"]*)">(.*?)<\/text>/g)];
  const ends = {};
  const over = labels.filter(([, x, y, text]) => {
    const isOver = Number(x) < (ends[y] ?? 0);
    ends[y] = Number(x) + 7 * text.replace(/<[^>]*>/g, "").length;
    return isOver;
  });
  return { labels, over };
}

// Checks that no label in the history covers another label at any event, and that a label does not move after the label's call has begun.
function checkHistoryLabels(traces) {
  const [drawCalls, scaleOf] = ["drawCalls", "scaleOf"].map(inPage);
  let signs = 0;
  for (const trace of traces) {
    for (const width of [300, 342, 820]) {
      const places = new Set();
      for (let count = 0; count <= trace.total; count++) {
        const { labels, over } = labelsOver(drawCalls(trace, scaleOf(trace, count, width, true)));
        check(`labels of the history over others, at event ${count} in ${width} pixels: ${over.map((one) => one[3])}`, over.length === 0);
        for (const [, x, y, text] of labels) places.add([x, y, /^[^ <]*/.exec(text)[0]].join());
        signs += labels.filter(([, , , text]) => !text.includes("(")).length;
      }
      const isAll = trace.total <= (width - 66) / 7;
      check(`a label of the history moves, in ${width} pixels: ${[...places].join(" ")}`, !isAll || places.size === trace.calls.length);
    }
  }
  check(`the labels of the examples are whole: ${signs} are signs`, signs === 0);
}

// Checks that no label of a bar covers another label, for the examples and for numbered runs, both on a wide page and on a phone.
function checkLabels(ask, schedules) {
  const [drawJudged, judgeScale] = ["drawJudged", "judgeScale"].map(inPage);
  const judgedAt = (exercise, answer, width) => ({ exercise, answer, scale: judgeScale(exercise, width), moment: 0, count: 0 });
  let words = 0;
  for (const schedule of schedules) {
    const report = ask("listset_replay", schedule).text;
    for (const [level, width] of [["points", 342], ["replies", 342], ["points", 820]]) {
      const exercise = exerciseOf(report, level);
      const drawing = drawJudged(judgedAt(exercise, new OwnAnswer(exercise), width));
      const { labels, over } = labelsOver(drawing);
      words += labels.filter(([, , , text]) => text.includes("(")).length;
      check(`labels over others in ${width} pixels: ${over.map((label) => label[3])} of ${schedule}`, over.length === 0);
    }
  }
  check("most labels are in words", words > 100);
}

const TITLE = "listset-calls 1\n";

function saidOf(ask, lines) {
  const text = inPage("withNewline")(lines);
  return inPage("verdictOnCalls")(ask, ask("listset_judge_record", text), text);
}

const barsIn = (drawn) => drawn.split('<g class="bar ').length - 1;

// Checks the page's sentences about the judge's verdict on recorded calls.
function checkRecorded(ask) {
  const wanted = {
    "call 0 add 5 1 4 true\ncall 1 contains 5 2 3 false\nkey 5\nend": "ok Linearizable: an order explains these 2 calls and leaves the keys.",
    "call 0 contains 5 9223372036854775806 9223372036854775807 false\nend": "ok Linearizable: an order explains this one call",
    "call 0 add 5 1 4 true\ncut": "ok Linearizable: an order explains this one call, whatever keys it leaves.",
    "call 0 add 5 1 4 true\ncall 1 contains 5 5 6 false\ncut": "none Not linearizable: no order at all explains these calls.",
    "key 5\nend": "none Not linearizable: no order at all explains these calls and leaves the keys.",
  };
  for (const lines in wanted) {
    const { kind, says } = saidOf(ask, TITLE + lines);
    check(`${lines}: ${kind} ${says}`, `${kind} ${says}`.startsWith(wanted[lines]));
  }
  const cut = saidOf(ask, `${TITLE}call 0 add 5 1 4 true\ncut`).reasons;
  check(`one that was cut off: ${cut}`, cut.join().includes("The recording was cut off: "));
  const calls = Array.from({ length: 50 }, (_, at) => `call 0 contains 5 ${2 * at + 1} ${2 * at + 2} false\n`).join("");
  const many = saidOf(ask, `${TITLE}${calls}end`);
  const drawn = barsIn(inPage("drawRecorded")(many.calls, 600));
  check(`many calls: ${many.reasons}`, drawn === 40 && many.reasons.at(-1) === "The first 40 calls are drawn.");
}

// Checks that the engine's record of a verdict on a recording or a report agrees with the program's answer.
function checkRecords(ask, reports) {
  const recorded = path.join(__dirname, "..", "..", "tests", "transcripts", "data", "recorded");
  const texts = fs.readdirSync(recorded).map((file) => fs.readFileSync(path.join(recorded, file), "utf8"));
  for (const text of texts) {
    const [told, record] = ["listset_judge", "listset_judge_record"].map((name) => ask(name, text));
    const { kind, why, fault, count } = inPage("readVerdict")(record);
    const first = { ok: `ok ${count} calls`, none: `not linearizable\nno order explains the calls of key ${why?.key} `, fault: fault?.says }[kind];
    check(`the record of ${text.slice(0, 80)}: ${record.text}`, told.status === record.status && told.text.startsWith(first));
  }
  for (const text of [...reports, "listset-report 1\n", ""]) {
    const [told, record] = ["listset_check", "listset_check_record"].map((name) => ask(name, text));
    const { kind, order } = inPage("readVerdict")(record);
    const isSame = order === null ? told.text === (kind === "own" ? "ok\n" : record.text) : told.text.trim().endsWith(order.call ?? "WrongSet");
    check(`the record of ${text.slice(0, 200)}: ${record.text}`, told.status === record.status && isSame);
  }
}

// Checks that a refusal names two contradicting calls, and that only these two are drawn.
function checkRefusals(ask) {
  const both = saidOf(ask, inPage("RECORDED_EXAMPLE"));
  const reasons = [
    "No order explains the calls of key 5 up to moment 4.",
    "add(5) of B returns true, from 2 to 3, and leaves key 5 present; add(5) of A returns true, from 1 to 4, and needs it absent.",
    "No remove(5) that answered true or is pending overlaps the time of both. They contradict each other in the other order too.",
  ];
  check(`two adds of one key: ${both.reasons.join(" ")}`, both.kind === "none" && both.reasons.join() === reasons.join());
  const drawn = inPage("drawRecorded")(both.calls, 600);
  check("its calls as bars", barsIn(drawn) === 2 && />add\(5\)<tspan [^>]*> true</.test(drawn) && !drawn.includes("cursor"));
  const late = 1760000000000000000n; // a clock in nanoseconds
  const at = (moment) => String(late + BigInt(moment));
  const lines = [`0 contains 5 ${at(1)} ${at(2)} false`, `1 add 7 ${at(3)} ${at(4)} true`, `2 contains 7 ${at(5)} ${at(6)} false`];
  const stale = saidOf(ask, `${TITLE}${lines.map((line) => `call ${line}\n`).join("")}key 7\nend`);
  const made = `add(7) of B returns true, from ${at(3)} to ${at(4)}, and leaves key 7 present; contains(7) of C returns false, from ${at(5)} to ${at(6)}, and needs it absent.`;
  check(`why: ${stale.reasons.join(" ")}`, stale.reasons[1] === made);
  check(`the calls: ${stale.calls.map(({ thread }) => thread)}`, stale.calls.map(({ thread }) => thread).join() === "1,2");
  const left = saidOf(ask, `${TITLE}call 0 contains 5 1 2 false\nkey 5\nend`).reasons;
  const unchanged = [
    "No order explains the calls of key 5 and leaves it as it was left.",
    "Key 5 is absent at first; it is present at the end.",
    "No add(5) that answered true or is pending overlaps the time of both.",
    "At the end the set has it.",
  ];
  check(`left otherwise: ${left}`, left.join() === unchanged.join());
}

// Checks the page's sentences about rare verdicts and errors of the engine. The engine's answers are written by hand.
function checkAnswers(ask) {
  const said = (text) => inPage("verdictOnCalls")(ask, { text: `${text}\n` }, TITLE);
  const { kind, reasons, calls } = said("verdict none\nkey 7\nclash true\nfirst call 2 add 7 50 60 true\nsecond call 3 contains 7 65 70 false");
  check(`two calls: ${reasons}`, kind === "none" && reasons.length === 4 && calls.length === 2);
  const impossible = inPage("reasonsOf")(inPage("readVerdict")({ text: "order Unknown 5\nverdict none\nreply 3\n" }).why);
  check(`a reply of no call: ${impossible}`, impossible.join() === "No set returns the reply of call 3 to such a call.");
  const bare = said("verdict none\nkey 7");
  check(`no calls: ${bare.reasons}`, bare.reasons[1] === "At the end the set does not have it." && bare.calls.length === 0);
  for (const line of ["listset: out of memory", "the engine stopped: unreachable"]) {
    const trouble = said(line);
    check(`no answer: ${trouble.says}`, trouble.kind === "fault" && trouble.says === line && trouble.reasons.length === 0);
  }
}

// Checks that the page reads the record of a diagnosis correctly.
function checkDiagnosis() {
  const record = ["headline contains(3) returned true, expected false", "call 1 remove 3 5414 5432 true -", "call 0 contains 3 5420 - - expected false",
    "also 3 remove 2 5413 5417 true", "fact only contains is wrong", "likely contains does not look at a mark", "because a remove was still running"].join("\n");
  const why = inPage("diagnosisIn")(`${record}\n`);
  check("a diagnosis: its headline", why.headline.startsWith("contains(3) returned true"));
  check("its calls", why.calls.length === 2 && why.calls[0].mark === "" && why.calls[1].mark === "expected false" && why.calls[1].ended === null && why.calls[0].begun === 5414n);
  check("its facts", why.facts.length === 1 && why.also[0].key === 2 && why.likely.startsWith("contains does not") && why.because.endsWith("running"));
  check("no diagnosis", inPage("diagnosisIn")("") === null);
}

// Checks that for an error in recorded calls the page shows the program's message, with the program's sentence that explains the cause.
function checkFaultsOfCalls(ask) {
  const { kind, says } = saidOf(ask, `${TITLE}call 0 add 5 7 8 true\ncall 1 add 6 5 9 true\nend\n`);
  const told = "the call does not end after it begins; or a line above has one of its moments, or a call of the same thread that is pending";
  const why = `${told} when it begins; or it begins before a call above`;
  check(`a fault: ${says}`, kind === "fault" && says === `listset: line 3: History: ${why}.`);
}

// Checks that the page shows an answer of the engine that is not a verdict, and does not treat such an answer as a verdict.
function checkTroubles(ask) {
  const answer = answerOfWord(exerciseOf(ask("listset_replay", ask("listset_example", "snip").text).text, "points"), "2-true,0-true,1-true");
  const stopped = () => ({ status: 1, text: "the engine stopped: unreachable" });
  const none = verdictOn(stopped, answer);
  check(`no answer: ${none.says}`, none.isRight === null && none.says === "This order is not judged: the engine stopped: unreachable.");
}

// Checks two lists side by side. In each turn, the thread executes a step in both lists, except in a list whose call has already returned.
function checkSides(ask) {
  const [Sides, readProgram, programText] = ["Sides", "readProgram", "programText"].map(inPage);
  const program = readProgram("0: add 5, remove 5\n t1 : contains 5\n");
  check("a program", JSON.stringify(program) === '[["add 5","remove 5"],["contains 5"]]');
  check("and its text", programText(program) === "A: add 5, remove 5\nB: contains 5\n" && readProgram(programText(program)).join() === program.join());
  for (const text of ["", "x", "0 add 5", "0: ad 5", "0: add 5; remove 5", "64: add 5", "0: add 05", "0: add 4294967296"]) {
    let fault = "";
    try {
      readProgram(text);
    } catch (found) {
      fault = found.message;
    }
    check(`no program: ${text}: ${fault}`, fault.length > 10);
  }
  inPage("held").engine = { ask };
  const both = new Sides(["coarse", "lazy"], { program, quota: 4, opening: [] });
  let turns = 0;
  while (both.turn(0)) turns++;
  const [coarse, lazy] = both.sides;
  const counts = `${coarse.run.trace.total} and ${lazy.run.trace.total} events in ${turns} turns`;
  check(`the shorter one waits: ${counts}`, counts === "15 and 23 events in 23 turns" && turns === both.turns.length);
  check(
    "each is a run by the engine",
    both.sides.every(({ run }) => ask("listset_replay", run.schedule).text.includes("place 1 true")),
  );
  const waits = coarse.counts.filter((count, at) => at > 0 && count === coarse.counts[at - 1]).length;
  check(`turns at which it waits: ${waits}`, waits === 8);
  check("both begin the next call at one turn", coarse.counts.indexOf(9) === lazy.counts.indexOf(13));
  check("the other thread goes on", both.turn(1) && both.turns.at(-1) === 1);
  check("a thread that there is not", !both.turn(2));
}

async function main() {
  const engine = await startedEngine();
  const ask = (name, ...texts) => engine.ask(name, ...texts);
  const schedules = [];
  const reports = [];
  for (const name of ask("listset_examples", "").text.trimEnd().split("\n").map((line) => line.split(" ")[0])) {
    const schedule = ask("listset_example", name).text;
    const report = ask("listset_replay", schedule).text;
    checkLevels(ask, name, report);
    checkHidden(ask, name, schedule);
    schedules.push(schedule);
    reports.push(report, report.replace(/^(place .*\n)(place .*\n)/m, "$2$1"), report.replace(/^place .*\n/m, ""));
  }
  for (const kind of ["coarse", "fine", "optimistic", "lazy", "lock-free"]) {
    for (let number = 1; number <= 12; number++) schedules.push(inPage("scheduleOfSeed")(ask, inPage("seedOf")(kind, number)));
  }
  checkLabels(ask, schedules);
  const traceOf = (text) => new (inPage("Trace"))(ask("listset_trace", text).text, inPage("versionOf")(text));
  checkHistoryLabels(schedules.slice(0, Object.keys(inPage("CLASSICS")).length).map(traceOf));
  checkRecorded(ask);
  checkRecords(ask, reports);
  checkRefusals(ask);
  checkAnswers(ask);
  checkDiagnosis();
  checkFaultsOfCalls(ask);
  checkTroubles(ask);
  checkByHand(ask);
  checkOpenCalls(ask);
  checkSides(ask);
  process.stdout.write(JSON.stringify(result));
}

main();
