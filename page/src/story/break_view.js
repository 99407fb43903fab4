// Break it: step the threads until no order of the calls explains their replies, then name the missing check.
import { LACKING } from "../../made/classics.js";
import { BREAK_LEVELS, TEN, levelOfNumber, numberOfLevel, whyWrong } from "../data/levels.js";
import { askNow, now } from "../page/now.js";
import { addressOf } from "../run/address.js";
import { departureOf, isTaskDone, NO_TASK } from "../run/broken.js";
import { callText } from "../run/markup.js";
import { wayBack, wayOn } from "./assignment.js";
import { isNarrow } from "./figure_parts.js";
import { isBrokenOnce, isNamed, keepBrokenLine, keepNamed } from "./progress.js";
import { runOfText } from "./live_run.js";
import { backLink, drawHintAndOn, drawLedger, onStage, foot, head, hintAndOn, isOddRun, LACKS_ONE, LIST_WORDS, numberOfKey, optionButtons, pressThread, scene, setScene, takeFreeFigure, showPrompt } from "./scene.js";

const HINTS = 3;
const LATE = 1000; // milliseconds after the verdict: an earlier click was meant for the thread's button that the answers have replaced
const levelOf = ({ id }) => levelOfNumber(id);
const nameNow = () => levelOf(now.place);

function html(place) {
  const name = levelOf(place);
  const at = TEN.indexOf(name);
  const next = TEN[(at + 1) % TEN.length];
  const kicker = `<a href="#break">Break it</a> · ${LIST_WORDS[LACKING[name]]}, without one check · #break=${numberOfLevel(name)}`;
  return `${onStage(head(kicker, BREAK_LEVELS[name].story))}
    ${foot(backLink(wayBack(place, { href: "#break", words: "All lists" })), hintAndOn(wayOn(place, { href: `#break=${numberOfLevel(next)}`, words: "Next list →" })))}`;
}

function begin(place) {
  const name = levelOf(place);
  const { start, missing } = BREAK_LEVELS[name];
  const list = LACKING[name];
  const given = place.given.text === undefined ? { opening: [3, 7] } : runOfText(place.given.text);
  const operations = ["add", "remove", "contains", ...(name === "mark-in-ceiling" ? ["ceiling"] : [])];
  const figure = takeFreeFigure(list, { lacks: name, ...given, chosen: { 0: start[0], 1: start[1] }, operations, codeNote: LACKS_ONE, isRiddle: name !== NO_TASK && !isNamed(name), struck: name === NO_TASK ? missing : undefined });
  figure.onStep = looked;
  setScene({ stage: "task" });
  if (place.given.text !== undefined) looked();
}

// Returns whether the run came with the link, and the reader has never broken the list.
const isShown = (run) => now.place.given.text !== undefined && run.lines.join() === run.first.join() && !isBrokenOnce(nameNow());

function looked() {
  const { run } = scene.figure;
  const name = nameNow();
  setScene({ text: run.lines.length === 0 && now.place.given.text === undefined ? "" : run.schedule }); // before the first step, the address has no schedule
  const verdict = run.verdict();
  const isBroken = isTaskDone(name, verdict);
  if (now.scene.stage !== "task") return scene.figure.set({ isLost: isBroken });
  if (!isBroken) return setScene({ note: notYet(run, verdict) });
  const wasShown = isShown(run);
  scene.figure.brokenAt = wasShown ? -Infinity : performance.now();
  if (!wasShown) keepBrokenLine(name, `break ${name} ${addressOf(run.schedule, run.trace.total, name)}`);
  scene.figure.set({ isLost: true });
  setScene({ stage: "done", note: whyOf(verdict, wasShown) });
}

// Returns a hint about a run that is not broken: which keys are missing while calls are pending, otherwise why the run is not broken.
function notYet(run, { kind, isExplained }) {
  const lost = run.promised().filter((key) => !run.has().includes(key));
  const pending = run.trace.calls.filter(({ ended }) => ended === null);
  const ofLost = pending.filter(({ operation, key }) => operation === "add" && lost.includes(key));
  const due = (ofLost.length > 0 ? ofLost : pending).map(callText).join(" and ");
  if (due !== "") return lost.length === 0 ? "" : `${lost.join(" and ")} ${lost.length === 1 ? "is" : "are"} not in the list. Now let ${due} return.`;
  const order = isExplained ? "and one order explains these answers" : "and whether an order explains these answers is not known";
  if (kind === "points") return `That looks wrong. But calls that overlap can take effect in either order, ${order}: not broken yet.`;
  const hasEach = scene.figure.shown.every((thread) => run.trace.calls.some((call) => call.thread === thread));
  return hasEach && kind === "explained" ? "Every call has returned, and one order explains the answers: not broken this time. Start over, or begin another call." : "";
}

const whyOf = ({ why }, wasShown) => {
  const ofList = why.replace(/the set (has|does not have) it/, "the list $1 it"); // a broken list is no set
  return `${ofList}. No order of the calls explains that. (Checked by a program that is proved correct.)${wasShown ? " This run was shown to you: find one of your own." : ""}`;
};

const NOBODY_KNOWS = "No run is known that breaks this list. Try it, and say why.";

function taskHtml({ hints, note }) {
  const items = BREAK_LEVELS[nameNow()].hints.slice(0, hints).map((text) => `<li>${text}</li>`);
  const list = items.length === 0 ? "" : `<ol class="hints">${items.join("")}</ol>`;
  const ask = nameNow() === NO_TASK ? NOBODY_KNOWS : "Step A and B until a number is missing although its add returned true, or until two answers contradict each other.";
  return `<p class="ask">${ask}</p>${note === "" ? "" : `<p class="again">${note}</p>`}${list}`;
}

// Returns the answers offered in a won level, sorted by their text after the ninth letter, so that the right answer is first, second or third about equally
// often.
const optionsOf = (name) => [BREAK_LEVELS[name].lacks, ...Object.keys(BREAK_LEVELS[name].others)].sort((one, other) => (one.slice(9) < other.slice(9) ? -1 : 1));

function wonHtml({ note, wrong, at }) {
  const name = nameNow();
  const { run } = scene.figure;
  const isDone = isNamed(name);
  const { lacks, shortest } = BREAK_LEVELS[name];
  const reply = wrong.length === 0 ? "" : whyWrong(name, wrong.at(-1));
  const asked = `<p class="ask">What does this list do wrong?</p>${optionButtons(optionsOf(name), wrong)}<p role="status">${reply}</p>`;
  const { total } = run.trace;
  const known = total > shortest[0] ? ` A run with ${shortest[0]} steps is known.` : "";
  const steps = at > 0 ? shownOf(departure()) : `Your run has ${total} steps (one press can make several).${known}`;
  const named = `<p><b class="yes">✓ ${lacks}</b> In the code, the missing part is struck out. <span class="small">${steps}</span></p>
    <p class="line"><button data-do="replay">See where your run goes wrong</button> <button data-do="afresh" class="quiet">Break it in another way</button></p>`;
  const ledger = isOddRun(run) ? drawLedger(run) : "";
  return `<div class="reveal won">${ledger}<div><p class="why"><b>Broken.</b> ${note}</p>${isDone ? named : asked}</div></div>`;
}

function draw(state) {
  if (state.stage === "") return;
  const isDone = state.stage === "done";
  if (!isDone || !scene.figure.isBusy) showPrompt(isDone ? wonHtml(state) : taskHtml(state));
  drawHintAndOn(isDone, state.hints === 0 ? "Hint" : state.hints < HINTS ? "Another hint" : "Start over");
  if (isDone && isNamed(nameNow())) strike();
}

function strike() {
  const { figure } = scene;
  const { missing, lacks } = BREAK_LEVELS[nameNow()];
  if (figure.spec.struck !== undefined) return;
  Object.assign(figure.spec, { struck: missing, isRiddle: false });
  figure.part("code-note").textContent = lacks;
  figure.part("codebox").open = !isNarrow(); // on a phone the code would cover the reply
  figure.draw();
}

function answer(index) {
  const name = nameNow();
  const sentence = optionsOf(name)[index];
  if (now.scene.stage !== "done" || isNamed(name) || sentence === undefined) return;
  if (sentence !== BREAK_LEVELS[name].lacks) return setScene({ wrong: [...new Set([...now.scene.wrong, sentence])] });
  keepNamed(name);
  setScene({ wrong: [] });
}

// Returns the first event of the run that the correct list would not execute, or null.
const departure = () => departureOf(askNow, scene.figure.run.trace);
const shownOf = (event) => `The picture shows your run again${event === null ? "." : `, from just before step ${event}: the first step that the correct list would not make.`}`;

// Replays the winning run, from two steps before the departure.
function replay() {
  setScene({ at: 1 });
  scene.figure.replay(Math.max(0, (departure() ?? 1) - 2));
}

function afresh() {
  if (now.place.given.text !== undefined) return (location.hash = `#break=${now.place.id}`);
  setScene({ stage: "task", note: "", at: 0 });
  scene.figure.again();
}

export const breakView = {
  kind: "ask-one",
  fault: ({ id }) => (levelOfNumber(id) === undefined ? `there is no list ${id} to break` : null),
  title: (place) => `Break it: ${BREAK_LEVELS[levelOf(place)].story}`,
  html, begin, draw,
  press: (event) => {
    if (now.scene.stage === "done" && numberOfKey(event) !== -1) answer(numberOfKey(event));
    else pressThread(event);
  },
  deeds: {
    answer: ({ dataset }) => performance.now() - scene.figure.brokenAt > LATE && answer(Number(dataset.option)),
    hint: () => (now.scene.hints === HINTS ? scene.figure.again() : setScene({ hints: now.scene.hints + 1 })),
    replay, afresh,
  },
};
