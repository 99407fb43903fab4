// The current state of the page. Each change of the state is an action (see reducer.js). After a change, the whole page is drawn again.
import { readFault, sentenceOn } from "../engine/answers.js";
import { LEVELS } from "../run/judged.js";
import { State } from "../run/state.js";
import { byId } from "./dom.js";
import { exampleIn, reduce, stateAtFirst } from "./reducer.js";

export const now = stateAtFirst();
/** @type {{ engine: any, render: () => void }} */
export const held = { engine: null, render: () => {} };

export function change(type, given = {}) {
  Object.assign(now, reduce(now, { ...given, type }));
}

export const show = () => held.render();

export function dispatch(type, given) {
  change(type, given);
  show();
}

// Listeners. Those in `ran` are called after a schedule has run; those in `recorded` and `course` are called with the text of an opened recording or course.
const listeners = { ran: [], recorded: [], course: [] };
export const on = (what, ...deeds) => listeners[what].push(...deeds);

export function announce(what, ...given) {
  for (const deed of listeners[what]) deed(...given);
}

export const isLecture = () => now.place.view === "lecture";
export const isSceneSlide = () => isLecture() && now.place.screen === "scene"; // a slide with a scene: its figure fills the remaining height
export const isJudging = () => now.exercise !== null;
export const hiddenOutcomes = () => (isJudging() ? LEVELS[now.exercise.level].hidden : []);
export const exampleShown = () => exampleIn(now);

export function goTo(count) {
  say("");
  dispatch("count", { count });
}

// Shows a line of text about the reader's last action, until the next event is shown. If the line is already shown, screen readers do not announce it again.
export function say(text) {
  if (last.text === text && byId("said").innerHTML === last.html) return;
  byId("said").innerHTML = text;
  Object.assign(last, { text, html: byId("said").innerHTML });
}
const last = { text: "", html: "" };

// Shows a trace at an event. `at` is the number of the event, or a function that computes the number from the trace.
export function takeTrace(trace, at) {
  const { refused } = trace;
  change("trace", { trace, state: new State(trace), count: typeof at === "function" ? at(trace) : at });
  sayFault(refused?.line ?? null, refused?.cause ?? "", refused === null ? "" : `line ${refused.line}: ${refused.cause}`, false);
  say("");
  show();
}

export function askNow(name, ...texts) {
  try {
    return held.engine.ask(name, ...texts);
  } catch (fault) {
    return { status: 1, text: fault.message };
  }
}

export const LONG_TEXT = 200000; // characters; the engine needs some time for a longer text

// Returns the engine's answer about `text`. If `text` is long, waits before calling the engine, so that the browser can draw the page first.
export async function askSoon(name, text) {
  if (text.length >= LONG_TEXT) await new Promise((done) => setTimeout(done, 100));
  return askNow(name, text);
}

export function sayFault(line, cause, said, isOld = true) {
  change("run", { isRun: !isOld });
  byId("stage").classList.toggle("old", isOld);
  byId("old").hidden = !isOld;
  const why = sentenceOn(askNow, cause, "a schedule", "a draft");
  sayError(why === null ? said : `${said}: ${why}`);
  if (line === null) return;
  const box = byId("schedule");
  const start = box.value.split("\n").slice(0, line - 1).join("\n").length;
  box.setSelectionRange(start, start + 1 + (box.value.split("\n")[line - 1] ?? "").length);
}

export function sayError(said) {
  byId("fault").textContent = said;
  if (said !== "") byId("schedule-box").open = true;
}

export function sayErrorLine(text) {
  const { line, cause } = readFault(text);
  sayFault(line, cause ?? "", text);
}
