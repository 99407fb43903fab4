// The parts below the list: a row for each thread with its call and its next step, the history, and the slider.
import { callText, chipOf, colourOf, letterOf, tag } from "../run/markup.js";
import { drawContents } from "../draw/tables.js";
import { drawCalls, GROWN, HISTORY_LEFT, scaleOf, SMALL_GROWN, WIDE_GROWN } from "../draw/history.js";
import { redraw, setHtml } from "../page/dom.js";
import { isLecture } from "../page/now.js";
import { phaseText } from "./presses.js";
import { answerText } from "./said.js";

const AGAIN = `<span class="again"><button data-undo class="quiet small" title="undo the last press">↶ Undo</button>
  <button data-again class="quiet small">↺ Start over</button></span>`;

export function showDock(figure) {
  const { spec, run } = figure;
  if (spec.dock === false || figure.hidesDock) return redraw(figure.part("dock"), "");
  if (figure.isBusy && figure.part("dock").childElementCount > 0) return; // the buttons do not change while steps are shown
  const isChanged = run.lines.length !== run.first.length && spec.again !== false;
  redraw(figure.part("dock"), figure.shown.map((thread) => rowOf(figure, thread)).join("") + (isChanged ? AGAIN : ""));
}

function rowOf(figure, thread) {
  const { run, spec } = figure;
  const own = run.trace.calls.filter((call) => call.thread === thread && call.begun <= run.count);
  const [next] = figure.left(thread);
  const isIdle = run.isIdle(thread);
  if (isIdle && next === undefined) return spec.free ? chooser(figure, thread, own) : restOf(run, thread, own.at(-1));
  const call = isIdle ? { operation: next[0], key: next[1] } : own.at(-1);
  const plan = run.nextOf(thread, next);
  const waits = plan.waitsFor !== null;
  const words = waits ? `waits for ${letterOf(plan.waitsFor)}` : (spec.words?.[`${call.operation} ${plan.phase}`] ?? spec.words?.[plan.row] ?? spec.words?.[plan.phase] ?? phaseText(plan.phase, call, plan.row, spec.free ? run.trace.lacks : null));
  const key = letterOf(thread).toLowerCase();
  const given = { class: "step", "data-step": thread, "aria-keyshortcuts": key, ...(waits ? { "aria-disabled": "true" } : {}) };
  const button = tag("button", { ...given, ...(figure.canStep ? {} : { disabled: "" }) }, words, `<kbd aria-hidden="true">${key}</kbd>`);
  return threadRow(thread, button, callText(call));
}

function threadRow(thread, inside, call = "") {
  const given = { class: `thread ${colourOf(thread)}`, "data-thread": thread, role: "group", "aria-label": `thread ${letterOf(thread)}` };
  return tag("div", given, tag("span", { class: "own" }, chipOf(thread), call === "" ? "" : ` <code>${call}</code>`), " ", inside);
}

function restOf(run, thread, last) {
  if (last === undefined) return threadRow(thread, "");
  const reply = last.ended !== null && run.count >= last.ended ? `<b class="reply ${last.reply}">${answerText(last.reply)}</b>` : "";
  return threadRow(thread, `<span class="does">${reply}</span>`, callText(last));
}

function chooser(figure, thread, own) {
  const last = own.at(-1);
  const [operation, key] = figure.chosen[thread] ?? [last?.operation ?? "add", last?.key ?? 5];
  const names = figure.spec.operations ?? ["add", "remove", "contains"];
  const options = names.map((name) => tag("option", name === operation ? { selected: "" } : {}, name));
  const letter = letterOf(thread);
  const field = { type: "number", min: 0, max: 999, value: key, "data-key": thread, "aria-label": `number of ${letter}’s call` };
  const fields = tag("select", { "data-call": thread, "aria-label": `call of ${letter}` }, ...options) + tag("input", field);
  const reply = last === undefined ? "" : `<small>${callText(last)}:<br><b class="reply ${last.reply}">${answerText(last.reply)}</b></small>`;
  return threadRow(thread, `<span class="choose">${fields}<button data-begin="${thread}">begin</button></span> ${reply}`);
}

export function showStrip(figure) {
  const { run } = figure;
  const zoom = zoomOf(figure);
  const wide = Math.max(250, figure.stripWide / zoom);
  const grown = isLecture() ? GROWN : figure.spec.isPath ? 1 : wide < 450 ? SMALL_GROWN : WIDE_GROWN;
  figure.part("strip").style.cssText = `--zoom:${zoom};--grown:${grown}`;
  if (figure.spec.places) return figure.placing?.draw(figure.part("strip"), wide, zoom);
  const room = 26 + 9 * grown * `{${run.promised().join(", ")}}`.length; // pixels to the right of the last event, for the keys of the set
  const scale = scaleOf(run.trace, run.count, wide - room, figure.hides, isLow(figure), grown);
  Object.assign(scale, { edge: scale.edge + room, width: wide, zoom });
  figure.scale = scale;
  setHtml(figure.part("strip"), tag("div", { class: "calls" }, drawCalls(run.trace, scale)) + drawContents(run.trace, scale) + legendOf(figure.spec));
}
const isLow = ({ spec }) => (isLecture() ? spec.prompt !== false : innerHeight < 760 && !spec.isPath); // (the narrow bars of two lists have no room for labels)
// On the guided path, the bars of calls are larger, and the list is aligned with them.
const zoomOf = ({ spec, stripWide }) => (isLecture() ? innerHeight / 450 : !spec.isPath ? 1 : stripWide < 600 ? 1.34 : stripWide < 1500 ? 1.35 : 1.55);
export const barEnds = (figure) => [(HISTORY_LEFT - 6) * zoomOf(figure), 16 * zoomOf(figure)];
const legendOf = ({ isTimed }) => `<p class="small legend">● the call changes the set · ○ ${isTimed ? "a" : "earliest"} moment when its answer is correct</p>`;
const MOST_CALLS = 400; // pixels; if the bars are higher, they scroll

export function scrollToLane(figure) {
  const { run, scale } = figure;
  if (scale.height <= MOST_CALLS || run.count === 0) return;
  const box = figure.part("calls");
  const y = scale.y(run.trace.event(run.count).thread);
  if (y < box.scrollTop + 20 || y > box.scrollTop + box.clientHeight - 20) box.scrollTop = y - box.clientHeight / 2;
}

const SCRUB = `<button class="small" data-move="-1" aria-label="one step back">◂</button>
  <input type="range" min="0" aria-label="moment of the run"><button class="small" data-move="1" aria-label="one step on">▸</button>
  <span class="small count"></span>`;

export function showScrub(figure) {
  const box = figure.part("scrub");
  const { count, trace } = figure.run;
  if (box.firstElementChild === null) {
    box.innerHTML = SCRUB;
    box.querySelector("input").oninput = ({ target }) => figure.moveTo(Number(target.value));
  }
  const slider = box.querySelector("input");
  Object.assign(slider, { max: trace.total, value: count });
  slider.setAttribute("aria-valuetext", `step ${count} of ${trace.total}: ${figure.part("said").textContent}`);
  box.querySelector(".count").textContent = `${count} of ${trace.total}`;
  box.hidden = !figure.isOpen;
}

const MOST_KEY = 999;

export function pressed(figure, event) {
  const button = event.target.closest("button");
  if (button === null || !figure.box.contains(button)) return;
  const { step, move, begin, active } = button.dataset;
  if (step !== undefined) figure.step(Number(step));
  else if (button.closest("[data-rows]") !== null) pressLine(figure, button);
  else if (active !== undefined) figure.set({ active: Number(active) });
  else if ("again" in button.dataset) figure.again();
  else if ("undo" in button.dataset) figure.undo();
  else if (move !== undefined) figure.moveTo(figure.run.count + Number(move));
  else if (begin !== undefined) beginOwn(figure, Number(begin));
}

// Handles a press on a line of code. If a thread is at this line, it executes the line; otherwise the active thread runs to the line.
function pressLine(figure, button) {
  if (figure.isBusy || !figure.canStep) return;
  const rows = button.closest("[data-rows]").dataset.rows.split(" ").map(Number);
  const here = (button.dataset.threads ?? "").split(" ").filter((text) => text !== "").map(Number);
  const thread = here.length === 0 || here.includes(figure.active) ? figure.active : here[0];
  const isIdle = figure.run.isIdle(thread);
  if (isIdle && figure.left(thread).length === 0) return figure.say(`${chipOf(thread)} has no pending call.`);
  figure.leaves();
  const from = figure.run.trace.total;
  if (isIdle) figure.run.begin(thread, figure.left(thread)[0]);
  const isThere = ({ changes }) => rows.includes(changes.pc);
  const isOff = (event) => !isThere(event) || event.deed === "exchange";
  figure.play(thread, figure.run.stepsUntil(thread, here.length > 0 ? isOff : isThere), from);
}

export function chooseCall(figure, row) {
  const call = [row.querySelector("select").value, row.querySelector("input").value];
  figure.chosen = { ...figure.chosen, [row.dataset.thread]: call };
}

export function askCall(figure, thread) {
  figure.say(`Which call should ${chipOf(thread)} begin? Choose an operation and a number, then press <b>begin</b>.`);
  figure.box.querySelector(`[data-thread="${thread}"] select`)?.focus();
}

export function beginOwn(figure, thread) {
  if (figure.isBusy || !figure.canStep) return;
  chooseCall(figure, figure.box.querySelector(`[data-thread="${thread}"]`));
  const [operation, key] = figure.chosen[thread];
  if (!/^\d+$/.test(key) || Number(key) > MOST_KEY) return figure.say(`A number from 0 to ${MOST_KEY}, please.`);
  figure.leaves();
  figure.active = thread;
  figure.run.begin(thread, [operation, Number(key)]);
  figure.draw(true);
  figure.onStep?.(figure);
}
