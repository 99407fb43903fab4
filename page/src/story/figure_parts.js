// Draws the parts of a figure: list, sentence, code, thread buttons, history.
import { glide } from "../draw/glide.js";
import { arranged } from "../draw/places.js";
import { drawStage } from "../draw/stage.js";
import { isLecture, isSceneSlide } from "../page/now.js";
import { callText, colourOf, letterOf } from "../run/markup.js";
import { isLock } from "../run/outcomes.js";
import { momentAt } from "../run/sentences.js";
import { scrollToLine, setHtml } from "../page/dom.js";
import { drawOwnCode } from "./code.js";
import { barEnds, scrollToLane, showDock, showScrub, showStrip } from "./dock.js";
import { saidOf } from "./said.js";

export const NARROW = "(max-width: 760px)";
const ROOMY = "(min-width: 1500px)"; // the window has room for the code beside the list
export const isNarrow = () => matchMedia(NARROW).matches;
const opensCode = ({ opensCode: isAsked }) => !isNarrow() && (isAsked ?? (!isLecture() && matchMedia(ROOMY).matches));

const CAS = "CAS x: a → b makes x point to b if x still points to a. succ is the node after curr.";
const LETTERS = "Once a thread has begun, its letter shows its next line. Click that line to execute it, or another line to run to it.";
const codeBox = (spec) => `<details class="codebox" ${opensCode(spec) ? "open" : ""}><summary>code<span>: <b>${spec.codeTitle}</b></span></summary>
    <p class="small code-note" ${spec.codeNote ? "" : "hidden"}>${spec.codeNote ?? ""}</p><span class="runs"></span><div class="lines"></div>
    <p class="small hint">${spec.list === "lock-free" && !spec.isPath ? CAS : LETTERS}</p></details>`;

export function frameOf({ box, spec }) {
  const prompt = spec.prompt === false ? "" : '<div id="prompt" class="prompt" aria-live="polite"></div>';
  box.innerHTML = `<div class="stage"><div class="list" tabindex="0" role="group" aria-label="the list"></div>
    <p class="said" aria-live="polite"></p><div class="strip"></div><div class="scrub"></div>${prompt}<div class="dock"></div></div>
    ${spec.code === false ? "" : codeBox(spec)}`;
  box.classList.add("fig");
  box.classList.toggle("plain", spec.plain === true);
  box.classList.toggle("timed", spec.isTimed === true);
  box.classList.toggle("undoes", spec.again !== false && spec.dock !== false);
}

// Draws a figure without reading its layout, because each read would make the browser lay out the whole page again.
export function drawFigure(figure, moment, isNear) {
  const { run, spec, box } = figure;
  placeTheList(figure, moment, isNear);
  const said = figure.said ?? saidHere(figure, moment);
  if (figure.part("said").innerHTML !== said) figure.part("said").innerHTML = said;
  box.classList.toggle("at-end", run.count === run.trace.total);
  box.classList.toggle("shut", !figure.canStep);
  showCode(figure, moment);
  showDock(figure);
  if (spec.strip) showStrip(figure);
  if (spec.scrub) showScrub(figure);
  scrollSoon(figure, moment.event?.thread ?? figure.active);
}

function scrollSoon(figure, moved) {
  cancelAnimationFrame(figure.scroll);
  figure.scroll = requestAnimationFrame(() => {
    if (figure.isEnded) return;
    scrollToTouched(figure);
    scrollToLit(figure, moved);
    if (figure.spec.strip && !figure.spec.places) scrollToLane(figure);
  });
}

const isOwnRelease = ({ word, deed, thread }, own) => thread === own && deed === "store" && isLock(word);

// Returns the sentence about the shown event, or about the later event `told` that shares a sentence with the shown one. On the path (the guided tour), if a
// call returns by releasing its locks, the sentence describes the step before these releases, and the reply.
function saidHere({ run, spec, told }, shown) {
  if (spec.sentence) return spec.sentence(shown);
  if (shown.event === null) return spec.says ?? "";
  const moment = told > run.count ? momentAt(run.state, told) : shown;
  const { number, answer, call, thread } = moment.event;
  let count = number;
  while (isOwnRelease(run.trace.event(count), thread)) count--;
  const isWhole = count === number || spec.isPath !== true || answer === undefined || run.trace.event(count).thread !== thread;
  const said = isWhole ? saidOf(moment, spec) : `${saidOf(momentAt(run.state, count), spec)} <b>${callText(call)} returns ${answer}.</b>`;
  run.state.moveTo(run.count);
  return said;
}

const LABEL = 18; // the smallest font size of a drawing, in units of the drawing
export const lockShown = ({ list, plain, locks = true }) => (!locks || plain ? "" : list === "coarse" ? "list" : list === "lock-free" ? "" : "nodes");

function placeTheList(figure, { state, event: made }, isNear) {
  const { id, run, spec, wide, tall, drawn } = figure;
  if (wide === 0) return;
  const event = made !== null && figure.shown.includes(made.thread) ? made : null; // a step of a thread without a button is not highlighted
  const box = figure.part("list");
  const { names = false, slots = 4, flat, strip, isPath = false, code = true } = spec;
  const hides = names || (spec.list === "lock-free" && !isPath && code) ? [] : ["succ"]; // the path shows only pred and curr; the code of the lock-free list also uses succ
  const isSlide = isLecture();
  const least = isSlide ? Math.min(0.019 * innerWidth, 0.0335 * innerHeight) / LABEL : innerWidth >= 1900 ? 1 : 0;
  const room = { wide, high: tall, least, slots: Math.max(slots, drawn.slots), lock: lockShown(spec), flat, tight: drawn.tight, hides, names, ends: strip && isPath ? barEnds(figure) : undefined, isSlide, isWhole: isSlide || figure.box.classList.contains("judged") };
  const list = arranged(state, event, room);
  const fallen = drawn.chain.filter((name) => !list.chain.includes(name) && !state.nodes[name]?.link.endsWith("*"));
  const isStep = isNear && run.count === drawn.count + 1;
  const isLoss = isStep && fallen.length > 0 && event?.call?.operation === "add"; // an add unlinks nothing: a node that leaves the chain is lost
  figure.isSlow = isLoss;
  Object.assign(drawn, { count: run.count, chain: list.chain, slots: Math.max(drawn.slots, list.slots), tight: list.units.tight });
  glide(box, () => (box.innerHTML = drawStage(state, event, room, id, list)), isNear, isLoss ? fallen : null);
  if (event !== null) box.firstElementChild.classList.add(colourOf(event.thread));
}

function scrollToTouched(figure) {
  const [box, room] = [figure.part("list"), figure.wide];
  const drawn = box.firstElementChild;
  const wide = Number(drawn?.getAttribute("width"));
  const touched = wide <= room ? null : box.querySelector("[data-hot]");
  if (touched == null) return;
  const [x, , width] = drawn.getAttribute("viewBox").split(" ").map(Number);
  const at = (Number(touched.getAttribute("x")) - x) * (wide / width);
  if (at < box.scrollLeft + 60 || at > box.scrollLeft + room - 120) box.scrollLeft = at - room / 2;
}

export function markLostNodes({ run, box }) {
  const has = run.has();
  const promised = run.promised();
  const isLost = ({ key }) => /^\d+$/.test(key) && promised.includes(Number(key)) !== has.includes(Number(key));
  for (const [name, node] of Object.entries(run.state.nodes)) {
    if (isLost(node)) box.querySelector(`.list [data-part="node ${name}"]`)?.classList.add("lost");
  }
}

function operationsOf({ spec, run }) {
  const planned = Object.values(spec.calls ?? {}).flat().map(([operation]) => operation);
  const begun = isSceneSlide() && spec.operations !== undefined ? [] : run.trace.calls.map(({ operation }) => operation);
  return [...new Set([...(spec.operations ?? []), ...planned, ...begun])];
}

function showCode(figure, { state, event, before }) {
  const box = figure.part("lines");
  if (box === null) return;
  const { spec, run, canStep, isGuess } = figure;
  const { list, plain, fresh, struck, hides, instead } = Object.assign({}, spec, isGuess ? spec.hidden : {}); // before the guess, `spec.hidden` hides some lines
  const isAble = (thread) => !run.isIdle(thread) || figure.left(thread).length > 0;
  if (!isAble(figure.active)) figure.active = figure.shown.find(isAble) ?? figure.active;
  const { active } = figure;
  const made = event === null || event.deed === "begin" ? null : { row: before.pc, thread: event.thread };
  const next = state.threads.map((own, thread) => ({ thread, row: own.pc })).filter(({ row }) => row !== 0);
  setHtml(box, drawOwnCode({ list, plain, fresh, struck, hides, instead, operations: operationsOf(figure), next, made, canStep, active }));
  const toggles = figure.shown.filter(isAble).map((thread) => toggleOf(thread, active));
  setHtml(figure.part("runs"), canStep && spec.free && toggles.length > 1 ? `who runs: ${toggles.join("")}` : "");
}

const toggleOf = (thread, active) => `<button class="who ${colourOf(thread)}" data-active="${thread}" aria-pressed="${thread === active}"
  title="${letterOf(thread)} runs to another line that is pressed">${letterOf(thread)}</button>`;

function scrollToLit(figure, moved) {
  const box = figure.part("lines");
  const line = box?.querySelector(`.lit.${colourOf(moved)}`) ?? box?.querySelector(".made") ?? box?.querySelector(".lit") ?? box?.querySelector(".line:has(del)");
  if (line != null && box.scrollHeight > box.clientHeight) scrollToLine(box, line, 10, 50);
}
