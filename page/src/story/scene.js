// The scenes of the page. Each scene has a view. A button with `data-do` calls the function of that name in the view's `deeds`.
import { wantsStill } from "../draw/glide.js";
import { change, dispatch, isLecture, now } from "../page/now.js";
import { byId, setHtml } from "../page/dom.js";
import { copied } from "../page/visit.js";
import { warningOf } from "../run/address.js";
import { chipOf, escaped, tag } from "../run/markup.js";
import { Figure } from "./figure.js";
import { NARROW } from "./figure_parts.js";

/**
 * A view shows one kind of place (a location in the page, as in its address). It has the place's CSS class (`kind`) and HTML. `fault` returns the reason why a
 * place does not exist, or null. `begin` creates the figure once the HTML is in the page, `draw` shows the progress, and `end` is called before the HTML is
 * removed. A button calls one of the `deeds`, and a key press calls `press`. `goes` moves forward or back on a slide, and returns whether it did.
 * @typedef {import("../page/reducer.js").Place} Place
 * @typedef {{ kind: string, title: (place: Place) => string, html: (place: Place) => string, fault?: (place: Place) => string | null,
 *   begin?: (place: Place) => void, draw?: (scene: import("../page/reducer.js").Scene) => void, end?: () => void,
 *   deeds?: Record<string, (target: any) => any>, press?: (event: KeyboardEvent) => any, goes?: (by: number) => any }} View
 */

/** The views, by activity. The view with the key `ACTIVITY map` is the overview of an activity. @type {Record<string, View>} */
export const VIEWS = {};
export const scene = { key: "", view: null, figure: null, isFirst: true, begun: -Infinity };
export const part = (selector) => byId("scene").querySelector(selector);
const viewOf = ({ activity, id }) => (id === "" ? VIEWS[`${activity} map`] : undefined) ?? VIEWS[activity];
export const titleOfScene = (place) => viewOf(place).title(place);
export const faultOfScene = (place) => viewOf(place).fault?.(place) ?? null;
export const isScene = ({ place }) => place.screen === "scene";
export const isStepwise = () => isLecture() || wantsStill(); // the page plays no press by itself
export const setScene = (given) => dispatch("scene", given);

export async function copyText(text, words) {
  part("#scene-said").textContent = ((await copied(text)) ? words : `Copy this by hand: ${text}`) + warningOf(text);
}

// Shows the task, the question or the reply above the threads' buttons. The layout reserves this space, so nothing scrolls.
export const showPrompt = (html) => setHtml(part("#prompt"), html);

export function takeFigure(figure) {
  scene.figure?.end();
  return (scene.figure = figure);
}

export function leaveScene() {
  if (scene.view === null) return;
  scene.view.end?.();
  takeFigure(null);
  Object.assign(scene, { key: "", view: null });
  byId("scene").innerHTML = "";
  scrollTo(0, 0);
}

export function renderScene({ place, scene: state }) {
  const key = JSON.stringify([place.activity, place.id, place.given, place.view === "embed"]);
  if (key === scene.key) return scene.view.draw?.(state);
  leaveScene();
  const view = viewOf(place);
  Object.assign(scene, { key, view });
  const box = byId("scene");
  box.className = view.kind;
  box.innerHTML = view.html(place);
  scrollTo(0, 0);
  view.begin?.(place);
  view.draw?.(now.scene);
  scene.figure?.measure(); // the sentences below the list have changed its size; without this call, the first frame would show a list that is cut
  if (!scene.isFirst && ["BODY", "MAIN"].includes(document.activeElement.tagName)) box.querySelector("h1")?.focus({ preventScroll: true });
  if (!scene.isFirst) scene.begun = performance.now();
  scene.isFirst = false; // from now on, the focus moves to the title of each opened place
}

// Decides whether a click on the button at the right was meant for the previous screen's button at the same position.
const isSecondClick = (target) => performance.now() - scene.begun < JUST_OPENED && target.closest("#go-on:not(.ready)") !== null;
const JUST_OPENED = 700; // milliseconds

export function openScene({ activity, id = "", given = {}, view = null, slide = 0 }) {
  scene.key = ""; // otherwise a place that is already shown would not begin again
  change("view", { view, slide });
  dispatch("place", { activity, screen: "scene", id, given });
}

export function listenToScene() {
  matchMedia(NARROW).onchange = ({ matches }) => matches && document.querySelectorAll("details.codebox").forEach((box) => box.removeAttribute("open"));
  byId("scene").addEventListener("click", (event) => {
    const target = event.target.closest("[data-do]");
    if (isSecondClick(event.target)) event.preventDefault();
    else if (target !== null && byId("scene").contains(target)) scene.view?.deeds?.[target.dataset.do]?.(target);
  });
}

export const head = (kicker, title, more = "", kind = "") =>
  `<div class="head">${kicker === "" ? "" : `<p class="kicker">${kicker}</p>`}<h1 class="${kind}" tabindex="-1">${title}</h1>${more}</div>`;

export const onStage = (head, kind = "") => `<section class="screen on-stage ${kind}">${head}<div id="figure"></div></section>`;

export const backLink = ({ href, words }) => tag("a", { class: "button quiet back", href }, escaped(words));

export const hintAndOn = ({ href, words }) =>
  `<button id="hint" class="quiet" data-do="hint"></button>${tag("a", { id: "go-on", class: "button quiet", href, "data-words": words }, "Skip →")}`;

export function drawHintAndOn(isDone, words) {
  const hint = part("#hint");
  hint.hidden = isDone;
  if (hint.textContent !== words) hint.textContent = words;
  drawOn(isDone, part("#go-on").dataset.words);
}

export function drawOn(isDone, words) {
  const on = part("#go-on");
  on.textContent = isDone ? words : "Skip →";
  on.className = isDone ? "button primary ready" : "button quiet";
}

export function takeFreeFigure(list, spec) {
  const free = { free: true, strip: true, slots: 6, operations: ["add", "remove", "contains"], codeTitle: LIST_WORDS[list] };
  return takeFigure(new Figure(part("#figure"), { list, ...free, ...spec }));
}
export const LACKS_ONE = "This list skips one check of the code below.";
export const foot = (left, right) => tag("footer", { class: "foot" }, left, tag("span", { class: "spread" }), right);

export const optionButtons = (texts, wrong = []) => {
  const button = (text, at) => {
    const given = { class: "option", "data-do": "answer", "data-option": at, ...(wrong.includes(text) ? { "aria-disabled": "true" } : {}) };
    return tag("button", given, `<b aria-hidden="true">${at + 1}</b> `, tag("span", {}, text));
  };
  return tag("div", { class: "options" }, ...texts.map(button));
};

// Returns the reply to a guess. If the answer is shown later (`isToCome`), the reply does not reveal whether the guess is right.
export function replyTo(options, chosen, isToCome) {
  const option = options?.[chosen];
  if (option === undefined) return "";
  const { text, says, right = false } = option;
  const guess = `<b>You said: ${text[0].toLowerCase()}${text.slice(1)}${text.endsWith("?") ? "" : "."}</b>`;
  if (isToCome) return `<p class="you">${guess} Let us see.</p>`;
  return right ? '<p class="you right"><b>Right.</b></p>' : `<p class="you wrong">${guess} ${says}</p>`;
}

// Splits the text of a question into the story before it and the question itself.
export const partsOfQuestion = (text) => /^(.*[.!] )?(.*)$/.exec(text).slice(1);

export function drawLedger(run, count = run.trace.total) {
  const [promised, has] = [run.promised(count), run.has()];
  const all = [...new Set([...promised, ...has])].sort((one, other) => one - other);
  const cell = (keys, others) => (key) => {
    const isIn = keys.includes(key);
    return tag("td", { class: isIn ? (others.includes(key) ? "" : "odd") : "gap" }, isIn ? key : `no ${key}`);
  };
  const row = (name, keys, others) => tag("tr", {}, tag("th", { scope: "row" }, name), ...all.map(cell(keys, others)));
  return tag("table", { class: "ledger" }, row("should have", promised, has), row("list has", has, promised));
}

export const isOddRun = (run) => run.promised().join() !== run.has().join();

export function threadOfKey({ key, ctrlKey, metaKey, altKey, repeat }) {
  if (!now.prefs.letters || repeat || ctrlKey || metaKey || altKey || !/^[a-z]$/.test(key)) return -1;
  return key.charCodeAt(0) - "a".charCodeAt(0);
}

// Handles a press of a thread's key: the thread steps, or begins its first call. Only a button begins later calls, so that an extra press of the key begins no
// call.
export function pressThread(event) {
  const thread = threadOfKey(event);
  const { figure } = scene;
  if (thread === -1 || figure === null) return;
  const { run, spec, isBusy } = figure;
  const isAnswered = spec.free && !isBusy && run.isIdle(thread) && run.trace.calls.some((call) => call.thread === thread);
  if (!isAnswered) figure.press(thread);
  else if (part(`[data-begin="${thread}"]`)?.getClientRects().length > 0) figure.say(`${chipOf(thread)} has returned. Press <b>begin</b> for its next call.`);
}

export const numberOfKey = ({ key }) => (now.prefs.letters && /^[1-9]$/.test(key) ? Number(key) - 1 : -1);
export const LIST_WORDS = { coarse: "One lock", fine: "Hand over hand", optimistic: "Optimistic", lazy: "Lazy", "lock-free": "Lock-free" };
