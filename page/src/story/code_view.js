// The activity "Step by the code": the reader can begin any call, and each line of the code is a button. The activity's address contains the run.
import { LISTS } from "../../made/rows.js";
import { byId } from "../page/dom.js";
import { now } from "../page/now.js";
import { addressOfCode, linesOfCode, linkTo, SET_OF_CODE, START_OF_CODE } from "../page/visit.js";
import { tag } from "../run/markup.js";
import { copyText, head, LIST_WORDS, onStage, part, pressThread, scene, setScene, takeFreeFigure } from "./scene.js";

const listOf = ({ id }) => (id in LISTS ? id : "lazy");
const numbersIn = (text) => [...new Set(text.split(/\D+/).filter((key) => /^\d{1,3}$/.test(key)).map(Number))].sort((one, other) => one - other);
const numberIn = (text, least, most) => (/^\d{1,5}$/.test(text ?? "") ? Math.max(least, Math.min(most, Number(text))) : null);
/** @param {any} place */
const setOfPlace = ({ given: { threads, quota } }) =>
  ({ threads: numberIn(threads, 1, 64) ?? SET_OF_CODE.threads, quota: numberIn(quota, 0, 16384) ?? SET_OF_CODE.quota });
/** @param {any} place */
const openingOf = ({ given: { opening, s } }) => (opening === undefined ? (s === undefined ? START_OF_CODE : []) : numbersIn(opening));

function html(place) {
  const list = listOf(place);
  const tab = ([kind, name]) => tag("button", { class: "small", "data-do": "list", "data-list": kind, "aria-pressed": kind === list }, name);
  return `${onStage(`${head("", "Press a line, and its thread executes it.", byId("code-words").innerHTML)}
    <div class="line"><span class="branches">${Object.entries(LIST_WORDS).map(tab).join("")}</span>
    <label class="small">begins with <input id="code-opening" value="${openingOf(place).join(" ")}" size="8"></label></div>
    <p id="code-said" class="again" role="status" hidden></p>`)}${byId("code-foot").innerHTML}`;
}

function figureOf(place, lines) {
  const list = listOf(place);
  const chosen = { 0: ["add", 5], 1: [list === "coarse" ? "contains" : "remove", 7] };
  return takeFreeFigure(list, { lines, opening: openingOf(place), ...setOfPlace(place), chosen, opensCode: true, prompt: false });
}

function begin(place) {
  let figure = figureOf(place, linesOfCode(place.given.s ?? ""));
  if (figure.run.trace.refused !== null) {
    figure = figureOf(place, []);
    part("#code-said").hidden = false;
    part("#code-said").textContent = "This list cannot make these steps, so it starts afresh.";
  }
  figure.onStep = () => setScene({ text: addressOfCode(listOf(place), openingOf(place), figure.run.lines, setOfPlace(place)) });
  figure.onStep();
  part("#code-opening").onchange = ({ target }) => (location.hash = addressOfCode(listOf(place), numbersIn(target.value), [], setOfPlace(place)));
}

function takeList({ dataset }) {
  const begins = scene.figure.run.lines.filter((line) => line.startsWith("begin"));
  const first = new Map(begins.map((line) => [line.split(" ")[1], line]).reverse());
  location.hash = addressOfCode(dataset.list, openingOf(now.place), [...first.values()], setOfPlace(now.place));
}

// Steps the active thread or, if it is idle, another thread in a call. If all threads are idle, the active thread begins the chosen call.
function stepOn() {
  const { figure } = scene;
  const thread = figure.run.isIdle(figure.active) ? (figure.shown.find((one) => !figure.run.isIdle(one)) ?? figure.active) : figure.active;
  figure.press(thread);
}

export const codeView = {
  kind: "code-place",
  title: (place) => `${LISTS[listOf(place)].name}, step by the code`,
  html,
  begin,
  press: pressThread,
  deeds: { list: takeList, copy: () => copyText(linkTo(now.scene.text), "The link to this run, at this step, is copied."), step: stepOn },
};
