// The Compare activity: two lists run the same calls side by side. In each turn, one thread executes a step in both lists. The activity's address contains the
// turns.
import { LISTS } from "../../made/rows.js";
import { LECTURE } from "../data/lecture.js";
import { byId, redraw } from "../page/dom.js";
import { toggleLecture } from "../page/play.js";
import { now } from "../page/now.js";
import { linkTo } from "../page/visit.js";
import { addressOf, readAddress } from "../run/address.js";
import { chipOf, listOptions, tag } from "../run/markup.js";
import { Figure, STILL } from "../story/figure.js";
import { RunFault, ShownRun } from "../story/live_run.js";
import { copyText, head, part, setScene, threadOfKey } from "../story/scene.js";
import { programText, readProgram, Sides } from "../story/sides.js";

const FIRST = "#sides=coarse.lazy&quota=4&calls=0.add.5,1.contains.5&turns=0.0.0.0.1.1.1";
const PICTURE = '<header class="line"><h2></h2> <a class="small">Watch this run</a></header><div class="pair"></div>';
const SIDES = ["one", "other"];
const QUOTA = 4;
const shown = { sides: null, figures: [] }; // `now.scene.at` is the number of turns shown
const sidesPart = (name) => byId(`sides-${name}`);
const listsOf = ({ given }) => (given.sides ?? "coarse.lazy").split(".");

function html(place) {
  const choice = (name, at) => tag("label", {}, ["left ", "right "][at], tag("select", { id: `sides-${name}` }, listOptions(listsOf(place)[at])));
  const lead = `<p class="prose">Each turn executes the thread’s next step in both lists. A list that has finished the call waits for the other list. <a class="beside" href="tables.html#progress">Progress of each list: blocking, lock-free, wait-free</a></p>`;
  return `<section class="screen on-stage">${head("", "In which list does a call wait?", lead)}
    <div id="sides-presets" class="line">${byId("sides-own-parts").innerHTML.replace("LISTS", SIDES.map(choice).join(""))}</div>
    <p id="scene-said" role="status"></p><div id="sides-pictures"></div></section>${byId("sides-foot").innerHTML}`;
}

function begin({ given }) {
  /** @type {Record<string, string>} */
  const { calls, turns = "", opening = "" } = { ...readAddress(FIRST).sides, ...given };
  const program = [];
  for (const call of calls.split(",").filter((one) => one !== "")) {
    const [thread, operation, key] = call.split(".");
    (program[Number(thread)] ??= []).push(`${operation} ${key}`);
  }
  sidesPart("program").value = programText(Array.from(program, (own) => own ?? []));
  sidesPart("opening").value = opening.replaceAll(".", " ");
  for (const name of SIDES) sidesPart(name).onchange = () => beginSides();
  sidesPart("slider").oninput = ({ target }) => turnTo(Number(target.value));
  Object.assign(shown, { sides: null, figures: [] });
  const threads = turns.split(".").filter((thread) => thread !== "").map(Number);
  beginSides(threads);
  if (now.place.slide > 0) turnTo(threads.lastIndexOf(threads[0]) + 1); // a slide begins after the turns of the first thread
}

function beginSides(turns = []) {
  try {
    const program = readProgram(sidesPart("program").value);
    const opening = sidesPart("opening").value.split(/[\s,]+/).filter((key) => key !== "");
    const kinds = SIDES.map((name) => sidesPart(name).value);
    shown.sides = new Sides(kinds, { program, quota: Number(now.place.given.quota ?? QUOTA), opening });
    for (const thread of turns) if (!shown.sides.turn(thread)) break;
    part("#scene-said").textContent = "";
    takeTurns();
  } catch (fault) {
    if (!(fault instanceof RunFault)) throw fault;
    part("#scene-said").textContent = fault.message;
  }
}

const takeTurns = () => setScene({ text: addressOfSides(), at: shown.sides.turns.length });

function turnOf(thread) {
  const { turns } = shown.sides;
  if (now.scene.at < turns.length) beginSides(turns.slice(0, now.scene.at));
  const isMade = shown.sides.turn(thread);
  takeTurns();
  if (!isMade) part("#scene-said").innerHTML = `${chipOf(thread)} has ended all its calls in both lists.`;
}

const turnTo = (at) => setScene({ at: Math.min(Math.max(at, 0), shown.sides.turns.length) });

function draw({ at, note }) {
  const { sides } = shown;
  if (sides === null) return;
  if (now.place.slide > 0) part("h1").textContent = note || LECTURE[now.place.slide - 1][3]; // the answer, if the lecturer has opened it, else the question
  const wordsOf = (call) => (call === undefined ? "is done" : `next step <span class="roomy">of ${call}</span>`);
  const button = (_, thread) => tag("button", { "data-do": "turn", "data-thread": thread }, `${chipOf(thread)} ${wordsOf(sides.callOf(thread, at))}`);
  redraw(sidesPart("turns"), sides.program.map(button).join(" "));
  const words = `turn ${at} of ${sides.turns.length}`;
  Object.assign(sidesPart("slider"), { max: sides.turns.length, value: at });
  sidesPart("slider").setAttribute("aria-valuetext", words);
  sidesPart("where").textContent = words;
  figuresOf(sides.sides).forEach((figure, place) => drawSide(sides.sides[place], figure));
}

function figuresOf(sides) {
  const { figures } = shown;
  if (figures.length > 0 && sides.every(({ run }, at) => figures[at].spec.list === run.trace.kind)) return figures;
  end();
  sidesPart("pictures").innerHTML = sides.map(({ run }) => tag("section", { "aria-label": LISTS[run.trace.kind].name }, PICTURE)).join("");
  const boxes = sidesPart("pictures").querySelectorAll(".pair");
  const specOf = ({ run: { trace, state } }) => ({ ...STILL, list: trace.kind, run: new ShownRun(trace, state), code: false, names: false, slots: 4, flat: now.place.slide > 0 });
  figures.push(...sides.map((side, at) => new Figure(boxes[at], specOf(side))));
  return figures;
}

const end = () => shown.figures.splice(0).forEach((figure) => figure.end());

function drawSide({ run, counts }, figure) {
  const { at } = now.scene;
  const { turns } = shown.sides;
  const count = counts[at];
  const box = figure.box.parentElement;
  box.querySelector("h2").innerHTML = `${LISTS[run.trace.kind].name} <small>${count} events</small>`;
  box.querySelector("a").href = addressOf(run.schedule, 0) ?? "#";
  run.state.moveTo(count);
  figure.showRun(new ShownRun(run.trace, run.state, count), undefined, now.prefs.hides);
  const hasWaited = at > 0 && count === counts[at - 1];
  if (hasWaited) figure.say(`${chipOf(turns[at - 1])} has ended its call here, and waits for the other list.`);
}

function addressOfSides() {
  const { sides } = shown;
  const { quota, opening } = sides.sides[0].run.spec;
  const calls = sides.program.flatMap((own, thread) => own.map((call) => `${thread}.${call.replace(" ", ".")}`));
  const parts = [`sides=${sides.sides.map(({ run }) => run.trace.kind).join(".")}`, `quota=${quota}`];
  if (opening.length > 0) parts.push(`opening=${opening.join(".")}`);
  return `#${[...parts, `calls=${calls.join()}`, `turns=${sides.turns.join(".")}`].join("&")}`;
}

function press(event) {
  const { sides } = shown;
  const by = { ArrowRight: 1, PageDown: 1, ArrowLeft: -1, PageUp: -1, Home: -Infinity, End: Infinity }[event.key];
  if (sides === null) return;
  if (by !== undefined) {
    event.preventDefault();
    turnTo(now.scene.at + by);
  } else if (threadOfKey(event) in sides.program) turnOf(threadOfKey(event));
}

function goes(by) {
  const at = now.scene.at + by;
  const isThere = at >= 0 && at <= shown.sides.turns.length;
  if (isThere) turnTo(at);
  return isThere;
}

export const compareView = {
  kind: "compare",
  title: (place) => `${listsOf(place).map((kind) => LISTS[kind].name).join(" beside ")} · Why not just one lock?`,
  html,
  begin,
  draw,
  end,
  press,
  goes,
  deeds: {
    begin: () => beginSides(),
    copy: () => copyText(linkTo(addressOfSides()), "The link is copied."),
    back: () => turnTo(now.scene.at - 1),
    turn: ({ dataset }) => turnOf(Number(dataset.thread)),
    lecture: toggleLecture,
  },
};
