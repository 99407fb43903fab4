// For lecturers: a second window with the notes of the current slide, and a printable handout.
import { LECTURE } from "../data/lecture.js";
import { drawJudged, judgeScale } from "../draw/judged_bars.js";
import { drawStage } from "../draw/stage.js";
import { byId } from "../page/dom.js";
import { HERE, keptUnder } from "../page/kept.js";
import { askNow, now } from "../page/now.js";
import { linkTo } from "../page/visit.js";
import { scheduleOfSeed, warningOf } from "../run/address.js";
import { exerciseOf, OwnAnswer } from "../run/judged.js";
import { tag } from "../run/markup.js";
import { QUESTIONS } from "./ask.js";
import { lockShown } from "./figure_parts.js";
import { LiveRun } from "./live_run.js";
import { screenAt } from "./path.js";
import { foot, head, part, partsOfQuestion, setScene } from "./scene.js";

const TICK = 1000; // milliseconds
const clock = { timer: 0, began: 0 };
const numberIn = (address) => Number(/^#lecture=(\d+)$/.exec(address ?? "")?.[1] ?? 0);
const minutesTo = (number) => LECTURE.slice(0, number).reduce((sum, [minutes]) => sum + minutes, 0);
const twoDigits = (count) => String(count).padStart(2, "0");

const notesHtml = () =>
  head("Notes to the slides", "", '<p id="notes-says" class="lead"></p><p id="notes-answer" class="prose"></p><p id="notes-next" class="prose"></p>', "title") + byId("notes-parts").innerHTML;

const follow = ({ key }) => {
  const number = key === HERE ? numberIn(keptUnder(HERE)) : 0;
  if (number > 0) setScene({ at: number - 1 });
};

function drawClock() {
  const seconds = Math.floor((Date.now() - clock.began) / TICK);
  const box = part("#notes-clock");
  if (box !== null) box.textContent = `${twoDigits(Math.floor(seconds / 60))}:${twoDigits(seconds % 60)}`;
}

function beginNotes() {
  clock.began = Date.now();
  clock.timer = window.setInterval(drawClock, TICK);
  window.addEventListener("storage", follow);
  setScene({ at: 0 });
}

function endNotes() {
  window.clearInterval(clock.timer);
  window.removeEventListener("storage", follow);
}

function drawNotes({ at }) {
  const [minutes, title, , says, answer] = LECTURE[at];
  part("h1").textContent = `${at + 1}. ${title}`;
  part("#notes-says").textContent = says;
  part("#notes-answer").innerHTML = `<b>Answer:</b> ${answer}`;
  part("#notes-next").textContent = at + 1 < LECTURE.length ? `Next: ${LECTURE[at + 1][1]}` : "The last slide.";
  part("#notes-plan").textContent = `${minutes} minutes for this slide; by the plan it ends at ${twoDigits(minutesTo(at + 1))}:00.`;
  drawClock();
}

function turn({ key }) {
  const at = now.scene.at + ({ ArrowRight: 1, PageDown: 1, ArrowLeft: -1, PageUp: -1 }[key] ?? 0);
  if (LECTURE[at] !== undefined) setScene({ at });
}

export const notesView = {
  kind: "notes",
  title: () => "Notes to the slides · Why not just one lock?",
  html: notesHtml, begin: beginNotes, draw: drawNotes, end: endNotes, press: turn,
  deeds: { restart: () => ((clock.began = Date.now()), drawClock()) },
};

// ---- The handout: for each slide its picture, its question, and lines to write on.
const ROOM = { wide: 430, high: 115, hides: ["succ"] };
const BARS_WIDTH = 380; // the print enlarges bars and lists to the same width; narrower bars get letters as large as those of the lists

function pictureOf(figure) {
  const run = new LiveRun(figure);
  const { slots, flat } = figure;
  return drawStage(run.state, null, { ...ROOM, slots, flat, lock: lockShown(figure) }, `h${figure.list}${figure.slots}${run.lines.length}`);
}

const onPaper = (task) => task.replace(/^Press A and B in/, "Write").replace("an order that", "an order of A and B that").replace(/^Press A and B until/, "Let A and B run until");

/** @param {any} screen */
function sheetOfScreen({ prose, figure, ask, options, task }) {
  return { prose, drawn: pictureOf(figure), ask: ask ?? onPaper(task), options };
}

function sheetOfItem({ question, list, opening, lines, options }) {
  const [prose, ask] = partsOfQuestion(question);
  return { prose, drawn: pictureOf({ list, opening, lines, slots: 4 }), ask, options };
}

function sheetOfSides() {
  const stopped = Object.entries({ coarse: "One lock", lazy: "Lazy" }).map(([list, text]) => ({ text, drawn: pictureOf({ list, lines: ["begin 0 add 5", "go 0 3"], slots: 2 }) }));
  const prose = "A has begun add(5), has made three steps, and is stopped: above in the list with one lock, below in the lazy list.";
  return { prose, drawn: stopped.map(({ drawn }) => drawn).join(""), ask: "B calls contains(5). Which list answers B?", options: stopped };
}

function sheetOfSeed(seed) {
  const exercise = exerciseOf(askNow("listset_replay", scheduleOfSeed(askNow, seed)).text, "points");
  const drawn = drawJudged({ exercise, answer: new OwnAnswer(exercise), verdict: null, scale: judgeScale(exercise, BARS_WIDTH), count: 0 });
  const ask = "When does each call take effect? Mark a moment on each bar. In the order of the three moments, every reply must be correct.";
  return { prose: `Three calls on the set {${exercise.opening.join(", ")}}, each from its start to its end.`, drawn, ask };
}

/** @param {any[]} slide */
function sheetOf([, title, address], at) {
  const { story, ask: name, seed } = Object.fromEntries(new URLSearchParams(address.slice(1)));
  const sheet = story ? sheetOfScreen(screenAt(story)) : name ? sheetOfItem(QUESTIONS.find((item) => item.name === name)) : seed ? sheetOfSeed(seed) : sheetOfSides();
  const { prose, drawn, ask, options = [] } = sheet;
  const choices = options.length === 0 ? "" : tag("ol", { class: "choices" }, ...options.map(({ text }) => tag("li", {}, text)));
  return `<section class="sheet"><h2>${at + 1}. ${title}</h2><p>${prose}</p><div class="list">${drawn}</div>
    <p><b>${ask}</b></p>${choices}<p class="lines-to-write" aria-hidden="true"></p></section>`;
}

export const handoutView = {
  kind: "handout",
  title: () => "Handout · Why not just one lock?",
  html: () => `${head("Handout to the slides", "Why not just one lock?", warningOf(linkTo("")) === "" ? `<p class="small">${linkTo("#story=1")}</p>` : "", "title")}
    ${LECTURE.map(sheetOf).join("")}
    ${foot('<a class="button quiet" href="#teachers">For teachers</a>', '<button class="primary" data-do="print">Print</button>')}`,
  deeds: { print: () => print() },
};
