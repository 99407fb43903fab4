// Draws the bench (the part of the page that runs any schedule): the run at the current event, the slider, the question, and the boxes below the question.
import { LECTURE } from "../data/lecture.js";
import { LISTS } from "../../made/rows.js";
import { loadMore, more } from "../engine/more.js";
import { anotherSeed, partsOfSeed, scheduleOfSeed } from "../run/address.js";
import { counted } from "../run/markup.js";
import { scheduleOfTrace } from "../run/schedule_text.js";
import { momentAt, sentenceOf } from "../run/sentences.js";
import { drawOrder, drawTable, drawThreads } from "../draw/tables.js";
import { drawListing } from "../draw/listing.js";
import { byId, scrollToLine, setAble, setHtml } from "../page/dom.js";
import { askNow, hiddenOutcomes, isJudging, now, show, say } from "../page/now.js";
import { isPlaying } from "../page/play.js";
import { addressOfCode, titleIn } from "../page/visit.js";
import { examples, openTask } from "../page/work.js";
import { wayBack } from "../story/assignment.js";
import { Figure, STILL } from "../story/figure.js";
import { linesOf, ShownRun } from "../story/live_run.js";
import { saidOf } from "../story/said.js";
import { LIST_WORDS, titleOfScene } from "../story/scene.js";

const bench = { key: "", figure: null };
const HOW_TO_JUDGE = "Press each bar at the moment when its call takes effect. Choose each reply.";

// Returns the sentence about a step that is shown while the reader judges the run. The sentence reveals neither the reply nor the effect of the step on the
// set.
const saidToJudge = (moment) => saidOf(moment).replace(/: <b>.*?<\/b>/, ".").replace(/ returns [^.]*\./, " returns … what?") || HOW_TO_JUDGE;

function figureOfTask(run) {
  const { kind, threads } = run.trace;
  const isSlide = now.place.slide > 0;
  const key = [now.task.kind, now.task.id, kind, threads, isSlide].join();
  if (bench.figure !== null && bench.key === key) return bench.figure;
  bench.figure?.end();
  bench.key = key;
  const box = document.createElement("div");
  byId("run-figure").replaceChildren(box);
  const sentence = isSlide ? saidToJudge : (moment) => sentenceOf(moment, hiddenOutcomes());
  bench.figure = new Figure(box, { ...STILL, names: !isSlide, code: !isSlide, list: kind, run, sentence, codeTitle: LIST_WORDS[kind], slots: 5 });
  return bench.figure;
}

export function showRun() {
  const { trace, state, count } = now.run;
  const moment = momentAt(state, count);
  const run = new ShownRun(trace, state, count);
  const figure = figureOfTask(run);
  figure.box.classList.toggle("judged", isJudging());
  figure.part("said").setAttribute("aria-live", isPlaying() ? "off" : "polite");
  figure.showRun(run, moment, now.prefs.hides);
  setHtml(byId("order"), drawOrder(trace, count, now.prefs.hides));
  showThreads(moment.event);
  showTable(moment);
  showListing(moment);
}

export function showBar() {
  const { trace, count } = now.run;
  const { total } = trace;
  byId("title").textContent = `${LISTS[trace.kind].name}, ${counted(trace.threads, "thread")}`;
  const where = `event ${count} of ${total}`;
  Object.assign(byId("slider"), { max: total, value: count });
  byId("slider").setAttribute("aria-valuetext", where);
  byId("where").textContent = where;
  setAble("back", count > 0);
  setAble("next", count < total);
}

function showThreads(event) {
  if (byId("threads-box").open) byId("threads").innerHTML = drawThreads(now.run.state, event, hiddenOutcomes().includes("reply"));
}

function showTable(moment) {
  byId("table-title").textContent = `Step table of ${LISTS[now.run.trace.kind].name}`;
  if (byId("table-box").open) byId("table").innerHTML = drawTable(moment);
}

function showListing(moment) {
  if (!byId("listing-box").open) return;
  if (more.CODE === null) return void loadMore().then(show, ({ message }) => say(message));
  const box = byId("listing");
  box.innerHTML = drawListing(moment);
  const line = box.querySelector(".moved") ?? box.querySelector(".here");
  if (line !== null) scrollToLine(box, line, 40, 80);
}

export function listenToBench() {
  byId("go-on-here").onpointerdown = byId("go-on-here").onclick = aimGoOn;
  for (const name of ["table-box", "listing-box", "threads-box"]) byId(name).ontoggle = show;
}

export function openSeed(seed, count) {
  openTask({ kind: "seed", id: seed }, scheduleOfSeed(askNow, seed), count);
}

function taskOfWatch() {
  const suffix = isJudging() ? "&judge" : "";
  if (now.task.kind === "seed" && !isJudging()) drawSeedBox(now.task.id);
  const names = examples().map(({ name }) => name);
  const at = now.task.kind === "example" ? names.indexOf(now.task.id) : -1;
  const to = (index) => (at >= 0 && names[index] !== undefined ? `#example=${names[index]}${suffix}` : null);
  const all = suffix === "" ? { href: "#ask", words: "All questions" } : { href: "#judge", words: "All runs" };
  return { before: to(at - 1), all: wayBack(now.place, all, now.task), next: to(at + 1) };
}

function drawSeedBox(seed) {
  const { kind, number } = partsOfSeed(seed);
  byId("seed-number").textContent = number;
  byId("seed-another").href = `#seed=${anotherSeed(seed, kind)}`;
  byId("seed-judge").href = `#seed=${seed}&judge`;
}

// Sets the address of the link "Go on from here" only when the link is pressed, since the address of a long run is long.
function aimGoOn() {
  const { trace, count } = now.run;
  byId("go-on-here").hash = addressOfCode(trace.kind, trace.opening, linesOf(scheduleOfTrace(trace, count)), trace);
}

export function showPlace() {
  document.title = titleIn(now, titleOfScene);
  byId("leave").textContent = now.place.slide > 0 ? `${now.place.slide} of ${LECTURE.length} ✕` : "✕";
  if (now.place.screen !== "stage") return;
  const links = taskOfWatch();
  for (const name of ["before", "next"]) {
    byId(`task-${name}`).hidden = links[name] === null;
    if (links[name] !== null) byId(`task-${name}`).href = links[name];
  }
  [byId("task-all").hash, byId("task-all").textContent] = [links.all.href, links.all.words];
}
