// Shows the path, one screen at a time. Each screen has a task or a question. "Show me" presses the next button of a solution.
import { byId } from "../page/dom.js";
import { isLecture, now } from "../page/now.js";
import { showStrip } from "./dock.js";
import { Figure } from "./figure.js";
import { keepStory, keptStory, startAfresh } from "./progress.js";
import { waysOn } from "./live_run.js";
import { partName, partsOf, placeIn, screenAt } from "./path.js";
import { barHtml, dots, drawBar, endHtml, GONE, LAST, promptOf, welcome } from "./path_parts.js";
import { Placing } from "./placing.js";
import { drawLedger, head, isStepwise, numberOfKey, onStage, openScene, part, pressThread, scene, setScene, takeFigure, showPrompt } from "./scene.js";
import { toSlide } from "./slide.js";

const here = () => screenAt(now.place.id);
const PLACES = Array.from({ length: LAST }, (_, index) => partsOf(index + 1).map((screen) => `${index + 1}.${partName(screen)}`.replace(/[.]1$/, ""))).flat();

function goBy(by) {
  if (now.place.slide > 0) return toSlide(by); // a slide shows one part of a screen
  let to = PLACES.indexOf(now.place.id) + by;
  if (!here()?.isExtra) while (screenAt(PLACES[to])?.isExtra) to += by;
  location.hash = `#story=${PLACES[to]}`;
}

function html(place) {
  const { number } = placeIn(place.id);
  const { done } = keptStory();
  const screen = screenAt(place.id);
  const path = dots(number, done) + (place.given.gone === "yes" ? GONE : place.given.back === "yes" ? welcome(done) : "");
  if (screen === null) return path + endHtml(done);
  const question = head("", screen.question, `<p class="prose">${screen.prose}</p>`);
  const isFirst = number === 1;
  return path + onStage(isFirst ? `<div class="two">${byId("hero").innerHTML}${question}</div>` : question, isFirst ? "first" : "") + barHtml(isFirst);
}

function begin(place) {
  keepStory({ at: placeIn(place.id).number });
  const screen = screenAt(place.id);
  if (screen === null) return;
  const isGuess = screen.ask !== undefined;
  const figure = takeFigure(new Figure(part("#figure"), { ...screen.figure, isPath: true, restart: screen.play && (() => openScene(now.place)) }));
  Object.assign(figure, { onStep: looked, onShown: redrawLedger });
  if (screen.figure.places) figure.placing = new Placing(figure, placed);
  const middleOf = (id) => (([{ begun, ended }]) => [id, (begun + ended) / 2])([figure.placing.exercise.calls[id]]);
  setScene({ stage: isGuess ? "guess" : screen.figure.places ? "moment" : "task", moments: (screen.placed ?? []).map(middleOf) });
  if (isGuess) figure.set({ isOpen: false, isGuess: true });
}

function draw(state) {
  const screen = here();
  if (screen === null || state.stage === "") return;
  if (state.stage !== "done" || part(".reveal") === null) showPrompt(promptOf(screen, state, scene.figure)); // after the reveal, the reader can make more steps
  drawBar(state.stage, placeIn(now.place.id).number, screen.onWords, isNudge(state, screen));
  if (scene.figure.placing !== null) showStrip(scene.figure);
  byId("scene").dataset.stage = state.stage;
}

// Draws a table of the numbers that should be in the list and of those that are in the list at the shown event. Does not redraw an unchanged table, since a
// screen reader would read it again.
function redrawLedger() {
  const ledger = part(".ledger");
  const { run } = scene.figure;
  const drawn = document.createElement("template");
  drawn.innerHTML = drawLedger(run, run.count);
  if (ledger !== null && ledger.outerHTML !== drawn.innerHTML) ledger.replaceWith(drawn.content);
}

function looked() {
  const screen = here();
  const { stage } = now.scene;
  if (stage === "playing") return;
  const met = screen.goal?.(scene.figure) ?? null;
  if (stage === "done" && (met !== null || screen.goal === undefined)) return focusOn();
  if (met?.again !== undefined) startOver(met.again);
  else if (met !== null) done();
  else if (isToBreak(screen) && waysFrom(scene.figure, FEW) === null) startOver(HOPELESS);
  else setScene({ stage: "task", note: "" }); // (also after Undo)
}

const isToBreak = ({ ledger, figure }) => ledger === true && figure.lacks !== undefined;
const FEW = 30; // states that are searched after each press, to report early that nothing can go wrong any more
const HOPELESS = "From here nothing can go wrong any more.";

// Reports why the run cannot reach the goal any more. The first report on a screen also shows the nudge, and the second also shows the solution.
function startOver(why) {
  const { stage, hints } = now.scene;
  setScene({ stage: "again", note: `${why} Start over.`, hints: stage === "again" ? hints : hints + 1 });
}

// Returns whether the next press of the button for help shows the nudge. A presenter's key makes a step at once.
const isNudge = ({ stage, hints }, { hint }) => ["task", "moment"].includes(stage) && hint !== undefined && hints === 0 && !isLecture();
const waysFrom = ({ spec, run }, most) => waysOn(spec, run.lines, spec.calls, most);

async function guessed(index) {
  if (now.scene.stage !== "guess") return;
  setScene({ stage: "playing", chosen: index });
  scene.figure.set({ isOpen: true, isPlayed: true, isGuess: false });
  return playOn();
}

// Plays the rest of a screen after the guess: presses the buttons of the threads listed in `play`. If `isStepwise`, each press waits for the reader.
async function playOn() {
  const { figure } = scene;
  const { play } = here();
  const { at } = now.scene;
  await figure.step(play[at]);
  if (at + 1 < play.length && !isStepwise()) await figure.rest();
  if (scene.figure !== figure) return;
  setScene({ at: at + 1 });
  if (at + 1 < play.length) return isStepwise() || playOn();
  figure.set({ isPlayed: false });
  done();
}

// Stores the moments that the reader has placed. When all moments are placed, `check` accepts or refuses them.
function placed(moments) {
  if (now.scene.stage !== "moment") return;
  setScene({ moments, note: "" });
  const verdict = scene.figure.placing.verdict();
  if (verdict?.isRight) done();
  else if (verdict !== null) setScene({ note: verdict.says });
}

function done() {
  const { figure } = scene;
  if (here().ledger) figure.set({ isLost: true });
  keepPart(placeIn(now.place.id), here());
  setScene({ stage: "done" });
  focusOn();
}

// Records that a part of a screen is finished. The screen is finished when all its parts are, apart from the optional ones.
function keepPart({ number, at }, { id }) {
  const done = { ...keptStory().done, [`${id}.${at}`]: true };
  if (partsOf(number).every((screen) => screen.isExtra || done[`${id}.${partName(screen)}`])) done[id] = true;
  keepStory({ done });
}

function focusOn() {
  const isElsewhere = () => document.activeElement.closest(":is(button, a, input, [tabindex='0']):not(.again button, [role=slider])")?.getClientRects().length > 0; // (a low window hides the buttons of threads)
  if (!isLecture()) setTimeout(() => isElsewhere() || part("#go-on")?.focus({ preventScroll: true })); // later, since this key press would also press the focused button
}

// Returns the thread to press next to complete the task. If the task can fail, a search finds the thread; otherwise the screen's `help` lists the presses.
function nextPress(figure, screen) {
  const { help } = screen;
  if (isToBreak(screen)) return waysFrom(figure, Infinity)?.[0];
  const isOver = (thread) => figure.run.isIdle(thread) && figure.left(thread).length === 0;
  return [...help.slice(figure.past.length), ...figure.shown].find((thread) => !isOver(thread));
}

async function showMe() {
  const { figure } = scene;
  if (figure.isBusy) {
    await figure.hurry();
    if (now.scene.stage !== "task") return;
  }
  const { stage } = now.scene;
  if (isNudge(now.scene, here())) setScene({ hints: 1 });
  else if (stage === "guess") return guessed(-1);
  else if (stage === "playing" && isStepwise()) return figure.isBusy || playOn();
  else if (stage === "moment") {
    setScene({ moments: figure.run.trace.order.map(({ id, at }) => [id, at]) });
    done();
  } else if (stage === "again") figure.again();
  else if (stage === "task") {
    const next = nextPress(figure, here());
    if (next !== undefined) return figure.step(next);
    startOver(HOPELESS);
  }
}

function press(event) {
  const { number } = placeIn(now.place.id);
  const { stage } = now.scene;
  if (event.key === "ArrowLeft" && number > 1) return goBy(-1);
  if (["ArrowRight", "PageDown"].includes(event.key) && number < LAST) return stage === "done" && goBy(1);
  if (stage === "guess" && numberOfKey(event) !== -1 && numberOfKey(event) < here().options.length) guessed(numberOfKey(event));
  else pressThread(event);
}

async function goes(by) {
  if (by < 0 || now.scene.stage === "done" || here() === null) return by < 0 && takeBack();
  await showMe();
  return true;
}

function takeBack() {
  const { figure } = scene;
  const { stage } = now.scene;
  const { play, ask } = here() ?? {};
  if (figure === null || (figure.past.length === 0 && (ask === undefined || stage === "guess"))) return false;
  if (play !== undefined || figure.past.length === 0) openScene(now.place);
  else {
    if (stage === "done") setScene({ stage: "task" });
    figure.undo();
  }
  return true;
}

export const pathView = {
  kind: "path",
  fault: ({ id }) => (id === "" || PLACES.includes(id) ? null : `the path has no screen "${id}"`),
  title: ({ id }) => `${screenAt(id)?.question ?? "So, why not just one lock?"} · Why not just one lock?`,
  html, begin, draw, press, goes,
  deeds: { none: () => (here().hasNone ? done() : setScene({ hints: 1, note: "" })), answer: ({ dataset }) => guessed(Number(dataset.option)), show: showMe, on: () => goBy(1), back: () => goBy(-1), afresh: startAfresh },
};
