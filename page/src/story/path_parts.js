// The parts of the path's screens: progress marks, welcome, bottom bar, last screen.
import { byId } from "../page/dom.js";
import { isLecture } from "../page/now.js";
import { tag } from "../run/markup.js";
import { SCREENS } from "./path.js";
import { drawLedger, drawOn, isStepwise, optionButtons, part, partsOfQuestion, replyTo } from "./scene.js";

export function dots(number, done) {
  const names = [...SCREENS.map(({ nav }) => nav), "And now?"];
  const items = names.map((name, index) => {
    const isDone = done[SCREENS[index]?.id] === true;
    const kind = index === SCREENS.length ? "end" : isDone ? "done" : ""; // the last screen has no question
    const given = { href: `#story=${index + 1}`, class: kind, title: name };
    const words = `<span>${name}</span>${isDone ? '<span class="unseen">, done</span>' : ""}`;
    return tag("li", {}, tag("a", index + 1 === number ? { ...given, "aria-current": "step" } : given, words));
  });
  return tag("ol", { class: "dots", "aria-label": "the path" }, ...items);
}

export const barHtml = (isFirst) => `<footer class="foot"><button class="quiet" data-do="back" ${isFirst ? "hidden" : ""}>← Back</button>
  <span class="spread"></span><button id="show-me" data-do="show"></button><button id="go-on" data-do="on"></button></footer>`;

export const GONE = '<p class="welcome" role="status">All saved data has been deleted.</p>';

export function welcome(done) {
  const count = SCREENS.filter(({ id }) => done[id]).length;
  return `<p class="welcome">Welcome back: you have finished ${count} of the ${SCREENS.length} sections. You are where you stopped. <a href="#story=1">From the start</a></p>`;
}

const asked = (text, note = "") => `<p class="ask">${text}</p>${note === "" ? "" : `<p class="again">${note}</p>`}`;

// Returns the note below a task: why the reader has to start over, and the help that the reader has had: none, the nudge, or the solution in words.
const noteOf = ({ note, hints }, { hint, way = hint }) => [note, ["", hint, way][Math.min(hints, 2)] ?? ""].filter((text) => text !== "").join(" ");

function askedBefore({ ask }, reply) {
  if (ask === undefined) return "";
  return (reply || '<p class="you"></p>').replace(">", `><span class="was">${partsOfQuestion(ask)[1]}</span> `);
}

export function promptOf(screen, state, figure) {
  const { stage, chosen } = state;
  const note = noteOf(state, screen);
  const reply = replyTo(screen.options, chosen, stage !== "done");
  if (stage === "guess") return asked(screen.ask) + optionButtons(screen.options.map(({ text }) => text));
  const ledger = screen.ledger ? drawLedger(figure.run) : "";
  if (stage === "task" || stage === "again") return `<div class="doing">${ledger}<div>${asked(screen.task, note)}</div></div>`;
  if (stage === "moment") return `<div class="doing"><div>${asked(screen.task, note)}</div>${NONE}</div>`;
  if (stage === "playing") return isLecture() ? asked(screen.ask) + (reply || '<p class="you"></p>').replace("</p>", " Press → for the next step.</p>") : reply;
  const isOther = screen.options !== undefined && !screen.options[chosen]?.right;
  return `<div class="reveal${isOther ? " other" : ""}">${ledger}<div>${askedBefore(screen, reply)}<p class="why">${screen.reveal(figure)}</p></div></div>`;
}

const NONE = '<button class="option" data-do="none">No moments fit</button>';
const SHOW = { guess: "Show me", again: "Start over", moment: "Show me", task: "Show a step", playing: "Show me" };

export function drawBar(stage, number, words = number === SCREENS.length ? "And now? →" : "Continue →", isNudge = false) {
  const [show, on] = [part("#show-me"), part("#go-on")];
  const isDone = stage === "done";
  if (isDone && document.activeElement === show) on.focus({ preventScroll: true });
  show.hidden = isDone;
  show.className = isStepwise() && stage === "playing" ? "primary" : "quiet";
  show.textContent = isStepwise() && stage === "playing" ? "Next step →" : isLecture() && stage === "guess" ? "Reveal" : isNudge ? "Hint" : SHOW[stage];
  drawOn(isDone, isLecture() ? "Next slide →" : words); // (the slides do not have all screens of the path)
}

export const LAST = SCREENS.length + 1; // the number of the last screen

export function endHtml(done) {
  const count = SCREENS.filter(({ id }) => done[id]).length;
  return byId("path-end").innerHTML.replace("COUNT", `${count} of the ${SCREENS.length}`).replace("<!-- truth -->", byId("truth").innerHTML);
}
