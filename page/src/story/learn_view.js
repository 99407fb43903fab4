// The activity "Solve it" with one lesson. After each step, the conditions that hold are ticked. The answer is shown only on request.
import { conditionTexts } from "../course/lesson.js";
import { setHtml } from "../page/dom.js";
import { now } from "../page/now.js";
import { versionOf } from "../run/schedule_text.js";
import { escaped, inLetters, tag } from "../run/markup.js";
import { wayBack, wayOn } from "./assignment.js";
import { learning } from "./learning.js";
import { linesOf, runOfText } from "./live_run.js";
import { backLink, drawHintAndOn, onStage, foot, head, hintAndOn, LACKS_ONE, LIST_WORDS, part, pressThread, scene, setScene, takeFreeFigure, showPrompt } from "./scene.js";

const HINT = 1; // values of `now.scene.hints`: HINT shows the hint, ANSWER also offers the answer
const ANSWER = 2;
const shown = { verdict: null, ticks: new Set() }; // the verdict on the shown run, and the conditions that it or an earlier run met

function html(place) {
  const { panel } = learning;
  const lesson = panel.lessonNamed(place.id);
  const { lessons, name } = panel.course;
  const at = lessons.indexOf(lesson);
  const next = lessons[at + 1];
  const own = next === undefined ? { href: "#learn", words: "All lessons →" } : { href: `#learn=${next.name}`, words: "Next lesson →" };
  const numbers = lesson.opening.length === 0 ? "no numbers at first" : `${lesson.opening.join(", ")} at first`;
  const kicker = `<a href="#learn">${escaped(name)}</a> · ${at + 1} of ${lessons.length} · ${LIST_WORDS[lesson.list]}, ${numbers}`;
  const asked = `<p class="asked">${escaped(inLetters(lesson.question))}</p>`;
  const goal = '<div class="goal"><p class="kicker">A solution shows</p><div id="goal" aria-live="polite"></div></div>';
  return `${onStage(`<div class="two">${head(kicker, escaped(lesson.title), asked)}${goal}</div>`)}
    ${foot(backLink(wayBack(place, { href: "#learn", words: "All lessons" })), hintAndOn(wayOn(place, own)))}`;
}

function begin({ id, given }) {
  const { panel } = learning;
  panel.lesson = panel.lessonNamed(id);
  const { lesson } = panel;
  const own = given.text ?? panel.own.tries.get(id) ?? panel.own.solutions.get(id) ?? null;
  Object.assign(shown, { verdict: null, ticks: new Set() });
  const more = /ceiling/.test(lesson.begun + (lesson.solution ?? "") + lesson.question) ? ["ceiling"] : [];
  const operations = ["add", "remove", "contains", ...more];
  const codeNote = lesson.lacks === null ? "" : LACKS_ONE;
  const run = { ...runOfText(lesson.begun), version: versionOf(lesson.begun), lacks: lesson.lacks };
  const figure = takeFreeFigure(lesson.list, { ...run, scrub: true, operations, codeNote, asksCall: true });
  Object.assign(figure, { onStep: looked, onFork: ({ run }) => run.count < run.trace.total && run.take(run.linesHere()) });
  if (own !== null && own !== lesson.begun && fits(own)) takeTry(figure, linesOf(own));
  looked();
}

const fits = (text) => text.split("\n")[1] === learning.panel.lesson.begun.split("\n")[1];

function takeTry(figure, lines) {
  figure.run.take(lines);
  if (figure.run.trace.refused !== null) figure.run.take(figure.run.first);
  figure.draw();
}

function looked() {
  const { run } = scene.figure;
  const { panel } = learning;
  const isBegun = run.lines.join() !== run.first.join();
  const verdict = panel.judge(run.schedule, isBegun);
  shown.verdict = verdict;
  for (const { says, isMet } of verdict.conditions) if (isMet) shown.ticks.add(says);
  setScene({ text: isBegun ? run.schedule : "", stage: verdict.isSolved && !verdict.isShown ? "done" : "task" });
}

function conditionsHtml() {
  const met = new Set(shown.verdict.conditions.filter(({ isMet }) => isMet).map(({ says }) => says));
  const line = (says) => {
    const state = met.has(says) ? "met" : shown.ticks.has(says) ? "was-met" : "unmet";
    const more = state === "was-met" ? " <small>(before, not in this run)</small>" : "";
    return tag("li", { class: state }, state === "unmet" ? "○ " : "✓ ", escaped(inLetters(says)), more);
  };
  return tag("ul", { class: "conditions" }, ...conditionTexts(learning.panel.lesson).map(line));
}

function taskHtml({ hints }) {
  const { lesson } = learning.panel;
  const { isShown, isSolved, deadEnd, reason, isKept } = shown.verdict;
  const notes = [
    isSolved && isShown ? "This is the answer that was shown to you. Find another one." : "",
    deadEnd === null ? "" : inLetters(deadEnd),
    reason ?? "",
    isKept ? "" : "This browser stores nothing: hand in before you leave the page.",
  ].filter((note) => note !== "");
  const hint = hints >= HINT && lesson.hint !== "" ? `<p><b>Hint.</b> ${escaped(inLetters(lesson.hint))}</p>` : "";
  const answer = hints >= ANSWER ? '<p class="line">There is more than one answer. <button data-do="answer">See one of them</button></p>' : "";
  return `${notes.map((note) => `<p class="again">${escaped(note)}</p>`).join("")}${hint}${answer}`;
}

function solvedHtml() {
  const { lesson } = learning.panel;
  const teaches = lesson.teaches === "" ? "" : escaped(inLetters(lesson.teaches));
  return `<div class="reveal"><div><p class="why"><b>Solved.</b> ${teaches}</p></div>
    <p class="line"><button data-do="replay" class="small">See your run again</button>
    <button data-do="afresh" class="quiet small">Solve it in another way</button></p></div>`;
}

function draw(state) {
  if (state.stage === "" || shown.verdict === null) return;
  const isDone = state.stage === "done";
  setHtml(part("#goal"), conditionsHtml());
  showPrompt(isDone ? solvedHtml() : taskHtml(state));
  const { lesson } = learning.panel;
  const last = lesson.answer.length > 0 ? ANSWER : HINT;
  drawHintAndOn(isDone, lesson.hint !== "" && state.hints < HINT ? "Hint" : state.hints < last ? "Show an answer" : "Start over");
}

function hint() {
  const { lesson } = learning.panel;
  const next = lesson.hint === "" && now.scene.hints === 0 ? ANSWER : now.scene.hints + 1;
  if (next > ANSWER || (next === ANSWER && lesson.answer.length === 0)) return scene.figure.again();
  if (next === ANSWER) learning.panel.lookAtAnswer();
  setScene({ hints: next });
}

async function seeAnswer() {
  const { figure } = scene;
  const { lesson } = learning.panel;
  figure.past.push([...figure.run.lines]);
  figure.run.take(linesOf(lesson.solution));
  await figure.replay(linesOf(lesson.begun).length === 0 ? 0 : 1);
  if (scene.figure === figure) looked();
}

export const learnView = {
  kind: "ask-one",
  fault: ({ id }) => (learning.panel.lessonNamed(id) === undefined ? `no stored course has a lesson "${id}"` : null),
  title: ({ id }) => `Solve it: ${learning.panel.lessonNamed(id).title}`,
  html, begin, draw, press: pressThread,
  deeds: { hint, answer: seeAnswer, replay: () => scene.figure.replay(), afresh: () => scene.figure.again() },
};
