// Guess, then see: a run stops at a question, and the reader predicts the answer. Then the run continues, and a text explains the answer.
import { isLecture, now } from "../page/now.js";
import { QUESTIONS } from "./ask.js";
import { ALL, drawBranches, goBack, isEmbed, itemOf, openBranch, seeAgain, takeBranch, promptOfBranch, whatIf, withoutCheck } from "./ask_branches.js";
import { keepStory, keptStory } from "./progress.js";
import { LiveRun } from "./live_run.js";
import { drawOn, onStage, head, LIST_WORDS, numberOfKey, openScene, optionButtons, part, replyTo, scene, setScene, showPrompt, threadOfKey } from "./scene.js";
import { goOnSlide, toSlide } from "./slide.js";

const here = () => itemOf(now.place);

function html(place) {
  const item = itemOf(place);
  const at = ALL.indexOf(item);
  const next = ALL[(at + 1) % ALL.length];
  const which = QUESTIONS.includes(item) ? `${at + 1} of ${QUESTIONS.length}` : "one more";
  const kicker = `${isEmbed() ? "Guess, then see" : '<a href="#ask">Guess, then see</a>'} · ${which} · ${LIST_WORDS[item.list]}`;
  const out = `<a class="button quiet small" target="_blank" href="${location.pathname}#ask=${item.name}">open in a page ↗</a>`;
  const all = '<a class="button quiet" href="#ask">All questions</a>';
  const top = head(kicker, '<span id="what-if-mark" class="what-if" hidden>What if?</span><span id="asked"></span>', '<p id="story-of" class="prose"></p>');
  return `${onStage(`${top}<div id="branches" class="branches" hidden></div>`)}
    <footer class="foot">${isEmbed() ? "" : all}<span class="spread"></span>${isEmbed() ? out : ""}
    <button id="show-me" class="quiet" data-do="show">${isLecture() ? "Reveal" : "Show me"}</button>
    ${place.slide > 0 ? '<button id="go-on" data-do="on"></button>' : `<a id="go-on" href="#ask=${next.name}" ${isEmbed() ? "hidden" : ""}></a>`}</footer>`;
}

function begin(place) {
  const { lines, rest } = itemOf(place);
  const whole = { name: "The example", lines: [...lines, ...rest] };
  takeBranch({ lines, opening: undefined }).set({ hidesDock: true, isOpen: false, isGuess: true });
  setScene({ stage: "guess", branches: [whole], at: 0 });
}

async function guessed(index) {
  const item = here();
  const { figure } = scene;
  if (now.scene.stage !== "guess") return;
  const isRight = item.options[index]?.right === true;
  if (keptStory().asks[item.name] === undefined) keepStory({ asks: { ...keptStory().asks, [item.name]: isRight ? "right" : "wrong" } });
  setScene({ stage: "playing", chosen: index });
  const asked = figure.run.count;
  figure.run = new LiveRun({ ...figure.spec, lines: now.scene.branches[0].lines });
  Object.assign(figure, { isOpen: true, isGuess: false });
  const stop = isLecture() ? figure.run.endOfBit(asked) : figure.run.trace.total; // on a slide the run stops after the deciding step
  await figure.show(asked, stop);
  if (scene.figure !== figure) return;
  setScene({ branches: [{ ...now.scene.branches[0], from: asked }] });
  openBranch(0);
  scene.figure.moveTo(stop);
  draw(now.scene);
}

async function goes(by) {
  const { figure } = scene;
  const { stage, branches } = now.scene;
  const { lacks } = here();
  const { count, trace } = figure.run;
  if (by < 0 && stage !== "guess") openScene(now.place);
  else if (by < 0) return false;
  else if (stage === "guess") await guessed(-1);
  else if (count < trace.total) await figure.show(count);
  else if (lacks !== undefined && !branches.some(({ isFixed }) => isFixed)) await withoutCheck(here());
  else return false;
  draw(now.scene);
  return true;
}

// Returns the text of the button at the right. On a slide, the button has the same effect as a presenter's key.
function onWords({ slide }, { branches }) {
  if (slide === 0) return "Next question →";
  const { count, trace } = scene.figure.run;
  if (count < trace.total) return "Show the rest →";
  return here().lacks === undefined || branches.some(({ isFixed }) => isFixed) ? "Next slide →" : "Without this check →";
}

const isShown = ({ stage }) => stage !== "guess" && stage !== "playing";

function promptOf({ stage, chosen, at, branches }) {
  const item = here();
  const reply = replyTo(item.options, chosen, stage === "playing");
  if (stage === "guess") return optionButtons(item.options.map(({ text }) => text));
  if (stage === "playing") return at === 0 ? reply || '<p class="you">Let us see.</p>' : '<p class="you">Now on a list without its check.</p>';
  if (at > 0) return promptOfBranch(branches[at]);
  if (stage === "task") {
    return `<p class="ask">This was the question. Go to any moment with the slider, and try another order from there.</p>
      <p class="line"><button data-do="home">← Back to the example</button></p>`;
  }
  const without = item.lacks === undefined ? "" : `<button data-do="without">And without this check?</button>`;
  return `<div class="reveal${item.options[chosen]?.right ? "" : " other"}"><div>${reply}<p class="why">${item.why}</p><p class="line more"><button data-do="if">What if …?</button> ${without}
    <button data-do="again" class="quiet">See it again</button></p></div></div>`;
}

function draw(state) {
  if (state.stage === "") return;
  showPrompt(promptOf(state));
  drawBranches(state);
  part("#show-me").hidden = state.stage !== "guess";
  drawOn(isShown(state), onWords(now.place, state));
}

function press(event) {
  const { figure } = scene;
  const { stage } = now.scene;
  const number = numberOfKey(event);
  if (stage === "guess" && number !== -1 && number < here().options.length) return guessed(number);
  if (stage === "guess") return;
  if (stage === "playing") return void figure.hurry(true);
  const step = { ArrowLeft: -1, ArrowRight: 1, PageUp: -1, PageDown: 1 }[event.key];
  if (step !== undefined) figure.moveTo(figure.run.count + step);
  else if (threadOfKey(event) !== -1 && figure.shown.includes(threadOfKey(event))) {
    if (figure.hidesDock) whatIf();
    figure.press(threadOfKey(event));
  }
}

export const askView = {
  kind: "ask-one",
  fault: ({ id }) => (ALL.some(({ name }) => name === id) ? null : `there is no question "${id}"`),
  title: (place) => `${itemOf(place).title}: ${itemOf(place).question}`,
  html, begin, draw, press, goes,
  deeds: {
    answer: ({ dataset }) => guessed(Number(dataset.option)), show: () => guessed(-1), on: () => (isShown(now.scene) ? goOnSlide(1) : toSlide(1)), again: seeAgain, if: whatIf, home: goBack,
    without: () => withoutCheck(here()), branch: ({ dataset }) => openBranch(Number(dataset.branch)),
  },
};
