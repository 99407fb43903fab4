// Draws the overview of an activity: cards, each with a list, a question, and a progress mark.
import { BOOK_NAME } from "../../made/book.js";
import { LACKING } from "../../made/classics.js";
import { BREAK_LEVELS, numberOfLevel, TEN, THREE_MORE } from "../data/levels.js";
import { byId } from "../page/dom.js";
import { examples } from "../page/work.js";
import { anotherSeed, seedOf } from "../run/address.js";
import { escaped, tag } from "../run/markup.js";
import { QUESTIONS } from "../story/ask.js";
import { bookCourse } from "../story/assignment.js";
import { itemOf } from "../story/ask_branches.js";
import { APPENDIX } from "../story/ask_more.js";
import { isBrokenOnce, judgedLines, keptStory } from "../story/progress.js";
import { learning } from "../story/learning.js";
import { foot, head, LIST_WORDS, part } from "../story/scene.js";
import { listenToRecorded } from "./recording.js";

const SIGNS = { right: ["✓", "guessed right"], wrong: ["seen", "seen"], done: ["✓", "done"] };

function drawCard({ href, list, title, says = "", state = "" }) {
  const [sign, words] = SIGNS[state] ?? ["", ""];
  const shown = sign === "" ? "" : tag("i", { class: "sign", "aria-label": words }, sign);
  return tag("a", { class: `card ${state}`, href }, tag("i", { class: "small" }, list), tag("b", {}, title), tag("span", {}, says), shown);
}

const cards = (all) => tag("div", { class: "cards" }, ...all.map(drawCard));
const lead = (words, score = "") => `<p class="lead">${words}</p>${score === "" ? "" : `<p class="score">${score}</p>`}`;
const goOn = (href, count, all) => tag("a", { class: "button primary", href }, `${count === 0 ? "Begin" : count < all ? "Go on" : "Once more"} →`);

function askHtml() {
  const { asks } = keptStory();
  const seen = QUESTIONS.filter(({ name }) => asks[name] !== undefined);
  const right = seen.filter(({ name }) => asks[name] === "right").length;
  const cardOf = ({ name, list, title, question }) => ({ href: `#ask=${name}`, list: LIST_WORDS[list], title, says: question, state: asks[name] });
  const next = QUESTIONS.find((item) => !seen.includes(item)) ?? QUESTIONS[0];
  const score = `<b>${right}</b> of ${QUESTIONS.length} guessed right at the first try, ${seen.length} seen`;
  const words = "Eleven runs. Each stops just before the decisive step. Predict what happens next; then the run continues, and you can change it. A key is a number in the set.";
  return `${head("", "Guess, then see", lead(words, seen.length === 0 ? "" : score), "title")}${cards(QUESTIONS.map(cardOf))}
    <h2>Seven more</h2><p class="prose">These lists have a fourth operation. <b>ceiling(k)</b> returns the smallest number that is at least k.
    And each thread can add only a limited number of keys (its quota).</p>${cards(APPENDIX.map(cardOf))}
    ${foot('<a class="button quiet" href="#story=1">← The path</a>', goOn(`#ask=${next.name}`, seen.length, QUESTIONS.length))}`;
}

function breakHtml() {
  const cardOf = (name) => {
    const { story, lacks } = BREAK_LEVELS[name];
    const state = isBrokenOnce(name) ? { says: lacks, state: "done" } : {};
    return { href: `#break=${numberOfLevel(name)}`, list: `${numberOfLevel(name)} · ${LIST_WORDS[LACKING[name]]}`, title: story, ...state };
  };
  const count = TEN.filter(isBrokenOnce).length;
  const next = TEN.find((name) => !isBrokenOnce(name)) ?? TEN[0];
  const words = `Ten lists, from one lock to none, and three more. Each lacks one check. Let A and B step until a number is lost, or two
    answers cannot both be right. Then name the missing check. A key is a number in the set.`;
  const top = lead(words, count === 0 ? "" : `<b>${count}</b> of ${TEN.length} broken`);
  return `${head("", "Break it", top, "title")}${cards(TEN.map(cardOf))}
    <h2>Three more</h2>${cards(THREE_MORE.map(cardOf))}${foot("", goOn(`#break=${numberOfLevel(next)}`, count, Infinity))}`;
}

function learnHtml() {
  const { panel } = learning;
  const { lessons, name } = panel.course;
  const cardOf = ({ name, title, list }, at) =>
    ({ href: `#learn=${name}`, list: `${at + 1} · ${LIST_WORDS[list]}`, title: escaped(title), state: panel.isSolved(name) ? "done" : "" });
  const count = lessons.filter((lesson) => panel.isSolved(lesson.name)).length;
  const isBook = name === BOOK_NAME;
  const words = "In each lesson you choose which thread makes the next step, until the run meets the task. There is more than one way.";
  const top = lead(words, count === 0 ? "" : `<b>${count}</b> of ${lessons.length} solved`);
  const back = isBook ? "" : '<p><button id="lesson-book" data-do="book">Back to the twelve lessons</button></p>';
  return `${head("", isBook ? "Solve it" : escaped(name), top, "title")}${cards(lessons.map(cardOf))}
    ${back}<div id="learn-folds"></div>${foot("", goOn(`#learn=${(panel.firstUnsolved() ?? lessons[0]).name}`, count, Infinity))}`;
}

function beginLearn() {
  const { kept, course } = learning.panel;
  part("#learn-folds").append(byId("lesson-folds"));
  byId("lesson-course").replaceChildren(...[BOOK_NAME, ...kept.courses.keys()].map((name) => new Option(name)));
  byId("lesson-course").value = course.name;
  byId("lesson-student").value = keptStory().student;
}
const endLearn = () => byId("courses").append(byId("lesson-folds"));

export function drawLearnMap() {
  if (part("#learn-folds") === null) return;
  endLearn();
  byId("scene").innerHTML = learnHtml();
  beginLearn();
}

function judgeHtml() {
  const judged = Object.keys(judgedLines());
  const cardOf = ({ name, kind }) => {
    const state = judged.some((run) => run.startsWith(`${name} `)) ? "done" : "";
    const { title, question } = itemOf({ id: name });
    return { href: `#example=${name}&judge`, list: LIST_WORDS[kind], title, says: question, state };
  };
  const top = `${byId("judge-words").innerHTML}<p class="line"><button data-do="recorded">Judge calls recorded from your own set ↓</button></p>`;
  const lists = Object.entries(LIST_WORDS).map(([kind, name]) => tag("option", { value: kind }, name)).join("");
  return `${head("", "Judge", top, "title")}<div class="start-row"><label>list <select id="judge-seed-list">${lists}</select></label>
    <label>run number <input id="judge-seed-number" type="number" min="1" max="999999999" placeholder="any"></label>
    <button class="primary" data-do="seed">Judge a run</button></div><h2>An example, by its question</h2>${cards(examples().map(cardOf))}${byId("recorded-parts").innerHTML}`;
}

function openSeed() {
  const [kind, number] = ["list", "number"].map((name) => part(`#judge-seed-${name}`).value);
  location.hash = `#seed=${Number(number) > 0 ? seedOf(kind, Number(number)) : anotherSeed(null, kind)}&judge`;
}

function readHtml() {
  const isAlone = document.body.dataset.alone !== undefined; // the page is a single file, without the documents beside it
  const pages = isAlone ? "" : byId("pages").innerHTML;
  return `${head("", "Read", "", "title")}${pages}<h2>Terms</h2><dl class="words card">${byId("terms").innerHTML}</dl>
    <h2>What is proved, and what is not</h2><div class="panel prose">${byId("proved").innerHTML}</div>`;
}

const mapOf = (name, html, more = {}) => ({ kind: "asks", title: () => `${name()} · Why not just one lock?`, html, ...more });
export const MAPS = {
  "ask map": mapOf(() => "Guess, then see", askHtml),
  "break map": mapOf(() => "Break it", breakHtml),
  "learn map": mapOf(() => learning.panel.course.name, learnHtml, { begin: beginLearn, end: endLearn, deeds: { book: () => (learning.panel.takeCourse(bookCourse()), drawLearnMap()) } }),
  judge: mapOf(() => "Judge", judgeHtml, { begin: listenToRecorded, deeds: { seed: openSeed, recorded: () => part("#recorded-box").scrollIntoView() } }),
  read: mapOf(() => "Read", readHtml),
};
