// The page for teachers: the lecture, embedding, setting homework with one link, and checking hand-ins.
import { LACKING } from "../../made/classics.js";
import { LISTS } from "../../made/rows.js";
import { LECTURE, slideAddress } from "../data/lecture.js";
import { BREAK_LEVELS } from "../data/levels.js";
import { counted, escaped, listOptions, tag } from "../run/markup.js";
import { seedOf, warningOf } from "../run/address.js";
import { byId } from "../page/dom.js";
import { linkTo } from "../page/visit.js";
import { QUESTIONS } from "./ask.js";
import { addressOfTasks, allLevels, bookCourse } from "./assignment.js";
import { beginHandIns, handInDeeds } from "./handins_view.js";
import { startAfresh } from "./progress.js";
import { copyText, head, part } from "./scene.js";

const PANELS = { slides: "Lecture", embed: "Embed", homework: "Homework", handins: "Hand-ins", own: "Your own lessons" };

function lectureHtml() {
  const slide = ([minutes, title, , says, _], at) =>
    tag("li", {}, tag("span", { class: "minutes" }, `${minutes}′`), `<div><b>${at + 1}. ${title}</b><p class="small">${says}</p></div>`,
      tag("a", { class: "button", href: slideAddress(at + 1) }, "Open slide"),
      tag("button", { class: "quiet", "data-do": "link", "data-link": slideAddress(at + 1) }, "Copy link"));
  const sum = LECTURE.reduce((total, [minutes]) => total + minutes, 0);
  return `<section class="panel" id="slides"><h2>A lecture of ${sum} minutes</h2>
    ${byId("lecture-parts").innerHTML}<ol class="plan">${LECTURE.map(slide).join("")}</ol></section>`;
}

const titleOf = (name) => QUESTIONS.find((item) => item.name === name).title;
const snippetOf = (name) =>
  `<iframe src="${linkTo(`#ask=${name}&view=embed`)}" width="800" height="420" style="border:0" loading="lazy" title="${titleOf(name)}"></iframe>`;

function embedHtml() {
  const option = ({ name, title, list }) => tag("option", { value: name }, `${title} (${LISTS[list].name})`);
  return byId("embed-parts").innerHTML.replace("OPTIONS", QUESTIONS.map(option).join(""));
}

function beginEmbed() {
  const which = part("#embed-which");
  which.value = "two-removers";
  which.onchange = () => {
    part("#embed-text").textContent = snippetOf(which.value);
    part("#embed-frame").src = `${location.pathname}?embed=${which.value}#ask=${which.value}&view=embed`; // the query makes the address differ from this page's address, so that the frame loads
  };
  which.onchange();
}

// ---- Homework: the ticked lessons, levels and numbered runs are packed into one link.
const FIRST_NUMBER = 17;
const work = { title: "Concurrent lists, week 1", due: "", learn: [], break: [], seeds: [] }; // kept while the teacher looks at other places
const piece = (name) => part(`#hw-${name}`);

function pick(kind, value, number, title, says) {
  const words = `<span><i>${number}</i> <b>${escaped(title)}</b> <span class="small">${escaped(says)}</span></span>`;
  const isTicked = work[kind].includes(String(value));
  return tag("label", { class: "pick" }, tag("input", { type: "checkbox", "data-kind": kind, value, ...(isTicked ? { checked: "" } : {}) }), words);
}

const picks = (kind, title, items) => `<fieldset><legend>${title} <button class="quiet small" data-do="all" data-all="${kind}">all</button></legend>
  ${items.join("")}</fieldset>`;

function homeworkHtml() {
  const lessons = bookCourse().lessons.map(({ name, title, list }, at) => pick("learn", name, at + 1, title, LISTS[list].name));
  const levels = allLevels().map(({ name, number }) => pick("break", number, number, LISTS[LACKING[name]].name, BREAK_LEVELS[name].story));
  return `<section class="panel" id="homework"><h2>Homework, as one link</h2><p class="prose">Tick tasks. The link contains the whole assignment: it can be bookmarked
    and forwarded, and it never changes. Make it on the web server where students open the page: that needs the folder <code>page/</code> only.</p>
    <div class="line"><label class="wide-label">Title <input id="hw-title" value="${escaped(work.title)}" maxlength="60"></label>
    <label class="wide-label">Due (optional; students see it) <input id="hw-due" type="date" value="${work.due}"></label></div>
    <div class="columns">${picks("learn", "Solve", lessons)}${picks("break", "Break", levels)}
    ${byId("homework-runs").innerHTML.replace("LISTS", listOptions("lazy"))}</div>${byId("homework-link").innerHTML}</section>`;
}

const ticked = (kind) => [...part("#homework").querySelectorAll(`[data-kind=${kind}]:checked`)].map(({ value }) => value);
const addressNow = () => addressOfTasks(work.title.trim() || "Assignment", { ...work, levels: work.break });

function fill() {
  Object.assign(work, { title: piece("title").value, due: piece("due").value, learn: ticked("learn"), break: ticked("break") });
  const address = addressNow();
  const count = work.learn.length + work.break.length + work.seeds.length;
  piece("count").textContent = count === 0 ? "Nothing is ticked yet." : `${counted(count, "task")}.${warningOf(linkTo(address))}`;
  piece("link").textContent = linkTo(address);
  piece("open").href = address;
  if (count > 0) Object.assign(part("#in-link"), { value: linkTo(address) }).oninput?.(); // the panel of hand-ins then counts the tasks of this assignment
  const item = (seed, at) => `<li><code>${seed}</code> <a href="#seed=${seed}" target="_blank">look</a>
    <button class="quiet small" data-do="drop" data-at="${at}" aria-label="leave out ${seed}">✕</button></li>`;
  piece("seeds").innerHTML = work.seeds.map(item).join("");
}

function addRun() {
  const seed = seedOf(piece("kind").value, Math.max(1, Number(piece("number").value) || FIRST_NUMBER));
  if (!work.seeds.includes(seed)) work.seeds.push(seed);
  piece("number").value = 1 + Math.floor(Math.random() * 999);
  fill();
}

function tickAll({ dataset }) {
  const boxes = [...part("#homework").querySelectorAll(`[data-kind=${dataset.all}]`)];
  const isAll = boxes.every(({ checked }) => checked);
  for (const box of boxes) box.checked = !isAll;
  fill();
}

function html() {
  const jump = ([id, name]) => tag("button", { class: "quiet", "data-do": "jump", "data-panel": id }, name);
  const lead = `<p class="lead">A lecture of 45 minutes, figures for your own pages, homework as a single link, and automatic checking of hand-ins.
    No account, no server: all of it happens in the browser.</p><p class="jump">${Object.entries(PANELS).map(jump).join("")}</p>`;
  return `${head("", "For teachers", lead, "title")}${lectureHtml()}${embedHtml()}${homeworkHtml()}${byId("handins-parts").innerHTML}${byId("own-parts").innerHTML}
    <footer class="foot"><span id="scene-said" class="small" role="status"></span><span class="spread"></span>
    <button class="quiet" data-do="jump" data-panel="homework">Homework</button><button class="quiet" data-do="jump" data-panel="handins">Hand-ins</button></footer>`;
}

function begin() {
  beginEmbed();
  part("#homework").addEventListener("input", fill);
  fill();
  beginHandIns();
}

export const teachView = {
  kind: "teach",
  title: () => "For teachers · Why not just one lock?",
  html,
  begin,
  deeds: {
    ...handInDeeds,
    all: tickAll,
    add: addRun,
    drop: ({ dataset }) => (work.seeds.splice(Number(dataset.at), 1), fill()),
    copy: () => copyText(linkTo(addressNow()), "The link is copied."),
    jump: ({ dataset }) => part(`#${dataset.panel}`).scrollIntoView(),
    link: ({ dataset }) => copyText(linkTo(dataset.link), "The link is copied."),
    snippet: () => copyText(snippetOf(part("#embed-which").value), "The snippet is copied."),
    afresh: startAfresh,
  },
};
