// Assignments. The address of an assignment contains all its tasks: #assignment=Week+3&learn=one-lock.lost-pred&break=6.7&judge=lazy.2.5.2.17.
import { BOOK, BOOK_NAME } from "../../made/book.js";
import { LACKING } from "../../made/classics.js";
import { LISTS } from "../../made/rows.js";
import { BREAK_LEVELS, levelOfNumber, numberOfLevel } from "../data/levels.js";
import { isSeed, partsOfSeed, scheduleOfSeed } from "../run/address.js";
import { NO_TASK } from "../run/broken.js";
import { counted, escaped, inLetters, tag } from "../run/markup.js";
import { handInText, NAMED, readSchedule, solutionLine } from "../course/hand_in.js";
import { triedCourse } from "../course/lesson.js";
import { byId } from "../page/dom.js";
import { saveText } from "../page/files.js";
import { askNow, now } from "../page/now.js";
import { addressOfAssignment } from "../page/visit.js";
import { brokenLines, judgedLines, keepStory, KeptLessons, keptStory, startAfresh } from "./progress.js";
import { copyText, foot, head, part } from "./scene.js";

const known = { course: null };
export const bookCourse = () => (known.course ??= triedCourse(askNow, BOOK));
export const allLevels = () => Object.keys(BREAK_LEVELS).filter((name) => name !== NO_TASK).map((name) => ({ name, number: numberOfLevel(name) }));
const wordsIn = (text, sign = ".") => (text ?? "").split(sign).filter((word) => word !== "");

export function addressOfTasks(title, { learn, levels, seeds, due = "" }) {
  const parts = Object.entries({ learn: learn.join("."), break: levels.join("."), judge: seeds.join(","), due });
  return addressOfAssignment({ id: title, given: Object.fromEntries(parts.filter(([, value]) => value !== "")) });
}

/** @typedef {{ id: string, kind: "Solve" | "Break" | "Judge", title: string, says: string, href: string, seed?: string }} Task */

/** @returns {Task | null} */
function lessonTask(name) {
  const lesson = bookCourse().lessons.find((one) => one.name === name);
  return lesson === undefined ? null : { id: name, kind: "Solve", title: lesson.title, says: inLetters(lesson.question), href: `#learn=${name}` };
}

/** @returns {Task | null} */
function levelTask(number) {
  const name = levelOfNumber(number);
  if (name === undefined || name === NO_TASK) return null;
  const title = `Break ${number}: ${LISTS[LACKING[name]].name}`;
  return { id: `break ${name}`, kind: "Break", title, says: BREAK_LEVELS[name].story, href: `#break=${number}` };
}

/** @returns {Task | null} */
function seedTask(seed) {
  if (!isSeed(seed)) return null;
  const { kind, number, calls } = partsOfSeed(seed);
  const says = `${calls} calls: what does each return, and when does it take effect?`;
  return { id: `judge ${seed}`, kind: "Judge", title: `Run ${number}, ${LISTS[kind].name}`, says, href: `#seed=${seed}&judge`, seed };
}

// Returns the last opened assignment if one of its tasks is this activity with this id (or, on the bench, the run to judge), otherwise null.
export function homeworkOf({ activity, id }, task = { kind: "", id: "" }) {
  const { homework } = keptStory();
  const isRun = activity === "judge" && task.kind === "seed";
  if (homework === null || !(isRun || ["learn", "break"].includes(activity))) return null;
  return wordsIn(homework.given[activity], isRun ? "," : ".").includes(isRun ? task.id : id) ? homework : null;
}

// Returns the link forward: from a task of the assignment to the next task, and from the last task to the assignment. From any other place, returns `own`.
export function wayOn({ activity, id }, own) {
  const homework = homeworkOf({ activity, id });
  if (homework === null) return own;
  const { tasks } = tasksOf(homework.given);
  const next = tasks[tasks.findIndex(({ href }) => href === `#${activity}=${id}`) + 1];
  return next === undefined ? { href: addressOfAssignment(homework), words: "All tasks →" } : { href: next.href, words: "Next task →" };
}

// Returns the link back from a place (a scene or the bench): to the assignment if the place is a task of the assignment, else the link `own`.
export function wayBack(place, own, task = undefined) {
  const homework = homeworkOf(place, task);
  return homework === null ? own : { href: addressOfAssignment(homework), words: `← ${titleOfAssignment(homework)}` };
}

export function tasksOf(given) {
  const unknown = [];
  const taken = (words, taskOf, what) =>
    words.flatMap((word) => {
      const task = taskOf(word);
      if (task === null) unknown.push(`${what} ${word.slice(0, 40)}`);
      return task === null ? [] : [task];
    });
  const learn = taken(wordsIn(given.learn), lessonTask, "lesson");
  const levels = taken(wordsIn(given.break), levelTask, "list");
  return { tasks: [...learn, ...levels, ...taken(wordsIn(given.judge, ","), seedTask, "run")], unknown };
}

// ---- The progress in this browser: solved lessons, broken levels, judged runs.
export function taskOfJudged(line, tasks) {
  const [, run = ""] = line.split(" ");
  const { schedule = null } = run.includes("#") ? readSchedule(run) : {};
  return tasks.find(({ seed }) => seed !== undefined && schedule === scheduleOfSeed(askNow, seed)) ?? null;
}

function linesDone(tasks) {
  const { solutions } = new KeptLessons().ofCourse(BOOK_NAME);
  const broken = Object.fromEntries(brokenLines());
  const judged = Object.values(judgedLines()).sort((one, other) => Number(/ replies /.test(other)) - Number(/ replies /.test(one)));
  const lineOf = {
    Solve: ({ id }) => (solutions.has(id) ? solutionLine(id, solutions.get(id)) : undefined),
    Break: ({ id }) => broken[id.slice("break ".length)],
    Judge: (task) => judged.find((line) => taskOfJudged(line, [task]) !== null), // the line of the harder level, if both levels were solved
  };
  return Object.fromEntries(tasks.map((task) => [task.id, lineOf[task.kind](task)]));
}

// ---- The student's view: the tasks of a link, a tick for each solved task, and the text to hand in.
const titleOfAssignment = ({ id }) => id || "Assignment";

function doneOf(place) {
  const { tasks, unknown } = tasksOf(place.given);
  const lines = linesDone(tasks);
  return { tasks, unknown, lines, done: tasks.filter(({ id }) => lines[id] !== undefined) };
}

function itemOf({ kind, title, says, href }, isDone) {
  const tick = tag("i", { class: "tick", role: "img", "aria-label": isDone ? "done" : "open" }, isDone ? "✓" : "");
  const words = `${tag("span", { class: "kind" }, kind)}<b>${escaped(title)}</b>${tag("span", { class: "says" }, escaped(says))}`;
  return tag("li", { class: isDone ? "done" : "" }, tag("a", { class: "task", href }, tick, words));
}

const handHtml = (count) => byId("hand-parts").innerHTML.replace("WORDS", count === 0 ? "No task is solved yet. Solved tasks are added to this text, and your teacher’s page runs each of them again." : `The text has your ${counted(count, "solution")}. Your teacher’s page runs ${count === 1 ? "it" : "each of them"} again.`);

function html(place) {
  const { tasks, unknown, lines, done } = doneOf(place);
  const first = tasks.find(({ id }) => lines[id] === undefined);
  const wrong = unknown.length === 0 ? "" : `<p class="again">This page does not have ${escaped(unknown.join(", "))}. Please tell your teacher.</p>`;
  const due = place.given.due === undefined ? "" : `<p class="due"><b>Due: ${escaped(dueText(place.given.due))}</b></p>`;
  const lead = `${due}<p class="lead">${counted(tasks.length, "task")}, ${done.length} done in this browser. Come back by the same link: what is done stays ticked.</p>
    <progress max="${tasks.length || 1}" value="${done.length}" aria-label="${done.length} of ${tasks.length} done"></progress>${wrong}
    <p class="small">New to this? <a href="#story=1">Why not just one lock?</a> 20 minutes, from nothing.</p>`;
  const verb = done.length === 0 ? "Begin" : "Go on";
  const next = (task) => tag("a", { class: "button primary", href: task.href }, `${verb}: ${escaped(task.title)} →`);
  const bar = first === undefined ? foot(tasks.length === 0 ? "No task." : "All done.", '<button class="primary" data-do="hand">Hand in ↑</button>') : foot("", next(first));
  const lacksName = ({ id, kind }) => kind === "Break" && lines[id] !== undefined && !lines[id].endsWith(` ${NAMED}`);
  const items = tasks.map((task) => itemOf({ ...task, says: lacksName(task) ? "Broken. Now name the missing check too." : task.says }, lines[task.id] !== undefined));
  const title = head("Assignment", escaped(titleOfAssignment(place)), lead, "title");
  return `${title}${tag("ol", { class: "tasks" }, ...items)}${handHtml(done.length)}${bar}`;
}

function begin({ id, given }) {
  keepStory({ homework: { id, given } }); // the tasks of the assignment link back to it
  for (const name of ["student", "number"]) Object.assign(part(`#hand-${name}`), { value: keptStory()[name], oninput: fill });
  fill();
}

function textNow() {
  const [student, number] = ["student", "number"].map((name) => part(`#hand-${name}`).value.trim());
  keepStory({ student, number });
  const { done, lines } = doneOf(now.place);
  return handInText(BOOK_NAME, `${student || "?"}${number === "" ? "" : ` (${number})`}`, [], done.map(({ id }) => lines[id]), titleOfAssignment(now.place));
}

const fill = () => (part("#hand-text").textContent = textNow());

function isNamed() {
  if (part("#hand-student").value.trim() !== "") return true;
  part("#scene-said").textContent = "Please enter your name first.";
  part("#hand-student").focus();
  return false;
}

export function inFileName(text) {
  const letters = { ä: "ae", ö: "oe", ü: "ue", ß: "ss" };
  const words = text.toLowerCase().replace(/[äöüß]/g, (letter) => letters[letter]);
  return words.normalize("NFD").replace(/\p{M}/gu, "").replace(/[^\p{L}\p{N}]+/gu, "-");
}

function fileName() {
  const { student, number } = keptStory();
  return `${inFileName([student, number, titleOfAssignment(now.place)].join(" "))}.txt`;
}

// Returns a due date in words. Returns any text that is not a date unchanged.
function dueText(text) {
  const day = new Date(/^\d{4}-\d\d-\d\d$/.test(text) ? `${text}T12:00` : NaN);
  if (Number.isNaN(day.getTime())) return text.slice(0, 40);
  return `${day.toLocaleDateString("en-GB", { weekday: "long", day: "numeric", month: "long", year: "numeric" })}, end of the day`;
}

function save() {
  if (!isNamed()) return;
  saveText(fileName(), textNow());
  part("#scene-said").textContent = `Saved: ${fileName()}. Hand in this file.`;
}

export const assignmentView = {
  kind: "assignment",
  title: (place) => `${titleOfAssignment(place)} · Why not just one lock?`,
  html,
  begin,
  deeds: {
    copy: () => isNamed() && copyText(textNow(), "The text is copied: paste it where you hand in."),
    save,
    afresh: startAfresh,
    hand: () => {
      part("#hand").scrollIntoView();
      part("#hand-student").focus();
    },
  },
};
