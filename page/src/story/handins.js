// Checks the hand-ins of a class, and makes a table of students and tasks from the texts of many files. check_lessons.js prints the same table.
import { LISTS } from "../../made/rows.js";
import { judgedSolution, readHandIn, textsIn } from "../course/hand_in.js";
import { triedCourse } from "../course/lesson.js";
import { numberOfLevel } from "../data/levels.js";
import { askNow } from "../page/now.js";
import { counted, inLetters } from "../run/markup.js";
import { bookCourse, taskOfJudged, tasksOf } from "./assignment.js";

const MOST_NAMES = 12; // the maximum number of names in a list of students with the same schedule
const FEW_NAMES = 2; // the same for a large group in a cell of the table
const MANY = 10; // a schedule that more than one in MANY students handed in is no sign of copying

// Splits a text such as "Ada Lovelace (1234567)" into the name and the number of a student.
function studentOf(text, file) {
  const [, name, number] = /^(.*?)\s*(?:[([#]\s*((?=\D*\d)\w[\w-]{0,20})\s*[)\]]?)?\s*$/.exec(text ?? "") ?? [];
  return { name: name || file.replace(/^.*\//, "").replace(/\.[A-Za-z]+$/, ""), number: number ?? "" };
}

// Returns the title and the tasks of the assignment in a link. If the link has no assignment, returns the reason as `fault`.
export function assignmentOfLink(link) {
  if (link.split("assignment=").length > 2) return { fault: "Here is more than one link. Paste the link of one assignment, once." };
  const { assignment: title, ...given } = Object.fromEntries(new URLSearchParams(link.replaceAll("&amp;", "&").replace(/^[^#]*#?/, "")));
  const { tasks, unknown } = tasksOf(given);
  if (title === undefined) return { fault: "This is not the link of an assignment: “#assignment=” is missing." };
  if (unknown.length > 0) return { fault: `This link names tasks that do not exist: ${unknown.join(", ")}.` };
  return tasks.length === 0 ? { fault: "The assignment of this link has no task." } : { title, tasks };
}

// Returns the rows of the table (one for each student), its columns, the names of the files without a hand-in or course (`empty`), and the common solutions. A
// file is { name, text }. Without an `assignment`, the table has a column for each task that anybody handed in.
export async function checkAll(files, assignment, sayProgress = (_at, _of) => {}) {
  const found = files.flatMap(({ name, text }) => textsIn(text).map((one) => ({ ...one, file: name })));
  const without = files.filter(({ name }) => !found.some(({ file }) => file === name));
  const empty = without.map(({ name, text }) => (text.startsWith("PK\u0003\u0004") ? `${name} (unpack it first)` : name));
  const courses = [bookCourse(), ...found.filter(({ kind }) => kind === "course").map(({ text }) => triedCourse(askNow, text))];
  const handed = found.filter(({ kind }) => kind === "hand-in");
  const students = new Map();
  for (const [index, text] of handed.entries()) {
    takeText(students, text, courses, assignment);
    sayProgress(index + 1, handed.length);
    if (index % 3 === 2) await new Promise((done) => setTimeout(done));
  }
  const rows = [...students.values()].sort((one, other) => one.name.localeCompare(other.name));
  const ids = [...new Set(rows.flatMap(({ solved, wrong }) => [...solved.keys(), ...wrong]))].sort();
  const columns = assignment?.tasks ?? ids.map((id) => ({ id, title: titleOf(id, courses) }));
  const common = noteCopies(rows).sort((one, other) => other.rows.length - one.rows.length);
  for (const { task, rows: same } of common) {
    for (const row of same) row.large ||= `(${titleOf(task, courses)}: as ${fewNames(same.filter((other) => other !== row), FEW_NAMES)})`;
  }
  for (const row of rows) row.notes.unshift(...notesOnNames(row, rows));
  return { rows, columns, empty, common: common.map(({ task, rows: same }) => ({ title: titleOf(task, courses), rows: same })) };
}

// Adds a hand-in to the row of the student with its number and name. A hand-in without a student's number gets its own row.
function takeText(students, text, courses, assignment) {
  const read = readHandIn(text);
  const who = studentOf(read.student, text.file);
  const key = who.number === "" ? `${text.file}\n${text.number}` : `${who.number} ${who.name.toLowerCase()}`;
  const own = students.get(key) ?? { ...who, files: [], solved: new Map(), hows: new Map(), wrong: new Set(), notes: [], faults: 0, isOdd: false, isCounted: false, copies: [], large: "" };
  students.set(key, own);
  if (!own.files.includes(text.file)) own.files.push(text.file);
  const isOther = assignment !== null && ![null, assignment.title].includes(read.assignment);
  if (isOther) own.notes.push(`handed in for “${read.assignment}”: not counted`);
  else if (read.solutions.length === 0) own.notes.push("handed in, no solution");
  own.notes.push(...read.faults.map(({ line, fault }) => `line ${line}: ${fault}`));
  const course = read.course === null ? courses[0] : courses.find(({ name }) => name === read.course);
  if (course === undefined) own.notes.push(`the course “${read.course}” is not among the files`);
  own.faults += read.faults.length + (course === undefined ? 1 : 0);
  own.isOdd ||= isOther || read.solutions.length === 0;
  own.isCounted ||= !isOther;
  const odd = { others: new Set(), answers: new Set() };
  for (const one of isOther ? [] : read.solutions) judgePart(own, course?.lessons ?? [], one, assignment?.tasks ?? null, odd);
  const [others, answers] = [odd.others, odd.answers].map((some) => [...some].map((task) => titleOf(task, courses)));
  if (others.length > 0) own.notes.push(`${counted(others.length, "solution")} of tasks not asked: ${others.join("; ")}`);
  if (answers.length > 0) own.notes.push(`${answers.join("; ")}: same schedule as the answer that the page shows`);
}

// Judges one solution. `odd` collects the tasks that are not in the assignment, and the solutions that equal the lesson's own answer.
function judgePart(own, lessons, solution, tasks, odd) {
  const verdict = judgedSolution(askNow, lessons, solution);
  const { line } = verdict;
  const task = (line.startsWith("judge ") ? taskOfJudged(line, tasks ?? [])?.id : undefined) ?? verdict.task;
  if (tasks !== null && task !== null && !tasks.some(({ id }) => id === task)) return void odd.others.add(task);
  const title = task === null ? line.slice(0, 40) : (tasks?.find(({ id }) => id === task)?.title ?? titleOf(task, [{ lessons }]));
  const isOwn = verdict.schedule !== undefined && !verdict.isVeryAnswer; // only a solution of the student's own is compared with those of other students
  if (verdict.isSolved) {
    own.solved.set(task, isOwn ? oneByOne(verdict.schedule) : null);
    if (verdict.how !== undefined && (!own.hows.has(task) || verdict.isMost)) own.hows.set(task, verdict.how);
  } else {
    if (task === null) own.faults++;
    else own.wrong.add(task);
    own.notes.push(`${title}: ${inLetters(verdict.says)}`);
  }
  if (verdict.isVeryAnswer) odd.answers.add(task);
  if (verdict.ofExample) own.notes.push(`${title}: exactly the run of the example ${verdict.ofExample}`);
}

function titleOf(task, courses) {
  const [kind, name] = task.split(" ");
  if (kind === "break") return tasksOf({ break: String(numberOfLevel(name)) }).tasks[0]?.title ?? task;
  if (kind !== "judge") return courses.flatMap(({ lessons }) => lessons).find((lesson) => lesson.name === task)?.title ?? task;
  const [, list] = /list=([a-z-]+)/.exec(name) ?? [];
  const steps = [...name.matchAll(/[=,](b|g\d+\.(\d+))/g)].reduce((sum, [, , many]) => sum + Number(many ?? 1), 0);
  return LISTS[list] === undefined ? task : `Judge: ${LISTS[list].name}, ${counted(steps, "event")}`;
}

export const markOf = ({ solved, wrong }, { id }) => (solved.has(id) ? "solved" : wrong.has(id) ? "wrong" : "none");
export const countOf = ({ solved }, columns) => columns.filter(({ id }) => solved.has(id)).length;
export const countText = (row, columns, none) => (row.isCounted ? countOf(row, columns) : none); // a hand-in for another assignment does not count as a failure in this one

function notesOnNames(row, rows) {
  const { name, number, files } = row;
  const same = rows.filter((other) => number !== "" && other.number === number).map((other) => other.name);
  const twins = rows.filter((other) => other.name.toLowerCase() === name.toLowerCase() && [number, other.number].includes(""));
  const twinFiles = twins.flatMap((one) => one.files).join(", ");
  const notes = [[files, `merged from ${files.join(", ")}`], [same, `two names for one number: ${same.join(", ")}`],
    [twins, `${twins.length} rows with this name, since a number is missing: ${twinFiles}`]];
  return notes.filter(([some]) => some.length > 1).map(([, note]) => note);
}

// Returns a schedule with one step on each line, so that schedules with the same steps are equal as texts.
const oneByOne = (schedule) => schedule.replace(/^go (\d+) (\d+)$/gm, (_, thread, count) => Array(Number(count)).fill(`go ${thread}`).join("\n"));

// Notes in each row which students handed in the same schedules. Returns the schedules that many students handed in: these are no sign of copying. (A single
// shared schedule can be a coincidence.)
function noteCopies(rows) {
  const byText = new Map();
  const own = new Map(rows.map((row) => [row, [...row.solved].filter(([, schedule]) => schedule !== null).map((entry) => entry.join("\n"))]));
  for (const row of rows) for (const key of own.get(row)) byText.set(key, [...(byText.get(key) ?? []), row]);
  const most = Math.max(4, rows.length / MANY);
  const isRare = (key) => byText.get(key).length <= most;
  for (const row of rows) {
    const keys = own.get(row);
    const rare = keys.filter(isRare);
    for (const other of new Set(rare.flatMap((key) => byText.get(key)).filter((one) => one !== row))) {
      const shared = keys.filter((key) => own.get(other).includes(key));
      const isListed = shared.filter(isRare).length >= Math.min(2, rare.length);
      const group = row.copies.find((one) => one.count === shared.length && one.isListed === isListed);
      if (group === undefined) row.copies.push({ count: shared.length, of: keys.length, isListed, rows: [other] });
      else group.rows.push(other);
    }
    row.copies.sort((one, other) => Number(other.isListed) - Number(one.isListed) || other.count - one.count);
  }
  return [...byText].filter(([key]) => !isRare(key)).map(([key, same]) => ({ task: key.split("\n")[0], rows: same }));
}

// Returns a text such as "3 of 3 with David Maier, Vera Peters". With `all` (for the spreadsheet), also names pairs that the page does not report.
export function copiesText({ copies }, all = false) {
  const groups = copies.filter(({ isListed }) => all || isListed);
  return groups.map(({ count, of, rows }) => `${count} of ${of} with ${namesOf(rows)}`).join("; ");
}
export const fewNames = (rows, most = MOST_NAMES) => `${namesOf(rows.slice(0, most))}${rows.length > most ? ` and ${rows.length - most} more` : ""}`;
const namesOf = (rows) => rows.map(({ name, number }) => (number === "" ? name : `${name} (${number})`)).join(", ");

export const sumsOf = ({ rows, columns }) => columns.map(({ id }) => rows.filter(({ solved }) => solved.has(id)).length);

export function commonText(common) {
  const titles = [...new Set(common.map(({ title }) => title))];
  return titles.map((title) => {
    const counts = common.filter((one) => one.title === title).map(({ rows }) => rows.length);
    const many = counts.length === 1 ? `one schedule is shared by ${counts[0]}` : `${counts.length} schedules are shared by ${counts.slice(0, -1).join(", ")} and ${counts.at(-1)}`;
    return `${title}: ${many} students; short ones often are.`;
  }).join(" ");
}

// Returns the table in the CSV format. `parted` separates the cells; German and French spreadsheets need a semicolon. A cell that a spreadsheet would read as a
// formula becomes plain text.
export function csvOf({ rows, columns }, parted = ",") {
  const cell = (value) => {
    const text = String(value).replace(/^[=+\-@\t\r]/, "'$&");
    return /[",\n;]/.test(text) ? `"${text.replaceAll('"', '""')}"` : text;
  };
  const head = ["student", "number", ...columns.map(({ title }) => title), "solved", "of", "same schedules", "notes", "files"];
  const line = (row) => {
    const hows = columns.filter(({ id }) => row.hows.has(id)).map(({ id, title }) => `${title}: ${row.hows.get(id)}`);
    const marks = columns.map((column) => ({ solved: 1, wrong: 0, none: "" })[markOf(row, column)]);
    return [row.name, row.number, ...marks, countText(row, columns, ""), columns.length, [copiesText(row, true), row.large].filter((text) => text !== "").join("; "), [...hows, ...row.notes].join(" | "), row.files.join(" ")];
  };
  return `\ufeff${[head, ...rows.map(line)].map((cells) => cells.map(cell).join(parted)).join("\r\n")}\r\n`;
}
