// Reads and writes hand-ins. A hand-in is a text with a title, the course and the student, followed by a line for each solution. The line for a lesson contains
// the lesson's name and the address of a schedule (or a link that ends with the address). A line `judge` contains an order that was judged right. A line
// `break` contains a run that breaks a list, and the word `named` if the student has also chosen the missing check.
//
//     listset-lessons 2
//     course The twelve lessons of the five lists
//     assignment Week 3
//     student Ada
//     marked-in-chain #list=lazy&threads=2&quota=4&opening=5&s=b1.remove.5,g1.7,b0.contains.5,g0.3&event=12
//     judge snip points 2-true,0-true,1-true
//     break mark-in-add #list=lock-free&threads=2&quota=2&opening=3.7&s=b0.add.5,g0.5&event=6 named
//     end
//
// Hand-ins are often sent by mail. Their lines can then be quoted, wrapped or encoded, and can have other lines around them. One file can contain the hand-ins
// of a whole class, and also courses.
import { CLASSICS, LACKING } from "../../made/classics.js";
import { AddressFault, addressOf, readAddress } from "../run/address.js";
import { askList, isTaskDone, NO_TASK, verdictOnLacking } from "../run/broken.js";
import { answerOfWord, exerciseOf, LEVELS, verdictOn } from "../run/judged.js";
import { eventsAsked, scheduleOfTrace, versionOf } from "../run/schedule_text.js";
import { Trace } from "../run/trace.js";
import { COURSE_TITLE } from "./course_text.js";
import { judged, missingIn, MOST_EVENTS } from "./lesson.js";

const HAND_IN_TITLE = "listset-lessons 2";
export const NAMED = "named"; // the last word of a line about a broken list, if the student has also chosen the missing check

export const solutionLine = (name, schedule) => `${name} ${addressOf(schedule, eventsAsked(schedule))}`;

export function handInText(course, student, solutions, otherLines, assignment = null) {
  const lines = solutions.map(({ name, schedule }) => solutionLine(name, schedule));
  const title = assignment === null ? [] : [`assignment ${assignment}`];
  return [HAND_IN_TITLE, `course ${course}`, ...title, `student ${student}`, ...lines, ...otherLines, "end", ""].join("\n");
}

// Decodes the bytes of a file: as UTF-16 if they begin with a byte order mark of UTF-16, otherwise as UTF-8 or, if they are not valid UTF-8, as Windows-1252.
export function textOfBytes(bytes) {
  const coding = { 0xfeff: "utf-16be", 0xfffe: "utf-16le" }[(bytes[0] << 8) | bytes[1]] ?? "utf-8";
  try {
    return new TextDecoder(coding, { fatal: true }).decode(bytes);
  } catch {
    return new TextDecoder(coding === "utf-8" ? "windows-1252" : coding).decode(bytes);
  }
}

function unmailed(text) {
  const isCoded = /=3D/i.test(text); // quoted-printable: `=` at the end of a line continues the line, and =3D is `=`
  const lines = [];
  let goesOn = false;
  text.split(/\r\n|\r|\n/).forEach((given, index) => {
    const bare = given.replace(/[\u200b\ufeff]/g, "").replaceAll("\u00a0", " ").replace(/^[\s>|]+/, "").trimEnd();
    const line = isCoded ? bare.replace(/=$/, "") : bare;
    if (goesOn) lines[lines.length - 1].line += line;
    else lines.push({ line, number: index + 1 });
    goesOn = isCoded && bare.endsWith("=");
  });
  const letterOf = (_, code) => String.fromCharCode(parseInt(code, 16));
  const decoded = (line) => (isCoded ? line.replace(/=([0-9A-F]{2})/gi, letterOf) : line);
  return lines.map(({ line, number }) => ({ line: decoded(line).replaceAll("&amp;", "&"), number }));
}

export function textsIn(text) {
  /** @type {any[]} */
  const found = [];
  const given = text.split(/\r\n|\r|\n/);
  for (const { line, number } of unmailed(text)) {
    const last = found.at(-1);
    if (line === COURSE_TITLE) found.push({ kind: "course", number, lines: [] });
    else if (line === HAND_IN_TITLE) found.push({ kind: "hand-in", number, lines: [] });
    else if (last?.kind === "hand-in" && !last.isEnded && line === "end") last.isEnded = true;
    else if (last?.kind === "hand-in" && !last.isEnded && line !== "") last.lines.push({ line, number });
  }
  for (const [index, course] of found.entries()) {
    if (course.kind !== "course") continue;
    course.text = given.slice(course.number - 1, (found[index + 1]?.number ?? given.length + 1) - 1).join("\n");
  }
  return found;
}

// A mail program can wrap a line at a space or within a word. `unwrapped` replaces a line break between two words by a space, and deletes all other line
// breaks.
const broken = (word) => [...word].join("\\n?");
const JUDGE = new RegExp(`^(judge)[ \\n]+(\\S[^]*?)[ \\n]+(${Object.keys(LEVELS).map(broken).join("|")})[ \\n]+([^]+)$`);
const BREAK = new RegExp(`^(break)[ \\n]+([a-z0-9\\n-]+?)[ \\n]+((?:<?https?:[^#]+)?#[^]*?)(?:[ \\n]+(${broken(NAMED)}))?$`);
const isBegin = (line) => /^(student|course|assignment|judge|break)( |$)/.test(line) || /^[a-z][a-z0-9-]* +(\S*#|<?https?:)/.test(line);
const isName = (line, last, next) => /^[a-z][a-z0-9-]*$/.test(line) && (!/^(judge|break)\b/.test(last?.line) || /^(#|<?https?:)/.test(next?.line));
const lacksWords = (line) => (/^judge\b/.test(line) ? !JUDGE.test(line) : !/^(student|course|assignment) /.test(line) && !line.includes("#"));
const isPiece = (line) => !line.includes(" ") || /^\S*[.,=&]\S* /.test(line);

function unwrapped(line) {
  const words = (JUDGE.exec(line) ?? BREAK.exec(line) ?? /^([a-z][a-z0-9-]*)[ \n]+([^]+)$/.exec(line) ?? ["", line]).slice(1);
  return words.filter((word) => word !== undefined).map((word) => word.replaceAll("\n", "")).join(" ");
}

export function readHandIn({ lines, isEnded, number }) {
  const parts = [];
  const faults = [];
  for (const [at, given] of lines.entries()) {
    const last = parts.at(-1);
    const longer = `${last?.line}\n${given.line}`;
    const isWhole = last === undefined || !lacksWords(last.line);
    if (isBegin(given.line) || (isWhole && isName(given.line, last, lines[at + 1]))) parts.push({ ...given, shorter: [] });
    else if (last !== undefined && lacksWords(last.line)) last.line = longer;
    else if (last !== undefined && isPiece(given.line)) Object.assign(last, { line: longer, shorter: [last.line, ...last.shorter] });
    else faults.push({ line: given.number, fault: `"${given.line.slice(0, 40)}" is not a line of a solution` });
  }
  for (const part of parts) Object.assign(part, { line: unwrapped(part.line), shorter: part.shorter.map(unwrapped) });
  const valueOf = (word) => parts.find(({ line }) => line.startsWith(`${word} `))?.line.slice(word.length + 1) ?? null;
  if (!isEnded) faults.push({ line: number, fault: 'the text that begins here has no final line "end"; its solutions are counted' });
  const solutions = parts.filter(({ line }) => !/^(student|course|assignment) /.test(line));
  return { course: valueOf("course"), assignment: valueOf("assignment"), student: valueOf("student"), solutions, faults };
}

export function readSchedule(link) {
  try {
    const { text } = readAddress(link.slice(link.indexOf("#")).replace(/>$/, ""));
    return text === null ? { fault: "the address is not that of a schedule" } : { schedule: text };
  } catch (fault) {
    if (!(fault instanceof AddressFault)) throw fault;
    return { fault: fault.message };
  }
}

// Judges a solution. If a mail program has wrapped the solution, `line` joins the most lines of the mail, and the texts in `shorter` join fewer. The first of
// these texts that is right counts.
export function judgedSolution(ask, lessons, { line, shorter }) {
  const lines = [line, ...shorter];
  /** @type {any[]} */
  const verdicts = lines.map((one) => judgedPart(ask, lessons, one));
  const at = Math.max(0, verdicts.findIndex(({ isSolved }) => isSolved));
  return { ...verdicts[at], line: lines[at] };
}

export function judgedPart(ask, lessons, line) {
  const [word, ...words] = line.split(/ +/);
  if (word === "judge") return judgedOrder(ask, words);
  if (word === "break") return judgedBreak(ask, words);
  const lesson = lessons.find(({ name }) => name === word);
  const not = (says) => ({ task: lesson?.name ?? null, isSolved: false, says });
  if (lesson === undefined) return not(`there is no lesson ${JSON.stringify(word.slice(0, 60))}`);
  if (words.length === 0 || !words[0].includes("#")) return not("the address of a schedule is missing, from # on");
  if (words.length > 1) return not("more follows the address");
  const { schedule, fault } = readSchedule(words[0]);
  if (fault !== undefined) return not(fault);
  const verdict = judged(ask, lesson, schedule);
  if (!verdict.isSolved) return not(missingIn(verdict));
  return { task: lesson.name, isSolved: true, says: "", schedule, isVeryAnswer: schedule === lesson.solution };
}

function judgedOrder(ask, [run = "", level = "", word = "", ...more]) {
  const task = `judge ${run} ${level}`;
  const not = (says) => ({ task, isSolved: false, says });
  if (!Object.hasOwn(LEVELS, level)) return not(`expected a level, one of ${Object.keys(LEVELS).join(", ")}`);
  if (more.length > 0) return not("more follows the order");
  const { schedule, fault } = run.includes("#") ? readSchedule(run) : scheduleOfExample(ask, run);
  if (fault !== undefined) return not(fault);
  const report = ask("listset_replay", schedule);
  if (report.status !== 0) return not(`the schedule is refused: ${report.text.trim()}`);
  const answer = answerOfWord(exerciseOf(report.text, level), word);
  if (answer === null) return not("expected the order, such as 0-true,2-true,1-false");
  const { isRight, says } = verdictOn(ask, answer);
  return { task, isSolved: isRight === true, says: isRight === true ? "" : says, how: LEVELS[level].name, isMost: level === "replies" };
}

function judgedBreak(ask, [name = "", link = "", ...more]) {
  const task = `break ${name}`;
  const not = (says) => ({ task, isSolved: false, says });
  if (!Object.hasOwn(LACKING, name) || name === NO_TASK) return not("there is no such list to break");
  if (!link.includes("#")) return not("expected the address of a schedule, from # on");
  if (more.length > 0 && more.join() !== NAMED) return not("more follows the address");
  const { schedule, fault } = readSchedule(link);
  if (fault !== undefined) return not(fault);
  if (eventsAsked(schedule) > MOST_EVENTS) return not(`expected at most ${MOST_EVENTS} events`);
  const verdict = verdictOnLacking(ask, name, schedule);
  if (!isTaskDone(name, verdict)) return not(verdict.says);
  return { task, isSolved: true, says: "", schedule, ofExample: exampleBy(ask, name, schedule), how: `check ${more.length > 0 ? "" : "not "}named`, isMost: more.length > 0 };
}

function exampleBy(ask, name, schedule) {
  const shown = (example) => {
    const text = ask("listset_example", example).text;
    return scheduleOfTrace(new Trace(askList(ask, "listset_trace", name, text).text, versionOf(text)));
  };
  return Object.keys(CLASSICS).find((example) => CLASSICS[example].lacks.includes(name) && shown(example) === schedule) ?? null;
}

function scheduleOfExample(ask, name) {
  const { status, text } = ask("listset_example", name);
  return status === 0 ? { schedule: text } : { fault: `there is no example ${JSON.stringify(name.slice(0, 60))}` };
}
