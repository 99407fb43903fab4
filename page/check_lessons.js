// Checks the solutions that students hand in, and a teacher's courses, in node:
//
//     node page/check_lessons.js FILE|FOLDER ..        checks the hand-ins of one student or of a class; - is standard input
//         --assignment LINK                            counts the tasks of this assignment; by default, all tasks that anybody handed in
//         --csv FILE                                   also writes a table for a spreadsheet
//     node page/check_lessons.js COURSE FILE ..        counts the lessons of the teacher's own courses
//     node page/check_lessons.js COURSE                checks a course: each lesson is read and tried
//     node page/check_lessons.js --link COURSE         prints the part of a link that opens the course on the page
//
// A file can contain courses and the hand-ins of many students, also as mail (see hand_in.js). The page for teachers shows the same table (see handins.js).
// The exit status is 0 if every task is solved, 1 if not, 2 if an argument is wrong, or if a file cannot be read or contains no hand-in and no course, and 70
// if node cannot run the engine.
"use strict";

const fs = require("fs");
const path = require("path");
const { parseArgs } = require("util");
const { NO_ENGINE, NOT_RUN, inPage, startedEngine } = require("./in_node.js");

const MOST_BYTES = 10000000;
const OPTIONS = { assignment: { type: "string" }, csv: { type: "string" }, link: { type: "boolean" } };
const USAGE = "node page/check_lessons.js [--assignment LINK] [--csv FILE] FILE|FOLDER .., with courses among the files or none; or --link COURSE";

class Trouble extends Error {}

const UNTRUSTED = /[\x00-\x1f\x7f-\x9f\u2028\u2029\u202a-\u202e]/g; // characters of a hand-in that could control a terminal; they are not printed
const printable = (text) => text.replace(UNTRUSTED, "?");
const counted = (count, word) => inPage("counted")(count, word);
const say = (line) => process.stdout.write(`${printable(line)}\n`);
const tell = (line) => process.stderr.write(`lessons: ${printable(line)}\n`);

// Calls `deed` (a function that uses a file) and returns the result. Throws `Trouble` if the file cannot be read.
function withFile(file, deed) {
  try {
    return deed(file);
  } catch (fault) {
    if (fault.syscall === undefined) throw fault;
    throw new Trouble(`cannot read ${file}: ${fault.code}`);
  }
}

function filesIn(file) {
  if (file === "-" || !fs.statSync(file).isDirectory()) return [file];
  return fs.readdirSync(file).sort().flatMap((name) => filesIn(path.join(file, name)));
}

function textOf(file) {
  const bytes = withFile(file, () => fs.readFileSync(file === "-" ? 0 : file));
  if (bytes.length > MOST_BYTES) throw new Trouble(`${file} is longer than ${MOST_BYTES} bytes`);
  return inPage("textOfBytes")(bytes);
}

// Reads and checks the courses in the files, and reports the errors in these courses.
function coursesOf(ask, files) {
  const found = files.flatMap(({ name, text }) => inPage("textsIn")(text).map((one) => ({ ...one, file: name })));
  return found.filter(({ kind }) => kind === "course").map(({ file, number, text }) => {
    const course = inPage("triedCourse")(ask, text);
    for (const { line, fault } of course.faults) say(`${file}, line ${line + number - 1}: ${fault}`);
    return { ...course, file };
  });
}

async function toldCourses(courses, isLink) {
  for (const { file, name, lessons, faults } of courses) say(`${file}: ${name}: ${counted(lessons.length, "lesson")}, ${counted(faults.length, "fault")}`);
  if (courses.some(({ faults }) => faults.length > 0)) return 1;
  if (isLink && courses.length === 1) {
    const address = await inPage("courseAddress")(courses[0].text);
    if (address === null) throw new Trouble("the course is too long for a link: hand out the file");
    say(`page/index.html${address}`);
  }
  return 0;
}

// Prints a student's solved tasks, missing tasks, and notes in the table. Returns whether every task is solved and every line is readable.
function toldRow(row, columns) {
  const who = row.number === "" ? row.name : `${row.name} (${row.number})`;
  const open = columns.filter(({ id }) => !row.solved.has(id)).map(({ title }) => title);
  const copies = inPage("copiesText")(row);
  say(`${who}: ${columns.length - open.length} of ${columns.length} solved${open.length > 0 ? `; open: ${open.join("; ")}` : ""}`);
  for (const note of [...(copies === "" ? [] : [`same schedules: ${copies}`]), ...row.notes]) say(`${who}: ${note}`);
  return open.length === 0 && row.faults === 0;
}

function assignmentOf(link, courses) {
  if (link === undefined) return courses.length === 0 ? null : { title: null, tasks: lessonsOf(courses) };
  const assignment = inPage("assignmentOfLink")(link);
  if (assignment.fault !== undefined) throw new Trouble(assignment.fault);
  return assignment;
}

const lessonsOf = (courses) => courses.flatMap(({ lessons }) => lessons).map(({ name, title }) => ({ id: name, title }));

async function checked(ask, { assignment, csv, link }, words) {
  const names = words.flatMap((word) => withFile(word, filesIn));
  const files = [];
  const bad = names.filter((name) => {
    try {
      files.push({ name, text: textOf(name) });
      return false;
    } catch (fault) {
      if (!(fault instanceof Trouble)) throw fault;
      return tell(fault.message) === undefined;
    }
  });
  const courses = coursesOf(ask, files);
  const isGood = courses.every(({ faults }) => faults.length === 0);
  const result = isGood && !link ? await inPage("checkAll")(files, assignmentOf(assignment, courses)) : { rows: [], empty: [], common: [] };
  for (const name of result.empty) tell(`${name}: no line is "listset-course 1" or "listset-lessons 2": no text is here`);
  const isBad = bad.length + result.empty.length > 0;
  const { rows, columns } = result;
  if (rows.length === 0) return isBad ? 2 : toldCourses(courses, link);
  const whole = rows.map((row) => toldRow(row, columns)).filter((isAll) => isAll).length;
  if (result.common.length > 0) say(`same schedules: ${inPage("commonText")(result.common)}`);
  if (rows.length > 1) say(`${whole} of ${rows.length} students have solved all`);
  if (csv !== undefined) withFile(csv, () => fs.writeFileSync(csv, inPage("csvOf")(result)));
  if (isBad) return 2;
  return whole === rows.length ? 0 : 1;
}

async function main() {
  try {
    const { values, positionals } = parseArgs({ options: OPTIONS, allowPositionals: true });
    if (positionals.length === 0 || (values.link && positionals.length > 1)) throw new Trouble(`the words are ${USAGE}`);
    const engine = await startedEngine();
    if (engine === null) return [NO_ENGINE, tell(NOT_RUN)][0];
    inPage("held").engine = engine; // the engine for the page's modules
    return await checked(inPage("askNow"), values, positionals);
  } catch (fault) {
    if (!(fault instanceof Trouble) && !fault.code?.startsWith("ERR_PARSE_ARGS")) throw fault;
    tell(fault instanceof Trouble ? fault.message : `${fault.message.split(".")[0]}; the words are ${USAGE}`);
    return 2;
  }
}

process.stdout.on("error", (fault) => process.exit(fault.code === "EPIPE" ? 0 : 2)); // for example, if the output is piped to `head`
main().then((status) => (process.exitCode = status));
