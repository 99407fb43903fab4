// Reads the text of a course (a sequence of lessons). The first lines of book.course describe the format. Each error message names the line with the error.
import { LACKING } from "../../made/classics.js";
import { bytesOf, passed } from "../engine/engine.js";
import { AddressFault, LONGEST_ADDRESS } from "../run/address.js";
import { GoalFault, readGoal } from "./goal_words.js";

export const COURSE_TITLE = "listset-course 1";
const MOST_COURSE = 1000000; // characters of a course
const LESSON_WORDS = {
  lesson: { form: /^[a-z][a-z0-9-]{0,40}$/, says: "a name of small letters, digits and -" },
  title: { form: /^.{1,80}$/, says: "a title of 1 to 80 letters" },
  list: { form: /^(coarse|fine|optimistic|lazy|lock-free)$/, says: "coarse, fine, optimistic, lazy or lock-free" },
  lacks: { form: /^[a-z][a-z-]{0,40}$/, says: "the name of a broken list", isOptional: true },
  threads: { form: /^([1-9]|[1-5]\d|6[0-4])$/, says: "a number from 1 to 64" },
  quota: { form: /^(0|[1-9]\d{0,4})$/, says: "a number, the keys that a thread can add" },
  opening: { form: /^\d+( \d+)*$/, says: "keys, rising, with a space between", isOptional: true },
  start: { isBlock: true, isOptional: true },
  question: { isBlock: true },
  teaches: { isBlock: true, isOptional: true },
  hint: { isBlock: true, isOptional: true },
  answer: { isBlock: true, isOptional: true },
  goal: { isBlock: true },
  "dead-ends": { isBlock: true, isOptional: true },
};
const WORDS = Object.keys(LESSON_WORDS);

// Returns the lines of a text without their common indentation. (A course that is copied from a page is indented.)
function withoutIndent(text) {
  const lines = text.replace(/^\ufeff/, "").split("\n").map((line) => line.replaceAll("\t", "  ").trimEnd());
  const first = lines.findIndex((line) => line !== "");
  const indents = lines.filter((line, index) => index > first && line !== "").map((line) => line.search(/\S/));
  const most = Math.min(...indents);
  return lines.map((line, index) => (index === first ? line.trimStart() : line.slice(Math.min(most, line.search(/\S|$/)))));
}

class CourseReader {
  constructor(text) {
    this.faults = [];
    this.name = "";
    this.lessons = [];
    this.block = null; // the part of the text that continues in the following indented lines
    const lines = withoutIndent(text).map((line, index) => ({ line, number: index + 1 }));
    const [title, ...rest] = lines.filter(({ line }) => line !== "" && !line.startsWith("#"));
    if (title?.line !== COURSE_TITLE) this.fault(title?.number ?? 1, `expected "${COURSE_TITLE}" here`);
    else this.takeAll(title, rest);
  }

  takeAll(title, rest) {
    rest.forEach(({ line, number }) => this.take(line, number));
    if (this.name === "") this.fault(title.number, 'expected the line "course NAME" below it');
    if (this.lessons.length === 0) this.fault(title.number, "there is no lesson below");
  }

  fault(line, fault) {
    this.faults.push({ line, fault });
  }

  take(line, number) {
    if (line.startsWith("  ")) {
      if (this.block === null) this.fault(number, "this line belongs to no word: expected a word alone in a line above it");
      else this.block.lines.push({ line: line.trim(), number });
      return;
    }
    const word = line.split(" ")[0];
    const value = line.slice(word.length).trim();
    this.block = null;
    if (word === "course" && this.lessons.length === 0) this.name = value.slice(0, 80);
    else if (Object.hasOwn(LESSON_WORDS, word)) this.takeWord(word, value, number);
    else this.fault(number, `"${word.slice(0, 40)}" is not a word of a lesson: expected one of ${WORDS.join(", ")}`);
  }

  takeWord(word, value, number) {
    const { form, says, isBlock } = LESSON_WORDS[word];
    const part = { number, value, lines: [] };
    if (isBlock) this.block = part;
    if (isBlock && value !== "") this.fault(number, `expected what "${word}" says in the lines below it, each after two spaces`);
    if (!isBlock && !form.test(value)) this.fault(number, `"${value.slice(0, 60)}" is not a value of "${word}": expected ${says}`);
    if (word === "lesson") return this.lessons.push({ lesson: part });
    const parts = this.lessons[this.lessons.length - 1];
    if (parts === undefined) return this.fault(number, `expected "lesson NAME" above "${word}"`);
    const before = Object.keys(parts).pop();
    if (word in parts) return this.fault(number, `"${word}" is in this lesson already, at line ${parts[word].number}`);
    if (WORDS.indexOf(word) < WORDS.indexOf(before)) this.fault(number, `expected "${word}" above "${before}"`);
    parts[word] = part;
  }

  lessonOf(parts) {
    const isDue = (word) => !LESSON_WORDS[word].isOptional && !(word === "goal" && "lacks" in parts);
    const missing = WORDS.filter((word) => !(word in parts) && isDue(word));
    if (missing.length > 0) {
      this.fault(parts.lesson.number, `the lesson lacks ${missing.map((word) => `"${word}"`).join(", ")}`);
      return null;
    }
    const linesOf = (word) => (parts[word]?.lines ?? []).map(({ line }) => line);
    const events = ["start", "answer"].flatMap((word) => parts[word]?.lines ?? []); // these lines also have their numbers
    const lacks = parts.lacks?.value ?? null;
    if (lacks !== null && LACKING[lacks] !== parts.list.value) {
      const own = Object.keys(LACKING).filter((name) => LACKING[name] === parts.list.value);
      const there = own.length === 0 ? "none is broken" : `the broken ones lack ${own.join(", ")}`;
      this.fault(parts.lacks.number, `there is no ${parts.list.value} list that lacks "${lacks}": ${there}`);
      return null;
    }
    const goal = "goal" in parts ? this.goalOf(parts.goal) : [];
    const deadEnds = this.deadEndsOf(parts["dead-ends"]);
    if (goal === null || deadEnds === null) return null;
    const lesson = { name: parts.lesson.value, line: parts.lesson.number, lacks, goal, deadEnds };
    for (const word of ["title", "list"]) lesson[word] = parts[word].value;
    for (const word of ["threads", "quota"]) lesson[word] = Number(parts[word].value);
    for (const word of ["question", "teaches", "hint"]) lesson[word] = linesOf(word).join(" ");
    const opening = parts.opening?.value.split(" ") ?? [];
    return { ...lesson, opening, start: linesOf("start"), answer: linesOf("answer"), events };
  }

  goalOf({ number, lines }) {
    try {
      return readGoal(lines.map(({ line }) => line));
    } catch (found) {
      if (!(found instanceof GoalFault)) throw found;
      this.fault(lines[found.line - 1]?.number ?? number, found.message);
      return null;
    }
  }

  deadEndsOf(part) {
    if (part === undefined) return [];
    const ends = [[]];
    for (const line of part.lines) {
      ends[ends.length - 1].push(line);
      if (line.line.startsWith("say ")) ends.push([]);
    }
    const goals = ends.filter((lines) => lines.length > 0).map((lines) => this.goalOf({ number: part.number, lines }));
    return goals.includes(null) ? null : goals;
  }
}

export function readCourse(text) {
  const reader = new CourseReader(text.slice(0, MOST_COURSE));
  if (text.length > MOST_COURSE) reader.fault(1, `a course has at most ${MOST_COURSE} letters`);
  const lessons = reader.lessons.map((parts) => reader.lessonOf(parts)).filter((lesson) => lesson !== null);
  const twice = lessons.filter((lesson, index) => lessons.findIndex(({ name }) => name === lesson.name) < index);
  for (const { name, line } of twice) reader.fault(line, `there is a lesson ${name} above`);
  return { name: reader.name, lessons, faults: reader.faults };
}

// ---- A course in a link. The compressed text of the course follows `#course=`, so that the page loads nothing from a network.
export async function courseAddress(text) {
  const lines = text.split("\n").filter((line) => line.trim() !== "" && !line.startsWith("#"));
  const bytes = await passed(new TextEncoder().encode(`${lines.join("\n")}\n`), new CompressionStream("deflate-raw"));
  const letters = btoa(Array.from(bytes, (byte) => String.fromCharCode(byte)).join(""));
  const address = `#course=${letters.replaceAll("+", "-").replaceAll("/", "_").replace(/=+$/, "")}`;
  return address.length <= LONGEST_ADDRESS ? address : null;
}

export async function courseOfAddress(letters) {
  try {
    const bytes = bytesOf(letters.replaceAll("-", "+").replaceAll("_", "/"));
    return new TextDecoder().decode(await passed(bytes, new DecompressionStream("deflate-raw")));
  } catch {
    throw new AddressFault("the course of the address cannot be unpacked: the link is cut");
  }
}
