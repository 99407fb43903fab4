// Judges schedules by the goal of a lesson. A lesson is checked when it is read: the lesson's start must not reach the goal, and the lesson's answer must reach
// it.
import { readFault, sentenceOn } from "../engine/answers.js";
import { askList, TO_BREAK, verdictOnLacking } from "../run/broken.js";
import { eventsAsked, scheduleOfDraft, scheduleText, versionOf } from "../run/schedule_text.js";
import { conditionsOf, Run, TooManyWays } from "./goal_words.js";
import { HEADER_LINES, isTrace, Trace } from "../run/trace.js";
import { readCourse } from "./course_text.js";

export const MOST_EVENTS = 1000; // events of a solution
const OTHER_SET = "The list, the number of threads, the quota and the opening keys must be those of the lesson.";
const setOf = (schedule) => schedule.split("\n").slice(1).filter((line) => !/^(begin|go) /.test(line)).join("\n");

function runOfSchedule(ask, schedule, lacks) {
  const made = askList(ask, "listset_trace", lacks, schedule).text;
  if (!isTrace(made)) return { trace: null, fault: { ...readFault(made), says: `The schedule is refused: ${made.trim()}.` } };
  const trace = new Trace(made, versionOf(schedule));
  const { refused } = trace;
  if (refused === null) return { trace, fault: null };
  const why = sentenceOn(ask, refused.cause, "a schedule") ?? refused.cause;
  return { trace: null, fault: { ...refused, says: `Line ${refused.line} of the schedule is refused: ${why}.` } };
}

const unjudged = (reason, fault = null) => ({ isSolved: false, reason, fault, conditions: [], deadEnd: null });

export function judged(ask, lesson, schedule) {
  if (setOf(schedule) !== setOf(lesson.begun)) return unjudged(OTHER_SET);
  if (eventsAsked(schedule) > MOST_EVENTS) return unjudged(`A solution has at most ${MOST_EVENTS} events.`);
  const { trace, fault } = runOfSchedule(ask, schedule, lesson.lacks);
  if (trace === null) return unjudged(fault.says, fault);
  const run = new Run(trace);
  const conditions = withinBound(() => conditionsOfLesson(ask, lesson, schedule, run));
  if (conditions === null) return unjudged("This run is not judged: it could meet the goal in too many ways.");
  const isSolved = conditions.every(({ isMet }) => isMet);
  const deadEnd = withinBound(() => lesson.deadEnds.map((lines) => conditionsOf(lines, run)[0]).find(({ isMet }) => isMet));
  return { isSolved, reason: null, fault: null, conditions, deadEnd: isSolved ? null : (deadEnd?.says ?? null) };
}

function withinBound(search) {
  try {
    return search();
  } catch (fault) {
    if (!(fault instanceof TooManyWays)) throw fault;
    return null;
  }
}

// Checks that the goal of a lesson can be evaluated in bounded time. Tries it on a generated run of about sixty events, with the lesson's list and threads.
function isBounded(ask, { list, threads, goal }) {
  const { text, status } = ask("listset_gen", [list, Math.max(threads, 2), 4, 6, 3, 1].join("\0"));
  const { trace } = status === 0 ? runOfSchedule(ask, text, null) : { trace: null };
  return trace === null || withinBound(() => conditionsOf(goal, new Run(trace))) !== null;
}

export const conditionTexts = ({ goal, lacks }) =>
  [...goal.map(({ says }) => says), lacks === null ? undefined : TO_BREAK].filter((says) => says !== undefined);

function conditionsOfLesson(ask, { goal, lacks }, schedule, run) {
  const conditions = conditionsOf(goal, run);
  if (lacks === null) return conditions;
  return [...conditions, { says: TO_BREAK, isMet: verdictOnLacking(ask, lacks, schedule).kind === "broken" }];
}

export function missingIn({ reason, conditions }) {
  const missing = conditions.find(({ isMet }) => !isMet);
  return reason ?? (missing === undefined ? null : `missing: ${missing.says}`);
}

function troubleOf(ask, lesson) {
  const start = scheduleOfDraft(ask, scheduleText(lesson, lesson.start), lesson.lacks);
  if (start.fault !== null) return refusedLine(ask, lesson, "start", readFault(start.fault));
  lesson.begun = start.text;
  const begin = runOfSchedule(ask, start.text, lesson.lacks);
  if (begin.trace === null) return refusedLine(ask, lesson, "start", begin.fault);
  if (!isBounded(ask, lesson)) {
    return { line: lesson.line, says: "there are too many ways to meet its goal: name fewer steps, or say more of each" };
  }
  const met = withinBound(() => conditionsOfLesson(ask, lesson, start.text, new Run(begin.trace))) ?? [{ isMet: false }];
  if (met.every(({ isMet }) => isMet)) return { line: lesson.line, says: "its start meets the goal already" };
  lesson.solution = null;
  if (lesson.answer.length === 0) return null;
  const answer = scheduleOfDraft(ask, scheduleText(lesson, [...lesson.start, ...lesson.answer]), lesson.lacks);
  if (answer.fault !== null) return refusedLine(ask, lesson, "answer", readFault(answer.fault));
  lesson.solution = answer.text;
  const verdict = judged(ask, lesson, answer.text);
  if (verdict.isSolved) return null;
  if (verdict.reason !== null) return refusedLine(ask, lesson, "answer", verdict.fault ?? { line: null, cause: null, says: verdict.reason });
  return { line: lesson.line, says: `its answer does not solve it: ${missingIn(verdict)}` };
}

function refusedLine(ask, lesson, part, { line, cause, says }) {
  const given = lesson.events[line - HEADER_LINES - lesson.opening.length - 1];
  const why = sentenceOn(ask, cause, "a schedule", "a draft");
  if (given === undefined || why === null) return { line: lesson.line, says: `its ${part} is refused: ${says}` };
  return { line: given.number, says: `its ${part} is refused at "${given.line}": ${why}` };
}

export function triedCourse(ask, text) {
  const { name, lessons, faults } = readCourse(text);
  for (const lesson of faults.length === 0 ? lessons : []) {
    const fault = troubleOf(ask, lesson);
    if (fault !== null) faults.push({ line: fault.line, fault: `${lesson.name}: ${fault.says}` });
  }
  return { name, lessons, text, faults: faults.sort((one, other) => one.line - other.line) };
}
