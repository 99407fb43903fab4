// Broken lists. Each list lacks one check. A run breaks its list if neither the order of the linearization points nor any other order explains the calls.
// (Proved programs decide both.)
import { readReport, readVerdict } from "../engine/answers.js";
import { nameOfCall } from "./judged.js";
import { scheduleOfTrace } from "./schedule_text.js";
import { eventsInCommon, isTrace, Trace } from "./trace.js";

export const EXPLAINED = "Not broken yet: some order explains this run.";
const BY_POINTS = "Not by its linearization points: check refuses that order.";
const OTHER = "Another order explains these replies.";
const UNKNOWN = "Whether another order explains these replies is not known.";
const UNEXPLAINED = "No order of these calls explains that (proved).";
export const TO_BREAK = "No order explains the calls and the keys left (proved)."; // the condition of a lesson about a broken list

// The LazyList with a `contains` that ignores marks. In every known run of this list, some order explains the calls, so the list is not a task of the Break
// activity.
export const NO_TASK = "mark-in-contains";
export const isTaskDone = (lacks, { kind }) => kind === "broken" && lacks !== NO_TASK;

export const askList = (ask, name, lacks, text) =>
  lacks === null ? ask(name, text) : ask("listset_lacking", lacks, text, name.slice("listset_".length));

// Judges the run of a schedule. The verdict is `explained` (the order of the linearization points explains the calls), `points` (only another order explains
// the calls, or could), `broken` (no order explains the calls) or `refused` (the schedule cannot be run).
export function verdictOnLacking(ask, lacks, schedule) {
  const { status, text } = askList(ask, "listset_replay", lacks, schedule);
  if (status !== 0) return { kind: "refused", says: `The schedule is refused: ${text.trim()}`, report: null };
  const verdict = readVerdict(ask("listset_check_record", text));
  if (verdict.kind === "fault") return { kind: "refused", says: `The run is not judged: ${verdict.fault.says}.`, report: null };
  if (verdict.kind === "own") return { kind: "explained", says: EXPLAINED, report: text };
  if (verdict.kind === "none") {
    const why = whyNone(text, verdict.why);
    return { kind: "broken", why, says: `Broken: ${why}. ${UNEXPLAINED}`, report: text };
  }
  const isExplained = verdict.kind === "another"; // otherwise the answer is not known
  return { kind: "points", isExplained, says: `${BY_POINTS} ${isExplained ? OTHER : UNKNOWN}`, report: text };
}

function whyNone(text, { key, moment, clash, noSuchReply }) {
  if (noSuchReply !== null) return `no set returns the reply of call ${noSuchReply} to such a call`;
  if (key === null) return "no order leaves these keys, which do not increase";
  const isLeft = moment === null;
  const exercise = readReport(text);
  if (isLeft && isLost(exercise, key)) return `${key} was added once and never removed, and at the end the set does not have it`;
  if (clash === null) return `the calls of key ${key} have no order`;
  const state = clash.isPresent ? "present" : "absent";
  const first = clash.first === null ? `${key} is ${state} at first` : `${callInWords(exercise, clash.first)}, which leaves ${key} ${state}`;
  const left = exercise.keys.includes(key) ? "has it" : "does not have it";
  return `${first}, and ${clash.second === null ? `at the end the set ${left}` : callInWords(exercise, clash.second)}`;
}

function isLost({ calls, opening, keys }, key) {
  const mayHave = ({ operation, reply }, asked) => operation === asked && (reply === "true" || reply === null);
  const count = (operation) => calls.filter((call) => call.key === key && mayHave(call, operation)).length;
  const isThere = opening.includes(key) || keys.includes(key);
  return count("add") === 1 && count("remove") === 0 && !isThere;
}

// Describes a call that the judge names, in the words of the report. (The judge treats a `ceiling`, and an `add` that returned `full`, as a `contains`.)
function callInWords({ calls }, { thread, begun }) {
  const call = calls.find((one) => one.thread === thread && one.begun === Number(begun));
  return `${nameOfCall(call)} ${call.ended === null ? "is pending" : `returns ${call.reply}`}`;
}

export function departureOf(ask, trace) {
  const { text } = ask("listset_trace", scheduleOfTrace(trace));
  const event = isTrace(text) ? eventsInCommon(trace, new Trace(text, trace.version)) + 1 : Infinity;
  return event > trace.total ? null : event;
}
