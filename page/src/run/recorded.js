// Calls recorded from the reader's own set: the judge's verdict in words, and the calls to draw.
import { callOfRecording, callsOfRecording, leavesKey, readVerdict, sentenceOn } from "../engine/answers.js";
import { nameOfCall } from "./judged.js";

export const RECORDED_EXAMPLE = `listset-calls 1
opening 8
call 0 add 5 1 4 true
call 1 add 5 2 3 true
call 2 remove 8 5 6 true
key 5
end
`;

const MOST_DRAWN = 40; // calls
export const withNewline = (text) => (text === "" || text.endsWith("\n") ? text : `${text}\n`);

export const recordedInWords = (call) =>
  call.ended === null
    ? `${nameOfCall(call)}, begun at ${call.begun}, is pending`
    : `${nameOfCall(call)} returns ${call.reply}, from ${call.begun} to ${call.ended}`;

function okInWords({ count, isCutOff }) {
  const calls = count === 1 ? "this one call" : `these ${count.toLocaleString("en")} calls`;
  const keys = isCutOff ? ", whatever keys it leaves" : " and leaves the keys";
  return `Linearizable: an order explains ${calls}${keys}. This verdict is about this recording only.`;
}

function remarksOn({ count, overlapped, isCutOff }) {
  const few = "That is few, and a race shows only if calls meet: take fewer keys, more threads, or pauses in the set.";
  return [
    `${overlapped} of them overlap a change of their key.`,
    ...(20 * overlapped < count ? [few] : []),
    ...(isCutOff ? ["The recording was cut off: some final keys fit; the real ones are not known."] : []),
    ...(count > MOST_DRAWN ? [`The first ${MOST_DRAWN} calls are drawn.`] : []),
  ];
}

const stateInWords = (isPresent) => (isPresent ? "present" : "absent");

// Decides whether two calls that contradict each other overlap. If they overlap, they contradict each other in both orders.
const overlap = (first, second) => first !== null && second !== null && BigInt(second.begun) < BigInt(first.ended);

function clashInWords(key, { isPresent, first, second }) {
  const was = first === null ? `Key ${key} is ${stateInWords(isPresent)} at first` : `${recordedInWords(first)}, and leaves key ${key} ${stateInWords(isPresent)}`;
  const need = second === null ? `it is ${stateInWords(!isPresent)} at the end` : `${recordedInWords(second)}, and needs it ${stateInWords(!isPresent)}`;
  const change = `${isPresent ? "remove" : "add"}(${key})`;
  const nothing = `No ${change} that answered true or is pending overlaps the time of both`;
  return [`${was}; ${need}.`, `${nothing}${overlap(first, second) ? ". They contradict each other in the other order too" : ""}.`];
}

export function reasonsOf({ key, moment, clash, noSuchReply }) {
  if (noSuchReply !== null) return [`No set returns the reply of call ${noSuchReply} to such a call.`];
  if (key === null) return ["No order leaves these final keys: they do not increase."];
  const upto = moment === null ? "and leaves it as it was left" : `up to moment ${moment}`;
  const said = `No order explains the calls of key ${key} ${upto}.`;
  return [said, ...(clash === null ? [] : clashInWords(key, clash))];
}

function verdictOfRefusal(why, text) {
  const { key, moment, clash } = why;
  const atEnd = moment === null ? [`At the end the set ${leavesKey(text, key) ? "has it" : "does not have it"}.`] : [];
  return {
    kind: "none",
    says: `Not linearizable: no order at all explains these calls${moment === null ? " and leaves the keys" : ""}.`,
    reasons: [...reasonsOf(why), ...atEnd],
    calls: clash === null ? [] : [clash.first, clash.second].filter((call) => call !== null),
  };
}

function troubleInWords(ask, { cause, says }) {
  const why = sentenceOn(ask, cause, "recorded calls");
  return why === null ? says : `${says}: ${why}.`;
}

// Returns the judge's verdict in words, and the calls to draw. For a refusal these are the calls that contradict each other.
export function verdictOnCalls(ask, answer, text) {
  /** @type {any} */
  const judged = readVerdict(answer);
  if (judged.kind === "ok") return { kind: "ok", says: okInWords(judged), reasons: remarksOn(judged), calls: callsOfRecording(text, MOST_DRAWN) };
  if (judged.kind === "none") return verdictOfRefusal(judged.why, text);
  return { kind: "fault", says: troubleInWords(ask, judged.fault), reasons: [], calls: [] };
}

// ---- The diagnosis of a refused recording: a record of the engine.
/**
 * A call that the diagnosis shows. `mark` is a note about the call: the expected answer, the key's state after the call, or that both answers were allowed.
 * @typedef {ReturnType<typeof callOfRecording> & { mark: string }} CallOfBug
 * @typedef {{ headline: string, calls: CallOfBug[], also: CallOfBug[], facts: string[], likely: string | null, because: string | null }} Diagnosis
 */

/** Parses the engine's record of a diagnosis. Returns null if the record contains no diagnosis. @param {string} text @returns {Diagnosis | null} */
export function diagnosisIn(text) {
  const lines = text.split("\n").filter((line) => line !== "").map((line) => ({ word: line.split(" ")[0], rest: line.slice(line.indexOf(" ") + 1) }));
  const all = (word) => lines.filter((line) => line.word === word).map(({ rest }) => rest);
  const [headline] = all("headline");
  if (headline === undefined) return null;
  const callsOf = (word) => all(word).map((rest) => ({ ...callOfRecording(`${word} ${rest}`), mark: rest.split(" ").slice(6).join(" ").replace(/^-$/, "") }));
  return { headline, calls: callsOf("call"), also: callsOf("also"), facts: all("fact"), likely: all("likely")[0] ?? null, because: all("because")[0] ?? null };
}
