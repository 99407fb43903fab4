// Parses the engine's answers into records. Other modules turn the records into sentences.

const linesIn = (text) => text.trimEnd().split("\n");

// Parses a line of a report, `call ID THREAD OPERATION KEY BEGIN END REPLY`. A pending call has no end and no reply.
function callOfReport(line) {
  const [, id, thread, operation, key, begun, ended, reply = null] = line.split(" ");
  const end = ended === "open" ? null : Number(ended);
  return { id: Number(id), thread: Number(thread), operation, key: Number(key), begun: Number(begun), ended: end, reply };
}

// Parses a line of a recording, `call THREAD OPERATION KEY BEGIN END REPLY`. BEGIN and END become BigInts, since they can be too large for an exact Number.
export function callOfRecording(line) {
  const [, thread, operation, key, begun, ended, reply] = line.split(" ");
  const isOpen = ended === "-";
  const moments = { begun: BigInt(begun), ended: isOpen ? null : BigInt(ended) };
  return { thread: Number(thread), operation, key: Number(key), ...moments, reply: isOpen ? null : reply };
}

export function readReport(text) {
  const lines = linesIn(text);
  const linesOf = (word) => lines.filter((line) => line.startsWith(`${word} `));
  const valuesOf = (word) => linesOf(word).map((line) => line.split(" ").slice(1));
  return {
    head: [...lines.slice(0, 4), ...linesOf("opening")],
    threads: Number(lines[2].split(" ")[1]),
    opening: valuesOf("opening").map(([key]) => Number(key)),
    calls: linesOf("call").map(callOfReport),
    callLines: linesOf("call"),
    places: valuesOf("place").map(([call, reply]) => ({ call: Number(call), reply })),
    keys: valuesOf("key").map(([key]) => Number(key)),
    keyLines: linesOf("key"),
  };
}

export const callsOfRecording = (text, most) => [...text.matchAll(/^call .*$/gm)].slice(0, most).map(([line]) => callOfRecording(line));

export const leavesKey = (text, key) => new RegExp(`^key ${key}$`, "m").test(text);

export const readExamples = (text) => linesIn(text).map((line) => line.split(/ +/)).map(([name, kind]) => ({ name, kind }));

export function readFault(text) {
  const says = text.trim();
  const [, line = null, cause = null] = /^listset: line (\d+): (\w+)$/.exec(says) ?? [];
  return { line: line === null ? null : Number(line), cause, says };
}

// Parses the engine's record of a verdict. `kind` is the verdict in one word, or `fault` if the engine refused the text.
export function readVerdict({ text }) {
  const lines = linesIn(text);
  const find = (word) => lines.find((line) => line.startsWith(`${word} `)) ?? null;
  const valuesOf = (word) => find(word)?.split(" ").slice(1) ?? [];
  const [kind = "fault"] = valuesOf("verdict");
  if (kind === "fault") return { kind, fault: readFault(text), order: null, why: null };
  const [[count], [cut], [key = null], [moment = null]] = ["calls", "cut", "key", "moment"].map(valuesOf);
  const [[was = null], [reply = null]] = ["clash", "reply"].map(valuesOf);
  const callBehind = (word) => (find(word) === null ? null : callOfRecording(find(word).slice(`${word} `.length)));
  const why = {
    key: key === null ? null : Number(key),
    moment, // the calls on the key up to this moment have no order; null if all its calls have one, but none that leaves the key in its recorded state
    // Two calls that contradict each other. `isPresent` is true if the first call leaves the key present. If `first` is null, the opening keys contradict the
    // second call. If `second` is null, the final keys contradict the first call.
    clash: was === null ? null : { isPresent: was === "true", first: callBehind("first"), second: callBehind("second") },
    noSuchReply: reply === null ? null : Number(reply), // the number of a call with a reply that no set can return, or null
  };
  const ofCalls = { count: Number(count), overlapped: Number(valuesOf("overlapped")[0]), isCutOff: cut === "true" };
  return { kind, ...ofCalls, order: orderIn(valuesOf("order"), valuesOf("set")), why: kind === "none" ? why : null };
}

// The errors that the engine can find in an order of calls, each with the names of the values that the engine returns with it. An error that is not listed has
// one value, `call`.
const FAULT_VALUES = {
  HistoryReply: ["call", "reply"],
  SetReply: ["call", "reply", "place", "answer"],
  TooEarly: ["call", "begun", "other", "ended"],
  WrongSet: [],
};

function orderIn([fault, ...values], keys) {
  if (fault === undefined) return null;
  return { fault, set: `{${keys.join(", ")}}`, ...Object.fromEntries((FAULT_VALUES[fault] ?? ["call"]).map((name, at) => [name, values[at]])) };
}

// Returns the first sentence that `listset faults` prints about `cause`, in a form that can follow a colon, or null. `kinds` are the kinds of texts to look
// for, such as "a schedule".
export function sentenceOn(ask, cause, ...kinds) {
  if (!cause) return null;
  const causes = ask("listset_faults").text;
  const parts = kinds.map((kind) => causes.split(`, in ${kind};`)[1]?.split("\n\n")[0] ?? "");
  const [, said] = new RegExp(`^  ${cause} +((?:.|\n {12})+)`, "m").exec(parts.join("\n")) ?? [];
  return said === undefined ? null : said[0].toLowerCase() + said.slice(1).replace(/\n +/g, " ").replace(/\.( .*)?$/, "");
}
