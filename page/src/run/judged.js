// An exercise of the Judge activity: the reader chooses the order of the calls and, if the replies are hidden, the replies. The proved `check` accepts every
// order that explains the run.
import { readReport, readVerdict } from "../engine/answers.js";
import { callText, letterOf, openReply } from "./markup.js";

export const MOST_JUDGED = 60; // events of a run that is judged

export const LEVELS = {
  points: { name: "moments alone", task: "The replies are shown. When does each call take effect?", hidden: ["change", "effect"] },
  replies: {
    name: "replies and moments",
    task: "What does each call return, and when does it take effect?",
    hidden: ["change", "reply", "leftInChain", "effect"],
  },
};

export function exerciseOf(text, level) {
  const report = readReport(text);
  const last = Math.max(1, ...report.calls.flatMap((call) => [call.begun, call.ended ?? 0]));
  return { ...report, level, last };
}

export const nameOfCall = (call) => `${callText(call)} of ${letterOf(call.thread)}`;
export const lastMoment = (exercise, call) => call.ended ?? exercise.last;

export function repliesOf(exercise, { operation }) {
  if (operation === "add") return ["true", "false", "full"];
  if (operation !== "ceiling") return ["true", "false"];
  const added = exercise.calls.filter((call) => call.operation === "add").map(({ key }) => key);
  const keys = [...new Set([...exercise.opening, ...added])].sort((one, other) => one - other);
  return ["nothing", ...keys.map((key) => `at-${key}`)];
}

// The reader's answer so far. Moment k is just after event k; k.5 lies between event k and the next.
export class OwnAnswer {
  constructor(exercise) {
    this.exercise = exercise;
    this.points = new Map(); // maps the number of each placed call to its moment `at`, and to the number of placements before it (`turn`)
    this.replies = new Map();
    this.turn = 0;
  }

  place(call, at) {
    const within = Math.min(Math.max(Math.round(2 * at) / 2, call.begun), lastMoment(this.exercise, call));
    if (this.points.get(call.id)?.at !== within) this.points.set(call.id, { at: within, turn: this.turn++ });
  }

  take(call) {
    this.points.delete(call.id);
  }

  setReply(call, reply) {
    this.replies.set(call.id, reply);
  }

  // Returns the reply that a call has in the reader's order, or null if the reader has not chosen it yet. A pending call has no reply in the history, but is in
  // the order if it has changed the set.
  replyOf(call) {
    if (call.ended === null) return openReply;
    return this.exercise.level === "replies" ? (this.replies.get(call.id) ?? null) : call.reply;
  }

  order() {
    const calls = this.exercise.calls.filter(({ id }) => this.points.has(id));
    const placed = calls.map((call) => ({ call, ...this.points.get(call.id) }));
    placed.sort((one, other) => one.at - other.at || one.turn - other.turn);
    return placed.map(({ call, at }) => ({ call, at, reply: this.replyOf(call) }));
  }

  // Returns the completed calls whose moment or reply is missing in the reader's answer. Calls with the same name are distinguished by their first events.
  unsaid() {
    const { calls } = this.exercise;
    const nameIn = (call) => nameOfCall(call) + (calls.filter((other) => nameOfCall(other) === nameOfCall(call)).length > 1 ? ` from event ${call.begun}` : "");
    const lackOf = (call) => [this.points.has(call.id) ? "" : "moment", this.replyOf(call) === null ? "reply" : ""].filter((it) => it !== "");
    const lacking = calls.filter((call) => call.ended !== null && lackOf(call).length > 0);
    return lacking.map((call) => ({ id: call.id, says: `the ${lackOf(call).join(" and the ")} of ${nameIn(call)}` }));
  }
}

export function reportOfAnswer(answer, callLines = answer.exercise.callLines) {
  const { head, keyLines } = answer.exercise;
  const places = answer.order().map(({ call, reply }) => `place ${call.id} ${reply}`);
  return [...head, ...callLines, ...places, ...keyLines, "end", ""].join("\n");
}

export function verdictOn(ask, answer) {
  const asked = answer.exercise.calls.filter(({ ended }) => ended !== null && answer.exercise.level === "replies");
  const [unsaid, nothing] = [answer.unsaid(), { isRight: null, clash: null, report: null }];
  if (asked.length > 1 && asked.every(({ id }) => !answer.replies.has(id))) return { ...nothing, says: `Choose the ${COUNTS[asked.length] ?? asked.length} replies first.` };
  if (unsaid.length > 0) return { ...nothing, missing: unsaid.map(({ id }) => id), says: `Still missing: ${unsaid.map(({ says }) => says).join(", ")}.` };
  const report = reportOfAnswer(answer);
  const { kind, fault, order } = readVerdict(ask("listset_check_record", report));
  if (kind === "fault") return { ...nothing, says: `This order is not judged: ${fault.says}.` };
  if (order === null) return { isRight: true, clash: null, report, says: rightInWords(answer) };
  const clash = order.call === undefined ? null : Number(order.call);
  const isOther = order.fault === "HistoryReply" && isPossible(ask, answer) ? " (Your order is possible, but it is not this run.)" : "";
  return { isRight: false, clash, report, says: faultInWords(answer, order) + isOther };
}

const COUNTS = ["", "", "two", "three", "four", "five", "six", "seven", "eight", "nine", "ten"];

// Returns whether the reader's order explains another run, with the same calls but with the reader's replies and any final keys.
function isPossible(ask, answer) {
  const { calls, callLines } = answer.exercise;
  const ownLines = callLines.map((line, at) => (calls[at].ended === null ? line : line.replace(/\S+$/, answer.replyOf(calls[at]))));
  const { kind, order } = readVerdict(ask("listset_check_record", reportOfAnswer(answer, ownLines)));
  return kind !== "fault" && (order === null || order.fault === "WrongSet");
}

function rightInWords(answer) {
  const own = answer.order().map(({ call, reply }) => `${call.id}-${reply}`);
  const isSame = own.join() === answer.exercise.places.map(({ call, reply }) => `${call}-${reply}`).join();
  const also = isSame ? "The program that made this run has the same order." : "The program that made this run has another order: both are right.";
  return `Right: in this order every reply is correct, and the calls leave the numbers of this run (checked by a program that is proved correct). ${also}`;
}

function faultInWords(answer, { fault, call, place, reply, set, answer: due, begun, other, ended }) {
  const named = (id) => nameOfCall(answer.exercise.calls[Number(id)]);
  if (fault === "SetReply") {
    const before = Number(place) === 1 ? "before the first call of your order" : `after ${named(answer.order()[Number(place) - 2].call.id)} in your order`;
    return `${named(call)} cannot return ${reply} there: ${before} the set is ${set}, and the call would return ${due}.`;
  }
  if (fault === "HistoryReply") return `${named(call)} does not return ${reply} in this run. Look at what its thread sees before the call returns.`;
  if (fault === "TooEarly") {
    return `${named(call)} begins at event ${begun}, and in your order it comes before ${named(other)}, which ended at event ${ended}.`;
  }
  if (fault === "WrongSet") return `Your order leaves the set ${set}; at the end of this run it is {${answer.exercise.keys.join(", ")}}.`;
  return `This is not an order of the calls of this run (${fault}).`;
}

// Encodes an answer as the last word of a line in a hand-in, such as 0-true,2-true,1-false,3-true. Returns "" if no call is placed.
export const wordOfAnswer = (answer) => answer.order().map(({ call, reply }) => `${call.id}-${reply}`).join();

// Decodes an answer that `wordOfAnswer` has encoded. Places each call at the earliest moment of its bar that keeps the order. Returns null if `word` is not
// such an answer.
export function answerOfWord(exercise, word) {
  const answer = new OwnAnswer(exercise);
  let at = 0;
  for (const piece of word.split(",")) {
    const [, id, reply] = /^(\d{1,5})-([a-z0-9-]+)$/.exec(piece) ?? [];
    const call = exercise.calls[id];
    if (call === undefined || answer.points.has(call.id)) return null;
    at = Math.max(at, call.begun);
    answer.points.set(call.id, { at, turn: answer.turn++ });
    answer.setReply(call, reply);
  }
  return answer;
}
