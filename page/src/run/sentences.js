// Writes one sentence about an event: the step and its effect.
import { LISTS } from "../../made/rows.js";
import { callText, chipOf, holderOf, letterOf, valueText } from "./markup.js";
import { isFailed, isLock, mono, OUTCOMES, ownerIn, setsMark } from "./outcomes.js";

const lockedBy = (word) => (word === "list.lock" ? "the list" : mono(ownerIn(word)));

function deedText(event) {
  const word = event.word && mono(event.word);
  if (event.deed === "begin") return `begins ${callText(event.call)}.`;
  if (event.deed === "load") return `reads ${word}: ${valueText(event.saw)}.`;
  if (isLock(event.word)) return lockText(event);
  const change = event.deed === "store" ? `${word} := ${valueText(event.to)}` : `${word}: ${valueText(event.from)} → ${valueText(event.to)}`;
  const finds = isFailed(event) ? `, but finds ${valueText(event.saw)}` : "";
  if (setsMark(event)) return `${isFailed(event) ? "tries to mark" : "marks"} ${mono(ownerIn(event.word))} (${change})${finds}.`;
  if (event.deed === "store") return `sets ${word} to ${valueText(event.to)}.`;
  return `${isFailed(event) ? "tries to change" : "changes"} ${word} from ${valueText(event.from)} to ${valueText(event.to)}${finds}.`;
}

function lockText(event) {
  const name = lockedBy(event.word);
  if (event.deed === "store") return `unlocks ${name}.`;
  return isFailed(event) ? `tries to lock ${name}, but ${holderOf(event.saw)} holds it. It will try again.` : `locks ${name}.`;
}

// If a call returns in the event, describes the call's reply and the event in which the call took effect. `hidden` names the parts to hide from a reader who
// judges the run.
function effectText({ trace, event }, hidden) {
  const { call } = event;
  if (event.answer === undefined) return "";
  const answers = `<b>${callText(call)} returns ${hidden.includes("reply") ? "… what?" : event.answer}</b>`;
  if (hidden.includes("effect")) return hidden.includes("reply") ? answers : `${answers}.`;
  if (call.at === event.number) return `${answers}, and takes effect here.`;
  const other = trace.event(call.at).thread;
  const whose = call.at === call.begun ? ", as the call began" : other === event.thread ? "" : `, <b>a step of ${letterOf(other)}</b>`;
  return `${answers}; it took effect at event ${call.at}${whose}.`;
}

function openingText(trace) {
  if (trace.opening.length === 0) return "Before the first event the list is empty, and every thread is idle.";
  const some = trace.opening.slice(0, 20).join(", ");
  return `Before the first event the set is {${some}${trace.opening.length > 20 ? ", …" : ""}}, and every thread is idle.`;
}

// Moves a state to the moment after the first `count` events of its trace. Returns the last of these events, and the registers of the event's thread before the
// event.
export function momentAt(state, count) {
  const { trace } = state;
  const event = count > 0 ? trace.event(count) : null;
  state.moveTo(Math.max(count - 1, 0));
  const before = event === null ? null : { ...state.threads[event.thread] };
  state.moveTo(count);
  if (event === null) return { trace, state, event };
  const row = event.deed === "begin" ? undefined : LISTS[trace.kind].rows[before.pc];
  return { trace, state, event, before, held: state.threads[event.thread], row };
}

export function sentenceOf(moment, hidden = []) {
  const { trace, event } = moment;
  if (event === null) return `${openingText(trace)}${trace.total === 0 ? " Let one begin a call." : ""}`;
  if (event.deed === "begin") return `${chipOf(event.thread)} ${deedText(event)}`;
  const shown = Object.keys(OUTCOMES).filter((name) => !hidden.includes(name));
  const outcomes = shown.map((name) => OUTCOMES[name](moment));
  const parts = [chipOf(event.thread), deedText(event), ...outcomes, effectText(moment, hidden)];
  return parts.filter((text) => text !== "").join(" ");
}
