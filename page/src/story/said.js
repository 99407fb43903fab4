// Writes a short sentence about an event, for readers who do not know the book. The sentence names nodes by their keys and threads by their letters.
import { callText, chipOf, keyText } from "../run/markup.js";
import { isLock, ownerIn } from "../run/outcomes.js";
import { keyNumber, linkTarget } from "../run/state.js";
import { phaseAt } from "./presses.js";

const bold = (text) => `<b>${text}</b>`;

const nodeName = (state, name) => {
  if (name === "head") return "the head";
  if (name === "tail") return "the tail";
  return name in state.nodes ? keyText(state.nodes[name].key) : "";
};
export const answerText = (answer) => answer.replace(/^at-/, "");

// In a riddle, the reader has not named the missing check of a broken list yet: the sentence says what happens, not why.
export function saidOf(moment, { plain = false, isPath = false, isRiddle = false } = {}) {
  const { event } = moment;
  if (event === null) return "";
  const said = deedSaid({ ...moment, isRiddle }, plain) + (isPath ? lockLeftOut(moment) : "");
  const { call } = event;
  const answer = event.answer === undefined ? "" : ` ${bold(`${callText(call)} returns ${answerText(event.answer)}.`)}`;
  return `${chipOf(event.thread)} ${said}${answer}`;
}

// Returns the sentence that a remove does not lock its node. Only the path shows the sentence. (In the Break activity, it would name the missing check.)
function lockLeftOut({ trace, event: { call, word, saw } }) {
  const isFound = trace.lacks === "second-lock" && call.operation === "remove" && word?.endsWith(".key") && Number(saw) === call.key;
  return isFound ? ` It does not lock ${saw}.` : "";
}

function deedSaid(moment, plain) {
  const { trace, state, event, before } = moment;
  const { kind } = trace;
  if (event.deed === "begin") return `begins ${bold(callText(event.call))}.`;
  const owner = ownerIn(event.word);
  const who = nodeName(state, owner);
  if (isLock(event.word)) return lockSaid(event, who, plain, event.changes.pc === before.pc, moment);
  const phase = phaseAt(kind, before.pc, plain);
  const key = event.call.key;
  if (event.deed === "load" && event.word.endsWith(".key")) return keySaid(moment, owner, key, phase);
  if (event.deed === "load") return linkSaid(moment, owner, who, phase);
  if (phase === "make") return nodeSaid(moment, owner, key);
  return writeSaid(moment, owner, who);
}

// Returns the names of the nodes with locks that the event's thread holds after the event.
const lockedBy = ({ state, event }) => (state.locks()[`t${event.thread}`] ?? []).map((word) => nodeName(state, ownerIn(word)));

// Decides whether a thread holds the lock that it releases: a broken list can release a lock that it does not hold.
function isHeld(event, events) {
  const isTaken = ({ word, deed, saw, from }) => word === event.word && (deed === "store" || saw === from);
  const last = events.slice(0, event.number - 1).findLast(isTaken);
  return last?.deed === "exchange" && last.thread === event.thread;
}

// Returns whether an event is the second of two releases: the previous step of its thread released another lock, and the thread held both locks.
function isSecond(event, events) {
  const last = events.slice(0, event.number - 1).findLast(({ thread }) => thread === event.thread);
  return last.deed === "store" && isLock(last.word) && last.word !== event.word && [last, event].every((one) => isHeld(one, events));
}

function lockSaid(event, who, plain, waits, moment) {
  if (plain) return event.deed === "store" ? "is done." : "starts.";
  const what = who === undefined || event.word === "list.lock" ? "the lock" : `the lock of ${who}`;
  const locked = lockedBy(moment);
  const events = event.deed === "store" ? moment.trace.events() : [];
  if (event.deed === "store" && locked.length === 0 && isSecond(event, events)) return "has released both locks.";
  if (event.deed === "store") return `releases ${what}${moment.isRiddle || isHeld(event, events) ? "" : ", which it does not hold"}.`;
  if (event.saw === event.from) return `takes ${what}${locked.length > 1 ? `: it holds ${locked.join(" and ")}` : ""}.`;
  const after = waits ? bold("The call waits.") : moment.isRiddle ? "" : bold("The call continues without the lock.");
  return `wants ${what}, but ${chipOf(event.saw.slice(1))} holds it. ${after}`.trim();
}

// Decides whether the key belongs just before the node `owner` of the chain. (Other threads can have changed the chain since the thread passed this place.)
function isPlaceOf(state, key, owner) {
  const chain = state.chain();
  const at = chain.indexOf(owner);
  return at > 0 && keyNumber(state.nodes[chain[at - 1]].key) < key;
}

function keySaid({ state, event, before, held, isRiddle }, owner, key, phase) {
  if (phase === "again") {
    if (held.pc === 14 && held.reply === "none") return `is past the place of its pred: ${bold("pred is no longer in the list.")} It starts again.`;
    if (held.node === held.pred) return "meets its pred: it is still in the list.";
    return held.pc === before.pc + 1 ? `takes this node for its pred${isRiddle ? "." : `, ${bold("since the key is the same.")}`}` : "walks on: this is not its pred.";
  }
  const isPlace = event.call.operation === "add" && isPlaceOf(state, key, owner);
  if (owner === "tail") return `has reached the tail${isPlace ? ": here is the place" : ""}.`;
  const seen = Number(event.saw);
  if (seen < key) return `reads ${bold(seen)}: too small, so it walks on.`;
  if (event.call.operation === "ceiling") return `reads ${bold(seen)}: big enough.`;
  if (seen === key) return `reads ${bold(seen)}: found.`;
  return `reads ${bold(seen)}: too big${isPlace ? `. The place of ${key} is just before it` : ", so it stops here"}.`;
}

function linkSaid(moment, owner, who, phase) {
  const { trace, state, event, held, before, isRiddle } = moment;
  const isMarked = event.saw.endsWith("*");
  const to = nodeName(state, linkTarget(event.saw));
  const isPred = owner === before.pred;
  if (phase === "look" || (event.answer !== undefined && isMarked)) return lookSaid(moment, owner, who, isMarked);
  if (phase === "check") {
    if (held.reply === "none" && held.pc === 13) {
      if (isPred && isMarked) return `sees a mark on its pred: ${bold("it was removed meanwhile.")} It starts again.`;
      return isMarked ? `sees a mark on ${who}. It starts again.` : `sees that ${who} points to ${to} now. It starts again.`;
    }
    if (isMarked) return `reads the arrow of ${isPred ? "its pred" : who}${isRiddle ? "." : `, and ${bold("does not look at the mark.")}`}`;
    return isPred ? "sees no mark on its pred, which still points to curr." : `sees no mark on ${who}: the check succeeds.`;
  }
  if (phase === "again") {
    if (!isPred || before.pc !== 8) return `walks from ${who} once more.`;
    const locked = lockedBy(moment);
    if (held.pc !== 14 || held.reply !== "none") return `${locked.length > 1 ? `holds ${locked.join(" and ")}, and ` : ""}sees that pred still points to curr.`;
    const why = state.chain().includes(before.curr) ? "something was linked in between." : "curr was unlinked.";
    return `sees that ${who} points to ${to} now: ${bold(why)} It starts again.`;
  }
  if (phase === "unlink" || before.pc === 8) return `reads what comes after ${who}: ${to}.`;
  if (before.pc === 7) return `reads the arrow of ${who} once more.`; // only a broken list reads here
  if (trace.kind === "lock-free" && event.changes.curr === undefined) {
    return isMarked ? `meets ${who}, which is marked: it tries to unlink it.` : `reads the arrow of ${who}: no mark.`;
  }
  return owner === "head" ? `starts at the head: curr is at ${to}.` : `moves on: curr is at ${to}.`;
}

// Describes the last read of a contains or ceiling. On a broken list, the reply can be true at a marked node, and a removed node can be unmarked.
function lookSaid({ state, event: { answer }, isRiddle }, owner, who, isMarked) {
  if (isMarked && /^(true|at-)/.test(answer ?? "")) return `takes ${who} to be in the set${isRiddle ? "." : `: ${bold("it does not look at the mark.")}`}`;
  if (isMarked) return `sees the mark: ${bold(`this ${who} has been removed.`)}`;
  return `sees no mark${state.chain().includes(owner) ? `: ${who} is in the set` : ` on ${who}`}.`;
}

// Writes the sentence about a write to a thread's own node. Only a broken list uses a node twice.
function nodeSaid({ state, event }, owner, key) {
  const isUsed = state.nodes[owner].reached;
  if (event.word.endsWith(".key")) return isUsed ? `writes ${key} into a node that was used before.` : `makes a node for ${key}.`;
  return `points ${isUsed ? "that" : "its new"} node to ${nodeName(state, linkTarget(event.to))}.${isUsed ? "" : " No other thread sees it yet."}`;
}

function writeSaid(moment, owner, who) {
  const { state, event, before } = moment;
  const key = event.call.key;
  const to = nodeName(state, linkTarget(event.to ?? ""));
  const isDone = event.deed === "store" || event.saw === event.from;
  if (event.to.endsWith("*") && event.call.operation === "remove") {
    if (isDone) return `marks ${who}${who === String(key) ? `: ${bold(`${key} is removed.`)}` : `. ${bold(`Its key is not ${key} any more.`)}`}`;
    return event.saw.endsWith("*") ? `wants to mark ${who}, but its CAS finds a mark. ${bold("It was too late")}, and walks again.` : `tries to mark ${who}, but the CAS finds another arrow. It walks again.`;
  }
  if (event.put !== undefined) {
    const isIn = state.chain().includes(linkTarget(event.to));
    return isIn ? `makes ${who} point to ${key}: ${bold(`${key} is in the list.`)}` : `makes its pred point to ${key}. ${bold("But that pred is not in the list.")}`;
  }
  if (!isDone) {
    const rest = event.answer !== undefined ? "That does not matter: the mark counts." : "It walks again.";
    const isMarked = event.saw.endsWith("*") && !event.from.endsWith("*");
    return `tries to change the arrow of ${who}, but the CAS finds ${isMarked ? "it marked" : "another arrow"}. ${rest}`;
  }
  const chain = state.chain();
  const curr = nodeName(state, before.curr);
  if (chain.includes(owner)) return `makes ${who} point to ${to}: ${curr} is unlinked.`;
  return `makes ${who} point to ${to}. ${bold(`But ${who} is not in the list${chain.includes(before.curr) ? `: ${curr} stays` : ""}.`)}`;
}
