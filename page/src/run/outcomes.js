// Writes the second part of the sentence about an event: the effects of the event's step.
import { LISTS } from "../../made/rows.js";
import { chipOf, keyText, valueText } from "./markup.js";
import { keyNumber, linkTarget, ownerOf } from "./state.js";
import { firstOpeningNode } from "./trace.js";

export const isLock = (word) => word.endsWith(".lock");
export const mono = (text) => `<b class="mono">${text}</b>`;
const isDone = (event) => event.deed === "store" || (event.deed === "exchange" && event.saw === event.from);
export const isFailed = (event) => event.deed === "exchange" && event.saw !== event.from;
export const ownerIn = (word) => word.split(".")[0];
const isLinkOf = (event) => event.word?.endsWith(".link");
const lockNames = (words) => `the lock${words.length > 1 ? "s" : ""} of ${words.map(ownerIn).join(" and ")}`;
export const setsMark = (event) => isLinkOf(event) && event.to?.endsWith("*") === true;

// Returns, for each marked node, the event that marked the node. (A mark is never removed.)
function marksOf(trace) {
  if (trace.marks !== undefined) return trace.marks;
  trace.marks = new Map();
  for (const event of trace.starred.map((number) => trace.event(number))) {
    if (setsMark(event) && isDone(event)) trace.marks.set(ownerIn(event.word), event);
  }
  return trace.marks;
}

function wholeName({ trace, event }, name) {
  const whose = isOpeningNode(trace, name) ? "the node of an opening key" : `<span class="whole">${chipOf(ownerOf(trace, name))}'s node</span>`;
  const mark = marksOf(trace).get(name);
  if (mark === undefined || mark.number > event.number) return `${name}</b>, ${whose}`;
  return `${name}</b>, ${whose}, which ${chipOf(mark.thread)} marked at event ${mark.number}`;
}

export const OUTCOMES = {
  change({ trace, event: { put, took }, held }) {
    if (put !== undefined) return `<b>This adds ${put} to the set</b>, in slot ${held.used} of ${trace.quota}.`;
    return took === undefined ? "" : `<b>This removes ${took} from the set.</b>`;
  },

  mark({ state, event }) {
    if (!setsMark(event) || !isDone(event)) return "";
    const owner = ownerIn(event.word);
    return state.chain().includes(owner) ? `${owner} is still in the chain.` : `${owner} is not in the chain any more.`;
  },

  unlink(moment) {
    const { state, event, before } = moment;
    const gone = before.curr;
    if (!isLinkOf(event) || !isDone(event) || gone === "tail" || gone === ownerIn(event.word)) return "";
    if (linkTarget(state.nodes[gone].link) !== event.to || state.chain().includes(gone)) return "";
    return `<b>This unlinks ${wholeName(moment, gone)}.`;
  },

  leftInChain({ state, event, before }) {
    if (!isFailed(event) || event.answer === undefined) return "";
    if (!state.chain().includes(before.curr)) return `${before.curr} is not in the chain any more.`;
    return `<b>${before.curr} stays in the chain, marked,</b> for a later walk to unlink.`;
  },

  validation({ event, held, row }) {
    if (row?.invalid === undefined || held.pc !== row.invalid || held.reply !== "none") return "";
    const owner = ownerIn(event.word);
    let reason = `${owner} leads to ${valueText(event.saw)} now, not to ${held.curr}`;
    if (event.saw.endsWith("*")) reason = `${owner} is marked`;
    if (event.word.endsWith(".key")) reason = `the second walk is past the key of ${held.pred} and has not found it`;
    return `<b>The validation fails:</b> ${reason}. It will unlock both nodes and start again.`;
  },

  // A validation has several steps. Only the last one decides whether it succeeds.
  valid({ held, row }) {
    if (row?.invalid === undefined || !row.then.includes("decide on")) return "";
    return held.pc === row.invalid && held.reply === "none" ? "" : "The validation succeeds.";
  },

  again({ event, held, row }) {
    if (row?.again === undefined || held.pc !== row.again || event.answer !== undefined) return "";
    const reason = event.saw?.endsWith("*") && event.deed === "load" ? `${ownerIn(event.word)} is marked: it` : "It";
    return `<b>${reason} starts its walk again${/with the same slot/.test(row.book) ? ", with the same slot" : ""}.</b>`;
  },

  markMet({ trace, state, event, held, row }) {
    if (event.deed !== "load" || !event.saw.endsWith("*") || [row?.invalid, row?.again].includes(held.pc)) return "";
    const owner = ownerIn(event.word);
    const where = state.chain().includes(owner) ? "and still" : "and no longer";
    if (event.answer !== undefined) return `<b>${owner} is marked</b>, ${where} in the chain.`;
    if (event.changes.curr !== undefined) return `${owner} is marked: the walk passes over it.`;
    const next = LISTS[trace.kind].rows[held.pc]?.step ?? "";
    if (next.startsWith("exchange pred.link")) return `<b>${owner} is marked:</b> the next step tries to unlink it.`;
    if (!next.startsWith("exchange curr.link")) return "";
    return `<b>${owner} is marked already:</b> the next step will fail.`;
  },

  walk({ trace, event, held, row }) {
    if (event.deed !== "load" || row === undefined) return "";
    if (row.below !== undefined) return walkAtKey(event, held);
    if (row.then.includes("node = next(s)")) return `The second walk reaches ${held.node}.`;
    if (row.then.includes("node is pred")) return secondWalkAtKey(held, row);
    if (!row.then.includes("curr = next(s)")) return "";
    const opening = isOpeningNode(trace, held.curr) ? ", the node of an opening key" : "";
    return `The walk reaches ${held.curr}${opening}.`;
  },

  decision({ trace, event, held, before }) {
    const { adds, removes } = LISTS[trace.kind];
    if (event.answer !== undefined || held.reply !== "none" || before.pc === held.pc) return "";
    const { operation, key } = held.call;
    const found = event.word?.endsWith(".key") ? "The" : `${held.curr} ${operation === "add" ? "does not have" : "has"} the key ${key}: the`;
    if (operation === "add" && held.pc === adds) return `${found} add goes ahead.`;
    return operation === "remove" && held.pc === removes ? `${found} remove goes ahead.` : "";
  },

  reply({ trace, event }) {
    const { reply } = event.changes;
    if (reply === undefined || reply === "none" || event.answer !== undefined) return "";
    const slots = { 0: "it has no slot", 1: "its one slot is used" }[trace.quota] ?? `its ${trace.quota} slots are used`;
    const used = reply === "full" ? `: ${slots}` : "";
    return `<b>It will answer ${reply}</b>${used}.`;
  },

  locks({ state, event }) {
    if (!event.word || !isLock(event.word) || !isDone(event) || event.answer !== undefined) return "";
    const own = state.locks()[`t${event.thread}`];
    if (own === undefined) return "It holds no lock now.";
    return event.deed === "exchange" && own.length === 1 ? "" : `It holds ${lockNames(own)}.`;
  },
};

function walkAtKey(event, held) {
  const owner = ownerIn(event.word);
  const { key } = held.call;
  if (keyNumber(event.saw) < key) return `${keyText(event.saw)} is below ${key}: the walk continues.`;
  if (event.saw === String(key)) return `<b>The walk stops at ${owner},</b> which has its key.`;
  return `<b>The walk stops at ${owner},</b> the first with a key above ${key}.`;
}

function secondWalkAtKey(held, row) {
  if (held.pc === row.invalid) return "";
  if (held.node === held.pred) return `The second walk reaches pred, ${held.pred}.`;
  return `This is not pred, ${held.pred}: the second walk continues.`;
}

const isOpeningNode = (trace, name) => /^n/.test(name) && Number(name.slice(1)) >= firstOpeningNode(trace);
