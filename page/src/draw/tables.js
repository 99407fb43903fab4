// Draws the contents of the set over time, the order of the calls, the table of the threads, and the list's step table.
import { LISTS } from "../../made/rows.js";
import { callText, chipOf, escaped, keyText, label, openReply, tag, title } from "../run/markup.js";
import { contentsIn } from "../run/state.js";
import { drawCursor, frameOf, HISTORY_LEFT, isReached } from "./history.js";

const MOST_ROWS = 8; // if a run has more threads, only threads with a pending call are shown

function threadsShown(state, event) {
  const every = state.threads.map((_, thread) => thread);
  if (every.length <= MOST_ROWS) return every;
  return every.filter((thread) => state.threads[thread].pc !== 0 || thread === event?.thread);
}

function callCell(held, moved, event, hidesReplies) {
  if (held.pc !== 0) return callText(held.call);
  if (moved && event.answer !== undefined) return `${callText(held.call)} <b>${hidesReplies ? "…" : event.answer}</b>`;
  return '<span class="pale">idle</span>';
}

function rowCell(held, kind) {
  if (held.pc === 0) return "";
  const row = LISTS[kind].rows[held.pc];
  return `<b>${held.pc}</b> ${row ? `${row.step} <small>${row.book}</small>` : ""}`;
}

function registerCell(held, name, moved, event, kind) {
  if (held.pc === 0 || !LISTS[kind].calls[held.call.operation].registers.includes(name)) return "";
  const value = keyText(held[name]);
  if (moved && event.changes[name] !== undefined) return `<b class="new">${value}</b>`;
  return held[name] === "head" || held[name] === "-inf" ? `<span class="pale">${value}</span>` : value;
}

function threadRow(state, thread, event, hidesReplies) {
  const { kind, quota } = state.trace;
  const held = state.threads[thread];
  const moved = event?.thread === thread;
  const cells = [
    tag("td", {}, callCell(held, moved, event, hidesReplies)),
    tag("td", { class: "next" }, rowCell(held, kind)),
    ...LISTS[kind].registers.map((name) => tag("td", {}, registerCell(held, name, moved, event, kind))),
    tag("td", {}, held.pc !== 0 && held.reply !== "none" && !hidesReplies ? held.reply : ""),
    tag("td", {}, `${held.used} of ${quota}`),
  ];
  return tag("tr", moved ? { class: "moved" } : {}, tag("th", { scope: "row" }, chipOf(thread)), ...cells);
}

export function drawThreads(state, event, hidesReplies = false) {
  const { registers } = LISTS[state.trace.kind];
  const heads = ["thread", "call", "next row of the step table", ...registers, "reply", "slots used"];
  const rows = threadsShown(state, event).map((thread) => threadRow(state, thread, event, hidesReplies));
  if (rows.length === 0) rows.push(`<tr><td colspan="${heads.length}" class="pale">every thread is idle</td></tr>`);
  const head = tag("tr", {}, ...heads.map((text) => tag("th", { scope: "col" }, text)));
  return tag("table", {}, tag("thead", {}, head), tag("tbody", {}, ...rows));
}

export function drawTable({ trace, state, event, before }) {
  const made = event === null || event.deed === "begin" ? null : before.pc;
  const at = new Map();
  state.threads.forEach((held, thread) => at.set(held.pc, [...(at.get(held.pc) ?? []), thread]));
  const lines = Object.entries(LISTS[trace.kind].rows).map(([number, row]) => {
    const here = (at.get(Number(number)) ?? []).map(chipOf).join(" ");
    const by = made === Number(number) ? ` <small>made by</small> ${chipOf(event.thread)}` : "";
    const cells = [here, `<b>${number}</b>${by}`, escaped(row.step), escaped(row.then), `<small>${escaped(row.book)}</small>`];
    return tag("tr", by === "" ? {} : { class: "moved" }, ...cells.map((text) => tag("td", {}, text)));
  });
  const heads = ["next", "row", "step", "then", "in the book"].map((text) => tag("th", { scope: "col" }, text));
  return tag("table", {}, tag("thead", {}, tag("tr", {}, ...heads)), tag("tbody", {}, ...lines));
}

const KEY_WIDTH = 8; // pixels for each character of the contents

function drawContent(part, scale) {
  const left = part.from <= scale.first ? HISTORY_LEFT - 6 : scale.x(part.from);
  const end = part.to > scale.last ? scale.edge : scale.x(part.to);
  const isLast = scale.now < part.to; // the last part that is drawn: the space to its right is free
  const shown = isLast && scale.now <= scale.last ? Math.max(left, scale.x(Math.max(scale.now, scale.first))) : end;
  const all = `{${part.keys.join(", ")}}`;
  const wide = KEY_WIDTH * scale.grown;
  const room = Math.floor(((isLast ? scale.edge : shown) - left - 10) / wide);
  const text = all.length <= room ? all : room > 6 ? `${all.slice(0, room - 2)}…` : room > 0 ? "…" : "";
  const right = text === "" ? shown : Math.max(shown, left + 10 + wide * text.length);
  const isNow = scale.count < part.to && (scale.count >= part.from || part.from <= scale.first);
  return tag("g", { class: isNow ? "content now" : "content" },
    title(all),
    tag("rect", { x: left, y: 0, width: Math.max(right - left, 1), height: 24 }),
    text === "" && isLast ? label({ x: scale.edge, y: 17, "text-anchor": "end", class: "over" }, all) : label({ x: left + 5, y: 17 }, text),
  );
}

function drawWindow(scale, total, x) {
  if (scale.first === 1 && scale.last >= total) return "";
  const place = x > scale.width / 2 ? { x: 4, "text-anchor": "start" } : { x: scale.edge, "text-anchor": "end" };
  return label({ class: "note", y: 42, ...place }, `events ${scale.first} to ${scale.last} of ${total}`);
}

// Returns the label of the row that shows the contents of the set. The label differs for a broken list: its keys can differ from those that follow from the
// linearization points.
function nameOfContents({ lacks }, grown) {
  if (lacks === null) return label({ class: "name", x: 6, y: 17 }, "set");
  const lines = ["should", "have"].map((words, line) => label({ class: "name", x: 0, y: 9 + grown + 12 * line, style: `font-size:${Math.min(14, Math.round(12 * grown))}px;letter-spacing:-.6px` }, words));
  return tag("g", {}, title(`${BY_POINTS}; the list may have other keys`), ...lines);
}
const BY_POINTS = "the set by the linearization points of the calls";

export function drawContents(trace, scale) {
  const shown = contentsIn(trace, scale.first, scale.last).filter((part) => part.from <= Math.max(scale.now, scale.first));
  const parts = shown.map((part) => drawContent(part, scale));
  const now = shown.findLast((part) => part.from <= Math.max(scale.count, scale.first));
  const x = Math.min(Math.max(scale.x(scale.count), HISTORY_LEFT + 12), scale.width - 44);
  const number = scale.count > 0 ? label({ class: "number", x, y: 42 }, `event ${scale.count}`) : "";
  const what = trace.lacks === null ? "the set" : BY_POINTS;
  const words = `${what} after event ${scale.count}: {${now.keys.slice(0, 40).join(", ")}}`;
  const frame = { ...frameOf({ ...scale, height: 50 }), role: "img", "aria-label": words };
  return tag("svg", frame, nameOfContents(trace, scale.grown), drawCursor(scale, 24), ...parts, number, drawWindow(scale, trace.total, x));
}

export function drawOrder(trace, count, hides = false) {
  const reached = trace.order.filter((call) => isReached(call, count));
  const order = hides ? reached : trace.order;
  const total = order.length;
  if (total === 0) return hides ? "No call has taken effect yet." : "No call has taken effect.";
  const first = Math.max(0, Math.min(reached.length - 8, total - 14));
  const last = Math.min(total, first + 22);
  const items = order.slice(first, last).map((call) => {
    const isAnswered = call.ended !== null && (!hides || call.ended <= count);
    const reply = isAnswered ? call.reply : openReply;
    const state = isReached(call, count) ? "reached" : "later";
    return `<li class="${state}">${chipOf(call.thread)} ${callText(call)} <b>${reply}</b></li>`;
  });
  const before = first > 0 ? `<li class="later">${first} before …</li>` : "";
  const after = last < total ? `<li class="later">… ${total - last} more</li>` : "";
  return `<ol>${before}${items.join("")}${after}</ol>`;
}
