// Draws the history: a bar for each call, with a point at the moment when the call takes effect.
import { callText, colourOf, label, letterOf, tag, title } from "../run/markup.js";

export const HISTORY_LEFT = 50;
const HISTORY_RIGHT = 16;
const LEAST_STEP = 7; // minimum width of an event, in pixels
const BAR = 20; // pixels: the height of a bar
const BELOW = 6; // pixels between a bar and the labels of the next thread's bars

// Returns the numbers of the first and the last event to draw. If the events do not all fit, the numbers bound a window of events that moves by a third of its
// width.
function windowOf(total, count, room) {
  const most = Math.max(30, Math.floor(room / LEAST_STEP));
  if (total <= most) return { first: 1, last: Math.max(total, 1) };
  const third = Math.floor(most / 3);
  const wanted = (Math.floor(Math.max(count - 1, 0) / third) - 1) * third + 1;
  const first = Math.max(1, Math.min(total - most + 1, wanted));
  return { first, last: first + most - 1 };
}

const shownIn = ({ calls }, first, last) => calls.filter(({ begun, ended }) => begun <= last && (ended === null || ended >= first));

// Returns the height of a bar, the space below a bar, and the maximum number of rows of labels. If the drawing is low (`isLow`), the labels are inside the
// bars.
function formOf(threads, isLow) {
  if (isLow && threads <= 6) return { bar: 19, below: 4, mostRows: 1 };
  if (threads > 12) return { bar: 9, below: 1, mostRows: 1 };
  if (threads > 6) return { bar: 13, below: 4, mostRows: 1 };
  if (threads > 2) return { bar: 15, below: 3, mostRows: 2 };
  return { bar: BAR, below: BELOW, mostRows: 3 };
}

export function layLabels(threads, calls, itemOf, room) {
  const places = new Map();
  for (let thread = 0; thread < threads; thread++) {
    const own = calls.filter((call) => call.thread === thread);
    placeLabels(own.map(itemOf), room).forEach((place, at) => places.set(own[at].id, place));
  }
  const found = [...places.values()].filter((place) => place !== null);
  return { places, rows: Math.max(1, ...found.map(({ row }) => row + 1)), areWhole: found.length === places.size };
}

export function scaleOf(trace, count, width, hides = false, isLow = false, grown = 1) {
  const { first, last } = windowOf(trace.total, count, width - HISTORY_LEFT - HISTORY_RIGHT);
  const isWhole = first === 1 && last >= trace.total;
  const step = (width - HISTORY_LEFT - HISTORY_RIGHT) / (last - first + 1);
  const edge = width - HISTORY_RIGHT;
  const x = (moment) => HISTORY_LEFT + (moment - first + 0.5) * step;
  const { bar, below, mostRows } = formOf(trace.threads, isLow);
  const leftOf = ({ begun }) => (begun < first ? HISTORY_LEFT - 6 : x(begun));
  const rightOf = ({ ended }) => (ended === null || ended > last ? edge : x(ended));
  const spanOf = (call) => ({ left: leftOf(call), right: rightOf(call) });
  const itemOf = (call) => ({ ...spanOf(call), wide: grown * widthOf(callText(call), call.reply ?? "") });
  const labels = layLabels(trace.threads, shownIn(trace, first, last), itemOf, { start: HISTORY_LEFT - 6, edge: width, mostRows });
  const above = isLow && trace.threads <= 6 ? 0 : ROW_HEIGHT * (isWhole ? labels.rows : mostRows);
  const lane = above + bar + below;
  const now = hides ? count : Infinity; // the last event that is shown
  const height = 6 + trace.threads * lane + (isWhole && labels.areWhole ? 0 : ROW_HEIGHT);
  const y = (thread) => 2 + thread * lane + above + bar / 2;
  const { places, areWhole } = labels;
  return { first, last, step, lane, bar, width, grown, count, now, edge, height, x, y, spanOf, labels: places, areWhole, isIn: above === 0 };
}

// Returns whether the moment when a call takes effect is known after `count` events, because the call has changed the set or has returned.
export const isReached = (call, count) => call.at <= count && (call.changes || (call.ended !== null && call.ended <= count));

export function drawLane(scale, thread, place = thread) {
  const y = scale.y(place);
  const badge = tag("rect", { x: 2, y: y - 10, width: 38, height: 20, rx: 4 }) + label({ x: 21, y: y + 5 }, letterOf(thread));
  return (
    tag("line", { class: "lane", x1: HISTORY_LEFT - 6, x2: scale.edge, y1: y, y2: y }) +
    tag("g", { class: `badge ${colourOf(thread)}` }, badge)
  );
}

function callInWords(call, now) {
  const isOpen = call.ended === null || call.ended > now;
  const events = isOpen && now < Infinity ? `from event ${call.begun} on` : `events ${call.begun} to ${call.ended ?? "the end"}`;
  return `call ${call.id}: ${letterOf(call.thread)} ${callText(call)} ${isOpen ? "pending" : call.reply}, ${events}`;
}

function drawBar(call, scale) {
  const { last, count, now, bar } = scale;
  const top = scale.y(call.thread) - bar / 2;
  const { left, right: end } = scale.spanOf(call);
  const isOpen = call.ended === null || call.ended > now;
  const right = isOpen && now <= last ? Math.min(end, scale.x(now)) : end;
  const state = `${call.begun <= count ? "begun" : "later"}${isOpen ? " open" : ""}`;
  return tag("g", { class: `bar ${state} ${colourOf(call.thread)}` },
    title(callInWords(call, now)),
    tag("rect", { x: left, y: top, width: Math.max(right - left, 4), height: bar, rx: 4 }),
    drawLabel(call, scale, left, top),
  );
}

function drawLabel(call, scale, left, top) {
  const place = scale.labels.get(call.id);
  const [indent, base] = scale.isIn ? [10, top + 13 + scale.grown] : [0, top - 4];
  if (place === null) return label({ class: "call", x: left + indent, y: base }, signOf(call));
  const hasReply = call.reply !== null && call.ended <= scale.now;
  const done = call.ended !== null && call.ended <= scale.count;
  const reply = hasReply ? tag("tspan", { class: done ? "reply" : "reply later" }, ` ${call.reply}`) : "";
  return tag("text", { class: "call", x: place.x + indent, y: base - ROW_HEIGHT * place.row }, callText(call), reply);
}

// Returns the shapes that show when a call takes effect, as a group of the class `kind`.
const momentGroup = (kind, call, scale, ...shapes) => tag("g", { class: `${kind} ${isReached(call, scale.count) ? "reached" : "later"} ${colourOf(call.thread)}` }, ...shapes);

function drawPoint(call, scale) {
  const centre = { cx: scale.x(call.at), cy: scale.y(call.thread) };
  const how = call.changes ? "changes the set at" : "does not change the set; its reply is correct at";
  const words = title(`call ${call.id}, ${callText(call)}, ${how} event ${call.at}`);
  return momentGroup("point", call, scale, words, tag("circle", { ...centre, r: 6.5 }), call.changes ? "" : tag("circle", { class: "hole", ...centre, r: 3 }));
}

function drawStem(call, scale) {
  const x = scale.x(call.at);
  return momentGroup("stem", call, scale, tag("line", { x1: x, x2: x, y1: scale.y(call.thread), y2: scale.height }));
}

export function drawCursor(scale, bottom, top = 0) {
  if (scale.count < scale.first || scale.count > scale.last) return "";
  const x = scale.x(scale.count);
  return tag("line", { class: "cursor", x1: x, x2: x, y1: top, y2: bottom });
}

// Returns the attributes of a drawing that is `zoom` times as large on the screen. (CSS has `zoom` too, but WebKit then measures the bars wrongly.)
export const frameOf = ({ width, height, zoom = 1 }) => ({ width: zoom * width, height: zoom * height, viewBox: `0 0 ${width} ${height}` });

export function drawCalls(trace, scale) {
  const { first, last, height } = scale;
  const shown = shownIn(trace, first, Math.min(last, scale.now));
  const placed = shown.filter((call) => call.at !== null && call.at >= first && call.at <= last && (scale.now === Infinity || isReached(call, scale.now)));
  const lanes = Array.from({ length: trace.threads }, (_, thread) => drawLane(scale, thread));
  const bars = shown.map((call) => drawBar(call, scale));
  const points = placed.map((call) => drawPoint(call, scale));
  const stems = placed.map((call) => drawStem(call, scale));
  const begun = shown.filter((call) => call.begun <= scale.count);
  const words = begun.length === 0 ? "no call has begun" : begun.slice(-20).map((call) => callInWords(call, scale.now)).join("; ");
  const frame = { ...frameOf(scale), role: "img", "aria-label": `the history of the calls: ${words}` };
  const signs = scale.areWhole ? "" : label({ class: "note", x: 2, y: height - 4 }, SIGNS_IN_WORDS);
  return tag("svg", frame, ...lanes, drawCursor(scale, height, scale.y(0) - scale.bar / 2 - 2), ...stems, ...bars, ...points, signs);
}

// ---- The labels above the bars. The place of a label depends on the whole run and not on the current event, so that no label moves between events.
const LETTER = 7.1; // pixels of a letter of a label
const BOLD = 8; // pixels of a letter of a reply
const BETWEEN = 8; // pixels between two labels of a row
export const [GROWN, WIDE_GROWN, SMALL_GROWN] = [1.25, 1.34, 1.09]; // factors of larger labels: on a slide, in a window, on a phone
export const ROW_HEIGHT = 15;
export const widthOf = (text, reply = "") => LETTER * text.length + (reply === "" ? 0 : LETTER + BOLD * reply.length);

// Returns for each label its place { x, row }, or null if no row has room for the label. Each label is placed at an end of its bar. `items` must be sorted by
// their left ends.
function placeLabels(items, { start, edge, mostRows }) {
  const taken = Array.from({ length: mostRows }, () => start);
  return items.map(({ left, right, wide }) => {
    for (const x of [Math.min(left, edge - wide), Math.min(right, edge) - wide]) {
      const row = taken.findIndex((end) => x >= end);
      if (row === -1) continue;
      taken[row] = x + wide + BETWEEN;
      return { x, row };
    }
    return null;
  });
}

// The short labels of calls, for bars that are too narrow for the long label. A line below the drawing explains the short labels.
const SIGNS = { add: (key) => `+${key}`, remove: (key) => `\u2212${key}`, contains: (key) => `${key}?`, ceiling: (key) => `\u2308${key}\u2309` };
const SIGNS_IN_WORDS = "+5 add, \u22125 remove, 5? contains, \u23085\u2309 ceiling of 5; more by a click on a bar";
export const signOf = ({ operation, key }) => SIGNS[operation](key);
