// Draws the bars of the Judge activity. On the bar of a call, the reader chooses the moment when the call takes effect. For keyboard users, each bar is a
// slider. The bar of a refused call is red.
import { lastMoment, nameOfCall } from "../run/judged.js";
import { callText, chipOf, colourOf, escaped, label, tag, title } from "../run/markup.js";
import { recordedInWords } from "../run/recorded.js";
import { drawContents } from "./tables.js";
import { drawLane, frameOf, HISTORY_LEFT, layLabels, ROW_HEIGHT, signOf, SMALL_GROWN, widthOf } from "./history.js";

const JUDGE_RIGHT = 20;
const JUDGE_BAR = 30;
const JUDGE_BELOW = 8; // pixels between a bar and the labels of the next thread's bars
const MOST_ROWS = 3; // the maximum number of rows of labels
const SLOT_WIDTH = 72; // pixels for the label of a call's point
const leftOf = ({ begun }, { x, step }) => x(begun) - step / 2;
const rightOf = (call, { x, step, last }) => x(call.ended ?? last) + step / 2;

// Returns the width of the widest label that a call can have, with its reply or the sign for a missing reply.
function widthOfCall(call) {
  if (call.ended === null) return widthOf(callText(call), OPEN);
  const replies = [call.reply ?? "", ...(call.operation === "ceiling" ? ["nothing"] : ["false"])];
  return Math.max(...replies.map((reply) => widthOf(callText(call), reply)));
}

export function judgeScale({ last, threads, calls }, width, { bar = JUDGE_BAR, grown = 1, zoom = 1 } = {}) {
  const step = (width - HISTORY_LEFT - JUDGE_RIGHT) / last;
  const across = { step, last, x: (moment) => HISTORY_LEFT + (moment - 0.5) * step };
  const itemOf = (call) => ({ left: leftOf(call, across), right: rightOf(call, across), wide: grown * widthOfCall(call) });
  const inOrder = [...calls].sort((one, other) => one.begun - other.begun);
  const { places: labels, rows } = layLabels(threads, inOrder, itemOf, { start: 2, edge: width, mostRows: MOST_ROWS });
  const above = ROW_HEIGHT * rows + 4;
  const lane = above + bar + JUDGE_BELOW;
  const y = (thread) => 2 + thread * lane + above + bar / 2;
  const momentAt = (x) => (x - HISTORY_LEFT) / step + 0.5;
  return { ...across, width, zoom, bar, edge: width - JUDGE_RIGHT, labels, height: 4 + threads * lane, y, momentAt };
}

const momentInWords = (at) => (Number.isInteger(at) ? `at ${at}` : `after ${Math.floor(at)}`);
const OPEN = "(pending)";

function drawJudgedCall(call, { answer, exercise, verdict, scale }) {
  const y = scale.y(call.thread);
  const point = answer.points.get(call.id);
  const reply = call.ended === null ? OPEN : (answer.replyOf(call) ?? "?");
  const isClash = verdict?.clash === call.id;
  const where = point === undefined ? "not placed yet" : momentInWords(point.at);
  const slider = {
    role: "slider", tabindex: 0, "data-call": call.id,
    "aria-label": `when ${nameOfCall(call)}, ${reply === "?" ? "reply not chosen yet" : reply}, takes effect`,
    "aria-valuemin": call.begun, "aria-valuemax": lastMoment(exercise, call), "aria-valuenow": point?.at ?? call.begun,
    "aria-valuetext": `${where}${isClash ? ", and clashes there" : ""}`,
    class: `bar own ${colourOf(call.thread)}${isClash || verdict?.missing?.includes(call.id) ? " clash" : ""}${call.ended === null ? " open" : ""}`,
  };
  const bar = drawJudgedBar(call, reply, scale, y);
  return tag("g", slider, bar, point === undefined ? "" : drawOwnPoint(call, point.at, y, scale));
}

function drawJudgedBar(call, reply, scale, y) {
  const [left, right] = [leftOf(call, scale), rightOf(call, scale)];
  const rect = { x: left, y: y - scale.bar / 2, width: Math.max(right - left, 12), height: scale.bar, rx: 4 };
  const { x, row } = scale.labels.get(call.id) ?? { x: left, row: null };
  const above = { class: "call", x, y: y - scale.bar / 2 - 5 - ROW_HEIGHT * (row ?? 0) };
  const words = row === null ? signOf(call) : callText(call) + tag("tspan", { class: "reply" }, ` ${escaped(reply)}`);
  return tag("rect", rect) + tag("text", above, words);
}

// Draws recorded calls as bars. The starts and ends of calls are drawn at equal distances.
export function drawRecorded(calls, width, zoom) {
  const inOrder = (numbers) => [...new Set(numbers)].sort((one, other) => (one < other ? -1 : 1));
  const threads = inOrder(calls.map(({ thread }) => thread));
  const moments = inOrder(calls.flatMap(({ begun, ended }) => (ended === null ? [begun] : [begun, ended])));
  const momentOf = (at) => (at === null ? null : moments.indexOf(at) + 1);
  const laneOf = ({ thread }) => threads.indexOf(thread);
  const placed = calls.map((call, id) => ({ ...call, id, thread: laneOf(call), begun: momentOf(call.begun), ended: momentOf(call.ended) }));
  const scale = judgeScale({ calls: placed, last: moments.length + 1, threads: threads.length }, width, { grown: SMALL_GROWN, zoom });
  const bars = placed.map((call) => {
    const bar = drawJudgedBar(call, call.reply ?? OPEN, scale, scale.y(call.thread));
    const still = { class: `bar own still ${colourOf(threads[call.thread])}${call.ended === null ? " open" : ""}` };
    return tag("g", still, title(recordedInWords(calls[call.id])), bar);
  });
  const lanes = threads.map((thread, at) => drawLane(scale, thread, at));
  return tag("svg", { ...frameOf(scale), role: "img", "aria-label": calls.map(nameOfCall).join(", ") }, ...lanes, ...bars);
}

function drawOwnPoint(call, at, y, scale) {
  const x = scale.x(at);
  const stem = tag("line", { x1: x, x2: x, y1: y - 15, y2: y + 15 });
  return tag("g", { class: `point own ${colourOf(call.thread)}` }, stem, tag("circle", { cx: x, cy: y, r: 8 }), drawWhen(call, at, y, scale));
}

// Draws the number of a point's moment beside the point if the number fits on the bar. (Outside of the bar, the number could seem to belong to another call.)
function drawWhen(call, at, y, scale) {
  const x = scale.x(at);
  const isRoomy = (room) => room >= SLOT_WIDTH;
  if (isRoomy(rightOf(call, scale) - x)) return label({ x: x + 11, y: y + 5 }, momentInWords(at));
  return isRoomy(x - leftOf(call, scale)) ? label({ x: x - 11, y: y + 5, "text-anchor": "end" }, momentInWords(at)) : "";
}

export function drawOwnSet(answer, scale) {
  const changing = answer.order().filter(({ call, reply }) => call.operation !== "contains" && reply === "true");
  const changes = changing.map(({ call, at }) => ({ number: at, [call.operation === "add" ? "put" : "took"]: call.key }));
  return drawContents({ opening: answer.exercise.opening, lacks: null, total: scale.last, changes }, { ...scale, first: 1, count: 0, now: Infinity, grown: 1 });
}

export function drawJudged(judged) {
  const { exercise, scale, count } = judged;
  const lanes = Array.from({ length: exercise.threads }, (_, thread) => drawLane(scale, thread));
  const line = { class: "cursor", x1: scale.x(count), x2: scale.x(count), y1: 0, y2: scale.height };
  const frame = { ...frameOf(scale), role: "group", "aria-label": "the calls, each with a point to place" };
  const calls = exercise.calls.map((call) => drawJudgedCall(call, judged));
  return tag("svg", frame, ...lanes, count === 0 ? "" : tag("line", line), ...calls);
}

// Draws the calls in the order that the reader has chosen. Calls that the reader has not placed yet follow in a pale colour, so that the size of the drawing
// does not change.
export function drawOwnOrder(answer) {
  const { calls } = answer.exercise;
  const placed = answer.order().map(({ call, at, reply }) => {
    return `<li>${chipOf(call.thread)} ${callText(call)} <b>${escaped(reply ?? "?")}</b> <small>${momentInWords(at)}</small></li>`;
  });
  const others = calls.filter(({ id }) => !answer.points.has(id)).map((call) => {
    return `<li class="later">${chipOf(call.thread)} ${callText(call)} <small>not placed yet</small></li>`;
  });
  return `<ol>${placed.join("")}${others.join("")}</ol>`;
}
