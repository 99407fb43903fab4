// Draws the list: its nodes with their locks, and the threads' labels at the upper edges of the nodes.
import { LISTS } from "../../made/rows.js";
import { callText, colourOf, holderOf, keyText, label, letterOf, tag, title } from "../run/markup.js";
import { linkTarget, ownerOf } from "../run/state.js";
import { NODE_REGISTERS } from "../run/trace.js";
import { drawFoldLink, drawLink, drawTip, linkWidth } from "./arrows.js";
import { arranged, isPointing, LIST_LOCK } from "./places.js";

const wordOf = ({ key }) => ({ "-inf": "head", "+inf": "tail" })[key] ?? keyText(key);
const nodeWord = (state, name) => (name in state.nodes ? wordOf(state.nodes[name]) : name);
const lockWord = (lock) => (lock === "free" ? "lock free" : `locked by ${holderOf(lock)}`);

function nodeInWords(state, name, { aside }, hasNames) {
  const node = state.nodes[name];
  const to = name === "tail" ? "" : `, points to ${nodeWord(state, linkTarget(node.link))}`;
  const where = !node.reached ? ", not linked yet" : aside ? ", unlinked" : "";
  const isMarked = node.link.endsWith("*") ? ", marked" : "";
  return `${hasNames && name !== wordOf(node) ? `${name}: ` : ""}node ${wordOf(node)}${to}${isMarked}, ${lockWord(node.lock)}${where}`;
}

function drawNode(state, name, place, event, room) {
  const { x, y, width, row, key, aside } = place;
  const middle = y + key / 2 + 4.5; // the baseline of the key; the labels of threads are above, on the upper edge of the node
  const isNamed = room.names && /^n\d/.test(name);
  const node = state.nodes[name];
  const isMarked = node.link.endsWith("*");
  const kind = !node.reached ? `own ${colourOf(ownerOf(state.trace, name))}` : aside ? "out" : "in";
  const side = x + width - linkWidth(width);
  const holder = node.lock === "free" ? "" : ` held ${colourOf(Number(node.lock.slice(1)))}`;
  return tag("g", { class: `node ${kind}${isMarked ? " is-marked" : ""}${holder}`, "data-part": `node ${name}`, "data-x": x, "data-y": y },
    title(nodeInWords(state, name, place, room.names)),
    event?.word?.startsWith(`${name}.`) ? tag("rect", { "data-hot": x, class: `hot ${colourOf(event.thread)}`, x: x - 6, y: y - 6, width: width + 12, height: row + 12, rx: 12 }) : "",
    tag("rect", { class: "box", x, y, width, height: row, rx: 8, ...(isMarked ? { style: "fill:url(#hatch)" } : {}) }),
    tag("line", { class: "side", x1: side, x2: side, y1: y, y2: y + key }),
    drawKey(node, (x + side) / 2, middle, width, isMarked && width > 110 ? y + key - 5 : 0, isNamed && width < 90),
    isNamed ? label({ class: "name", x: x + 6, y: y + 19 }, name) : "",
    isMarked ? label({ class: "cross", x: (side + x + width) / 2, y: middle + 9 }, "✗") : "",
    row > key ? drawLock(node.lock, x, y + key, width, row - key) : "",
  );
}

function drawKey(node, x, middle, width, sign, isBelowName) {
  const text = wordOf(node);
  const isNumber = /^\d/.test(text);
  const size = isBelowName ? 20 : text.length > 4 ? 18 : sign > 0 ? 24 : isNumber ? 30 : width > 110 ? 20 : width > 70 ? 18 : width > 52 ? 16 : 14.5;
  const spacing = !isNumber && width <= 80 ? ";letter-spacing:-.8px;font-weight:500;stroke-width:1.5" : ""; // in a narrow node the word "head" needs narrow letters
  const key = label({ class: "key", x, y: sign > 0 ? sign - 19.5 : middle + (isBelowName ? 13 : isNumber ? 9.5 : 4), style: `font-size:${size}px${spacing}` }, text);
  return key + (sign > 0 ? label({ class: "sign", x, y: sign }, "marked") : "");
}

const CLOSED = "M-6 -2 v-5 a6 6 0 0 1 12 0 v5";
const OPEN = "M-6 -2 v-6 a6 6 0 0 1 12 0";

function drawLock(lock, x, y, width, height, words = "") {
  const isOpen = lock === "free";
  const text = isOpen ? `${words}${width > 90 ? "open" : ""}` : `${words}${words === "" ? "" : "held by "}${holderOf(lock)}`;
  const at = x + (width - 22 - 10 * text.length) / 2 + (width > 60 ? 8 : 5);
  return tag("g", { class: `latch ${isOpen ? "open" : colourOf(Number(lock.slice(1)))}` },
    tag("rect", { class: "plate", x: x + 3, y: y + 1, width: width - 6, height: height - 4, rx: 6 }),
    tag("g", { transform: `translate(${at},${y + height / 2 + 2})` },
      tag("path", { d: isOpen ? OPEN : CLOSED }), tag("rect", { class: "body", x: -9, y: -3, width: 18, height: 12, rx: 3 })),
    label({ x: at + (width > 60 ? 16 : 12), y: y + height / 2 + 5.5 }, text),
  );
}

function drawFold({ names, place: { x, y, width, key } }) {
  return tag("g", { class: "fold" }, title(`${names.length} nodes of the chain at which no thread is`),
    tag("rect", { x, y: y + 8, width, height: key - 16, rx: 18 }), label({ x: x + width / 2, y: y + key / 2 + 6 }, `… ${names.length} …`));
}

function drawHand({ thread, name, words, x, y, wide }, state, { height, left }) {
  return tag("g", { class: `hand-of ${colourOf(thread)}`, "data-part": `hand ${thread} ${words}`, "data-x": x, "data-y": y },
    title(`${letterOf(thread)}: ${words} is ${nodeWord(state, name)}`),
    tag("rect", { x, y, width: wide, height, rx: 8 }),
    label({ class: "letter", x: x + left / 2, y: y + height / 2 + 6 }, letterOf(thread)),
    label({ class: "hand", x: x + left - 1, y: y + height / 2 + 6 }, words),
  );
}

const HATCH = { id: "hatch", width: 9, height: 9, patternUnits: "userSpaceOnUse", patternTransform: "rotate(45)" };
const STRIPES = tag("rect", { class: "ground", width: 9, height: 9 }) + tag("line", { class: "stripe", x1: 0, x2: 0, y1: 0, y2: 9 });
const DEFINITIONS = tag("defs", {}, tag("pattern", HATCH, STRIPES), ...["in", "out", "hot"].map(drawTip));

/**
 * Returns the list as an SVG element. `own` is a prefix of the ids in the element, so that two drawings have different ids.
 * @param {import("./places.js").Room} room
 */
export function drawStage(state, event, room, own = "", list = arranged(state, event, room)) {
  const { chain, items, places, names, hands, more, units } = list;
  const { width, scale } = units;
  const height = Math.max(units.height, room.high / scale);
  const frame = { width: width * scale, height: height * scale, viewBox: `0 0 ${width} ${height}`, role: "img", "aria-label": listInWords(chain, state), class: units.form.kind };
  const drawn = tag("svg", frame, DEFINITIONS,
    room.lock === "list" ? drawLock(state.lock, 4, 2, width - 8, LIST_LOCK - 8, "the list’s lock: ") : "",
    ...names.map((name) => drawNode(state, name, places[name], event, room)),
    ...items.map((item, at) => (item.name === undefined ? drawFold(item) + drawFoldLink(item, items[at + 1]) : "")),
    ...names.map((name) => drawLink(state, name, places, event)),
    ...hands.map((hand) => drawHand(hand, state, units.form.hand)),
    more > 0 ? label({ class: "note", x: 8, y: height - 4 }, `and ${more} more nodes that are not in the chain`) : "");
  return drawn.replace(/(url\(#|id=")(tip|hatch)/g, `$1${own}-$2`);
}

function listInWords(chain, state) {
  const inside = chain.filter((name) => name !== "head" && name !== "tail").map((name) => state.nodes[name]);
  const keys = inside.map((node) => keyText(node.key) + (node.link.endsWith("*") ? " marked" : ""));
  const more = keys.length > 40 ? ", and more" : "";
  const list = keys.length === 0 ? "the list is empty" : `the list: ${keys.slice(0, 40).join(", ")}${more}`;
  const locks = state.locks();
  const threads = state.threads.map((held, thread) => threadInWords(state, held, thread, locks)).filter((text) => text !== "");
  return [list, ...threads.slice(0, 12)].join("; ");
}

function threadInWords(state, held, thread, locks) {
  if (held.pc === 0) return "";
  const { registers } = LISTS[state.trace.kind].calls[held.call.operation];
  const set = registers.filter((name) => NODE_REGISTERS.includes(name) && isPointing(held, name));
  const at = set.map((name) => `${name} at ${nodeWord(state, held[name])}`).join(", ");
  const own = locks[`t${thread}`]?.map((word) => (word === "list.lock" ? "the list’s lock" : `the lock of ${nodeWord(state, word.split(".")[0])}`));
  const has = own === undefined ? "" : `; ${letterOf(thread)} has ${own.join(" and ")}`;
  return `${letterOf(thread)} in ${callText(held.call)}${at === "" ? "" : `: ${at}`}${has}`;
}
