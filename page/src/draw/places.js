// Computes the places of the list's nodes, and of the hands (the threads' labels at nodes). Lengths are in units of `scale` pixels.
import { LISTS } from "../../made/rows.js";
import { ownerIn } from "../run/outcomes.js";
import { isWritten, keyNumber } from "../run/state.js";
import { NODE_REGISTERS } from "../run/trace.js";

export const LIST_LOCK = 40; // height of the lock that is drawn above a list with one lock
const MARGIN = 8;
const WIDEST = 190; // largest width of a node
const BESIDE = 18; // distance between two nodes that are not in the chain
const AROUND = 10; // distance between two nodes in a gap of the chain
const NARROWEST = 60; // smallest width of a node
const BESIDE_HANDS = 2; // distance between two hands in a row, so that their edges meet
const MOST_POINTING = 6; // maximum number of threads with hands

// The measures of a drawing, in units. `least` is the smallest number of pixels per unit that keeps labels readable. `key` and `lock` are the heights of a
// node's two parts. `slot` is the width of a node together with the gap beside the node, and `gap` is the gap's share of this width. `below` lists how far
// below the chain the nodes outside of it can be drawn, the largest distance first. (0 and -14 draw these nodes in the gaps of the chain.)
const HANDS = { height: 26, over: -2, left: 28, letter: 10.4, right: 12 };
const SMALL_HANDS = { height: 24, over: -2, left: 21, letter: 9.8, right: 5 };
const WIDE = { least: 0.9, key: 56, lock: 32, slot: 100, gap: 0.5, hand: HANDS, kind: "", below: [54, 30, 0, -14] };
const SMALL = { least: 0.82, key: 44, lock: 28, slot: 62, gap: 0.28, hand: SMALL_HANDS, kind: "small-hands", below: [44, 34] };
const SLIDE = { ...WIDE, key: 44, lock: 28, slot: 92, gap: 0.35, below: [44, 24, 0, -10] }; // lower nodes, so that a slide has room for larger labels
const LEAST_OF_ALL = 0.6; // the minimum of pixels per unit in a drawing that must not be cut off
const LOW = 60; // distance from the upper edge of the chain to the upper edge of the nodes in its gaps
const formOf = ({ wide, isSlide }) => (wide < 600 ? SMALL : isSlide ? SLIDE : WIDE);

function pointersOf(state, event) {
  const inCall = state.threads.map((held, thread) => ({ held, thread })).filter(({ held }) => held.pc !== 0);
  inCall.sort((one, other) => Number(other.thread === event?.thread) - Number(one.thread === event?.thread));
  const { calls } = LISTS[state.trace.kind];
  return inCall.slice(0, MOST_POINTING).map(({ held, thread }) => {
    const registers = calls[held.call.operation].registers.filter((name) => NODE_REGISTERS.includes(name));
    const at = {};
    for (const name of registers) if (isPointing(held, name)) (at[held[name]] ??= []).push(name);
    return { thread, at };
  });
}

// Returns whether a thread's register is drawn. A register that points to the head is not drawn, since it can be unset, unless it is `pred` and the walk has
// begun.
export const isPointing = (held, name) => held[name] !== "head" || (name === "pred" && held.curr !== "head");

function importantNodes(state, event, pointers) {
  const important = new Set(["head", "tail"]);
  if (event?.word) important.add(event.word.split(".")[0]);
  for (const { at } of pointers) Object.keys(at).forEach((name) => important.add(name));
  const locked = Object.values(state.locks()).flat().map(ownerIn).filter((name) => name !== "list");
  locked.slice(0, 8).forEach((name) => important.add(name));
  return important;
}

// Returns the chain as items to draw: single nodes, and groups of nodes if the stage has no room for all nodes.
function foldedChain(chain, important, most) {
  if (chain.length <= most) return chain.map((name) => ({ name, names: [name] }));
  const items = [];
  for (const name of chain) {
    const last = items[items.length - 1];
    if (important.has(name)) items.push({ name, names: [name] });
    else if (last !== undefined && last.name === undefined) last.names.push(name);
    else items.push({ names: [name] });
  }
  return items.map((item) => (item.names.length === 1 ? { name: item.names[0], names: item.names } : item));
}

// Returns the largest scale (pixels per unit) of a drawing that fits on the stage, and the heights of the drawing's parts. Scale and heights depend on the run
// and not on the current step, so that nothing moves between steps.
function unitsOf(state, room, slots, isFlat) {
  const form = formOf(room);
  const least = Math.max(form.least, room.least ?? 0);
  const row = form.key + (room.lock === "nodes" ? form.lock : 0);
  const heightsOf = (below, lanes) => {
    const top = (room.lock === "list" ? LIST_LOCK : 0) + lanes * (form.hand.height + 2) - form.hand.over;
    const down = isFlat ? 0 : below <= 0 ? LOW + below : Math.max(row + below, lanes * (form.hand.height + 2) - 2); // leaves space for the hands of the nodes below the chain
    return { top, down, height: top + down + row + MARGIN + 4 };
  };
  const lanesAt = (scale) => Math.ceil(Math.min(state.threads.length, MOST_POINTING) / handsPerSlot(form, room, room.wide / scale, slots));
  const fits = (at) => heightsOf(form.below[at], lanesAt(least)).height * least <= room.high;
  const first = form.below.findIndex((_, at) => at >= (room.tight ?? 0) && fits(at));
  const tight = first === -1 ? form.below.length - 1 : first;
  // Chooses the number of rows of hands (the threads' labels) that allows the largest units: in larger units, fewer hands fit side by side.
  const sizeWith = (lanes) => {
    const high = room.high / heightsOf(form.below[tight], lanes).height;
    const own = form === SMALL ? Math.min(1, high, room.wide / (slots * form.slot)) : Math.min(room.wide / 880, high, room.wide / (slots * 128));
    let scale = Math.max(least, own);
    while (scale > least && lanesAt(scale) > lanes) scale = Math.max(least, scale - 0.02);
    return { lanes, scale, isGood: lanesAt(scale) <= lanes };
  };
  const sizes = [1, 2, 3, 4, 5, MOST_POINTING].map(sizeWith).filter(({ isGood }) => isGood);
  const { lanes, scale: largest } = sizes.reduce((one, other) => (other.scale > one.scale + 0.001 ? other : one));
  const heights = heightsOf(form.below[tight], lanes);
  const scale = room.isWhole ? Math.min(largest, Math.max(LEAST_OF_ALL, (room.high + MARGIN / 4) / heights.height)) : largest; // smaller labels, but nothing is cut
  return { ...heights, form, scale, tight, row, isLow: form.below[tight] <= 0, width: Math.max(room.wide / scale, slots * form.slot), spare: Math.max(0, room.high / scale - heights.height) };
}

const widthOfHand = ({ left, letter, right }, words) => left + letter * words.length + right;

function handsPerSlot(form, { names = false }, width, slots) {
  const node = widthOfNode(form, width - 2 * MARGIN, slots);
  const gap = (width - 2 * MARGIN - slots * node) / Math.max(1, slots - 1);
  return Math.max(1, Math.floor((node + 0.45 * gap + BESIDE_HANDS) / (widthOfHand(form.hand, names ? "curr, succ" : "pred") + BESIDE_HANDS)));
}

const widthOfNode = (form, all, slots) => Math.min(WIDEST, all / (slots + form.gap * (slots - 1)));

function placesOfChain(items, room, units, slots) {
  const { width, row, top, down, spare, scale, form, isLow } = units;
  const [left, right] = (room.ends ?? [0, 0]).map((end) => Math.max(MARGIN, end / scale));
  const all = width - left - right;
  const node = Math.min(isLow ? (all - 24) / (2 * slots - 3) : WIDEST, widthOfNode(form, all, slots)); // nodes in the gaps of the chain need gaps as wide as a node
  const gap = (all - items.length * node) / Math.max(1, items.length - 1);
  const y = top + spare * (down === 0 ? 0.5 : 0.35);
  const places = {};
  items.forEach((item, index) => {
    item.place = { x: left + index * (node + gap), y, width: node, gap, row, key: form.key, folded: item.name === undefined };
    for (const name of item.names) places[name] = item.place;
  });
  return places;
}

// Chooses which nodes outside of the chain are drawn: first the important nodes, then the nodes that only one thread can reach. `more` is the number of nodes
// that are not drawn.
function nodesAside(state, chain, important, most) {
  const inChain = new Set(chain);
  const aside = Object.keys(state.nodes).filter((name) => !inChain.has(name) && isWritten(state.nodes[name]));
  const rank = (name) => (important.has(name) ? 2 : state.nodes[name].reached ? 0 : 1);
  const latest = [...aside].reverse().sort((one, other) => rank(other) - rank(one));
  const shown = latest.slice(0, most).sort((one, other) => keyNumber(state.nodes[one].key) - keyNumber(state.nodes[other].key));
  return { shown, more: aside.length - shown.length };
}

// Places each node outside of the chain below the gap of the chain for the node's key. Nodes below the same gap are drawn side by side, and are narrow enough
// for the gap.
function placeAside(state, chain, shown, places, { width, down, spare, isLow }) {
  const { width: widest, gap, row, key, y } = places.head;
  const groups = new Map();
  for (const name of shown) {
    const before = chain.findLast((other) => keyNumber(state.nodes[other].key) < keyNumber(state.nodes[name].key)) ?? "head";
    groups.set(before, [...(groups.get(before) ?? []), name]);
  }
  let free = 2;
  for (const [before, names] of groups) {
    const middle = places[before].x + widest + gap / 2;
    const node = isLow ? Math.min(widest, Math.max(NARROWEST, (gap - 2 * AROUND - (names.length - 1) * BESIDE) / names.length)) : widest;
    const wanted = middle - (names.length * (node + BESIDE) - BESIDE) / 2;
    let x = Math.max(free, Math.min(wanted, width - names.length * (node + BESIDE)));
    for (const name of names) {
      places[name] = { x, y: y + down + spare * 0.25, width: node, gap, row, key, aside: true };
      x += node + BESIDE;
    }
    free = x;
  }
}

// Arranges the hands (the threads' labels) at a node in rows. Each hand is put into the lowest row with room.
function rowsOf(hands, most) {
  const rows = [];
  for (const own of hands) {
    const row = rows.find(({ wide }) => wide + BESIDE_HANDS + own.wide <= most);
    if (row !== undefined) Object.assign(row, { wide: row.wide + BESIDE_HANDS + own.wide, hands: [...row.hands, own] });
    else rows.push({ wide: own.wide, hands: [own] });
  }
  return rows;
}

function handsOn(pointers, places, { form: { hand }, width }, hides) {
  const on = {};
  for (const { thread, at } of pointers) {
    for (const name in at) {
      const words = at[name].filter((one) => !hides.includes(one)).map((one) => (one === "node" && hides.length > 0 ? "again" : one)).join(", ");
      if (words !== "" && places[name] && !places[name].folded) (on[name] ??= []).push({ thread, name, words, wide: widthOfHand(hand, words) });
    }
  }
  const all = Object.values(on).flatMap((hands) => {
    hands.sort((one, other) => one.thread - other.thread);
    const { x, y, width: node, gap, aside } = places[hands[0].name];
    return rowsOf(hands, node + (aside ? 10 : 0.45 * gap)).flatMap((row, index) => {
      let left = Math.max(2, Math.min(width - row.wide - 2, x + (node - row.wide) / 2)); // a row of hands at an end of the chain is moved inwards
      return row.hands.map((own) => {
        left += own.wide + BESIDE_HANDS;
        return { ...own, x: left - own.wide - BESIDE_HANDS, y: Math.max(1, y - hand.height + hand.over - index * (hand.height + 2)) };
      });
    });
  });
  return all.reduce((placed, own) => [...placed, freeHand(own, placed, places[own.name], hand, width)], []);
}

// If a hand (a thread's label at a node) would cover another hand, moves the hand to the nearest free place that touches the node.
function freeHand(own, placed, { x, y, width: node }, { height, over }, width) {
  const isFree = (at) => placed.every((other) => at.x + own.wide <= other.x || other.x + other.wide <= at.x || Math.abs(at.y - other.y) >= height);
  const [least, most] = [Math.max(2, x - own.wide), Math.min(width - 2 - own.wide, x + node)];
  const rows = [0, 1, 2, 3, 4, 5].map((row) => y - height + over - row * (height + 2)).filter((top) => top >= 1);
  for (let away = 0; away <= node + own.wide; away += 5) {
    for (const left of [own.x - away, own.x + away].filter((one) => one === own.x || (least <= one && one <= most))) {
      const top = [own.y, ...rows, 1].find((one) => isFree({ x: left, y: one }));
      if (top !== undefined) return { ...own, x: left, y: top };
    }
  }
  return own;
}

/**
 * The space and the contents of a drawing. `wide` and `high` are the size of the stage in pixels, and `least` is the smallest number of pixels per unit.
 * `slots` is the maximum number of nodes in the chain; if `flat`, every node stays in the chain. `lock` is the place of locks: "list", "nodes" or "" (not
 * shown). `tight` is the index in `below` that the previous drawing used, `ends` the free pixels at each end, and `hides` the registers without a hand.
 * @typedef {{ wide: number, high: number, least?: number, slots: number, lock: string, flat?: boolean, tight?: number, ends?: number[], hides: string[], names?: boolean, isWhole?: boolean, isSlide?: boolean }} Room
 */
export function arranged(state, event, room) {
  const chain = state.chain();
  const pointers = pointersOf(state, event);
  const important = importantNodes(state, event, pointers);
  const form = formOf(room);
  const items = foldedChain(chain, important, Math.max(5, Math.floor(room.wide / form.least / form.slot)));
  const slots = Math.max(items.length, Math.min(room.slots, Math.floor(room.wide / form.least / form.slot)));
  const { shown, more } = nodesAside(state, chain, important, Math.max(3, Math.floor(room.wide / form.least / form.slot)));
  const units = unitsOf(state, room, slots, room.flat === true && shown.length === 0);
  const places = placesOfChain(items, room, units, slots);
  placeAside(state, chain, shown, places, units);
  const names = [...items.filter(({ name }) => name !== undefined).map(({ name }) => name), ...shown];
  return { chain, items, slots, places, names, more, units, hands: handsOn(pointers, places, units, room.hides) };
}
