// The memory words, the threads and the chain after a number of events, as recorded in the trace.
import { firstOpeningNode } from "./trace.js";

// The values of a thread whose call has just begun. `came` is the last executed row (0 before the first step); the others are registers.
const BEGUN = { came: 0, pred: "head", curr: "head", succ: "head", node: "head", pkey: "-inf", ckey: "-inf", reply: "none" };
const AT_REST = { pc: 0, used: 0, call: null, ...BEGUN };
export const linkTarget = (link) => link.replace("*", "");
export const keyNumber = (key) => (key === "-inf" ? -1 : key === "+inf" ? Infinity : Number(key));
const MOST_UNDONE = 20000; // events that can be undone; to go back further, the state is rebuilt from the start

export class State {
  constructor(trace) {
    this.trace = trace;
    this.begin();
  }

  begin() {
    const { trace } = this;
    this.count = 0;
    this.lock = "free"; // the list's own lock
    this.nodes = openingNodes(trace);
    this.threads = Array.from({ length: trace.threads }, () => ({ ...AT_REST }));
    this.undo = [];
  }

  moveTo(count) {
    if (count < this.count - this.undo.length) this.begin();
    while (this.count < count) this.apply(this.trace.event(++this.count), count - this.count < MOST_UNDONE);
    while (this.count > count) {
      this.count--;
      for (const [holder, name, before] of this.undo.pop().reverse()) holder[name] = before;
    }
  }

  apply(event, isKept) {
    const done = [];
    const set = (holder, name, value) => {
      if (isKept) done.push([holder, name, holder[name]]);
      holder[name] = value;
    };
    const thread = this.threads[event.thread];
    if (event.deed === "begin") {
      for (const name in BEGUN) set(thread, name, BEGUN[name]);
      set(thread, "call", event.call);
    } else set(thread, "came", thread.pc);
    for (const name in event.changes) set(thread, name, event.changes[name]);
    if (event.deed === "store" || (event.deed === "exchange" && event.saw === event.from)) this.write(event, set);
    if (!isKept) this.undo = [];
    else if (this.undo.push(done) > 2 * MOST_UNDONE) this.undo.splice(0, MOST_UNDONE);
  }

  write(event, set) {
    const [owner, field] = event.word.split(".");
    if (owner === "list") return set(this, field, event.to);
    const node = (this.nodes[owner] ??= newNode());
    set(node, field, event.to);
    if (field !== "link" || !node.reached) return;
    const target = (this.nodes[linkTarget(event.to)] ??= newNode());
    if (!target.reached) set(target, "reached", true);
  }

  // Returns the locks that each thread holds, such as { t0: ["head.lock"] }. The locks of nodes are sorted by the keys of the nodes.
  locks() {
    const held = {};
    const add = (lock, word) => lock !== "free" && (held[lock] ??= []).push(word);
    add(this.lock, "list.lock");
    const locked = Object.entries(this.nodes).filter(([, node]) => node.lock !== "free");
    locked.sort(([, one], [, other]) => keyNumber(one.key) - keyNumber(other.key));
    for (const [name, node] of locked) add(node.lock, `${name}.lock`);
    return held;
  }

  chain() {
    const found = new Set(["head"]);
    for (let name = "head"; name !== "tail"; ) {
      name = linkTarget(this.nodes[name].link);
      if (found.has(name) || !(name in this.nodes)) break;
      found.add(name);
    }
    return [...found];
  }
}

function openingNodes(trace) {
  const names = ["head", ...trace.opening.map((_, index) => `n${firstOpeningNode(trace) + index}`), "tail"];
  const keys = ["-inf", ...trace.opening.map(String), "+inf"];
  return Object.fromEntries(names.map((name, at) => [name, { key: keys[at], link: names[at + 1] ?? "tail", lock: "free", reached: true }]));
}

// A node that is reserved for a thread, before its first use. `reached` becomes true when the node can be reached from the head. Until then, only the thread
// can see the node.
const newNode = () => ({ key: "-inf", link: "head", lock: "free", reached: false });
export const isWritten = (node) => node.key !== "-inf" || node.link !== "head" || node.lock !== "free";
export const ownerOf = (trace, name) => Math.floor((Number(name.slice(1)) - 2) / trace.quota);

// Returns the contents of the set from event `first` to event `last` as parts { from, to, keys }. From event `from` until just before event `to`, the contents
// do not change.
export function contentsIn(trace, first, last) {
  const keys = new Set(trace.opening);
  const part = (from) => ({ from, to: last + 1, keys: [...keys].sort((one, other) => one - other) });
  const toggle = (event) => (event.put !== undefined ? keys.add(event.put) : keys.delete(event.took));
  const before = trace.changes.filter((event) => event.number < first);
  before.forEach(toggle);
  const parts = [part(first)];
  for (const event of trace.changes.slice(before.length)) {
    if (event.number > last) break;
    toggle(event);
    parts[parts.length - 1].to = event.number;
    parts.push(part(event.number));
  }
  return parts;
}

// `promisedKeys` returns the keys that should be in the set according to the linearization points. `keysInChain` returns the keys of the unmarked nodes in the
// chain.
export const promisedKeys = (trace, count = trace.total) => contentsIn(trace, count + 1, count + 1)[0].keys;

export function keysInChain(state) {
  const inside = state.chain().filter((name) => name !== "head" && name !== "tail" && !state.nodes[name].link.endsWith("*"));
  return inside.map((name) => Number(state.nodes[name].key));
}
