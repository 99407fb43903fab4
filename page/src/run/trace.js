// A trace (the text that `listset trace` prints), with events that are parsed on demand.

export const HEADER_LINES = 4;
export const NODE_REGISTERS = ["pred", "curr", "succ", "node"];
export const MOST_NUMBER = 4294967295;
export const isTrace = (text) => text.startsWith("listset-trace");

export class Trace {
  constructor(text, version = 1) {
    const [, kind, lacks = null, threads, quota] =
      /^listset-trace 1\nlist (\S+)\n(?:lacks (\S+)\n)?threads (\d+)\nquota (\d+)\n/.exec(text);
    this.text = text;
    this.version = version;
    this.kind = kind;
    this.lacks = lacks;
    this.threads = Number(threads);
    this.quota = Number(quota);
    this.opening = [];
    this.starts = []; // the offset of the line of each event in the text
    this.calls = [];
    this.callsOf = Array.from({ length: this.threads }, () => []);
    this.changes = []; // the events that change the set
    this.starred = []; // the numbers of the events that have a mark (`*`) in their line
    this.refused = null;
    this.scan();
    if (this.opening.length > 0) this.version = 2;
    this.order = orderOf(this.calls);
  }

  get total() {
    return this.starts.length;
  }

  scan() {
    const { text } = this;
    for (let at = 0; at < text.length; ) {
      const end = text.indexOf("\n", at);
      const line = text.slice(at, end);
      if (line.startsWith("event ")) this.note(line, this.starts.push(at));
      else if (line.startsWith("opening ")) this.opening.push(Number(line.slice("opening ".length)));
      else if (line.startsWith("refused ")) this.refused = { line: Number(line.split(" ")[2]), cause: line.split(" ")[3] };
      at = end + 1;
    }
  }

  note(line, number) {
    if (line.includes("*")) this.starred.push(number);
    if (line.includes(" begin ")) this.noteCall(line.split(" "), number);
    const isChange = line.includes(" put ") || line.includes(" took ");
    const isAnswer = line.includes(" answer ");
    if (!isChange && !isAnswer) return;
    const event = this.event(number);
    if (isChange) {
      this.changes.push(event);
      Object.assign(event.call, { at: number, changes: true });
    }
    if (isAnswer) Object.assign(event.call, { at: event.at, ended: number, reply: event.answer });
  }

  noteCall([, , , , , thread, , operation, key], begun) {
    const call = { id: this.calls.length, thread: Number(thread), operation, key: Number(key), begun };
    if (operation === "ceiling") this.version = 2;
    Object.assign(call, { ended: null, at: null, changes: false, reply: null });
    this.calls.push(call);
    this.callsOf[call.thread].push(call);
  }

  callAt(thread, number) {
    const calls = this.callsOf[thread];
    let [least, most] = [0, calls.length - 1];
    while (least < most) {
      const middle = (least + most + 1) >> 1;
      if (calls[middle].begun <= number) least = middle;
      else most = middle - 1;
    }
    return calls[least];
  }

  lineOf(number) {
    const start = this.starts[number - 1];
    return this.text.slice(start, this.text.indexOf("\n", start));
  }

  event(number) {
    const pieces = this.lineOf(number).split(" ");
    const event = { number, line: Number(pieces[3]), thread: Number(pieces[5]), deed: pieces[6], changes: {} };
    event.call = this.callAt(event.thread, number);
    let at = event.deed === "begin" ? 11 : 8;
    if (event.deed !== "begin") event.word = pieces[7];
    if (event.deed === "store") event.to = pieces[at++];
    for (; pieces[at] !== "pc"; at += 2) event[pieces[at]] = pieces[at + 1];
    for (; at < pieces.length; at += 2) takeValue(event, pieces[at], pieces[at + 1]);
    return event;
  }

  events() {
    return this.starts.map((_, index) => this.event(index + 1));
  }
}

function takeValue(event, name, value) {
  if (name === "answer") event.answer = value;
  else if (name === "put" || name === "took" || name === "at") event[name] = Number(value);
  else if (name === "pc" || name === "used") event.changes[name] = Number(value);
  else if (name !== "call") event.changes[name] = value;
}

// Returns the number of the first opening key's node. Lower numbers are for the head, the tail, and the nodes that threads use for their adds.
export const firstOpeningNode = (trace) => 2 + trace.threads * trace.quota;

export function eventsInCommon(one, other) {
  const header = ({ kind, threads, quota, opening }) => [kind, threads, quota, ...opening].join();
  if (header(one) !== header(other)) return 0;
  const most = Math.min(one.total, other.total);
  const deedOf = (trace, number) => trace.lineOf(number).replace(/^event \d+ line \d+/, "");
  let count = 0;
  while (count < most && deedOf(one, count + 1) === deedOf(other, count + 1)) count++;
  return count;
}

// Sorts the calls by when they take effect. Of several calls that take effect at the same moment, the call that changes the set is first, and the others follow
// in the order of their numbers.
function orderOf(calls) {
  const placed = calls.filter((call) => call.at !== null);
  return placed.sort((one, other) => one.at - other.at || Number(other.changes) - Number(one.changes) || one.id - other.id);
}
