// Kinds of random recordings for verdicts.js. Some have special calls: many overlapping calls on one key, three keys, a single operation, many keys with a few
// calls each, other keys that change all the time, long gaps and large moments, or opening and final keys that no call uses. The others imitate sets with bugs:
// several bugs at once, calls that fail wrongly, keys inserted twice, two calls in the critical section at once, changes lost while the set grows, nodes that
// stay linked, buckets created twice, keys never found, or a set that is permanently corrupted.
"use strict";

// Returns the kinds of recordings, each as a function that generates a random recording. The arguments are functions of verdicts.js that draw random numbers or
// imitate a sequential set.
module.exports = ({ draw, pick, replyOf, keysAfter, paddingAfter }) => {
  // Generates calls on some keys. The calls return the replies of a sequential set, except for a few wrong replies.
  function simulated({ keys, threads, count, opening, faults, rate, pending, operations, gap, start, thread0 }) {
    const calls = [];
    let set = [...opening];
    const open = new Map();
    const history = [set];
    let moment = start;
    const next = () => { moment += gap(); return moment; };
    let names = Array.from({ length: threads }, (_, at) => thread0 + at);
    let fresh = thread0 + threads;
    const take = (call) => {
      call.reply = replyOf(call, set, true);
      set = call.reply === "true" && call.operation !== "contains" ? keysAfter(call, set) : set;
      call.taken = true;
      history.push(set);
    };
    while (calls.length < count || open.size > 0) {
      const idle = names.filter((thread) => !open.has(thread));
      if (calls.length < count && idle.length > 0 && (open.size === 0 || draw(5) < 3)) {
        const call = { thread: pick(idle), operation: pick(operations), key: pick(keys), begun: next(), ended: null, reply: null };
        calls.push(call);
        open.set(call.thread, call);
        if (draw(3) === 0) take(call);
      } else {
        const call = pick([...open.values()]);
        open.delete(call.thread);
        if (draw(100) < pending) {
          if (draw(2) === 0 && !call.taken) take(call);
          call.reply = null;
          names = names.map((name) => (name === call.thread ? fresh : name));
          fresh++;
          continue;
        }
        if (!call.taken) take(call);
        if (draw(100) < rate) fault(pick(faults), call);
        call.ended = next();
      }
      if (draw(100) < rate / 4 && faults.includes("gone")) set = set.includes(keys[0]) ? set.filter((key) => key !== keys[0]) : [...set, keys[0]].sort((a, b) => a - b);
    }
    function fault(kind, call) {
      if (kind === "reply") call.reply = call.reply === "true" ? "false" : "true";
      if (kind === "read" && call.operation === "contains") call.reply = call.reply === "true" ? "false" : "true";
      if (kind === "miss" && call.operation === "contains") call.reply = "false";
      if (kind === "find" && call.operation === "contains") call.reply = "true";
      if (kind === "twice" && call.operation !== "contains") call.reply = "true";
      if (kind === "refuse" && call.operation !== "contains") call.reply = "false";
      if (kind === "lose") set = set.filter((key) => key !== call.key);
      if (kind === "back" && !set.includes(call.key)) set = [...set, call.key].sort((a, b) => a - b);
      if (kind === "undo") set = history[Math.max(0, history.length - 1 - draw(4))];
    }
    for (const call of calls) delete call.taken;
    return { calls, set, moment, fresh };
  }

  const FAULTS = ["reply", "read", "miss", "find", "twice", "refuse", "lose", "back", "undo", "gone"];
  const BUGS = ["add wrong", "remove wrong", "contains wrong", "stale", "true", "add lost", "remove lost", "lose", "back", "other", "undo"];
  const someFaults = () => (draw(3) === 0 ? FAULTS : [pick(FAULTS)]);

  function recordingOf(calls, opening, keys, padding = []) {
    calls.sort((one, other) => one.begun - other.begun);
    opening = [...opening].sort((one, other) => one - other);
    keys = keys === null ? null : [...new Set(keys)].sort((one, other) => one - other);
    const lines = [...calls, ...padding].sort((one, other) => one.begun - other.begun)
      .map(({ thread, operation, key, begun, ended, reply }) => `call ${thread} ${operation} ${key} ${begun} ${ended ?? "-"} ${reply ?? "-"}`);
    const ends = keys === null ? ["cut"] : [...keys.map((key) => `key ${key}`), "end"];
    const text = ["listset-calls 1", ...opening.map((key) => `opening ${key}`), ...lines, ...ends, ""].join("\n");
    return { calls, padding, opening, keys, quota: Infinity, text };
  }

  const leftWith = (set) => (draw(6) === 0 ? null : draw(8) === 0 ? (set.includes(5) ? set.filter((key) => key !== 5) : [5, ...set]) : set);
  const short = () => 1 + draw(3);

  // Returns a recording in which the first two adds of each key overlap. Both return true if `areBothTrue` returns true. Then `later()` correct calls of the key
  // follow one another.
  function firstCalls(keys, later, areBothTrue) {
    const [calls, left] = [[], []];
    let moment = 0;
    for (let key = 1; key <= keys; key++) {
      const [both, present] = [areBothTrue(), [[], [key]]];
      calls.push({ thread: 0, operation: "add", key, begun: moment + 1, ended: moment + 4, reply: String(both) }, { thread: 1, operation: "add", key, begun: moment + 2, ended: moment + 3, reply: "true" });
      moment += 4;
      let isPresent = true;
      for (let count = later(); count > 0; count--) {
        const operation = pick(["add", "remove", "contains"]);
        const reply = replyOf({ operation, key }, present[Number(isPresent)], true);
        if (reply === "true" && operation !== "contains") isPresent = !isPresent;
        calls.push({ thread: draw(3), operation, key, begun: ++moment, ended: ++moment, reply });
      }
      if (isPresent) left.push(key);
    }
    return recordingOf(calls, [], left);
  }

  // Generates calls of several threads on some keys. `replyTo` returns the reply to a call, given the call, the set and the pending calls. `replyTo` can also
  // return a function that is called when the call ends.
  function madeBy(keys, count, replyTo, threads = 3, starts = 2, operations = ["add", "remove", "add", "remove", "contains"]) {
    const [calls, open, present] = [[], [], new Set()];
    const set = {
      has: (key) => present.has(key),
      put: (key, isPresent) => (isPresent ? present.add(key) : present.delete(key)),
      take: ({ operation, key }) => {
        const reply = String(present.has(key) !== (operation === "add"));
        if (operation !== "contains") set.put(key, operation === "add");
        return reply;
      },
    };
    const take = (call) => {
      const made = replyTo({ call, set, open });
      const [reply, atEnd] = Array.isArray(made) ? made : [made, () => {}];
      Object.assign(call, { reply, atEnd, taken: true });
    };
    let moment = 0;
    while (calls.length < count * keys.length || open.length > 0) {
      moment++;
      const idle = [0, 1, 2, 3].slice(0, threads).filter((thread) => !open.some((call) => call.thread === thread));
      if (calls.length < count * keys.length && idle.length > 0 && (open.length === 0 || draw(3) < starts)) {
        calls.push({ thread: pick(idle), operation: pick(operations), key: pick(keys), begun: moment, ended: null, reply: null });
        open.push(calls.at(-1));
        if (draw(2) === 0) take(calls.at(-1));
      } else {
        const [call] = open.splice(draw(open.length), 1);
        if (!call.taken) take(call);
        call.atEnd();
        call.ended = moment;
      }
    }
    for (const call of calls) { delete call.taken; delete call.atEnd; }
    return recordingOf(calls, [], [...present]);
  }

  return [
    function dense() {
      const opening = draw(2) === 0 ? [5] : [];
      const { calls, set, moment } = simulated({ keys: [5], threads: 2 + draw(3), count: 3 + draw(8), opening, faults: someFaults(), rate: 20 + draw(40), pending: draw(3) === 0 ? 15 : 0, operations: ["add", "remove", "contains"], gap: () => 1, start: 0, thread0: 0 });
      return recordingOf(calls, opening, leftWith(set), draw(2) === 0 ? paddingAfter(moment).map((call) => ({ ...call, thread: 50 })) : []);
    },
    function three() {
      const all = [0, 5, 4294967295];
      const opening = all.filter(() => draw(3) === 0);
      const { calls, set } = simulated({ keys: all, threads: 3 + draw(2), count: 6 + draw(12), opening, faults: someFaults(), rate: 10 + draw(30), pending: draw(3) === 0 ? 10 : 0, operations: ["add", "remove", "contains"], gap: short, start: 0, thread0: 0 });
      return recordingOf(calls, opening, leftWith(set));
    },
    function alone() {
      const operations = pick([["contains"], ["add"], ["remove"], ["add", "remove"], ["add", "contains"], ["remove", "contains"]]);
      const opening = draw(2) === 0 ? [5] : [];
      const { calls, set, moment } = simulated({ keys: [5], threads: 1 + draw(3), count: 1 + draw(11), opening, faults: someFaults(), rate: 30, pending: draw(4) === 0 ? 15 : 0, operations, gap: short, start: 0, thread0: 0 });
      return recordingOf(calls, opening, leftWith(set), draw(2) === 0 ? paddingAfter(moment).map((call) => ({ ...call, thread: 50 })) : []);
    },
    function blocks() { // many keys, each with a short run of its own; enough calls and answers for a guess about the cause
      const many = 5 + draw(8);
      const faults = someFaults();
      const [rate, sequential, alike, threads] = [20 + draw(60), draw(2) === 0, draw(2) === 0, 1 + draw(3)];
      const operations = pick([["add", "remove", "contains"], ["add", "remove", "contains", "contains"], ["add", "contains"], ["add", "remove"]]);
      const [calls, opening, left] = [[], [], []];
      let start = 0;
      for (let key = 1; key <= many; key++) {
        const its = draw(4) === 0 ? [key] : [];
        const made = simulated({ keys: [key], threads, count: alike ? 7 : 4 + draw(6), opening: its, faults: draw(3) === 0 ? [] : faults, rate: draw(3) === 0 ? 0 : rate, pending: draw(8) === 0 ? 8 : 0, operations, gap: () => (sequential ? 1 : 1 + draw(9)) * 16, start, thread0: key * 10 });
        calls.push(...made.calls.map((call) => ({ ...call, begun: call.begun + key, ended: call.ended === null ? null : call.ended + key })));
        if (sequential) start = made.moment + 16;
        opening.push(...its);
        left.push(...made.set);
      }
      if (draw(4) === 0) { opening.push(90); if (draw(3) > 0) left.push(90); }
      return recordingOf(calls, opening, draw(6) === 0 ? null : left);
    },
    function beside() { // changes of other keys run all the time
      const opening = draw(2) === 0 ? [5] : [];
      const made = simulated({ keys: [5], threads: 2 + draw(2), count: 3 + draw(6), opening, faults: someFaults(), rate: 30, pending: draw(5) === 0 ? 10 : 0, operations: ["add", "remove", "contains"], gap: () => 4 * (1 + draw(3)), start: 1, thread0: 0 });
      const others = simulated({ keys: [3, 8], threads: 2, count: 10 + draw(14), opening: [], faults: [], rate: 0, pending: draw(5) === 0 ? 5 : 0, operations: ["add", "remove"], gap: () => 2 * (1 + draw(3)), start: 2, thread0: 20 });
      const calls = [...made.calls.map((call) => ({ ...call, begun: call.begun * 2, ended: call.ended === null ? null : call.ended * 2 })), ...others.calls.map((call) => ({ ...call, begun: call.begun * 2 + 1, ended: call.ended === null ? null : call.ended * 2 + 1 }))];
      return recordingOf(calls, opening, draw(6) === 0 ? null : [...made.set, ...others.set]);
    },
    function gaps() { // long times between calls, and huge moments
      const opening = draw(2) === 0 ? [5] : [];
      const { calls, set } = simulated({ keys: [5, 7], threads: 3, count: 3 + draw(7), opening, faults: someFaults(), rate: 30, pending: draw(4) === 0 ? 10 : 0, operations: ["add", "remove", "contains"], gap: () => pick([1, 2, 99, 100, 101, 150, 5000, 1e9, 2e9, 1e12]), start: pick([0, 1e15, 3]), thread0: 0 });
      return recordingOf(calls, opening, leftWith(set));
    },
    function wrong() { // a set with up to three bugs, on all keys or on one; some threads have long numbers
      const [many, all, count] = [pick([1, 2, 3, 5, 8]), pick([1, 2, 3, 4, 6]), 8 + draw(12)];
      const keys = [1, 2, 5, 6, 9, 20, 21, 30].slice(0, many);
      const bugs = new Map([1, 2, 3].slice(draw(3)).map(() => [pick(BUGS), pick([1, 3, 8, 20])]));
      const [hot, operations, length] = [draw(3) === 0 ? pick(keys) : null, pick([["add", "remove", "contains"], ["add", "remove"], ["add", "remove", "contains", "contains", "contains"]]), 1 + draw(6)];
      const opening = keys.filter(() => draw(3) === 0);
      const [set, calls, open, before] = [new Set(opening), [], [], [new Set(opening)]];
      const names = Array.from({ length: all }, (_, at) => (draw(6) === 0 ? 100000 + at : at));
      let moment = 0;
      const has = (bug, key) => (hot === null || hot === key) && bugs.has(bug) && draw(100) < bugs.get(bug);
      const take = (call) => {
        const { operation, key } = call;
        let is = (set.has(key) !== (operation === "add")) !== has(`${operation} wrong`, key);
        if (operation === "contains" && has("stale", key)) is = before[Math.max(0, before.length - 1 - draw(4))].has(key);
        if (operation !== "contains" && has("true", key)) is = true;
        if (operation === "add" && !has("add lost", key)) set.add(key);
        if (operation === "remove" && !has("remove lost", key)) set.delete(key);
        if (has("lose", key)) set.delete(key);
        if (has("back", key)) set.add(key);
        if (has("other", key)) set.delete(pick(keys));
        if (has("undo", key)) for (const one of keys.filter(() => draw(2) === 0)) before[Math.max(0, before.length - 2)].has(one) ? set.add(one) : set.delete(one);
        Object.assign(call, { reply: String(is), taken: true });
        before.push(new Set(set));
      };
      while (calls.length < count * many || open.length > 0) {
        moment++;
        const idle = names.filter((thread) => !open.some((call) => call.thread === thread));
        if (calls.length < count * many && idle.length > 0 && (open.length === 0 || draw(length + 1) < length)) {
          calls.push({ thread: pick(idle), operation: pick(operations), key: pick(keys), begun: moment, ended: null, reply: null });
          open.push(calls.at(-1));
          if (draw(2) === 0) take(calls.at(-1));
        } else {
          const [call] = open.splice(draw(open.length), 1);
          if (!call.taken) take(call);
          call.ended = moment;
        }
      }
      for (const call of calls) delete call.taken;
      return recordingOf(calls, opening, draw(4) === 0 ? null : [...set]);
    },
    function refusing() { // adds and removes, or only one of them, return false without effect while another call of the set runs
      const [keys, operations] = [[1, 2, 5, 6, 9, 12, 14].slice(draw(2)), pick([["add", "remove"], ["add", "remove"], ["add", "remove"], ["add"], ["remove"]])];
      const [isBeside, rate] = [draw(3) > 0, 50 + draw(50)];
      return madeBy(keys, 13, ({ call, set, open }) => {
        const isMet = open.some((one) => one !== call && one.operation !== "contains" && (one.key !== call.key) === isBeside);
        if (operations.includes(call.operation) && isMet && draw(100) < rate) return "false";
        return set.take(call);
      }, 2, 1);
    },
    function doubled() { // overlapping adds both insert the key, and a remove deletes one of the two
      const counts = new Map();
      return madeBy([1, 2, 5, 6].slice(draw(2)), 22, ({ call, set, open }) => {
        const count = counts.get(call.key) ?? 0;
        const isAlso = call.operation === "add" && open.some((one) => one !== call && one.key === call.key && one.operation === "add" && one.taken);
        if (call.operation === "add" && (count === 0 || isAlso)) counts.set(call.key, count + 1);
        if (call.operation === "remove" && count > 0) counts.set(call.key, count - 1);
        const reply = call.operation === "add" ? count === 0 || isAlso : count > 0;
        set.put(call.key, (counts.get(call.key) ?? 0) > 0);
        return String(reply);
      });
    },
    function inside() { // a call that overlaps a change of its key restores the state at the call's start, once or twice in many calls
      let left = 2;
      return madeBy([1, 2], 350, ({ call, set }) => {
        const saw = set.has(call.key);
        return [set.take(call), () => {
          if (left === 0 || set.has(call.key) === saw || call.reply !== "false" || call.operation === "contains") return;
          left--;
          set.put(call.key, saw);
        }];
      });
    },
    function growing() { // a set that grows; some changes are lost while it is copied
      const [calls, set, count] = [[], new Set(), 70 + draw(30)];
      let moment = 0;
      const make = (thread, operation, key, length) => {
        const reply = String(set.has(key) !== (operation === "add"));
        if (operation === "add") set.add(key);
        if (operation === "remove") set.delete(key);
        calls.push({ thread, operation, key, begun: ++moment, ended: (moment += length), reply });
      };
      for (let key = 1; key <= count; key++) {
        make(draw(3), "add", key, 1 + draw(3));
        if (draw(12) === 0) { // another call overlaps the add
          const last = calls.at(-1);
          calls.push({ thread: 7, operation: "add", key: key + 1000, begun: last.begun + 0.5, ended: ++moment, reply: "true" });
          set.add(key + 1000);
          if (draw(2) === 0) set.delete(key);
        }
        for (let left = draw(4); left > 0; left--) make(draw(3), pick(["contains", "contains", "remove"]), 1 + Math.max(0, key - 1 - draw(40)), 1 + draw(3));
      }
      const at = new Map([...calls.flatMap(({ begun, ended }) => [begun, ended])].sort((one, other) => one - other).map((one, place) => [one, place + 1]));
      return recordingOf(calls.map((call) => ({ ...call, begun: at.get(call.begun), ended: at.get(call.ended) })), [], [...set]);
    },
    function unlinked() { // a remove that overlaps another remove leaves its node linked: adds of the key fail from then on
      const stuck = new Set();
      return madeBy([1, 2], 75, ({ call, set, open }) => {
        if (call.operation === "add" && stuck.has(call.key)) return "false";
        const reply = set.take(call);
        const isMet = open.some((one) => one !== call && one.key !== call.key && one.operation === "remove" && one.reply !== "false");
        if (call.operation === "remove" && reply === "true" && isMet && stuck.size === 0) stuck.add(call.key);
        return reply;
      });
    },
    function outlasted() { // an add that another call outlasts can return false without effect
      return madeBy([1, 2, 5, 6, 9], 55, ({ call, set, open }) => {
        const isOutlasted = !open.includes(call) && open.some((one) => one.begun < call.begun); // (the call ends now)
        return call.operation === "add" && isOutlasted && draw(10) > 0 ? "false" : set.take(call);
      }, 2, 1);
    },
    function swapped() { // two calls on different keys return each other's reply
      const it = madeBy([1, 2, 5], 20, ({ call, set }) => set.take(call));
      const isPair = (one, two) => one.key !== two.key && one.operation !== two.operation && one.thread !== two.thread && one.reply !== two.reply && one.begun < two.ended && two.begun < one.ended;
      const pairs = it.calls.flatMap((one) => it.calls.filter((two) => one.begun < two.begun && isPair(one, two)).map((two) => [one, two]));
      if (pairs.length > 0) {
        const [one, two] = pick(pairs);
        [one.reply, two.reply] = [two.reply, one.reply];
      }
      return recordingOf(it.calls, it.opening, it.keys);
    },
    function ownCopies() { // each thread reads a copy that only its own changes refresh
      const copies = new Map();
      const keys = [1, 2, 5, 6];
      return madeBy(keys, 60, ({ call, set }) => {
        if (call.operation === "contains") return String((copies.get(call.thread) ?? []).includes(call.key));
        const reply = set.take(call);
        copies.set(call.thread, keys.filter((key) => set.has(key)));
        return reply;
      }, 4, 2, ["add", "remove", "contains", "contains"]);
    },
    function firsts() { // the first two adds of a key overlap, and some of these pairs both return true
      return firstCalls(6, () => 15, () => draw(3) > 0);
    },
    function manyFirsts() { // more than 400 contradictions: the first two adds of each of many keys overlap, and both return true
      return firstCalls(405 + draw(30), () => 4 + draw(5), () => true);
    },
    function neverFound() { // a key that is added is never found
      return madeBy([1, 2, 5, 6].slice(draw(2)), 20, ({ call, set }) => {
        if (call.key < 5) return set.take(call);
        return String(call.operation === "add");
      }, 2, 1);
    },
    function broken() { // from one moment on, all replies are arbitrary
      let calls = 0;
      return madeBy([1, 2, 3, 4, 5, 6, 7, 8, 9, 10], 22, ({ call, set }) => {
        calls++;
        return calls > 105 ? String(draw(2) === 0) : set.take(call);
      }, 2, 1);
    },
    function borrowed() { // a call returns the reply that was stored last, perhaps by another thread
      let last = null;
      const isAll = draw(2) === 0;
      return madeBy([1, 2, 5, 6], isAll ? 20 : 60, ({ call, set }) => {
        last = set.take(call);
        return [last, () => { if (isAll || call.operation === "contains") call.reply = last; }];
      }, 3, 2, ["add", "remove", "contains"]);
    },
    function ends() { // opening and final keys, few calls or none
      const all = [1, 5, 7, 9];
      const opening = all.filter(() => draw(2) === 0);
      const left = draw(5) === 0 ? null : opening.filter(() => draw(5) > 0).concat(all.filter(() => draw(8) === 0));
      const { calls, set } = simulated({ keys: [5], threads: 2, count: draw(4), opening, faults: someFaults(), rate: 30, pending: 10, operations: ["add", "remove", "contains"], gap: short, start: 0, thread0: 0 });
      const its = left === null ? null : [...new Set(left)].filter((key) => key !== 5).concat(set.includes(5) === (draw(5) > 0) ? [5] : []);
      return recordingOf(calls, opening, its);
    },
  ];
};
