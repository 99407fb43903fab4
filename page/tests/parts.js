// Usage: `node tests/parts.js`. Checks those parts of the page that need no browser, such as sentences, addresses and stored data. Uses the committed
// WebAssembly module.
"use strict";

const { createHash } = require("crypto");
const fs = require("fs");
const path = require("path");
const { inPage, startedEngine } = require("../in_node.js");
const { contrastsOf } = require("./colours.js");

const folder = path.dirname(__dirname);
const result = { passed: 0, failed: [] };

function check(name, isGood) {
  if (isGood) result.passed++;
  else result.failed.push(name);
}

const traceOf = (engine, schedule) =>
  new (inPage("Trace"))(engine.ask("listset_trace", schedule).text, inPage("versionOf")(schedule));
const withoutTags = (text) => text.replace(/<[^>]*>/g, "");

// Checks that the text about each example contains a question and an answer, and that each deciding event has a sentence.
function checkTurns(engine) {
  for (const [name, { question, turnsOn, without, turns }] of Object.entries(inPage("CLASSICS"))) {
    check(`${name}: it has a question, and what it turns on`, question.endsWith("?") && turnsOn.length > 40 && turns.length > 1);
    check(`${name}: what is said of it leads to nothing below it`, turnsOn.endsWith(".") && without.endsWith("."));
    const told = sentencesOf(engine, engine.ask("listset_example", name).text);
    check(`${name}: it turns at events that it has`, turns.every((event) => told[event - 1]?.length > 20));
  }
}

function sentencesOf(engine, schedule) {
  const trace = traceOf(engine, schedule);
  const state = new (inPage("State"))(trace);
  return trace.events().map((_, index) => withoutTags(inPage("sentenceOf")(inPage("momentAt")(state, index + 1))));
}

// Checks sentences that generated runs rarely contain. (tests/sentences.js checks all others.)
function checkSentences(engine) {
  const last = (kind, quota, ...lines) =>
    sentencesOf(engine, ["listset-schedule 1", `list ${kind}`, "threads 2", `quota ${quota}`, ...lines, ""].join("\n")).pop();
  const wanted = [
    ["with a key above 5. It will answer full: it has no slot.", "coarse", 0, "begin 0 add 5", "go 0 3"],
    ["The second walk reaches pred, n2.", "optimistic", 4, "begin 0 add 5", "go 0 10", "begin 0 add 7", "go 0 8"],
    ["The validation succeeds. It will answer false.", "lazy", 4, "begin 0 add 5", "go 0 11", "begin 1 add 5", "go 1 6"],
    ["tail, marked. n2 is marked already: the next step will fail.", "lock-free", 4, "begin 0 add 5", "go 0 6", "begin 0 remove 5", "go 0 3",
      "begin 1 remove 5", "go 1 5", "go 0 1"],
  ];
  for (const [end, ...run] of wanted) check(`${end} is not how this ends: ${last(...run)}`, last(...run).endsWith(end));
}

const RUN_17 = "9e6e9361cbb54bb9"; // the checksum of the schedule at #seed=lazy.2.5.2.17
const refusalOf = (hash) => refusalBy(() => inPage("readAddress")(hash));

const refusalBy = (deed) => {
  try {
    deed();
    return "";
  } catch (fault) {
    return fault.message;
  }
};

// Checks each link to a run on the pages made from docs/. The address in the link must be valid, and the run must have the event that the link names.
function checkDocs(engine) {
  const lengthOf = (line) => (line.startsWith("go ") ? Number(line.split(" ")[2]) : Number(line.startsWith("begin ")));
  for (const page of ["how-it-works", "classic", "tables"]) {
    const links = fs.readFileSync(path.join(folder, `${page}.html`), "utf8").matchAll(/href="index\.html(#(?:example|list)=[^"]+)"/g);
    const addresses = [...links].map(([, hash]) => inPage("readAddress")(hash.replaceAll("&amp;", "&")));
    check(`${page}.html leads into runs`, addresses.length > 20);
    for (const { example, text, event } of addresses) {
      const lines = (example === null ? text : engine.ask("listset_example", example).text).split("\n");
      const events = lines.map(lengthOf).reduce((sum, length) => sum + length);
      check(`${page}.html: ${example ?? text} has no event ${event}`, event <= events);
    }
  }
}

// Checks that each link to a page made from docs/ leads to an existing page and heading. One of the links must lead to the table of progress.
function checkRead() {
  const text = fs.readFileSync(path.join(folder, "index.html"), "utf8");
  const links = Array.from(text.matchAll(/href="(\w[\w-]*\.html(?:#[^"]+)?)"/g), ([, href]) => href);
  check("Read leads to the table of progress", links.includes("tables.html#progress"));
  for (const link of links) {
    const [file, heading] = link.split("#");
    const there = path.join(folder, file);
    const isThere = fs.existsSync(there) && (heading === undefined || fs.readFileSync(there, "utf8").includes(` id="${heading}"`));
    check(`Read, Compare: ${link} leads nowhere`, isThere);
  }
}

// Checks that the number of a numbered run always selects the same run, and that this run is small enough to judge. The numbered run in README.md must not
// change. Also checks a large run, and the errors for addresses without a run.
function checkSeeds(engine) {
  const ask = (name, ...texts) => engine.ask(name, ...texts);
  for (const kind of Object.keys(inPage("LISTS"))) {
    for (const number of [1, 2, 17, 999999999]) {
      const text = inPage("scheduleOfSeed")(ask, inPage("seedOf")(kind, number));
      const { refused, total, calls } = traceOf(engine, text);
      check(`run ${number} of ${kind}: ${total} events`, refused === null && total > 20 && total <= 60 && calls.length === 5);
      check(`run ${number} of ${kind} again`, inPage("scheduleOfSeed")(ask, inPage("seedOf")(kind, number)) === text);
    }
  }
  const own = inPage("scheduleOfSeed")(ask, "lazy.2.5.2.17");
  const sum = createHash("sha256").update(own).digest("hex").slice(0, 16);
  check(`run 17 is another than it was: ${sum}`, sum === RUN_17);
  const many = inPage("scheduleOfSeed")(ask, "coarse.64.99.99.1");
  check("a large run is there at once", many.includes("threads 64\n"));
  const fault = refusalBy(() => inPage("scheduleOfSeed")(ask, "lazy.0.5.2.1"));
  check(`a run without threads is told: ${fault}`, fault.startsWith("the address names no run: "));
  const stopped = (name, ...texts) => (name === "listset_trace" ? { status: 3, text: "listset: out of memory\n" } : ask(name, ...texts));
  const trouble = refusalBy(() => inPage("scheduleOfSeed")(stopped, "lazy.2.5.2.17"));
  check(`nor one without a trace: ${trouble}`, trouble === "the run of the address has no trace: listset: out of memory");
}

const HEAD = "listset-schedule 2\nlist coarse\nthreads 2\nquota 4\n";

// Checks that the page explains an error in a text with the program's sentence about the cause of the error.
function checkFaults(engine) {
  const ask = (name, ...texts) => engine.ask(name, ...texts);
  const saidOf = (text) => inPage("scheduleOfDraft")(ask, text).fault ?? ask("listset_trace", text).text;
  const told = (cause) => inPage("sentenceOn")(ask, cause, "a schedule", "a draft");
  const waits = `${HEAD}begin 0 add 5\ngo 0 1\nbegin 1 add 6\ngo 1 out\n`;
  const faults = { Number: `${HEAD}begin 0 add 05\n`, Idle: `${HEAD}go 0 1\n`, Waits: waits };
  for (const [cause, text] of Object.entries(faults)) {
    const [, found] = /^(?:listset:|refused) line \d+:? (\w+)$/m.exec(saidOf(text)) ?? [];
    check(`${cause}: ${saidOf(text).slice(0, 200)}`, found === cause && told(cause) !== null);
  }
  check("a sentence", told("Number") === "expected a number in range, without sign or leading zero: 5, not +5 or 05");
  check("no sentence", ["", null, "History", "Expected"].every((cause) => told(cause) === null));
  const ofOther = ask("listset_lacking", "lock", HEAD.replace("coarse", "lazy"), "trace").text;
  check(`a broken list is of one kind: ${ofOther}`, ofOther === "listset: line 2: Kind\n");
}

// Checks that each form of address in README.md is valid.
function checkForms() {
  const table = fs.readFileSync(path.join(folder, "README.md"), "utf8").split("| Address |")[1].split("\n\n")[0];
  const cells = [...table.matchAll(/^\|([^|]*)\|/gm)].map(([, cell]) => cell);
  const forms = cells.flatMap((cell) => [...cell.matchAll(/`([#&][^`]+)`/g)].map(([, form]) => form.replace("..", "A")));
  check("README.md has the forms of addresses", forms.length > 15);
  for (const form of forms) {
    const base = form.startsWith("#") ? form : `#list=lazy&threads=2&quota=4${form === "&judge" ? "&s=b0.add.5" : ""}${form}`;
    const isScene = inPage("slideOf")(base) > 0 || inPage("sceneOfHash")(base) !== null;
    const refusal = isScene ? "" : refusalOf(base);
    check(`${form} is an address: ${refusal}`, refusal === "");
  }
}

// Checks that the address of a text contains the whole text, byte by byte, and that the error for a wrong address names the wrong part.
function checkAddresses(engine, texts) {
  const addressOf = inPage("addressOf");
  const readAddress = inPage("readAddress");
  for (const text of texts) {
    const address = addressOf(text, 3);
    const back = address === null ? {} : readAddress(address);
    check(`the address of ${text.slice(0, 200)}`, back.text === text && back.event === 3 && back.example === null);
  }
  const opened = "listset-schedule 2\nlist lazy\nthreads 1\nquota 1\nopening 5\nopening 9\nbegin 0 remove 5\ngo 0 10\n";
  check("its form", addressOf(opened, 12) === "#list=lazy&threads=1&quota=1&opening=5.9&s=b0.remove.5,g0.10&event=12");
  const second = "listset-schedule 2\nlist coarse\nthreads 1\nquota 4\nbegin 0 add 5\n";
  check("a version without need", addressOf(second, 0) === "#list=coarse&threads=1&quota=4&version=2&s=b0.add.5&event=0");
  const lines = ["go 0 1", "# a word\n", "go  0 1\n", "opening 5\n"].map((line) => second + line);
  for (const text of ["", "listset-schedule 1\n", ...lines, second.replace("coarse", "a&b")]) {
    check(`no address of ${JSON.stringify(text)}`, addressOf(text, 0) === null);
  }
  const long = second + "go 0 1\n".repeat(20000);
  check("nor of a long one", addressOf(long, 0) === null);
  const example = readAddress("#example=snip&event=17");
  check("an example", example.example === "snip" && example.event === 17 && example.text === null);
  check("nothing", readAddress("").text === null && readAddress("#").example === null);
  check("a part that is none", refusalOf("#exmaple=snip") === 'the address has an unknown part "exmaple"');
  check("a part twice", refusalOf("#list=lazy&list=fine") === 'the address has "list" twice');
  check("a bad line", refusalOf("#list=lazy&threads=2&quota=4&s=b0.add.5,x0.6").endsWith("is no s of an address"));
  check("a bad event", refusalOf("#example=snip&event=x") === '"x" is no event of an address');
  check("a part that is missing", refusalOf("#list=lazy&threads=2&s=b0.add.5") === 'the address has no "quota"');
  checkLacking(readAddress);
  check("two things", refusalOf("#example=snip&list=lazy") === 'the address names an example, and has "list" too');
}

// Checks that an address can name a broken list by its number or its name. The broken list must be of the kind in the address.
function checkLacking(readAddress) {
  for (const [at, [name, kind]] of Object.entries(inPage("LACKING")).entries()) {
    const named = [name, at + 1].map((which) => readAddress(`#list=${kind}&threads=2&quota=4&lacks=${which}`).lacks);
    check(`${name} by its name and number: ${named}`, named.every((one) => one === name));
  }
  const faults = {
    "#list=lazy&threads=2&quota=4&lacks=3": "lacks=3 is a broken FineList, and the address has list=lazy",
    "#list=fine&threads=2&quota=4&lacks=mark": "lacks=mark is a broken LockFreeList, and the address has list=fine",
    "#example=snip&lacks=mark": "lacks=mark is a broken LockFreeList, and the address has example=snip",
    "#break=3&lacks=1": "lacks=1 is a broken CoarseList, and the address has no list",
  };
  for (const which of ["0", "14", "luck", "Mark", "constructor"]) {
    const expected = `there is no broken list "${which}": expected 1 to 13, or a name that "listset show --help" prints`;
    faults[`#list=lazy&threads=2&quota=4&lacks=${which}`] = expected;
  }
  for (const [hash, fault] of Object.entries(faults)) check(`${hash}: ${refusalOf(hash)}`, refusalOf(hash) === fault);
}

// Checks at each event that the keys in the current box of the row "set" fit in the box. In the last box, the keys may cross the edge if the box is too narrow.
function checkContents(engine, texts) {
  const [scaleOf, drawContents] = ["scaleOf", "drawContents"].map(inPage);
  let boxes = 0;
  for (const trace of texts.map((text) => traceOf(engine, text))) {
    for (let count = 0; count <= trace.total; count++) {
      const drawn = drawContents(trace, scaleOf(trace, count, 860, true));
      const [, wide, given, text] = /class="content now"><title>[^<]*<\/title><rect [^>]*width="([\d.]+)"[^>]*><\/rect><text ([^>]*)>([^<]*)</.exec(drawn);
      if (text !== "" && !given.includes("over") && Number(wide) < 5 + 7 * text.length) check(`event ${count} of ${trace.text.slice(0, 100)}: ${text} in ${wide}`, false);
      boxes++;
    }
  }
  check("boxes of contents were drawn", boxes > 500);
}

// Checks that the traces in made/traces.js, used for the links in docs/, equal the engine's traces.
function checkTraces(engine, names) {
  const kept = fs.readFileSync(path.join(folder, "made", "traces.js"), "utf8");
  for (const name of names) {
    const own = engine.ask("listset_trace", engine.ask("listset_example", name).text).text;
    check(`the trace of ${name} in made/traces.js`, kept.includes(`"${name}": \`\n${own}\`.slice(1),`));
  }
}

const areApart = (one, other) => one.x + one.wide <= other.x + 1 || other.x + other.wide <= one.x + 1 || one.y + one.high <= other.y + 1 || other.y + other.high <= one.y + 1;
const ROOMS = [{ wide: 1280, high: 300 }, { wide: 900, high: 240 }, { wide: 351, high: 320 }];

// Checks the drawing at each event of the examples and of a run with many nodes. Everything must be within the edges of the stage. No node may cover another
// node, and no hand (the label of a thread) another hand.
function checkStage(engine, texts) {
  let hands = 0;
  for (const [text, size] of texts.flatMap((text) => ROOMS.map((size) => [text, size]))) {
    const trace = traceOf(engine, text);
    const state = new (inPage("State"))(trace);
    const lock = { coarse: "list", "lock-free": "" }[trace.kind] ?? "nodes";
    const room = { ...size, slots: 5, lock, hides: ["succ"] };
    const wrong = trace.events().flatMap((event, index) => {
      state.moveTo(index + 1);
      const list = inPage("arranged")(state, event, room);
      const { width, scale, form } = list.units;
      const height = Math.max(list.units.height, room.high / scale);
      const nodes = [...new Set(Object.values(list.places))].map(({ x, y, width: wide, row, aside }) => ({ x, y, wide, high: row, aside }));
      const all = [...nodes, ...list.hands.map((hand) => ({ ...hand, high: form.hand.height }))];
      hands += list.hands.length;
      const isIn = ({ x, y, wide, high }) => x >= -1 && y >= -1 && x + wide <= width + 1 && y + high <= height + 1;
      const overlaps = (many) => many.some((one, at) => many.slice(at + 1).some((other) => !areApart(one, other)));
      const isLow = nodes.some(({ aside }) => aside) && list.units.isLow; // nodes in the gaps of the chain are drawn a little lower
      const found = [all.every(isIn) ? "" : "outside", !isLow && overlaps(nodes) ? "nodes" : "", overlaps(all.slice(nodes.length)) ? "hands" : "", scale >= form.least ? "" : "small"];
      return found.filter((what) => what !== "").map((what) => `${what} at event ${index + 1}`);
    });
    check(`the stage of ${size.wide} pixels (${wrong.length}: ${wrong.slice(0, 5)}) of ${text.slice(0, 200)}`, wrong.length === 0);
  }
  check("hands were drawn", hands > 2000);
  const many = traceOf(engine, `listset-schedule 2\nlist lazy\nthreads 2\nquota 4\n${Array.from({ length: 40 }, (_, key) => `opening ${key}\n`).join("")}`);
  const { items, units } = inPage("arranged")(new (inPage("State"))(many), null, { ...ROOMS[0], slots: 5, lock: "nodes", hides: [] });
  check(`a long chain is folded: ${items.length}, ${units.width}`, items.length <= 14 && units.width * units.scale <= 1281 && items.some(({ names }) => names.length > 20));
}

// Returns a schedule for each list. In the schedule, five threads take turns of one to three steps, each in a call.
function crowded(engine) {
  const calls = ["add 5", "remove 5", "add 7", "contains 7", "remove 7"].map((call, thread) => `begin ${thread} ${call}`);
  const turns = Array.from({ length: 60 }, (_, turn) => `go ${(turn * 3) % 5} ${1 + (turn % 3)}`);
  return Object.keys(inPage("LISTS")).map((kind) => {
    const header = `listset-schedule 2\nlist ${kind}\nthreads 5\nquota 4\nopening 5\nopening 7\nopening 9\n`;
    return [...calls, ...turns].reduce((text, line) => longerBy(engine, text, line), header);
  });
}

// Appends a line to the text. Returns the text unchanged if the engine refuses the line.
function longerBy(engine, text, line) {
  const longer = `${text}${line}\n`;
  return engine.ask("listset_trace", longer).text.includes("\nrefused ") ? text : longer;
}

// Checks the line of the proved code that the page shows for each thread in a call. Before the call's first step, the line must begin a call. Before the
// last step, the line must be able to end a call. If `find` restarts its walk, the line must be in `find`. Each line that executes rows of a step table must
// occur at least once.
function checkListing(engine, texts) {
  const met = new Set();
  const wrong = texts.flatMap((text) => {
    const trace = traceOf(engine, text);
    const state = new (inPage("State"))(trace);
    return trace.events().flatMap((event, index) => {
      state.moveTo(index);
      return event.deed === "begin" ? [] : wrongLine(trace, event, state.threads[event.thread], met);
    });
  });
  check(`lines of the code that are not those of a step: ${wrong.slice(0, 5)}`, wrong.length === 0);
  const lines = Object.entries(inPage("more").CODE).flatMap(([file, functions]) =>
    functions.flatMap((code) => code.steps.map(({ line }) => `${file}:${line}`)));
  check(`lines at which no thread stood: ${lines.filter((line) => !met.has(line))}`, lines.every((line) => met.has(line)));
}

// Returns the errors in the line of code that is shown for a thread whose next event is `event`. (The ceilings of two lists have no code.)
function wrongLine(trace, event, held, met) {
  const { kind } = trace;
  const found = inPage("codeOf")(kind, held.call);
  if (found === null) return held.call.operation === "ceiling" && kind.startsWith("l") ? [] : [`${kind}: no code`];
  const { code, line, rows } = inPage("stepOf")(found.functions, held);
  const text = code.text.trimStart().split("\n")[line - code.first];
  met.add(`${found.file}:${line}`);
  const isAnswer = event.answer !== undefined;
  const isGood =
    rows.includes(held.pc) &&
    text.endsWith(`// row${rows.length > 1 ? "s" : ""} ${rows.join(", ")}`) &&
    (text.includes(".begin_") ? [0, held.pc].includes(held.came) : held.came !== 0) &&
    (isAnswer ? /_last\(|\.look_at_|\.exchange\(/.test(text) : !text.includes("_last(")) &&
    (held.pc !== 1 || held.came !== 3 || code.name === "find");
  return isGood ? [] : [`${kind}, event ${event.number}: row ${held.pc} at ${found.file}:${line}`];
}

// Checks that the next press of a thread after an event does not depend on the later events of the run.
function checkPresses(engine) {
  inPage("held").engine = engine;
  const LiveRun = inPage("LiveRun");
  let seed = 7;
  const draw = (many) => (seed = (seed * 48271) % 2147483647) % many;
  for (const screen of inPage("SCREENS").flatMap((one) => [one, ...(one.parts ?? [])])) {
    const { figure: { calls = {}, ...spec } } = screen;
    const run = new LiveRun(spec);
    const left = (one, thread) => calls[thread]?.slice(one.trace.calls.filter((call) => call.thread === thread && call.begun <= one.count).length) ?? [];
    const able = (one) => one.state.threads.map((_, thread) => thread).filter((thread) => !one.isIdle(thread) || left(one, thread).length > 0);
    for (let turn = 0; turn < 40 && able(run).length > 0; turn++) {
      const thread = able(run)[draw(able(run).length)];
      const { isBegin, steps } = run.nextOf(thread, left(run, thread)[0]);
      if (isBegin) run.begin(thread, left(run, thread)[0]);
      run.go(thread, steps);
    }
    for (let count = run.first.length === 0 ? 0 : run.trace.total >> 1; count <= run.trace.total; count++) {
      run.moveTo(count);
      const own = new LiveRun(spec);
      own.take(run.linesHere());
      const pressOf = (one, thread) => JSON.stringify({ ...one.nextOf(thread, left(one, thread)[0]), last: undefined });
      for (const thread of able(own)) check(`${screen.question}, event ${count}: the next press of ${thread}`, pressOf(run, thread) === pressOf(own, thread));
    }
  }
}

// Checks the contrast between each text and its backgrounds, both light and dark, and the contrast of the edges of buttons and fields.
function checkColours() {
  const sheet = ["page.css", "drawings.css"].map((name) => fs.readFileSync(path.join(folder, "style", name), "utf8")).join("");
  const contrasts = contrastsOf(sheet);
  check("colours were found", contrasts.length > 60);
  for (const { name, contrast, least } of contrasts) check(`${name}: a contrast of ${contrast.toFixed(2)}`, contrast >= least);
}

async function main() {
  const engine = await startedEngine();
  const names = Object.keys(inPage("CLASSICS"));
  checkTurns(engine);
  checkSentences(engine);
  checkTraces(engine, names);
  checkColours();
  const texts = names.map((name) => engine.ask("listset_example", name).text);
  checkAddresses(engine, texts);
  checkContents(engine, texts);
  checkForms();
  checkFaults(engine);
  checkSeeds(engine);
  checkDocs(engine);
  checkRead();
  checkPresses(engine);
  const crowds = crowded(engine);
  checkStage(engine, [...texts, ...crowds]);
  checkListing(engine, [...texts, ...crowds]);
  process.stdout.write(JSON.stringify(result));
}

main();
