// Tests the page's state without a browser: the actions, the visible parts, the address and the title.
"use strict";

const { inPage } = require("../in_node.js");

const { stateAtFirst, reduce, exampleIn, entryOf, factsOf, SEEN, addressIn, titleIn, readAddress, sceneOfHash, scheduleText, OWN_TASK } = inPage(
  "({ stateAtFirst, reduce, exampleIn, entryOf, factsOf, SEEN, addressIn, titleIn, readAddress, sceneOfHash, scheduleText, OWN_TASK })",
);
const result = { passed: 0, failed: [] };
const TEXT = "listset-schedule 1\nlist lock-free\nthreads 2\nquota 4\nbegin 0 add 5\n";
const GIVEN = { course: null };
const titleOfScene = () => "The one lock · Why not just one lock?";

function check(name, isGood) {
  if (isGood) result.passed++;
  else result.failed.push(name);
}

const traceOf = (text) => ({ refused: null, total: text.split("\n").length - 5, kind: "lock-free" });

// Returns a state of the page with `text` as the schedule of `task`.
function shown(task, text, count = 1) {
  const actions = [["task", { task }], ["run", { text }], ["trace", { trace: traceOf(text), state: {}, count }]];
  return actions.reduce((state, [type, given]) => reduce(state, { type, ...given }), stateAtFirst());
}

const EXAMPLE = { kind: "example", id: "snip" };

// Returns a state of the page that shows a scene and the scene's run.
function atScene(activity, id, text = "", given = {}) {
  const state = reduce(shown(EXAMPLE, TEXT), { type: "place", activity, screen: "scene", id, given });
  return reduce(state, { type: "scene", text });
}

function checkReducer() {
  const own = shown(EXAMPLE, TEXT);
  const other = shown(EXAMPLE, `${TEXT}go 0 1\n`, 9);
  check("an example is one", exampleIn(own) === "snip");
  check("a count stays within its run", other.run.count === 2 && reduce(other, { type: "count", count: -3 }).run.count === 0);
  const judged = reduce(own, { type: "exercise", exercise: { level: "points" } });
  check("an exercise is of the activity Judge", judged.place.activity === "judge");
  check("another trace ends it", shown(EXAMPLE, TEXT).exercise === null);
  check("a run leaves the scene", reduce(atScene("ask", "snip"), { type: "task", task: EXAMPLE }).place.screen === "stage");
  check("a scene begins anew", reduce(atScene("break", "3", TEXT), { type: "place", activity: "break", screen: "scene", id: "4" }).scene.text === "");
  check("a state is not changed", own.run.count === 1 && own.place.activity === "watch");
  let isRefused = false;
  try {
    reduce(own, { type: "nosuch" });
  } catch {
    isRefused = true;
  }
  check("an action that there is not", isRefused);
  check("a step is no entry of the history", entryOf(own) === entryOf(other) && entryOf(own) !== entryOf(atScene("ask", "snip")));
}

function seenIn(state) {
  const facts = factsOf(state);
  return Object.keys(SEEN).filter((id) => SEEN[id](facts));
}

function checkSeen() {
  const has = (state, ids) => ids.every((id) => seenIn(state).includes(id));
  const own = shown(EXAMPLE, TEXT);
  check("a question", has(own, ["question-box", "go-on-here", "past", "stage", "bench"]) && !has(own, ["scene"]));
  const judged = reduce(own, { type: "exercise", exercise: { level: "points" } });
  check("an exercise hides the history and the question", has(judged, ["judge", "stage"]) && !["past", "question-box"].some((id) => has(judged, [id])));
  const slide = reduce(own, { type: "view", view: "lecture" });
  check("a slide", has(slide, ["task", "stage", "past", "leave"]) && !["top", "go-on-here", "said"].some((id) => has(slide, [id])));
  const scene = atScene("story", "2");
  check("a scene", has(scene, ["scene", "top"]) && !["bench", "task", "stage", "workshop"].some((id) => has(scene, [id])));
  check("a frame", !has(reduce(scene, { type: "view", view: "embed" }), ["top"]) && !has(reduce(scene, { type: "view", view: "embed" }), ["leave"]));
}

function checkAddresses() {
  const start = scheduleText({ list: "lock-free", threads: 2, quota: 2, opening: [3, 7] });
  const states = {
    "#example=snip&event=1": shown(EXAMPLE, TEXT),
    "#learn=one-lock&list=lock-free&threads=2&quota=4&s=b0.add.5&event=1": atScene("learn", "one-lock", TEXT),
    "#break=8": atScene("break", "8"),
    "#break=8&list=lock-free&threads=2&quota=2&opening=3.7&s=b0.add.5&event=1": atScene("break", "8", `${start}begin 0 add 5\n`),
    "#seed=lazy.2.5.2.17&event=1": shown({ kind: "seed", id: "lazy.2.5.2.17" }, TEXT),
    "#list=lock-free&threads=2&quota=4&s=b0.add.5&event=1": shown(OWN_TASK, TEXT),
    "#learn": atScene("learn", ""),
    "#compare": atScene("compare", ""),
    "#read": atScene("read", ""),
    "#example=snip&event=1&judge": reduce(shown(EXAMPLE, TEXT), { type: "exercise", exercise: { level: "points" } }),
    "#example=snip&event=1&view=lecture": reduce(shown(EXAMPLE, TEXT), { type: "view", view: "lecture" }),
  };
  for (const [address, state] of Object.entries(states)) {
    const found = addressIn(state, GIVEN);
    check(`${address}: ${found}`, found === address);
    const wanted = readAddress(found);
    check(`${address} is read`, wanted.text === null || wanted.text === state.run.text || wanted.text === state.scene.text);
    const title = titleIn(state, titleOfScene);
    check(`${address} has a title in words: ${title}`, title.endsWith(" · Why not just one lock?"));
  }
  for (const [address, ...place] of [["#story=2", "story", "2"], ["#ask", "ask", ""], ["#ask=snip", "ask", "snip"], ["#teachers", "teachers", ""],
    ["#assignment=Week+3&learn=one-lock&break=6.7&judge=lazy.2.5.2.17", "assignment", "Week 3", "", { learn: "one-lock", break: "6.7", judge: "lazy.2.5.2.17" }]]) {
    const found = addressIn(atScene(...place), GIVEN);
    check(`${address}: ${found}`, found === address);
    const { activity, id, given } = sceneOfHash(found);
    check(`${address} is read`, activity === place[0] && id === place[1] && JSON.stringify(given) === JSON.stringify(place[3] ?? {}));
  }
  const mine = atScene("learn", "first", TEXT);
  const course = addressIn(mine, { ...GIVEN, course: "#course=abc" });
  check(`a course stays in the address: ${course}`, course.startsWith("#course=abc&learn=first&list=") && readAddress(course).course === "abc");
}

checkReducer();
checkSeen();
checkAddresses();
process.stdout.write(JSON.stringify(result));
