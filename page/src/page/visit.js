// Updates the address bar, the browser's history and the stored address after each change of the state.
import { CLASSICS } from "../../made/classics.js";
import { LISTS } from "../../made/rows.js";
import { slideAddress } from "../data/lecture.js";
import { AddressFault, addressOf, LONGEST_ADDRESS, longLine, partsOfSeed, shortLine, warningOf } from "../run/address.js";
import { escaped, inLetters } from "../run/markup.js";
import { eventsAsked } from "../run/schedule_text.js";
import { HERE, keepUnder } from "./kept.js";
import { now, say } from "./now.js";
import { entryOf } from "./reducer.js";

const MOMENT = 400; // milliseconds without a change before the address bar is updated: browsers refuse frequent updates
// `entry` is the key of the current entry in the browser's history. `isRead` is true after the first address was read. `course` is the open course, encoded for
// an address.
export const visit = { timer: 0, entry: null, isRead: false, course: null };
const addressHere = () => addressIn(now, visit);

export function keepSoon() {
  clearTimeout(visit.timer);
  visit.timer = setTimeout(keepNow, MOMENT);
}

export function keepNow() {
  clearTimeout(visit.timer);
  if (visit.isRead) setAddress();
}

// Updates the address bar. A new task or place gets an entry of its own in the browser's history; a step does not. If the state has no address, the entry
// stores the text of the state's run.
function setAddress() {
  const address = addressHere();
  const entry = entryOf(now);
  const isNew = visit.entry !== null && visit.entry !== entry;
  visit.entry = entry;
  if (now.place.view !== "embed") keepUnder(HERE, address);
  if (!isNew && location.hash === (address ?? "")) return;
  const { text, count } = now.run;
  const kept = address === null ? { text, count } : null;
  const how = isNew ? "pushState" : "replaceState";
  const place = address ?? location.pathname + location.search;
  try {
    history[how](kept, "", place);
  } catch {
    history[how](null, "", place); // a browser can refuse a large state
  }
}

export const linkTo = (address) => location.href.replace(/#.*$/, "") + address;

export async function copyLink() {
  const address = now.run.isRun ? addressHere() : null;
  if (address === null) return say("This schedule has no link: it is refused, or too long for an address. Save it as a file.");
  const link = linkTo(address);
  const shown = `<code>${escaped(link)}</code>${warningOf(link)}`;
  say(`Copy this link: ${shown}`);
  if (await copied(link)) say(`The link is copied: ${shown}`);
}

export const copied = async (text) => navigator.clipboard?.writeText(text).then(() => true, () => false) ?? false;

const SCENES = ["assignment", "story", "ask", "code", "teachers", "notes", "handout"]; // run/address.js reads the addresses of the other activities, since they can contain schedules
const SCENE_VIEWS = ["lecture", "embed"];

export function sceneOfHash(hash) {
  const { view = null, ...parts } = Object.fromEntries(new URLSearchParams(hash.replace(/^#/, "")));
  const activity = SCENES.find((name) => name in parts);
  if (activity === undefined) return null;
  if (view !== null && !SCENE_VIEWS.includes(view)) throw new AddressFault(`"${view.slice(0, 60)}" is not a view`);
  const { [activity]: id, ...given } = parts;
  return { activity, id, given, view };
}

export const START_OF_CODE = [3, 7];
export const linesOfCode = (s) => s.split(",").filter((line) => /^(b\d+\.[a-z]+\.\d+|g\d+\.\d+)$/.test(line)).map(longLine);
export const SET_OF_CODE = { threads: 2, quota: 9 };

// Returns the address of "Step by the code" for a list, its initial keys, the lines of a run, and the threads and the quota in `set`.
export function addressOfCode(list, opening, lines, set = SET_OF_CODE) {
  const ofOpening = opening.join() === START_OF_CODE.join() && lines.length === 0 ? "" : `&opening=${opening.join(".")}`;
  const ofSet = ["threads", "quota"].map((name) => (set[name] === SET_OF_CODE[name] ? "" : `&${name}=${set[name]}`)).join("");
  return `#code=${list}${ofSet}${ofOpening}${lines.length > 0 ? `&s=${lines.map(shortLine).join()}` : ""}`;
}

// If the reader has attempted a task, adds the schedule of the attempt to the address of the task, unless the address becomes too long.
function withTry(named, text) {
  const own = text === "" ? null : addressOf(text, eventsAsked(text));
  const whole = own === null ? named : `${named}&${own.slice(1)}`;
  return whole.length <= LONGEST_ADDRESS ? whole : named;
}

export const addressOfAssignment = ({ id, given }) => `#${new URLSearchParams({ assignment: id, ...given })}`.replaceAll("%2C", ",");
const plainAddress = ({ activity, id }) => `#${activity}${id === "" ? "" : `=${id}`}`;

const ADDRESSES = {
  code: ({ id, given }, { text }) => text || `#${new URLSearchParams({ code: id, ...given })}`,
  compare: (place, { text }) => text || plainAddress(place),
  break: (place, { text }) => withTry(plainAddress(place), text),
  learn: ({ id }, { text }, { course }) => withTry(`${course === null ? "#" : `${course}&`}learn${id === "" ? "" : `=${id}`}`, text), // without a course: a lesson of the built-in course
  assignment: addressOfAssignment,
};

// Returns the address of a state, or null if the state has no address. `given.course` is the open course, encoded for an address, or null for the built-in
// course.
export function addressIn(state, given) {
  const { place, task, run, exercise } = state;
  if (place.slide > 0) return slideAddress(place.slide);
  const view = place.view === null ? "" : `&view=${place.view}`;
  if (place.screen === "scene") return (ADDRESSES[place.activity] ?? plainAddress)(place, state.scene, given) + view;
  const address = task.kind === "own" ? addressOf(run.text, run.count) : `#${task.kind}=${task.id}&event=${run.count}`;
  return address === null ? null : `${address}${exercise === null ? "" : "&judge"}${view}`;
}

export function titleIn(state, titleOfScene) {
  const { place, task, run, exercise } = state;
  if (place.screen === "scene") return titleOfScene(place);
  const list = run.trace === null ? "" : LISTS[run.trace.kind].name;
  const ofTask = {
    example: () => inLetters(CLASSICS[task.id].question),
    seed: () => `Run ${partsOfSeed(task.id).number} of ${list}`,
    own: () => `A run of your own: ${list}`,
  };
  return `${exercise === null ? "" : "Judge: "}${ofTask[task.kind]()} · Why not just one lock?`;
}
