// The state of the page (one value with six parts), and the reducer of the state. This file uses no functions of a browser.
// @ts-check
/**
 * A place is a scene or the bench, the part of the page that runs any schedule. The bench has the activity "watch" or "judge". A scene has the id of its
 * question, level or lesson; `given` has the other parts of its address. The state of a scene contains the answer that was pressed (-1 if the page showed the
 * answer), the schedule of its run if the address has one, and the branch that is shown. A run has the text, its trace, and the state after `count` events;
 * `isRun` is true if the trace belongs to the text. A task is the origin of the run: the reader's own text, an example, or a numbered run.
 * @typedef {"lecture" | "embed" | "list" | "history" | null} PageView
 * @typedef {{ activity: string, screen: "stage" | "scene", id: string, given: Record<string, string>, view: PageView, slide: number }} Place
 * @typedef {"" | "task" | "again" | "guess" | "playing" | "moment" | "done"} Stage
 * @typedef {{ stage: Stage, chosen: number | null, note: string, text: string, hints: number, at: number, moments: [number, number][], branches: any[], wrong: string[] }} Scene
 * @typedef {{ text: string, trace: any, state: any, count: number, isRun: boolean }} Run
 * @typedef {{ kind: "own" | "example" | "seed", id: string }} Task
 * @typedef {{ hides: boolean, letters: boolean }} Prefs
 * @typedef {{ place: Place, scene: Scene, run: Run, task: Task, exercise: any, prefs: Prefs }} State
 * @typedef {{ [name: string]: any, type: string }} Action
 */

export const OWN_TASK = { kind: "own", id: "" };

/** @type {Scene} */
const SCENE_AT_FIRST = { stage: "", chosen: null, note: "", text: "", hints: 0, at: 0, moments: [], branches: [], wrong: [] };

/** @returns {State} */
export const stateAtFirst = () => ({
  place: { activity: "watch", screen: "stage", id: "", given: {}, view: null, slide: 0 },
  scene: SCENE_AT_FIRST,
  run: { text: "", trace: null, state: null, count: 0, isRun: false },
  task: /** @type {Task} */ (OWN_TASK),
  exercise: null,
  prefs: { hides: true, letters: true },
});

/** Returns the name of the example that is shown, or "". @param {State} state */
export const exampleIn = ({ task }) => (task.kind === "example" ? task.id : "");

const onStage = (state) => ({ ...state, place: { ...state.place, activity: state.exercise === null ? "watch" : "judge", screen: "stage", id: "", given: {} } });
const within = (count, { total }) => Math.max(0, Math.min(total, count));

/** @type {Record<string, (state: State, action: Action) => State>} */
const MAKES = {
  place: (state, { activity, screen, id = "", given = {} }) =>
    ({ ...state, place: { ...state.place, activity, screen, id, given }, scene: SCENE_AT_FIRST }),
  scene: (state, { type, ...given }) => ({ ...state, scene: { ...state.scene, ...given } }),
  view: (state, { view, slide = 0 }) => ({ ...state, place: { ...state.place, view, slide } }),
  task: (state, { task }) => onStage({ ...state, task, exercise: null, scene: SCENE_AT_FIRST }),
  run: (state, { type, ...given }) => ({ ...state, run: { ...state.run, ...given } }),
  // Stores a new trace. An exercise about the previous trace ends.
  trace: (state, { trace, state: ofTrace, count }) =>
    ({ ...state, run: { ...state.run, trace, state: ofTrace, isRun: true, count: within(count, trace) }, exercise: null }),
  count: (state, { count }) => ({ ...state, run: { ...state.run, count: within(count, state.run.trace) } }),
  exercise: (state, { exercise }) => onStage({ ...state, exercise }),
  prefs: (state, { type, ...given }) => ({ ...state, prefs: { ...state.prefs, ...given } }),
};

/** Returns the state after an action. @param {State} state @param {Action} action @returns {State} */
export function reduce(state, action) {
  const make = MAKES[action.type];
  if (make === undefined) throw new Error(`no action is called "${action.type}"`);
  return make(state, action);
}

/**
 * Returns the key of a state's entry in the browser's history. Each place (a scene or the bench) and each task has its own entry. A step of a run has no entry.
 * @param {State} state
 */
export function entryOf({ place, task, exercise }) {
  const ofRun = place.screen === "stage" ? [task.kind, task.id, exercise !== null] : [place.id, JSON.stringify(place.given)];
  return [place.activity, place.screen, place.view, place.slide, ...ofRun].join("\n");
}
