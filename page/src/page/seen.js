// Decides which parts of the page are visible in a state. A part that is not listed is visible if its parent is.
import { byId, setHidden } from "./dom.js";
import { change } from "./now.js";

const isStage = ({ screen }) => screen === "stage";

export const factsOf = ({ place, task, exercise }) => ({ ...place, kind: task.kind, isJudging: exercise !== null });

const isFull = ({ view }) => view === null;
const isSlide = ({ view }) => view === "lecture";

export const SEEN = {
  ...Object.fromEntries(["top", "said", "order"].map((id) => [id, isFull])),
  leave: ({ view }) => view !== null && view !== "embed",
  scene: ({ screen }) => screen === "scene",
  bench: ({ screen }) => screen !== "scene",
  task: (facts) => isStage(facts) && (isFull(facts) || isSlide(facts)),
  stage: isStage,
  workshop: (facts) => isStage(facts) && isFull(facts),
  "question-box": ({ kind, isJudging }) => kind === "example" && !isJudging,
  "own-head": ({ kind }) => kind === "own",
  "seed-box": ({ kind, isJudging }) => kind === "seed" && !isJudging,
  "judge-head": ({ activity }) => activity === "judge",
  "go-on-here": (facts) => facts.activity !== "judge" && isFull(facts),
  past: ({ isJudging, view }) => !isJudging && view !== "list",
  judge: ({ isJudging }) => isJudging,
  "report-box": ({ isJudging }) => !isJudging,
  dock: isStage,
};

export function showParts(state) {
  const facts = factsOf(state);
  for (const [id, isSeen] of Object.entries(SEEN)) setHidden(byId(id), !isSeen(facts), document.querySelector("main"));
  const { activity, screen, view } = state.place;
  Object.assign(document.body.dataset, { activity, screen, view: view ?? "" });
  for (const link of document.querySelectorAll("nav [data-to]")) {
    if (link.dataset.to.split(" ").includes(activity)) link.setAttribute("aria-current", "page");
    else link.removeAttribute("aria-current");
  }
}

export const setView = (view, slide = 0) => change("view", { view, slide });
