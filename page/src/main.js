// Connects the modules of the page, and starts the page.
import { listenToBench, showBar, showPlace, showRun } from "./activities/bench.js";
import { listenToCourses } from "./activities/courses.js";
import { compareView } from "./activities/compare.js";
import { drawJudging, listenToJudging } from "./activities/judging.js";
import { MAPS } from "./activities/maps.js";
import { followAddress, openCourseFile, openFirst, openRecorded } from "./activities/open.js";
import { startEngine } from "./engine/engine.js";
import { listenToBar, listenToFiles, listenToMenu, listenToSettings, listenToWork, showQuestion, stopUnable } from "./page/controls.js";
import { byId } from "./page/dom.js";
import { refreshReport } from "./page/files.js";
import { keysOf, pressKey } from "./page/play.js";
import { held, now, on, show, takeTrace } from "./page/now.js";
import { showParts } from "./page/seen.js";
import { keepNow, keepSoon } from "./page/visit.js";
import { escaped } from "./run/markup.js";
import { Trace } from "./run/trace.js";
import { askView } from "./story/ask_view.js";
import { assignmentView } from "./story/assignment.js";
import { breakView } from "./story/break_view.js";
import { codeView } from "./story/code_view.js";
import { learnView } from "./story/learn_view.js";
import { handoutView, notesView } from "./story/notes_view.js";
import { pathView } from "./story/path_view.js";
import { isScene, leaveScene, listenToScene, renderScene, VIEWS } from "./story/scene.js";
import { goOnSlide, pressInScene, toSlide } from "./story/slide.js";
import { teachView } from "./story/teach_view.js";

const EMPTY_TRACE = "listset-trace 1\nlist lazy\nthreads 2\nquota 4\nend\n";

/** @type {Record<string, import("./story/scene.js").View>} */
const SCENES = {
  story: pathView, ask: askView, break: breakView, learn: learnView, code: codeView, teachers: teachView, assignment: assignmentView, compare: compareView,
  notes: notesView, handout: handoutView,
};

const LISTEN = [listenToMenu, listenToBar, listenToBench, listenToWork, listenToFiles, listenToSettings, listenToJudging, listenToCourses, listenToScene];

function listen() {
  for (const begin of LISTEN) begin();
  Object.assign(keysOf, { scene: pressInScene, slide: goOnSlide, next: () => toSlide(1) });
  document.addEventListener("click", stopUnable, true);
  document.addEventListener("keydown", pressKey);
  document.addEventListener("focusin", uncover);
  window.addEventListener("resize", show);
  window.addEventListener("popstate", followAddress);
  window.addEventListener("pagehide", keepNow);
}

// Scrolls to a focused element that the bar at the bottom covers. (Firefox does not scroll to an element that is partly in the window.)
function uncover({ target }) {
  const foot = [...document.querySelectorAll(".foot")].find((one) => one.getClientRects().length > 0);
  const isCovered = foot !== undefined && !foot.contains(target) && target.getBoundingClientRect().bottom > foot.getBoundingClientRect().top;
  if (isCovered && target.matches(":focus-visible")) target.scrollIntoView({ block: "nearest" });
}

function render() {
  showParts(now);
  const isInScene = isScene(now);
  if (isInScene) renderScene(now);
  else leaveScene();
  for (const draw of isInScene ? [showPlace] : [showRun, showBar, showQuestion, drawJudging, showPlace]) draw();
  keepSoon();
}

async function startPage() {
  document.body.dataset.ready = "begun";
  Object.assign(VIEWS, SCENES, MAPS);
  try {
    held.engine = await startEngine();
  } catch (fault) {
    byId("scene").innerHTML = byId("no-engine").innerHTML.replace("CAUSE", escaped(fault.message));
    byId("bench").hidden = true;
  }
  if (held.engine !== null) await openPage();
  document.body.dataset.ready = "yes";
}

async function openPage() {
  takeTrace(new Trace(EMPTY_TRACE), 0);
  held.render = render;
  on("ran", keepSoon, refreshReport);
  on("recorded", openRecorded);
  on("course", openCourseFile);
  listen();
  document.body.dataset.ready = "soon";
  await openFirst();
}

if (typeof document !== "undefined") startPage(); // node has no document
