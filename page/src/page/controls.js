// Handles the buttons, the slider and the schedule box of the bench (the part of the page that runs any schedule).
import { CLASSICS } from "../../made/classics.js";
import { inLetters } from "../run/markup.js";
import { byId } from "./dom.js";
import { onFile, openFile, refreshReport, saveText } from "./files.js";
import { keepUnder, keptUnder } from "./kept.js";
import { change, dispatch, now } from "./now.js";
import { goByHand, toggleKeys, toggleLecture, togglePlay } from "./play.js";
import { copyLink } from "./visit.js";
import { examples, newSchedule, openExample, runBox, runWithOpening } from "./work.js";

export function stopUnable(event) {
  if (event.target.closest?.('[aria-disabled="true"]') == null) return;
  event.stopPropagation();
  event.preventDefault();
}

function skipToRun() {
  const first = { stage: "#next", scene: "#scene :is(.option, .fig button, .card, #sides-turns button, .foot .primary)" };
  document.querySelector(first[now.place.screen])?.focus();
}

export function listenToMenu() {
  const menu = byId("more");
  const summary = menu.firstElementChild;
  addEventListener("click", ({ target }) => !summary.contains(target) && menu.removeAttribute("open"));
  menu.onkeydown = ({ key }) => void (key === "Escape" && (menu.removeAttribute("open"), summary.focus()));
}

export function listenToBar() {
  byId("back").onclick = () => goByHand(now.run.count - 1);
  byId("next").onclick = () => goByHand(now.run.count + 1);
  byId("play").onclick = togglePlay;
  byId("slider").oninput = () => goByHand(Number(byId("slider").value));
  byId("keys").onclick = toggleKeys;
  byId("skip").onclick = skipToRun;
  for (const name of ["lecture", "leave"]) byId(name).onclick = toggleLecture;
  byId("link-here").onclick = copyLink;
}

export function listenToSettings() {
  const kept = keptUnder(SETTINGS) ?? {};
  change("prefs", { hides: kept.hides !== false, letters: kept.letters !== false });
  for (const [name, id] of [["hides", "hides"], ["letters", "single-keys"]]) {
    byId(id).checked = now.prefs[name];
    byId(id).onchange = () => {
      dispatch("prefs", { [name]: byId(id).checked });
      keepUnder(SETTINGS, { hides: now.prefs.hides, letters: now.prefs.letters });
    };
  }
}
const SETTINGS = "listset-settings";

export function listenToWork() {
  byId("examples").append(...examples().map(({ name, kind }) => new Option(`${name} (${kind})`, name)));
  byId("examples").onchange = () => openExample(byId("examples").value, 0);
  byId("run").onclick = runBox;
  byId("opening").onchange = runWithOpening;
  byId("new").onclick = () => newSchedule(byId("new-list").value, byId("new-threads").value, byId("new-quota").value);
  byId("schedule").onkeydown = (event) => {
    if (event.key === "Enter" && (event.ctrlKey || event.metaKey)) runBox();
  };
}

export function listenToFiles() {
  byId("report-box").ontoggle = refreshReport;
  onFile(byId("file"), openFile);
  byId("save-schedule").onclick = () => saveText("page.schedule", byId("schedule").value);
  byId("save-trace").onclick = () => saveText("page.trace", now.run.trace.text);
}

export function showQuestion() {
  const { kind, id } = now.task;
  byId("examples").value = kind === "example" ? id : "";
  if (kind !== "example") return;
  byId("question").textContent = inLetters(CLASSICS[id].question);
  byId("question-ask").href = `#ask=${id}`;
}
