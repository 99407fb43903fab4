// Opens and runs schedules on the bench.
import { readExamples } from "../engine/answers.js";
import { eventsAsked, openingIn, scheduleOfDraft, scheduleText, versionOf, withOpening } from "../run/schedule_text.js";
import { eventsInCommon, isTrace, Trace } from "../run/trace.js";
import { byId } from "./dom.js";
import { announce, askNow, change, now, sayErrorLine, sayFault, takeTrace } from "./now.js";
import { stopPlay } from "./play.js";
import { OWN_TASK } from "./reducer.js";

const MOST_EVENTS = 200000; // events of a schedule that the page runs

export function openTask(task, text, at) {
  change("task", { task });
  runText(text, at);
}

export const openExample = (name, count) => openTask({ kind: "example", id: name }, askNow("listset_example", name).text, count);
export const newSchedule = (list, threads, quota) => openTask(OWN_TASK, scheduleText({ list, threads, quota }), 0);

// Runs the schedule or draft in the text box. Keeps the current event if the events before it are unchanged. A changed text becomes the reader's own task.
export function runBox() {
  const box = byId("schedule").value;
  const { text, fault } = scheduleOfDraft(askNow, box === "" || box.endsWith("\n") ? box : `${box}\n`);
  if (fault !== null) return sayErrorLine(fault);
  const { trace, count } = now.run;
  const at = (made) => (made.refused === null ? Math.min(count, eventsInCommon(trace, made)) : made.total);
  if (text === now.run.text) runText(text, at);
  else openTask(OWN_TASK, text, at);
}

// Runs the text with the initial keys exactly as typed, so that the engine reports any error in them.
export function runWithOpening() {
  const keys = byId("opening").value.split(/[\s,]+/).filter((key) => key !== "");
  byId("schedule").value = withOpening(byId("schedule").value, keys);
  runBox();
}

function runText(text, at) {
  stopPlay();
  change("run", { text });
  byId("schedule").value = text;
  byId("opening").value = openingIn(text).join(" ");
  const asked = eventsAsked(text);
  if (asked > MOST_EVENTS) return sayFault(null, "", `This page runs at most ${MOST_EVENTS} events, and the schedule has ${asked}: run it with listset replay.`);
  const answer = askNow("listset_trace", text);
  if (isTrace(answer.text)) takeTrace(new Trace(answer.text, versionOf(text)), at);
  else sayErrorLine(answer.text.trim());
  announce("ran");
}

const known = { examples: null };
export const examples = () => (known.examples ??= readExamples(askNow("listset_examples", "").text));
export const isExample = (name) => examples().some((one) => one.name === name);
