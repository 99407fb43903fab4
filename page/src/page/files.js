// Opens and saves schedules, traces and reports, and fills the report box.
import { textOfBytes } from "../course/hand_in.js";
import { readVerdict } from "../engine/answers.js";
import { addressOf } from "../run/address.js";
import { reasonsOf } from "../run/recorded.js";
import { scheduleOfTrace } from "../run/schedule_text.js";
import { Trace } from "../run/trace.js";
import { byId } from "./dom.js";
import { announce, askNow, askSoon, LONG_TEXT, now, say, sayError } from "./now.js";
import { OWN_TASK } from "./reducer.js";
import { openTask } from "./work.js";

const REPLY_WIDTH = 60; // pixels to the right of a bar, for the reply in the picture of a report

export function saveText(name, text, type = "text/plain") {
  const link = document.createElement("a");
  link.href = URL.createObjectURL(new Blob([text], { type }));
  link.download = name;
  link.click();
  URL.revokeObjectURL(link.href);
}

export function onFile(input, take) {
  input.onchange = async () => {
    const [file] = input.files;
    await take(textOfBytes(new Uint8Array(await file.arrayBuffer())), file.name);
    input.value = "";
  };
}

const EVENT = /^event \d+ line \d+ thread \d+ (?:begin (?:add|remove|contains|ceiling) \d+ call|load|store|exchange) .*\bpc \d+/;

export function traceIn(text) {
  try {
    return text.split("\n").every((line) => !line.startsWith("event ") || EVENT.test(line)) ? new Trace(text) : null;
  } catch {
    return null;
  }
}

export function comparedTrace(given, own) {
  const [theirs, ours] = [given, own].map((text) => text.split("\n").filter((line) => !/^(chain|refused|end)\b/.test(line)));
  const line = theirs.findIndex((one, index) => one !== ours[index]);
  if (line === -1) return "The proved replayer makes the same events.";
  const event = Math.max(line + 1 - ours.findIndex((one) => one.startsWith("event ")), 1);
  return `This is the proved replayer’s run. The trace in the file differs from event ${event} on.`;
}

// Opens a file as the kind of text that its first line names. A file with an unknown first line counts as a schedule, so that the engine reports the error.
export async function openFile(text, name) {
  sayError("");
  if (text.startsWith("listset-course")) return announce("course", text);
  if (text.startsWith("listset-calls")) return announce("recorded", text);
  if (text.startsWith("listset-trace")) return openTrace(text);
  if (!text.startsWith("listset-report")) return openTask(OWN_TASK, text, 0);
  await openReportBox();
  showReport(text, `The report in ${name}:`);
}

// Opens the schedule of a trace: in the Break activity if the trace is of a broken list (a list without one of its checks), otherwise on the bench.
function openTrace(text) {
  const trace = traceIn(text);
  if (trace === null) return sayError("this is not a trace of listset");
  const schedule = scheduleOfTrace(trace);
  if (trace.lacks !== null) return (location.hash = addressOf(schedule, trace.total, trace.lacks));
  openTask(OWN_TASK, schedule, 0);
  if (now.run.isRun) say(comparedTrace(text, now.run.trace.text));
}

// Opens the report box and waits for its toggle event, whose handler fills the box with the report of the current schedule.
async function openReportBox() {
  const box = byId("report-box");
  if (box.open) return;
  await new Promise((done) => {
    box.addEventListener("toggle", done, { once: true });
    box.open = true;
  });
}

async function showReport(text, whose) {
  byId("report").textContent = text;
  byId("report-of").textContent = whose;
  const checked = (await askSoon("listset_check", text)).text.trim();
  if (byId("report").textContent !== text) return;
  byId("checked").textContent = checked;
  if (text.length < LONG_TEXT) drawPicture(text);
  else byId("picture-box").hidden = true;
}

function drawPicture(text) {
  const drawn = askNow("listset_show_svg", text).text;
  byId("picture-box").hidden = !drawn.startsWith("<svg ");
  if (byId("picture-box").hidden) return;
  byId("picture").innerHTML = drawn;
  const said = refusalIn(text);
  byId("picture-says").textContent = said;
  const svg = byId("picture").firstElementChild;
  svg.setAttribute("role", "img");
  svg.setAttribute("aria-label", `the calls of the report${said === "" ? "" : `; ${said}`}`);
  scrollToClash();
}

function refusalIn(text) {
  const refused = askNow("listset_show", text).text.split("\n").filter((line) => line.startsWith("refused "));
  const { why } = readVerdict(askNow("listset_check_record", text));
  return [...refused.slice(0, 1), ...(why === null ? [] : reasonsOf(why))].join("; ");
}

function scrollToClash() {
  const box = byId("picture");
  const clash = box.querySelector(".bar.clash");
  const left = box.getBoundingClientRect().left - box.scrollLeft;
  box.scrollLeft = clash === null ? 0 : clash.getBoundingClientRect().right + REPLY_WIDTH - left - box.clientWidth;
}

export async function refreshReport() {
  if (!byId("report-box").open) return;
  const schedule = now.run.text;
  const answer = await askSoon("listset_replay", schedule);
  if (now.run.text !== schedule) return;
  if (answer.status === 0) return showReport(answer.text, "The report of this schedule:");
  byId("report").textContent = answer.text;
  byId("report-of").textContent = "There is no report:";
  byId("checked").textContent = "—";
  drawPicture(schedule);
}
