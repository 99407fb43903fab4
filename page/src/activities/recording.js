// Judges recorded calls of the reader's own set with the proved judge. The recording is pasted or opened as a file.
import { drawRecorded } from "../draw/judged_bars.js";
import { byId } from "../page/dom.js";
import { onFile } from "../page/files.js";
import { askNow, askSoon, LONG_TEXT } from "../page/now.js";
import { escaped, letterOf, tag } from "../run/markup.js";
import { diagnosisIn, RECORDED_EXAMPLE, recordedInWords, verdictOnCalls, withNewline } from "../run/recorded.js";
import { isNarrow } from "../story/figure_parts.js";

const WIDEST = 800; // the maximum width of a drawing in pixels, before it is enlarged
const recorded = { text: "" }; // the text of the box, kept while another activity is shown
const recordedPart = (name) => byId(`recorded-${name}`);

function threadsInWords(calls) {
  const threads = [...new Set(calls.map(({ thread }) => Number(thread)))].sort((one, other) => one - other);
  return threads.length === 0 ? [] : [`Threads: ${threads.map((thread) => `${letterOf(thread)} is thread ${thread}`).join(", ")} of the recording.`];
}

// Returns a remark if a refused recording has successful adds but no `key` line. (A complete recording without `key` lines states that the final set is empty.)
function keysInWords(text, { kind }) {
  const isEmptied = kind === "none" && !/^key /m.test(text) && /^call \d+ add \S+ \S+ \S+ true/m.test(text) && /^end$/m.test(text);
  return isEmptied ? ["The recording has no line <code>key</code>, so it says that the set is empty at the end. Add a line <code>key K</code> for each key K of the final set."] : [];
}

async function withDiagnosis(verdict, text) {
  const why = verdict.kind === "none" ? diagnosisIn((await askSoon("listset_why_record", text)).text) : null;
  if (why === null) return verdict;
  const inWords = (mark) => (mark === "either" ? "one of the two is wrong" : mark.replace(/^(leaves|finds) /, "$1 the key "));
  const marked = why.calls.filter(({ mark }) => mark !== "").map((call) => `${recordedInWords(call)}: ${inWords(call.mark)}`);
  const likely = why.likely === null ? [] : [`Likely: ${why.likely}.`, `Because ${why.because}.`];
  const also = why.also.length === 0 ? [] : [`At the same time: ${why.also.map(recordedInWords).join("; ")}.`];
  const reasons = [`<b>${escaped(why.headline)}</b>`, ...[...marked, ...why.facts, ...likely, ...also].map(escaped)];
  return { ...verdict, reasons, calls: why.calls, also: why.also };
}

function withRemarks(verdict, text) {
  const count = (text.match(/^call /gm) ?? []).length;
  if (verdict.kind === "ok" && count === 0) return { ...verdict, kind: "fault", says: "This recording has no call, so nothing was judged." };
  const isPart = verdict.kind === "none" && verdict.calls.length > 0 && verdict.calls.length < count;
  const drawn = isPart ? [`The picture has the calls that contradict each other: ${verdict.calls.length} of ${count}.`] : [];
  return { ...verdict, reasons: [...verdict.reasons, ...drawn, ...keysInWords(text, verdict), ...threadsInWords([...verdict.calls, ...(verdict.also ?? [])])] };
}

function showVerdict({ kind, says, reasons, calls }) {
  recordedPart("verdict").className = kind;
  recordedPart("verdict").textContent = says;
  recordedPart("reasons").innerHTML = reasons.map((reason) => tag("li", {}, reason)).join("");
  const wide = recordedPart("picture").clientWidth;
  const zoom = wide > WIDEST ? 1.25 : 1;
  recordedPart("picture").innerHTML = calls.length > 0 ? drawRecorded(calls, Math.min(Math.max(300, wide / zoom), WIDEST), zoom) : "";
  if (kind !== "") recordedPart("verdict").scrollIntoView({ block: isNarrow() ? "start" : "nearest" });
}

const nothing = { kind: "", says: "", reasons: [], calls: [] };

async function judgeCalls() {
  const text = withNewline(recordedPart("text").value);
  recorded.text = text;
  if (text === "") return showVerdict({ ...nothing, kind: "fault", says: "Paste the text of recorded calls first, or open a file." });
  showVerdict({ ...nothing, says: text.length < LONG_TEXT ? "" : "Judging .." });
  const said = await askSoon("listset_judge_record", text);
  const verdict = await withDiagnosis(verdictOnCalls(askNow, said, text), text);
  if (recordedPart("text") !== null && withNewline(recordedPart("text").value) === text) showVerdict(withRemarks(verdict, text));
}

export function showRecorded(text) {
  recordedPart("text").value = text;
  judgeCalls();
}

export function listenToRecorded() {
  const box = recordedPart("text");
  box.value = recorded.text;
  box.oninput = () => {
    recorded.text = box.value;
    showVerdict(nothing);
  };
  recordedPart("judge").onclick = judgeCalls;
  recordedPart("example").onclick = () => showRecorded(RECORDED_EXAMPLE);
  onFile(recordedPart("file"), showRecorded);
}
