// Builds elements as strings. Also defines the words that appear both in drawings and in sentences.
import { LISTS } from "../../made/rows.js";

const SIGNS = { "&": "&amp;", "<": "&lt;", ">": "&gt;", '"': "&quot;" };
export const escaped = (text) => String(text).replace(/[&<>"]/g, (sign) => SIGNS[sign]);

// Returns the markup of an element. Attribute values are escaped, but the content is not.
export function tag(name, attributes, ...content) {
  const given = Object.entries(attributes).map(([attribute, value]) => ` ${attribute}="${escaped(value)}"`);
  return `<${name}${given.join("")}>${content.join("")}</${name}>`;
}

export const listOptions = (chosen = "") =>
  Object.entries(LISTS).map(([kind, { name }]) => tag("option", { value: kind, ...(kind === chosen ? { selected: "" } : {}) }, name)).join("");

export const label = (attributes, text) => tag("text", attributes, escaped(text));
export const title = (text) => tag("title", {}, escaped(text));
export const colourOf = (thread) => `thread-${thread % 8}`;
export const letterOf = (thread) => (thread < 26 ? String.fromCharCode(65 + Number(thread)) : String(thread));
export const chipOf = (thread) => tag("span", { class: `who ${colourOf(thread)}` }, letterOf(thread));
export const holderOf = (lock) => letterOf(Number(lock.slice(1)));
export const keyText = (key) => String(key).replace("-inf", "−∞").replace("+inf", "+∞");
export const valueText = (value) => (value.endsWith("*") ? `${value.slice(0, -1)}, marked` : keyText(value));
export const counted = (count, word) => `${count} ${word}${count === 1 ? "" : "s"}`;
export const callText = (call) => `${call.operation}(${call.key})`;
export const openReply = "true"; // the reply of a pending call in an order: a pending call is in an order only if it has changed the set

export function inLetters(text) {
  const letters = (numbers) => numbers.replace(/\d+/g, (number) => letterOf(Number(number)));
  const some = text.replace(/\b(?:the )?threads (\d+(?:, \d+)*(?:,? and \d+)?)/gi, (_, numbers) => letters(numbers));
  return some.replace(/\bthread (\d+)/gi, (_, number) => letterOf(Number(number))).replace(/\bt(\d+)\b/g, (_, number) => letterOf(Number(number)));
}
