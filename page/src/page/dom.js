// Functions that find elements by id, and that change elements without losing the keyboard focus.

/** @type {(id: string) => any} */
export const byId = (id) => document.getElementById(id);

// Redraws a box. If the focused element is drawn again, it keeps the focus. Otherwise the first button or link other than Undo and Start over gets the focus.
export function redraw(box, html) {
  const before = box.contains(document.activeElement) ? document.activeElement : null;
  const keyOf = (part) => JSON.stringify({ ...part.dataset, name: part.tagName });
  const key = before === null ? "" : keyOf(before);
  if (typeof html === "string") box.innerHTML = html;
  else box.replaceChildren(...html);
  if (before === null) return;
  const same = [...box.querySelectorAll("button, select, input, a, [tabindex]")].find((part) => keyOf(part) === key);
  (same ?? box.querySelector("button:not([data-undo], [data-again]), a") ?? box).focus();
}

// Marks a button as enabled or disabled for screen readers. Unlike a button with the attribute `disabled`, the button can keep the focus.
export const setAble = (id, isAble) => byId(id).setAttribute("aria-disabled", String(!isAble));

// Hides or shows a part. If the hidden part had the focus, `other` gets the focus.
export function setHidden(part, isHidden, other) {
  if (part.hidden === isHidden) return;
  if (isHidden && part.contains(document.activeElement)) other.focus({ preventScroll: true });
  part.hidden = isHidden;
}

// Scrolls `box` so that `line` is visible, at least `above` pixels below the upper edge and `below` pixels above the lower edge.
export function scrollToLine(box, line, above, below) {
  const y = line.offsetTop - box.offsetTop;
  if (y < box.scrollTop + above || y > box.scrollTop + box.clientHeight - below) box.scrollTop = y - box.clientHeight / 2;
}

export function setHtml(box, html) {
  if (texts.get(box) === html) return;
  texts.set(box, html);
  box.innerHTML = html;
}
const texts = new WeakMap();
