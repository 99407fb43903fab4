// Animates changes of a drawing. The new drawing is complete at once; each element with `data-part` then moves in from its previous place.

const TIME = 260; // milliseconds
const EASE = { duration: TIME, easing: "cubic-bezier(.2, .7, .2, 1)" };
export const wantsStill = () => matchMedia("(prefers-reduced-motion: reduce)").matches;

function placesIn(box) {
  const places = new Map();
  for (const part of box.querySelectorAll("[data-part]")) {
    const { x = "0", y = "0", to = "" } = part.dataset;
    places.set(part.dataset.part, { x: Number(x), y: Number(y), to, d: part.querySelector("path")?.getAttribute("d") ?? "" });
  }
  return places;
}

function glideArrow(part, before) {
  const path = part.querySelector("path");
  if (path === null || path.getAttribute("d") === before.d) return;
  if (part.dataset.to === before.to) {
    const forms = [before.d, path.getAttribute("d")].map((d) => ({ d: `path("${d}")` }));
    path.animate(forms, EASE);
  } else {
    const length = path.getTotalLength();
    const strokeDasharray = `${length} ${length}`;
    path.animate([{ strokeDasharray, strokeDashoffset: length }, { strokeDasharray, strokeDashoffset: 0 }], EASE);
  }
}

const SLOW = 1200; // milliseconds until a lost node has fallen out of the chain
export const fallTime = () => (wantsStill() || document.hidden ? 0 : SLOW);

function fall(box, before, fallen) {
  const timing = { duration: SLOW, easing: "ease-in-out" };
  const shift = (was, { dataset }) => `${was.x - Number(dataset.x)}px ${was.y - Number(dataset.y)}px`;
  for (const part of box.querySelectorAll("[data-part]")) {
    const was = before.get(part.dataset.part);
    const path = part.querySelector("path");
    if (part.dataset.part.startsWith("link ") && was !== undefined) {
      const next = box.querySelector(`[data-part="node ${part.dataset.to}"]`);
      const old = before.get(`node ${part.dataset.to}`);
      const isTurned = was.to !== part.dataset.to && next !== null && old !== undefined;
      const by = isTurned ? [old.x - Number(next.dataset.x), old.y - Number(next.dataset.y)] : [0, 0];
      const turned = isTurned ? path.getAttribute("d").replace(/([\d.-]+) ([\d.-]+) ([\d.-]+) ([\d.-]+)$/, (_, ...at) => at.slice(0, 4).map((one, index) => Number(one) + by[index % 2]).join(" ")) : was.d;
      path.animate([was.d, turned, turned, path.getAttribute("d")].map((d, index) => ({ d: `path("${d}")`, offset: [0, 0.4, 0.5, 1][index] })), timing);
      const node = part.dataset.part.replace("link", "node");
      const from = shift(before.get(node), box.querySelector(`[data-part="${node}"]`));
      part.querySelector("circle")?.animate([{ translate: from }, { translate: from, offset: 0.5 }, { translate: "0 0" }], timing);
    } else if (was !== undefined) {
      const from = shift(was, part);
      const isFallen = fallen.includes(part.dataset.part.replace("node ", ""));
      if (isFallen) part.classList.add("lost", "falls");
      part.animate([{ translate: from }, { translate: from, rotate: "0deg", offset: 0.5 }, { rotate: isFallen ? "9deg" : "0deg", offset: 0.75 }, { translate: "0 0" }], timing);
    }
  }
}

export function glide(box, draw, isNear, fallen = null) {
  const before = isNear && !wantsStill() && !document.hidden ? placesIn(box) : null;
  draw();
  if (before === null || before.size === 0) return;
  if (fallen !== null) return fall(box, before, fallen);
  for (const part of box.querySelectorAll("[data-part]")) {
    const was = before.get(part.dataset.part);
    if (was === undefined) part.animate([{ opacity: 0 }, { opacity: 1 }], EASE);
    else if (part.dataset.part.startsWith("link ")) glideArrow(part, was);
    else {
      const [dx, dy] = [was.x - Number(part.dataset.x), was.y - Number(part.dataset.y)];
      if (dx !== 0 || dy !== 0) part.animate([{ translate: `${dx}px ${dy}px` }, { translate: "0 0" }], EASE);
    }
  }
}
