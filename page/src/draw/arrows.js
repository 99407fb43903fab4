// Draws the arrows between nodes. Each arrow is one curve with four points, so that any arrow can be animated into any other arrow.
import { linkTarget } from "../run/state.js";
import { valueText, tag, title } from "../run/markup.js";

export const linkWidth = (width) => (width < 70 ? 12 : Math.min(34, width * 0.3));

function curve(...numbers) {
  const [a, b, c, d, e, f, g, h] = numbers.map((one) => Math.round(one * 10) / 10);
  return `M${a} ${b} C${c} ${d} ${e} ${f} ${g} ${h}`;
}

// Returns the path of the arrow from a node to the next. The arrow begins at the first node's dot or, if the first node is marked, at the node's edge. (A
// marked node has a cross and no dot.)
function pathOf(from, to, places, isMarked) {
  const [x, y] = [from.x + from.width - (isMarked ? 0 : linkWidth(from.width) / 2), from.y + from.key / 2];
  if (from === to) return curve(x, y, x + 44, y - 50, from.x + from.width - 10, from.y - 50, from.x + from.width - 24, from.y - 5);
  if (from.y === to.y && to.x > from.x && !from.aside) return curve(x, y, x + 10, y, to.x - 20, y, to.x - 5, y);
  if (to.aside && to.x > from.x && to.x - from.x < 2 * from.width) return curve(x, y, x + 10, y, to.x - 20, to.y + to.key / 2, to.x - 5, to.y + to.key / 2);
  if (to.aside) return curve(x, y, x, y + 50, to.x - 30, to.y + to.key / 2, to.x - 5, to.y + to.key / 2);
  const [tx, ty] = [to.x + Math.min(26, to.width / 2), to.y + to.row + 5];
  if (from.aside && y < ty) return curve(x, y, x + 34, y, tx, ty + 48, tx, ty); // from a node in a gap of the chain: passes below the nodes
  if (from.aside && tx < x + 30) return curve(x, y, x, y - 40, tx, ty + 40, tx, ty); // to a node above it
  const isOver = Object.values(places).some((one) => one.aside && one !== from && one.x > from.x && one.x < tx);
  if (isOver) return curve(x, y, x + 16, y - 96, tx, ty + 56, tx, ty);
  return curve(x, y, Math.max(x + 50, tx - 60), y, tx, ty + 46, tx, ty);
}

export function drawLink(state, name, places, event) {
  const { link, reached } = state.nodes[name];
  const target = linkTarget(link);
  const [from, to] = [places[name], places[target]];
  if (!to || name === "tail" || (target === "head" && !reached)) return "";
  const isWrite = event?.deed === "store" || (event?.deed === "exchange" && event.saw === event.from); // (a read has only the ring)
  const kind = isWrite && event.word === `${name}.link` ? "hot" : from.aside ? "out" : "in";
  const isMarked = link.endsWith("*");
  return tag("g", { class: `link ${kind}${from.aside ? " aside" : ""}`, "data-part": `link ${name}`, "data-to": target },
    title(`${name}.link: ${valueText(link)}`),
    isMarked ? "" : tag("circle", { cx: from.x + from.width - linkWidth(from.width) / 2, cy: from.y + from.key / 2, r: 5 }),
    tag("path", { d: pathOf(from, to, places, isMarked), "marker-end": `url(#tip-${kind})` }));
}

export function drawFoldLink({ place }, next) {
  return tag("g", { class: "link in" }, tag("path", { d: pathOf(place, next.place, {}, true), "marker-end": "url(#tip-in)" }));
}

const TIP = { viewBox: "0 0 10 10", refX: 8, refY: 5, markerWidth: 17, markerHeight: 17, markerUnits: "userSpaceOnUse", orient: "auto" };
export const drawTip = (kind) => tag("marker", { id: `tip-${kind}`, class: `tip ${kind}`, ...TIP }, tag("path", { d: "M0 0 L10 5 L0 10 z" }));
