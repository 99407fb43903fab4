// Checks the contrasts of the colours in style/page.css: text against its background, and visible edges.
"use strict";

const TEXT = 4.5;
const EDGE = 3;
const GROUNDS_OF = {
  ink: ["paper", "wash", "press", "ground", "good-wash", "bad-wash"],
  soft: ["paper", "wash", "ground", "press"],
  pale: ["paper", "wash", "ground"],
  good: ["paper", "good-wash"],
  bad: ["paper", "bad-wash", "wash"],
  paper: ["ink"],
};
const THREADS = [0, 1, 2, 3, 4, 5, 6, 7];
// The bars of the history. `share` matches the opacity of the thread's colour in a bar, and `texts` are the colours of the text on the bar. The first entry is
// for calls that have begun, and the second for calls that begin later.
const BARS = [
  { share: /\.bar rect \{[^}]*fill-opacity: ([.0-9]+)/, texts: ["ink", "soft"] },
  { share: /\.bar\.later rect \{[^}]*fill-opacity: ([.0-9]+)/, texts: ["pale"] },
];

// Returns the red, green and blue components of a colour, from 0 to 255.
function partsOfColour(colour) {
  const digits = colour.length === 4 ? [...colour.slice(1)].map((digit) => digit + digit).join("") : colour.slice(1);
  return [0, 2, 4].map((at) => parseInt(digits.slice(at, at + 2), 16));
}

function mixed(colour, ground, share) {
  const grounds = partsOfColour(ground);
  const parts = partsOfColour(colour).map((part, at) => Math.round(share * part + (1 - share) * grounds[at]));
  return `#${parts.map((part) => part.toString(16).padStart(2, "0")).join("")}`;
}

function lightOf(colour) {
  const [red, green, blue] = partsOfColour(colour).map((given) => {
    const part = given / 255;
    return part <= 0.03928 ? part / 12.92 : ((part + 0.055) / 1.055) ** 2.4;
  });
  return 0.2126 * red + 0.7152 * green + 0.0722 * blue;
}

function contrastOf(one, other) {
  const [light, dark] = [lightOf(one), lightOf(other)].sort((first, second) => second - first);
  return (light + 0.05) / (dark + 0.05);
}

// Returns the colours that `part`, a part of the style sheet, defines. The threads' colours are included.
function coloursIn(part) {
  const colours = {};
  for (const [, name, colour] of part.matchAll(/--([a-z-]+): (#[0-9a-f]{3,6});/g)) if (name !== "thread") colours[name] = colour;
  for (const [, thread, colour] of part.matchAll(/\.thread-(\d) \{ --thread: (#[0-9a-f]{6});/g)) colours[`t${thread}`] = colour;
  return colours;
}

// Returns each pair of colours with its contrast and the required minimum.
function contrastsOf(sheet) {
  const [light, dark] = sheet.split("@media (prefers-color-scheme: dark)").slice(0, 2);
  const schemes = { light: coloursIn(light), dark: coloursIn(dark.split("\n}")[0]) };
  return Object.entries(schemes).flatMap(([scheme, colours]) => {
    const pair = (one, other, least) => {
      return { name: `${scheme}: ${one} on ${other}`, contrast: contrastOf(colours[one], colours[other]), least };
    };
    const texts = Object.entries(GROUNDS_OF).flatMap(([text, grounds]) => grounds.map((ground) => pair(text, ground, TEXT)));
    const edges = ["paper", "wash"].map((ground) => pair("edge", ground, EDGE));
    const threads = THREADS.flatMap((thread) => [pair("chip-ink", `t${thread}`, TEXT), pair(`t${thread}`, "paper", TEXT)]);
    return [...texts, ...edges, ...threads, ...contrastsInBars(sheet, scheme, colours)];
  });
}

function contrastsInBars(sheet, scheme, colours) {
  return BARS.flatMap(({ share, texts }) => {
    const part = Number(share.exec(sheet)[1]);
    const grounds = THREADS.map((thread) => ({ thread, bar: mixed(colours[`t${thread}`], colours.paper, part) }));
    const inBar = (text, { thread, bar }) => {
      const name = `${scheme}: ${text} in a bar of t${thread}, ${part}`;
      return { name, contrast: contrastOf(colours[text], bar), least: TEXT };
    };
    return texts.flatMap((text) => grounds.map((ground) => inBar(text, ground)));
  });
}

module.exports = { contrastsOf };
