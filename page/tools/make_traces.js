// Usage: `node page/tools/make_traces.js`. Writes made/traces.js: the names of the classic examples, and the engine's trace of each example. The pages made
// from docs/ use the traces for links to events.
"use strict";

const fs = require("fs");
const path = require("path");
const { execFileSync } = require("child_process");

const PAGE = path.dirname(__dirname);
const asked = (words, input) => execFileSync("node", [path.join(PAGE, "listset.js"), ...words], { input, encoding: "utf8" });

function tracesText() {
  const list = asked(["example"]);
  const names = list.trimEnd().split("\n").map((line) => line.split(" ")[0]);
  const lines = names.map((name) => {
    const trace = asked(["trace"], asked(["example", name]));
    return `  ${JSON.stringify(name)}: \`\n${trace}\`.slice(1),\n`;
  });
  return (
    "// What the engine prints of the classic examples, by make_traces.js: for the links of the pages made from docs/.\n" +
    `\nexport const EXAMPLES = \`\n${list}\`.slice(1);\n\nexport const TRACES = {\n${lines.join("")}};\n`
  );
}

if (process.argv.length > 2) {
  process.stderr.write(`make_traces.js: it takes no words, and is given ${process.argv.slice(2).join(" ")}\n`);
  process.exitCode = 2;
} else {
  fs.writeFileSync(path.join(PAGE, "made", "traces.js"), tracesText());
}
