// Replays the schedule on standard input with the engine in the file PAGE (the page as one HTML file), and prints the
// report:
//
//     node one_file.js PAGE replay
//
// Runs the page's scripts that do not need a browser.
"use strict";

const fs = require("fs");
const vm = require("vm");

const WANTED = [/^const ENGINE ?=/m, /^var listsets ?=/m];

async function main([page]) {
  const text = fs.readFileSync(page, "utf8");
  if (/<(script|link|img)\b[^>]*\b(src|href)="(?!data:)/.test(text)) throw new Error("the page asks for other files");
  const scripts = [...text.matchAll(/<script>\n([^]*?)<\/script>/g)].map(([, words]) => words);
  for (const part of WANTED) vm.runInThisContext(scripts.find((words) => part.test(words)));
  const engine = await vm.runInThisContext("listsets.startEngine()");
  const { text: said, status } = engine.ask("listset_replay", fs.readFileSync(0, "utf8"));
  process.stdout.write(said);
  process.exitCode = status;
}

main(process.argv.slice(2));
