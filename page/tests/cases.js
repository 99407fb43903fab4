// Compares the engine's answers with the program's, in node and in a browser.
"use strict";

const bytesOf = (base64) => Uint8Array.from(atob(base64), (letter) => letter.charCodeAt(0));

async function sumOf(bytes) {
  const sum = new Uint8Array(await crypto.subtle.digest("SHA-256", bytes));
  return [...sum].map((byte) => byte.toString(16).padStart(2, "0")).join("");
}

// Returns how many cases passed, and a line for each case that failed.
async function compared(engine, cases) {
  const result = { passed: 0, failed: [] };
  for (const wanted of cases) {
    const name = `listset ${wanted.words.join(" ")} on ${JSON.stringify(atob(wanted.texts[0]).slice(0, 300))}`;
    try {
      const answer = engine.askBytes(wanted.function, ...wanted.texts.map(bytesOf));
      const found = `status ${answer.status}, ${answer.bytes.length} bytes, sum ${await sumOf(answer.bytes)}`;
      const due = `status ${wanted.status}, ${wanted.length} bytes, sum ${wanted.sum}`;
      if (found === due) result.passed++;
      else result.failed.push(`${name}: ${found}, not ${due}`);
    } catch (fault) {
      result.failed.push(`${name}: ${fault.message}`);
    }
  }
  return result;
}
