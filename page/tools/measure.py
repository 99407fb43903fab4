#!/usr/bin/python3
"""Measures the page in a browser: the bytes that the path (the guided tour) loads, and the times until the first
picture and until a step chosen on the slider is shown.

    page/tools/measure.py [--browser chromium] [--calls 12]

The step is chosen in a generated run of `--calls` calls. (A run of 12 calls has about 280 events.) Times depend on
the machine's load; the load average is printed too.
"""

import argparse
import functools
import http.server
import json
import os
import pathlib
import statistics
import subprocess
import sys
import threading

sys.dont_write_bytecode = True
PAGE = pathlib.Path(__file__).resolve().parents[1]
sys.path[:0] = [str(PAGE / "tests" / "scenarios"), str(PAGE.parent / "build")]
import conftest  # noqa: E402

OPENINGS = 5
LOADED = """return performance.getEntriesByType("resource").filter(({ name }) => !name.startsWith("blob:"))
    .map(({ name, decodedBodySize }) => [name.split("/").pop(), decodedBodySize])
    .concat([["index.html", performance.getEntriesByType("navigation")[0].decodedBodySize]])"""
PAINTED = "return performance.getEntriesByName('first-contentful-paint')[0]?.startTime ?? null"
CHOSEN = """(async () => {
    const times = [], { total } = listsets.now.run.trace;
    for (let turn = 1; turn <= 60; turn++) {
      await new Promise((done) => setTimeout(done, 30));
      const begun = performance.now();
      listsets.goByHand((turn * 7919) % (total + 1));
      const worked = performance.now();
      await new Promise((done) => requestAnimationFrame(() => setTimeout(done)));
      times.push([worked - begun, performance.now() - begun]);
    }
    window.measured = times;
  })();
  return listsets.now.run.trace.total"""


def in_words(times):
    ordered = sorted(times)
    return f"median {statistics.median(ordered):.1f} ms, 90 % {ordered[int(0.9 * len(ordered))]:.1f}, most {ordered[-1]:.1f}"


def measure(visitor, schedule):
    visitor.size(1366, 768)
    painted = []
    for _ in range(OPENINGS):
        visitor.open("#story=1")
        painted.append(visitor.script(PAINTED))
    loaded = visitor.script(LOADED)
    print(f"loaded: {sum(size for _, size in loaded) / 1e6:.2f} MB:", ", ".join(f"{name} {size}" for name, size in loaded))
    print("first picture:", in_words(painted) if None not in painted else "not reported by this browser")
    visitor.open("#example=snip")
    visitor.inside("listsets.openTask(listsets.OWN_TASK, given[0], 0)", schedule)
    total = visitor.inside(CHOSEN)
    times = json.loads(visitor.wait("return JSON.stringify((window.wrappedJSObject ?? window).measured)"))
    for what, column in zip(("work", "to the frame"), zip(*times)):
        print(f"a chosen step of {total} events, {what}: {in_words(column)}")


def main():
    arguments = argparse.ArgumentParser(description=__doc__, formatter_class=argparse.RawDescriptionHelpFormatter)
    arguments.add_argument("--browser", default="chromium")
    arguments.add_argument("--calls", default="12")
    given = arguments.parse_args()
    words = ["node", str(PAGE / "listset.js"), "gen", "lazy", "4", "8", given.calls, "6", "3"]
    schedule = subprocess.run(words, stdout=subprocess.PIPE, text=True, check=True).stdout
    server = http.server.ThreadingHTTPServer(("127.0.0.1", 0), functools.partial(conftest.Quiet, directory=str(PAGE)))
    threading.Thread(target=server.serve_forever, daemon=True).start()
    with conftest.Visitor(given.browser, f"http://127.0.0.1:{server.server_port}") as visitor:
        measure(visitor, schedule)
    print("load:", " ".join(f"{it:.1f}" for it in os.getloadavg()))


if __name__ == "__main__":
    main()
