"""Tests the stage (the drawing of the list) in windows of laptops, a large screen and a phone: labels are readable,
and nothing is cut off or covered.
"""

import pathlib

import pytest

SCHEDULES = pathlib.Path(__file__).resolve().parents[3] / "examples/schedules/lacks"
SIZES = {(1366, 640): 16, (1280, 720): 16, (1536, 730): 16, (1920, 1080): 18, (390, 844): 13}  # the windows, and the minimum size of a label in each
# A script that returns the faults in the layout of a screen: labels that are too small, parts that are cut or covered, and parts that scroll.
FAULTS = r"""
const least = arguments[0], found = [];
const isSeen = (it) => it.getClientRects().length > 0 && getComputedStyle(it).visibility !== "hidden";
const nameOf = (it) => `${it.tagName} ${it.id || it.getAttribute("class") || ""} "${(it.textContent ?? "").trim().slice(0, 24)}"`;
const sizeOf = (it) => parseFloat(getComputedStyle(it).fontSize) * it.getScreenCTM().a;
const boxOf = (it) => it.getBoundingClientRect();
const all = (what) => [...document.querySelectorAll(what)].filter(isSeen);
const foot = all(".foot").map((it) => boxOf(it).top)[0] ?? innerHeight;
const isStage = document.querySelector(".on-stage") !== null;
for (const it of all(".list svg text")) if (sizeOf(it) < least - .05) found.push(`${sizeOf(it).toFixed(1)} px: ${nameOf(it)}`);
for (const it of all(".strip svg text")) if (sizeOf(it) < Math.min(least, 16) - .05 && !["should", "have"].includes(it.textContent) && !it.matches(".note")) found.push(`${sizeOf(it).toFixed(1)} px: ${nameOf(it)}`);
for (const it of all(".steps code")) if (parseFloat(getComputedStyle(it).fontSize) < 12.95) found.push(`small code: ${nameOf(it)}`);
for (const list of all(".list:has(svg)")) {
  const box = boxOf(list), nodes = [...list.querySelectorAll(".node .box")];
  for (const [at, one] of nodes.entries()) for (const other of nodes.slice(at + 1)) {
    const [a, b] = [boxOf(one), boxOf(other)];
    if (Math.min(a.right, b.right) - Math.max(a.left, b.left) > 5 && Math.min(a.bottom, b.bottom) - Math.max(a.top, b.top) > 5) found.push(`two nodes overlap: ${nameOf(one.parentElement)}`);
  }
  for (const node of list.querySelectorAll(".node")) {
    const [box, key, side, plate, word] = [".box", ".key", ".side", ".plate", ".latch text"].map((what) => node.querySelector(what)?.getBoundingClientRect());
    if (key.left < box.left || key.right > side.left + 1) found.push(`runs over its edge: ${nameOf(node.querySelector(".key"))}`);
    if (word !== undefined && word.width > 0 && word.right > plate.right + 1) found.push(`runs over its plate: ${nameOf(node.querySelector(".latch text"))}`);
    for (const hand of list.querySelectorAll(".hand-of rect")) {
      const { left, right, top, bottom } = boxOf(hand);
      if (Math.min(right, box.right) - Math.max(left, box.left) > 5 && top < box.top && bottom > box.top + 3) found.push(`a label covers a node: ${nameOf(hand.parentElement)}`);
    }
  }
  for (const it of list.querySelectorAll("text, .box, rect.hot")) {
    const { left, right, top, bottom } = boxOf(it);
    if (left < box.left - 2 || right > box.right + 2 || top < box.top - 2 || bottom > box.bottom + 2) found.push(`cut: ${nameOf(it)}`);
  }
}
if (isStage) {
  if (document.documentElement.scrollHeight > innerHeight + 1) found.push("the page scrolls");
  for (const it of all("#scene :is(.stage, .list, .prompt, .said)")) if (it.scrollHeight > it.clientHeight + 3) found.push(`scrolls: ${nameOf(it)}`);
  for (const it of all(".stage > *")) if (boxOf(it).bottom > boxOf(it.parentElement).bottom + 1) found.push(`leaves the stage: ${nameOf(it)}`);
  for (const it of all(".on-stage :is(p, h1, li, button, a, select, input, summary, td, th)")) {
    if (it.closest("svg, .lines, .codebox:not([open]) > :not(summary), #sides-presets, .unseen, [data-view=lecture] :is(.codebox:not([open]), .dock .again)")) continue; // (the last two are in the bar of a slide)
    const { left, right, top, bottom, width } = boxOf(it);
    if (width > 0 && (bottom > foot + 1 || right > innerWidth + 1 || left < -1 || top < -1)) found.push(`under a bar or outside: ${nameOf(it)}`);
  }
}
for (const leave of all("#leave")) for (const it of all("#scene :is(button, a)")) {
  const [a, b] = [boxOf(leave), boxOf(it)];
  if (a.left < b.right && b.left < a.right && a.top < b.bottom && b.top < a.bottom) found.push(`under the number of the slide: ${nameOf(it)}`);
}
if (document.documentElement.scrollWidth > document.documentElement.clientWidth) found.push("the page is wider than its window");
return found"""
STILL = """const own = window.matchMedia.bind(window);
    window.matchMedia = (asked) => (asked.includes("reduced-motion") ? { matches: true } : own(asked))"""


def fit(visitor, width, height):
    """Resizes the window. In Chromium, a window narrower than 500 pixels emulates a phone with touch. In Firefox and
    WebKit, windows cannot be narrower than 450 to 500 pixels.
    """
    if width < 500 and visitor.name == "chromium":
        visitor.devtools("Emulation.setDeviceMetricsOverride", width=width, height=height, deviceScaleFactor=1, mobile=True)
        visitor.devtools("Emulation.setTouchEmulationEnabled", enabled=True)
        return
    visitor.size(width, height)
    inner = visitor.script("return [innerWidth, innerHeight]")
    visitor.size(2 * width - inner[0], 2 * height - inner[1])  # the window has a frame


class Walk:
    """Goes through the page in a window of one size, collects all errors, and reports them at the end."""

    def __init__(self, visitor, size):
        self.visitor, self.least, self.faults = visitor, SIZES[size], []
        fit(visitor, *size)
        visitor.open("#read")
        visitor.script(STILL)

    def go(self, address):
        self.visitor.script("location.hash = '#read'")
        self.visitor.wait("return document.body.dataset.activity === 'read'")
        self.visitor.script("location.hash = arguments[0]", address)
        self.visitor.wait("return document.querySelector('.list svg') !== null && document.body.dataset.activity !== 'read'")
        self.look(address)

    def look(self, where):
        self.visitor.idle()
        self.visitor.script("return new Promise((done) => setTimeout(() => requestAnimationFrame(() => requestAnimationFrame(done)), 60))")
        self.faults += [f"{where}: {fault}" for fault in self.visitor.script(FAULTS, self.least)]

    def boxes(self):
        """Returns the positions of the list and of the threads' buttons. A step must not move them."""
        return self.visitor.script("""return [...document.querySelectorAll("#figure :is(.list, .dock)")]
            .flatMap((it) => [it.getBoundingClientRect().top, it.getBoundingClientRect().height].map(Math.round))""")

    def stays(self, before, where):
        if any(abs(one - other) > 4 for one, other in zip(before, self.boxes())):
            self.faults.append(f"{where}: a step moves the list from {before} to {self.boxes()}")

    def end(self):
        assert self.faults == [], "\n" + "\n".join(self.faults[:40])


@pytest.fixture(params=SIZES, ids=lambda size: "x".join(map(str, size)))
def walk(visitor, request):
    own = Walk(visitor, request.param)
    yield own
    visitor.devtools("Emulation.clearDeviceMetricsOverride")
    visitor.devtools("Emulation.setTouchEmulationEnabled", enabled=False)
    own.end()


def test_the_path_is_readable(walk):
    for number in ("1", "2", "3", "4", "4.2", "4.2b", "4.3", "5", "6", "6.2", "7", "7.2", "8", "8.2", "9", "9.1b", "9.2"):
        walk.go(f"#story={number}")
        stage = walk.visitor.inside("return listsets.now.scene.stage")
        if stage == "guess":
            walk.visitor.press("1")
            walk.look(f"#story={number}, answered")
        before = walk.boxes()
        for _ in range(40):
            if walk.visitor.inside("return listsets.now.scene.stage") == "done":
                break
            walk.visitor.click("#show-me")
            walk.look(f"#story={number}, a step")
            if walk.visitor.inside("return listsets.now.scene.stage") == "task":
                walk.stays(before, f"#story={number}")
        walk.look(f"#story={number}, done")


FRAMES = """window.heights = [];
    const look = () => {
      const drawn = document.querySelector("#figure .list svg");
      if (drawn !== null && document.querySelector("h1").innerText === arguments[0]) window.heights.push(drawn.getAttribute("height"));
      if (window.heights.length < 6) requestAnimationFrame(look);
    };
    requestAnimationFrame(look);
    location.hash = arguments[1]"""


def test_the_first_frame_of_a_screen_has_the_final_size_of_the_list(visitor):
    fit(visitor, 1366, 640)
    visitor.open("#story=7")
    for address, question in (("#story=7.2", "How does an add use the marks?"), ("#story=6.2", "Is this check enough?"), ("#story=4.2", "Why does a thread hold two locks?")):
        visitor.script(FRAMES, question, address)
        assert len(set(visitor.wait("return window.heights.length === 6 && window.heights"))) == 1, address


def test_questions_are_readable(walk):
    for name in walk.visitor.inside("return listsets.ALL.map(({ name }) => name)"):
        walk.go(f"#ask={name}")
        walk.visitor.press("1")
        walk.visitor.revealed()
        walk.look(f"#ask={name}, answered")
        if walk.visitor.is_seen("[data-do=without]"):
            walk.visitor.click("[data-do=without]")
            walk.look(f"#ask={name}, without the check")
    walk.visitor.press("a")
    walk.look("a branch")


def test_levels_are_readable(walk):
    for number, name in enumerate(walk.visitor.inside("return Object.keys(listsets.BREAK_LEVELS)"), 1):
        walk.go(f"#break={number}")
        before = walk.boxes()
        walk.visitor.step("aabb")
        walk.look(f"#break={number}, stepped")
        walk.stays(before, f"#break={number}")
        for _ in range(3):
            walk.visitor.click("#hint")
        walk.look(f"#break={number}, hints")
        if name != "mark-in-contains":
            walk.go(walk.visitor.inside("return listsets.addressOf(given[0], 99, given[1])", (SCHEDULES / f"{name}.schedule").read_text(), name))
            lacks, wrong = walk.visitor.inside("const { lacks, others } = listsets.BREAK_LEVELS[given[0]]; return [lacks, Object.keys(others)[0]]", name)
            for answer in (wrong, lacks):
                walk.visitor.click("[data-option]", answer)
                walk.look(f"#break={number}, {answer}")


def test_lessons_are_readable(walk):
    for name in walk.visitor.inside("return listsets.learning.panel.course.lessons.map(({ name }) => name)"):
        walk.go(f"#learn={name}")
        walk.visitor.step("ab")
        walk.look(f"#learn={name}, stepped")
        walk.go(walk.visitor.inside("return `#learn=${given[0]}&${listsets.addressOf(listsets.learning.panel.lessonNamed(given[0]).solution, 1).slice(1)}`", name))


def test_other_places_are_readable(walk):
    for address in ("#code=lazy", "#code=coarse", "#code=lock-free", "#compare", "#example=snip&event=17", "#example=failed-tries&event=30", "#example=snip&judge",
                    "#seed=lazy.3.2.5.7"):
        walk.go(address)


SMALLEST = """return Math.min(...[...document.querySelectorAll('.list svg text')].filter((it) => it.getClientRects().length > 0)
    .map((it) => parseFloat(getComputedStyle(it).fontSize) * it.getScreenCTM().a / innerHeight))"""


@pytest.mark.parametrize("size", [(1280, 720), (1920, 1080)], ids=["1280x720", "1920x1080"])
def test_slides_are_readable(visitor, size):
    walk = Walk(visitor, size)
    for number in range(1, 12):
        walk.go(f"#lecture={number}")
        small = visitor.script("""return [...document.querySelectorAll("h1, .ask, .prose, .option, .said, .legend, .codebox[open] code, .why, .foot button, .step")]
            .filter((it) => it.getClientRects().length > 0 && parseFloat(getComputedStyle(it).fontSize) < .033 * innerHeight).map((it) => it.className || it.tagName)""")
        assert small == [], number
        visitor.press("PageDown")
        walk.look(f"#lecture={number}, one key on")
        bars = visitor.script("return [...document.querySelectorAll(':is(.strip, #judge-bars) text')].filter((it) => it.getClientRects().length > 0).map((it) => [it.textContent, parseFloat(getComputedStyle(it).fontSize) * it.ownerSVGElement.getBoundingClientRect().width / it.ownerSVGElement.viewBox.baseVal.width / innerHeight])")
        assert all(share > .033 for text, share in bars if text not in ("should", "have")), (number, bars)
        walk.go(f"#lecture={number}")
        visitor.idle()
        visitor.script("return new Promise((done) => setTimeout(() => requestAnimationFrame(() => requestAnimationFrame(done)), 100))")  # the figure is drawn in its final size
        for _ in range(7 if number == 8 else 0):  # the turns of the two lists
            assert size[0] < 1900 or visitor.script(SMALLEST) > .0325, "a turn of slide 8"
            visitor.press("PageDown")
            visitor.idle()
        labels = visitor.script("return [...document.querySelectorAll('.list svg text')].filter((it) => it.getClientRects().length > 0).map((it) => [it.textContent, parseFloat(getComputedStyle(it).fontSize) * it.getScreenCTM().a / innerHeight])")
        assert size[0] < 1900 or all(share > .0325 for _, share in labels), (number, labels)
    walk.end()


def test_the_last_slide_fits_a_phone(visitor):
    fit(visitor, 390, 844)
    visitor.open("#lecture=11")
    visitor.wait("return document.querySelector('#judge-bars svg') !== null")
    room, wide, window = visitor.script("const it = document.getElementById('judge-bars'); return [it.clientWidth, it.scrollWidth, innerWidth]")
    visitor.devtools("Emulation.clearDeviceMetricsOverride")
    visitor.devtools("Emulation.setTouchEmulationEnabled", enabled=False)
    assert wide <= room and (visitor.name != "chromium" or room > 0.85 * window), (room, wide, window)
