"""Fixtures for the scenarios: a person uses the page with keys, clicks and touches, and sees the results. The
scenarios run in each installed browser.

pytest page/tests/scenarios [--browser chromium] [--shots FOLDER]
"""

import functools
import http.server
import json
import pathlib
import threading
import time

import pytest
import webdriver  # (with build/ in the path, by pytest.ini)

PAGE = pathlib.Path(__file__).resolve().parents[2]
SECONDS = 60  # the longest wait until something must be visible
SLOW = 2  # the loading time of the engine over a slow network, in seconds
SCENARIOS = {"webkit": 8}  # scenarios before a new browser is started, since WebKit's driver fails after some dozen pages; other browsers are not replaced


class Quiet(http.server.SimpleHTTPRequestHandler):
    """Serves the files of the page. slow.html is the page over a slow network; cases.json contains the program's
    answers.
    """

    cases = None

    def log_message(self, *words):
        pass

    def end_headers(self):
        self.send_header("Cache-Control", "no-store")
        super().end_headers()

    def translate_path(self, path):
        if path.startswith("/slow.html"):
            return str(PAGE / "index.html")
        return str(self.cases) if path == "/cases.json" else super().translate_path(path)

    def do_GET(self):
        if self.path == "/engine.js" and "slow" in self.headers.get("referer", ""):
            time.sleep(SLOW)
        super().do_GET()


class Visitor(webdriver.Browser):
    """A person with their own browser."""

    def __init__(self, name, place):
        super().__init__(name)
        self.place = place
        self.size(1300, 900)

    def open(self, address="", file="index.html"):
        """Opens an address of the page as if it had been typed."""
        self.go("about:blank")
        self.go(f"{self.place}/{file}{address}")
        self.wait("return document.body.dataset.ready === 'yes'")

    def inside(self, text, *given):
        """Evaluates a script in the page. In the script, the object `listsets` contains everything that the page's modules export."""
        words = f"JSON.stringify(((...given) => {{ {text} }})(...{json.dumps(given)}) ?? null)"
        return json.loads(self.script("return (window.wrappedJSObject ?? window).eval(arguments[0])", words))

    def wait(self, text, *given, seconds=SECONDS):
        """Waits until a script returns a true value, and returns that value."""
        end = time.monotonic() + seconds
        while not (found := self.script(text, *given)):
            assert time.monotonic() < end, f"not seen in {seconds} s: {text} {given}"
            time.sleep(0.05)
        return found

    def idle(self):
        """Waits until no figure of the page is playing steps."""
        self.wait("return document.body.dataset.busy !== 'yes'")

    def revealed(self):
        """Waits until the page shows the answer and no figure is playing steps."""
        self.wait("return document.querySelector('.reveal') !== null && document.body.dataset.busy !== 'yes'")

    def step(self, keys):
        """Presses the keys of threads. After each key, waits until the thread's steps are shown."""
        for key in keys:
            self.press(key)
            self.idle()

    def settle(self):
        """Waits until the address and the stored state are up to date."""
        time.sleep(0.6)

    def text(self, what):
        return self.script("return document.querySelector(arguments[0])?.innerText ?? ''", what)

    def is_seen(self, what):
        """Returns whether a part is on the page and not hidden. The part can be outside of the window."""
        return self.script("return [...document.querySelectorAll(arguments[0])].some((it) => it.getClientRects().length > 0)", what)

    def in_window(self, what):
        """Returns whether a part is in the window within two seconds and is not covered."""
        return any(self.is_in_window(what) or time.sleep(0.1) for _ in range(20))

    def is_in_window(self, what):
        return self.script("""const it = document.querySelector(arguments[0]); const box = it.getBoundingClientRect();
            const over = document.elementFromPoint(box.left + box.width / 2, box.top + box.height / 2);
            return box.height > 0 && box.top >= 0 && box.bottom <= innerHeight && (it.contains(over) || over.contains(it))""", what)

    def middle(self, what, words=None):
        return self.wait("""const all = [...document.querySelectorAll(arguments[0])].filter((it) => it.getClientRects().length > 0);
            const it = all.find((it) => arguments[1] === null || it.innerText.includes(arguments[1]));
            if (it === undefined) return null;
            it.scrollIntoView({ block: "center", behavior: "instant" });
            const box = it.getBoundingClientRect(); return [box.left + box.width / 2, box.top + box.height / 2]""", what, words)

    def unfold(self, what):
        """Opens a collapsible part, unless it is already open."""
        if not self.script("return document.querySelector(arguments[0]).open", what):
            self.click(f"{what} > summary")

    def click(self, what, words=None):
        self.point(*self.middle(what, words))

    def touch(self, what, words=None):
        self.point(*self.middle(what, words), "touch")

    def choose(self, what, value):
        """Chooses an option by sending a `change` event to the page, without opening the browser's list of options."""
        self.script("""const it = document.querySelector(arguments[0]); it.focus(); it.value = arguments[1];
            it.dispatchEvent(new Event("change", { bubbles: true }))""", what, value)

    def type(self, what, text):
        self.script("""const it = document.querySelector(arguments[0]); it.focus(); it.value = arguments[1];
            it.dispatchEvent(new Event("input", { bubbles: true }))""", what, text)

    def focus(self):
        """Returns the focused element: its tag, and its id or text."""
        return self.script("const it = document.activeElement; return `${it.tagName} ${it.id || it.innerText.trim()}`")

    def event(self):
        return int(self.text("#where").split()[1])

    @property
    def hash(self):
        return self.script("return location.hash")

    @property
    def title(self):
        return self.script("return document.title")


def pytest_addoption(parser):
    parser.addoption("--browser", action="append", help="one of chromium, firefox, webkit; else all that are installed")
    parser.addoption("--cases", type=pathlib.Path, help="what the program answers (page/test makes it), to compare the engine with")
    parser.addoption("--shots", type=pathlib.Path, help="a folder for a picture of each scenario's end")


def pytest_generate_tests(metafunc):
    if "browser" in metafunc.fixturenames:
        metafunc.parametrize("browser", metafunc.config.getoption("browser") or list(webdriver.NEEDS), scope="session")


@pytest.fixture(scope="session")
def place(request):
    Quiet.cases = request.config.getoption("--cases")
    server = http.server.ThreadingHTTPServer(("127.0.0.1", 0), functools.partial(Quiet, directory=str(PAGE)))
    threading.Thread(target=server.serve_forever, daemon=True).start()
    yield f"http://127.0.0.1:{server.server_port}"
    server.shutdown()


class Turns:
    """Provides browsers of one kind, one at a time. Replaces the browser after a number of scenarios, or if the browser has crashed."""

    def __init__(self, name, place):
        self.name, self.place, self.one, self.left = name, place, None, 0

    def next(self):
        if self.one is None or self.left == 0 or not self.one.is_alive():
            self.end()
            self.one, self.left = Visitor(self.name, self.place), SCENARIOS.get(self.name, 1000)
        self.left -= 1
        return self.one

    def end(self):
        if self.one is not None:
            self.one.__exit__()


@pytest.fixture(scope="session")
def turns(browser, place):
    if webdriver.installed(browser) is None:
        pytest.skip(f"{browser}: not installed (Debian's package {webdriver.NEEDS[browser][0]})")
    its_turns = Turns(browser, place)
    yield its_turns
    its_turns.end()


@pytest.fixture
def visitor(turns, place, request):
    """Returns a first-time visitor."""
    one = turns.next()
    one.size(1300, 900)
    one.go(f"{place}/tests/nothing.html")
    one.script("localStorage.clear(); sessionStorage.clear()")
    one.faults()
    yield one
    if (folder := request.config.getoption("shots")) is not None:
        folder.mkdir(parents=True, exist_ok=True)
        one.picture(folder / f"{request.node.name}.png")
    assert not (faults := one.faults()), faults


@pytest.fixture
def another(browser, place, turns):
    """Returns a second person with their own profile."""
    with Visitor(browser, place) as one:
        yield one
