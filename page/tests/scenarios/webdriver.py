"""Drives the installed browsers with a person's keys, clicks and touches, and reads the visible parts of a page.

Chromium and WebKit use WebDriver over HTTP (chromedriver, WebKitWebDriver). Firefox uses Marionette (the same commands
over its own socket), so geckodriver is not needed.
"""

import base64
import json
import os
import pathlib
import shutil
import socket
import subprocess
import tempfile
import time
import urllib.request

import processes

NEEDS = {"chromium": ("chromium-driver", ["chromedriver"]), "firefox": ("firefox-esr", ["firefox-esr", "firefox"]),
         "webkit": ("webkit2gtk-driver and xvfb", ["WebKitWebDriver"])}
KEYS = {"Enter": "\ue007", "Tab": "\ue004", "Escape": "\ue00c", "Left": "\ue012", "Up": "\ue013", "Right": "\ue014", "Down": "\ue015",
        "Home": "\ue011", "PageUp": "\ue00e", "PageDown": "\ue00f", "End": "\ue010", "Space": " ", "Backspace": "\ue003"}
SHIFT, CONTROL = "\ue008", "\ue009"
# For each command, its name in WebDriver over HTTP (method and path) and its name in Marionette.
COMMANDS = {"go": ("POST", "url", "WebDriver:Navigate"), "back": ("POST", "back", "WebDriver:Back"),
            "reload": ("POST", "refresh", "WebDriver:Refresh"), "script": ("POST", "execute/sync", "WebDriver:ExecuteScript"),
            "act": ("POST", "actions", "WebDriver:PerformActions"), "picture": ("GET", "screenshot", "WebDriver:TakeScreenshot"),
            "size": ("POST", "window/rect", "WebDriver:SetWindowRect"), "end": ("DELETE", "", "WebDriver:DeleteSession"), "log": ("POST", "se/log", None),
            "devtools": ("POST", "goog/cdp/execute", None)}


def installed(name):
    """Returns the path of the driver, or None."""
    path = next((found for found in map(shutil.which, NEEDS[name][1]) if found), None)
    return None if name == "webkit" and not shutil.which("xvfb-run") else path


def free_port():
    with socket.socket() as own:
        own.bind(("127.0.0.1", 0))
        return own.getsockname()[1]


def started(words, folder):
    """Starts a process that ends when the calling process ends. `folder` contains the settings of the started process."""
    homes = {f"XDG_{it}_HOME": folder for it in ("CONFIG", "DATA", "CACHE")}
    silent = {"stdin": subprocess.DEVNULL, "stdout": subprocess.DEVNULL, "stderr": subprocess.DEVNULL}
    return subprocess.Popen([*processes.guarded(), *words], **silent, env={**os.environ, **homes})


class OverHttp:
    def __init__(self, words, port, wanted, folder):
        self.place, self.process = f"http://127.0.0.1:{port}/session", started(words, folder)
        self.own = ""
        asked = {"capabilities": {"alwaysMatch": wanted}}
        self.own = "/" + until(lambda: self.ask("POST", "", asked), OSError)["sessionId"]

    def ask(self, method, path, given):
        body = None if method in ("GET", "DELETE") else json.dumps(given).encode()
        request = urllib.request.Request(f"{self.place}{self.own}{'/' * bool(path)}{path}", body, {"content-type": "application/json"})
        request.get_method = lambda: method
        try:
            with urllib.request.urlopen(request, timeout=180) as answer:
                return json.load(answer)["value"]
        except urllib.error.HTTPError as fault:
            raise RuntimeError(json.load(fault)["value"]["message"]) from None

    def command(self, name, given):
        method, path, _ = COMMANDS[name]
        return self.ask(method, path, given)


class OverMarionette:
    def __init__(self, path, folder):
        port = free_port()
        own = [f'user_pref("marionette.port", {port});', 'user_pref("datareporting.policy.dataSubmissionEnabled", false);']
        own.append('user_pref("ui.prefersReducedMotion", 1);')
        pathlib.Path(folder, "user.js").write_text("\n".join(own))
        self.process = started([path, "--headless", "--no-remote", "--marionette", "--profile", folder], folder)
        self.socket = until(lambda: socket.create_connection(("127.0.0.1", port), 180), OSError)
        self.answers = self.socket.makefile("rb")
        self.number = 0
        self.read()
        self.ask("WebDriver:NewSession", {"capabilities": {}})

    def read(self):
        length = b""
        while not length.endswith(b":"):
            length += self.answers.read(1)
        return json.loads(self.answers.read(int(length[:-1])))

    def ask(self, name, given):
        self.number += 1
        text = json.dumps([0, self.number, name, given]).encode()
        self.socket.sendall(b"%d:%s" % (len(text), text))
        _, _, fault, value = self.read()
        if fault is not None:
            raise RuntimeError(fault["message"])
        return value["value"] if isinstance(value, dict) and set(value) == {"value"} else value

    def command(self, name, given):
        return self.ask(COMMANDS[name][2], given)


def until(deed, fault, seconds=120):
    """Repeats an action until it does not raise `fault`, and returns its value."""
    end = time.monotonic() + seconds
    while True:
        try:
            return deed()
        except fault:
            if time.monotonic() > end:
                raise
            time.sleep(0.1)


def connection(name, path, folder):
    if name == "firefox":
        return OverMarionette(path, folder)
    port = free_port()
    if name == "webkit":
        program = next(map(str, pathlib.Path("/usr/lib").glob("*/webkit2gtk-4.*/MiniBrowser")))
        wanted = {"webkitgtk:browserOptions": {"binary": program, "args": ["--automation"]}}
        words = ["xvfb-run", "-a", "-s", "-screen 0 2000x1300x24", path, f"--port={port}"]
        return OverHttp(words, port, wanted, folder)
    args = ["--headless=new", "--no-sandbox", "--disable-gpu", f"--user-data-dir={folder}/profile"]
    return OverHttp([path, f"--port={port}"], port, {"goog:chromeOptions": {"args": args}, "goog:loggingPrefs": {"browser": "ALL"}}, folder)


class Browser:
    """A browser with its own profile. The browser is closed at the end of the `with` block."""

    def __init__(self, name):
        self.name, self.folder = name, tempfile.TemporaryDirectory(ignore_cleanup_errors=True)
        self.at = connection(name, installed(name), self.folder.name)

    def __enter__(self):
        return self

    def __exit__(self, *_):
        try:
            self.at.command("end", {})
        except (RuntimeError, OSError):
            pass
        self.at.process.terminate()
        self.at.process.wait()
        self.folder.cleanup()

    def is_alive(self):
        try:
            return self.script("return true")
        except (RuntimeError, OSError):
            return False

    def go(self, address):
        self.at.command("go", {"url": address})

    def back(self):
        self.at.command("back", {})

    def reload(self):
        self.at.command("reload", {})

    def size(self, width, height):
        self.at.command("size", {"width": width, "height": height})

    def devtools(self, name, **given):
        """Sends a Chrome DevTools Protocol command, and returns its answer. Does nothing in other browsers."""
        if self.name == "chromium":
            return self.at.command("devtools", {"cmd": name, "params": given})

    def script(self, text, *given):
        return self.at.command("script", {"script": text, "args": list(given)})

    def picture(self, path):
        pathlib.Path(path).write_bytes(base64.b64decode(self.at.command("picture", {"full": False})))

    def press(self, *keys):
        """Presses keys one after another. A key such as `Shift+Left` means that Shift is held down while Left is pressed."""
        deeds = []
        for key in keys:
            *held, last = key.split("+") if len(key) > 1 else [key]
            assert len(last) == 1 or last in KEYS, last
            held = [{"Shift": SHIFT, "Control": CONTROL}[it] for it in held]
            last = KEYS.get(last, last)
            deeds += [{"type": "keyDown", "value": it} for it in (*held, last)]
            deeds += [{"type": "keyUp", "value": it} for it in (last, *held)]
        self.at.command("act", {"actions": [{"type": "key", "id": "keys", "actions": deeds}]})

    def faults(self):
        """Returns the errors of scripts since the previous call, if the browser reports such errors."""
        if self.name != "chromium":
            return []
        return [it["message"] for it in self.at.command("log", {"type": "browser"}) if it["source"] == "javascript"]

    def point(self, x, y, kind="mouse"):
        move = {"type": "pointerMove", "duration": 0, "x": int(x), "y": int(y), "origin": "viewport"}
        deeds = [move, {"type": "pointerDown", "button": 0}, {"type": "pointerUp", "button": 0}]
        self.at.command("act", {"actions": [{"type": "pointer", "id": kind, "parameters": {"pointerType": kind}, "actions": deeds}]})
