"""A headless Chromium, asked by the WebDriver protocol (W3C) through chromedriver.

Enters: pages by their paths, scripts and sizes. Leaves: what scripts give, and pictures. `found()` tells whether there is a browser at all.
"""
import base64
import json
import shutil
import socket
import subprocess
import tempfile
import time
import urllib.error
import urllib.request
from pathlib import Path

SECONDS = 60
BROWSERS = ("chromium", "chromium-browser", "google-chrome")
WORDS = ("--headless=new", "--no-sandbox", "--disable-gpu", "--disable-dev-shm-usage", "--hide-scrollbars", "--force-color-profile=srgb")
KEYS = {"down": "\ue015", "up": "\ue013", "left": "\ue012", "right": "\ue014", "enter": "\ue007", "home": "\ue011", "end": "\ue010", "tab": "\ue004"}


class Wrong(Exception):
    """What the browser answers in place of a result."""


def found():
    """The paths of chromedriver and of a browser, or None."""
    driver, browser = shutil.which("chromedriver"), next(filter(None, map(shutil.which, BROWSERS)), None)
    return (driver, browser) if driver and browser else None


def free_port():
    with socket.socket() as tried:
        tried.bind(("127.0.0.1", 0))
        return tried.getsockname()[1]


class Browser:
    """One window. It is used by `with`, and ends with all that it started."""

    def __init__(self, width=1280, height=900, dark=False, ratio=1):
        self.size, self.dark, self.ratio = (width, height), dark, ratio

    def __enter__(self):
        driver, browser = found()
        port, self.folder = free_port(), tempfile.mkdtemp(prefix="page_browser_")
        self.driver = subprocess.Popen([driver, f"--port={port}"], stdout=subprocess.DEVNULL, stderr=subprocess.DEVNULL)
        self.address = f"http://127.0.0.1:{port}"
        self.wait_for_driver()
        options = {"binary": browser, "args": [*WORDS, f"--user-data-dir={self.folder}"]}
        wanted = {"browserName": "chrome", "goog:chromeOptions": options, "goog:loggingPrefs": {"browser": "ALL"}}
        self.session = None
        self.session = "/session/" + self.ask("POST", "/session", {"capabilities": {"alwaysMatch": wanted}})["sessionId"]
        self.look(*self.size, self.dark, self.ratio)
        return self

    def __exit__(self, *_):
        try:
            if self.session:
                self.ask("DELETE", self.session)
        finally:
            self.driver.terminate()
            self.driver.wait(SECONDS)
            shutil.rmtree(self.folder, ignore_errors=True)

    def wait_for_driver(self):
        until = time.monotonic() + SECONDS
        while True:
            try:
                return self.ask("GET", "/status")
            except urllib.error.URLError:
                if time.monotonic() > until or self.driver.poll() is not None:
                    raise Wrong("chromedriver does not listen") from None
                time.sleep(0.05)

    def ask(self, method, path, body=None):
        data = None if body is None else json.dumps(body).encode()
        request = urllib.request.Request(self.address + path, data, {"Content-Type": "application/json"}, method=method)
        try:
            with urllib.request.urlopen(request, timeout=SECONDS) as answer:
                return json.load(answer)["value"]
        except urllib.error.HTTPError as error:
            raise Wrong(json.load(error)["value"]["message"].split("\n")[0]) from None

    def tell(self, command, **words):
        """A command of Chromium's own protocol."""
        return self.ask("POST", self.session + "/goog/cdp/execute", {"cmd": command, "params": words})

    def look(self, width, height, dark=False, ratio=1):
        self.tell("Emulation.setDeviceMetricsOverride", width=width, height=height, deviceScaleFactor=ratio, mobile=False)
        self.tell("Emulation.setEmulatedMedia", features=[{"name": "prefers-color-scheme", "value": "dark" if dark else "light"}])

    def open(self, path, fragment=""):
        """Opens a page and waits for two frames behind its load; an earlier page is left first, so that it is loaded anew."""
        self.ask("POST", self.session + "/url", {"url": "about:blank"})
        self.ask("POST", self.session + "/url", {"url": Path(path).resolve().as_uri() + fragment})
        self.frames()

    def run(self, script, *words):
        """What a script gives; `arguments` has the words."""
        return self.ask("POST", self.session + "/execute/sync", {"script": script, "args": list(words)})

    def frames(self):
        script = "const done = arguments[0]; requestAnimationFrame(() => requestAnimationFrame(() => setTimeout(done, 0)));"
        self.ask("POST", self.session + "/execute/async", {"script": script, "args": []})

    def press(self, *names):
        """Presses keys, one after the other, where the focus is."""
        keys = [KEYS.get(name, name) for name in names]
        acts = [{"type": kind, "value": key} for key in keys for kind in ("keyDown", "keyUp")]
        self.ask("POST", self.session + "/actions", {"actions": [{"type": "key", "id": "keys", "actions": acts}]})
        self.frames()

    def click(self, x, y):
        acts = [{"type": "pointerMove", "x": int(x), "y": int(y), "duration": 0}, {"type": "pointerDown", "button": 0}, {"type": "pointerUp", "button": 0}]
        self.ask("POST", self.session + "/actions", {"actions": [{"type": "pointer", "id": "mouse", "parameters": {"pointerType": "mouse"}, "actions": acts}]})
        self.frames()

    def wheel(self, x, y, down):
        acts = [{"type": "scroll", "x": int(x), "y": int(y), "deltaX": 0, "deltaY": down, "duration": 0, "origin": "viewport"}]
        self.ask("POST", self.session + "/actions", {"actions": [{"type": "wheel", "id": "wheel", "actions": acts}]})
        self.frames()

    def picture(self, path, whole=False):
        """A picture of the window, or of the whole page."""
        if whole:
            size = self.run("return [document.documentElement.clientWidth, document.documentElement.scrollHeight]")
            clip = {"x": 0, "y": 0, "width": size[0], "height": size[1], "scale": 1}
            data = self.tell("Page.captureScreenshot", format="png", captureBeyondViewport=True, clip=clip)["data"]
        else:
            data = self.tell("Page.captureScreenshot", format="png")["data"]
        Path(path).write_bytes(base64.b64decode(data))

    def paper(self):
        """The page as a PDF file's bytes."""
        return base64.b64decode(self.tell("Page.printToPDF", printBackground=False, paperWidth=8.27, paperHeight=11.69)["data"])

    def errors(self):
        """What the browser noted as errors since it was asked last."""
        return [entry["message"] for entry in self.ask("POST", self.session + "/se/log", {"type": "browser"}) if entry["level"] == "SEVERE"]
