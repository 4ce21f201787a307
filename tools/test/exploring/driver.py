"""Chromium without a screen, by the W3C WebDriver protocol over HTTP, with what of DevTools the tests need."""

import base64
import http.client
import json
import socket
import subprocess
import time

# The keys that have no letter, as WebDriver names them.
KEYS = {"Tab": "\ue004", "Enter": "\ue007", "Escape": "\ue00c", "Space": " ", "Home": "\ue011", "End": "\ue010", "Left": "\ue012",
        "Up": "\ue013", "Right": "\ue014", "Down": "\ue015", "Shift": "\ue008", "Control": "\ue009", "Backspace": "\ue003"}
OPTIONS = ["--headless=new", "--no-sandbox", "--disable-gpu", "--disable-dev-shm-usage", "--force-device-scale-factor=1",
           "--hide-scrollbars", "--lang=en-US", "--force-prefers-reduced-motion", "--disable-background-networking"]
ELEMENT = "element-6066-11e4-a52e-4f735466cecf"
# A busy machine may need long for a page that takes a tenth of a second elsewhere.
SECONDS = 120


class Broken(Exception):
    """The driver answered with a fault."""


class Browser:
    """A window of so many pixels, light or dark."""

    def __init__(self, wide, high, dark):
        place = socket.socket()
        place.bind(("127.0.0.1", 0))
        self.port = place.getsockname()[1]
        place.close()
        self.driver = subprocess.Popen(["chromedriver", f"--port={self.port}"], stdout=subprocess.DEVNULL, stderr=subprocess.DEVNULL)
        self.session, self.connection = "", None
        try:
            self.begin()
            self.sized(wide, high)
            self.devtools("Emulation.setEmulatedMedia",
                          features=[{"name": "prefers-color-scheme", "value": "dark" if dark else "light"}])
        except BaseException:
            self.end()
            raise

    def begin(self):
        end = time.monotonic() + SECONDS
        while True:
            try:
                self.connection = http.client.HTTPConnection("127.0.0.1", self.port, timeout=10 * SECONDS)
                self.call("GET", "/status")
                break
            except OSError:
                if time.monotonic() > end:
                    raise
                time.sleep(0.05)
        asked = {"goog:chromeOptions": {"args": OPTIONS}, "goog:loggingPrefs": {"browser": "ALL"}}
        self.session = "/session/" + self.call("POST", "/session", {"capabilities": {"alwaysMatch": asked}})["sessionId"]

    def sized(self, wide, high):
        self.devtools("Emulation.setDeviceMetricsOverride", width=wide, height=high, deviceScaleFactor=1, mobile=False)

    def call(self, method, path, body=None):
        data = None if body is None else json.dumps(body)
        self.connection.request(method, path, data, {"Content-Type": "application/json"})
        value = json.loads(self.connection.getresponse().read())["value"]
        if isinstance(value, dict) and "error" in value:
            raise Broken(f"{path}: {value['error']}: {value['message'][:400]}")
        return value

    def of_session(self, method, path, body=None):
        return self.call(method, self.session + path, body)

    def devtools(self, command, **words):
        return self.of_session("POST", "/goog/cdp/execute", {"cmd": command, "params": words})

    def go(self, address):
        self.of_session("POST", "/url", {"url": address})

    def script(self, text, *arguments):
        return self.of_session("POST", "/execute/sync", {"script": text, "args": list(arguments)})

    def until(self, text, *arguments):
        """Waits until a script gives what is true; what it gives, or nothing."""
        end = time.monotonic() + SECONDS
        while time.monotonic() < end:
            found = self.script(text, *arguments)
            if found:
                return found
            time.sleep(0.02)
        return None

    def press(self, *keys):
        """Presses keys, by their names or as texts, one after the other."""
        letters = [one for key in keys for one in ([KEYS[key]] if key in KEYS else key)]
        acts = [{"type": act, "value": one} for one in letters for act in ("keyDown", "keyUp")]
        self.of_session("POST", "/actions", {"actions": [{"type": "key", "id": "keys", "actions": acts}]})

    def named(self):
        """The role and the name of what has the focus, as who can't see the page is told."""
        one = self.of_session("GET", "/element/active")[ELEMENT]
        return (self.of_session("GET", f"/element/{one}/computedrole"), self.of_session("GET", f"/element/{one}/computedlabel"))

    def picture(self, path, high=None):
        """A picture of the window as PNG."""
        data = self.devtools("Page.captureScreenshot", format="png")["data"]
        with open(path, "wb") as opened:
            opened.write(base64.b64decode(data))

    def said(self):
        """What the page wrote on the console, faults and refusals of its policy among it."""
        return [line["message"] for line in self.of_session("POST", "/se/log", {"type": "browser"})
                if line["level"] in ("SEVERE", "WARNING")]

    def end(self):
        try:
            if self.session:
                self.of_session("DELETE", "")
        except (OSError, Broken, http.client.HTTPException):
            pass
        self.driver.terminate()
        self.driver.wait()
