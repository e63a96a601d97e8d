"""Chromium with one page, driven by its DevTools protocol over a pipe. Messages are JSON, each ended by a zero byte."""
import base64
import json
import os
import shutil
import subprocess
from pathlib import Path

SHIFT = 8
KEYS = {"ArrowLeft": 37, "ArrowUp": 38, "ArrowRight": 39, "ArrowDown": 40, "Home": 36, "End": 35, "Tab": 9, "Enter": 13, " ": 32,
        **{str(digit): 48 + digit for digit in range(10)}}


def chromium(install):
    """The program, or nothing where there is none; with `install` Debian's is installed then."""
    found = shutil.which("chromium") or shutil.which("chromium-browser") or shutil.which("google-chrome")
    if not found and install:
        subprocess.run(["apt-get", "install", "-y", "--no-install-recommends", "chromium"], check=True)
        found = shutil.which("chromium")
    return found


class Browser:
    def __init__(self, program, folder):
        to_browser, self.commands = os.pipe()
        self.answers, from_browser = os.pipe()
        line = f'exec "$0" "$@" 3<&{to_browser} 4>&{from_browser}'
        flags = ["--headless", "--remote-debugging-pipe", "--no-sandbox", "--disable-gpu",
                 f"--user-data-dir={folder}", "about:blank"]
        self.process = subprocess.Popen(["bash", "-c", line, program] + flags, pass_fds=(to_browser, from_browser),
                                        stdout=subprocess.DEVNULL, stderr=subprocess.DEVNULL)
        os.close(to_browser)
        os.close(from_browser)
        self.last, self.rest, self.session, self.faults, self.loaded = 0, b"", None, [], []
        target = self.ask("Target.createTarget", url="about:blank")["targetId"]
        self.session = self.ask("Target.attachToTarget", targetId=target, flatten=True)["sessionId"]
        for domain in "Page", "Runtime", "Network":
            self.ask(f"{domain}.enable")

    def message(self):
        while b"\0" not in self.rest:
            piece = os.read(self.answers, 1 << 20)
            if not piece:
                raise RuntimeError("the browser is gone")
            self.rest += piece
        one, self.rest = self.rest.split(b"\0", 1)
        found = json.loads(one)
        if found.get("method") == "Runtime.exceptionThrown":
            self.faults.append(found["params"]["exceptionDetails"]["exception"].get("description", "a fault"))
        if found.get("method") == "Network.requestWillBeSent":
            self.loaded.append(found["params"]["request"]["url"])
        return found

    def ask(self, method, **parameters):
        self.last += 1
        sent = {"id": self.last, "method": method, "params": parameters}
        if self.session:
            sent["sessionId"] = self.session
        os.write(self.commands, json.dumps(sent).encode() + b"\0")
        while True:
            found = self.message()
            if found.get("id") == self.last:
                if "error" in found:
                    raise RuntimeError(f"{method}: {found['error']['message']}")
                return found["result"]

    def evaluate(self, script):
        found = self.ask("Runtime.evaluate", expression=script, returnByValue=True, awaitPromise=True)
        if "exceptionDetails" in found:
            raise RuntimeError(found["exceptionDetails"]["exception"].get("description", "a fault"))
        return found["result"].get("value")

    def show(self, file, window):
        """Opens a page, and tells in how many seconds."""
        self.resize(window)
        self.ask("Page.navigate", url="about:blank")
        # an element gets the focus also where the window hasn't it
        self.ask("Emulation.setFocusEmulationEnabled", enabled=True)
        self.faults, self.loaded = [], []
        self.ask("Page.navigate", url=Path(file).resolve().as_uri())
        self.evaluate("new Promise(d => document.readyState === 'complete' ? d() : addEventListener('load', () => d()))")
        return self.evaluate("performance.getEntriesByType('navigation')[0].domComplete / 1000")

    def resize(self, window):
        self.ask("Emulation.setDeviceMetricsOverride", width=window[0], height=window[1], deviceScaleFactor=1, mobile=False)
        self.evaluate("new Promise(d => setTimeout(d, 250))")

    def press(self, key, shift=False):
        named = {"key": key, "code": key, "windowsVirtualKeyCode": KEYS[key], "modifiers": SHIFT if shift else 0}
        if key == "Enter":  # it acts as the character that it writes
            self.ask("Input.dispatchKeyEvent", type="keyDown", text="\r", **named)
        else:
            self.ask("Input.dispatchKeyEvent", type="rawKeyDown", **named)
        self.ask("Input.dispatchKeyEvent", type="keyUp", **named)

    def click(self, element):
        """Presses the pointer in the middle of an element, by the script that names it."""
        spot = self.evaluate(f"{{ const e = {element}; e.scrollIntoView({{ block: 'center' }}); const b = e.getBoundingClientRect(); "
                             "({ x: (b.left + b.right) / 2, y: (b.top + b.bottom) / 2 }) }")
        for kind in "mousePressed", "mouseReleased":
            self.ask("Input.dispatchMouseEvent", type=kind, button="left", clickCount=1, **spot)

    def picture(self, file, scheme="light"):
        """Keeps what the window shows."""
        self.media(scheme=scheme)
        shot = self.ask("Page.captureScreenshot", format="png")
        Path(file).write_bytes(base64.b64decode(shot["data"]))
        self.ask("Emulation.setEmulatedMedia", media="", features=[])

    def media(self, kind="", scheme="light"):
        """Takes the styles of `print`, or those of a screen in a light or dark scheme."""
        self.ask("Emulation.setEmulatedMedia", media=kind, features=[{"name": "prefers-color-scheme", "value": scheme}])

    def print(self, file):
        """Keeps what would be printed."""
        printed = self.ask("Page.printToPDF", landscape=False, printBackground=False)
        Path(file).write_bytes(base64.b64decode(printed["data"]))

    def close(self):
        self.ask("Browser.close")
        self.process.wait(10)
