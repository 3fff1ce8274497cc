"""Drives a headless Chromium by its own protocol, over a pipe: no port is opened, and no library is needed."""

import contextlib
import json
import os
import shutil
import subprocess
import tempfile

NAMES = ("chromium", "chromium-browser", "google-chrome")
FLAGS = (
    "--headless=new",
    "--no-sandbox",
    "--disable-gpu",
    "--disable-dev-shm-usage",
    "--disable-background-networking",
    "--disable-component-update",
    "--disable-sync",
    "--no-first-run",
    "--hide-scrollbars",
    "--remote-debugging-pipe",
)


class Failed(Exception):
    """The browser answered with a fault."""


def program():
    """The browser's program, or None."""
    return next(filter(None, map(shutil.which, NAMES)), None)


class Page:
    """A page of the browser, with all events that it told of."""

    def __init__(self, to_browser, from_browser):
        self.to_browser = to_browser
        self.from_browser = from_browser
        self.asked = 0
        self.events = []
        self.session = None
        target = self.call("Target.createTarget", url="about:blank")["targetId"]
        self.session = self.call("Target.attachToTarget", targetId=target, flatten=True)["sessionId"]
        for domain in ("Page", "Runtime", "Network", "Log"):
            self.call(f"{domain}.enable")

    def message(self):
        """The next message of the browser; each ends with a zero byte."""
        data = bytearray()
        while (byte := self.from_browser.read(1)) != b"\0":
            if not byte:
                raise Failed("the browser ended")
            data += byte
        return json.loads(data)

    def call(self, method, **words):
        """What the browser answers to a call."""
        self.asked += 1
        asked = {"id": self.asked, "method": method, "params": words}
        if self.session:
            asked["sessionId"] = self.session
        self.to_browser.write(json.dumps(asked).encode() + b"\0")
        self.to_browser.flush()
        while True:
            came = self.message()
            if came.get("id") == self.asked:
                if "error" in came:
                    raise Failed(f"{method}: {came['error']['message']}")
                return came["result"]
            self.events.append(came)

    def value(self, expression):
        """The value of an expression of the page; one that is promised is waited for."""
        came = self.call("Runtime.evaluate", expression=expression, awaitPromise=True, returnByValue=True)
        if "exceptionDetails" in came:
            raise Failed(f"{expression}: {came['exceptionDetails'].get('exception', {}).get('description', '?')}")
        return came["result"].get("value")

    def told(self, *methods):
        """The words of the events of these names."""
        return [event["params"] for event in self.events if event.get("method") in methods]

    def key(self, key, code=0, text=""):
        """Presses a key."""
        words = {"key": key, "code": key, "windowsVirtualKeyCode": code, "text": text}
        self.call("Input.dispatchKeyEvent", type="keyDown" if text else "rawKeyDown", **words)
        self.call("Input.dispatchKeyEvent", type="keyUp", **words)

    def drag(self, start, end):
        """Presses the mouse at a place, and moves it to another."""
        words = {"button": "left", "buttons": 1, "clickCount": 1}
        self.call("Input.dispatchMouseEvent", type="mousePressed", x=start[0], y=start[1], **words)
        self.call("Input.dispatchMouseEvent", type="mouseMoved", x=end[0], y=end[1], **words)
        self.call("Input.dispatchMouseEvent", type="mouseReleased", x=end[0], y=end[1], **words)

    def click(self, place):
        """Clicks at a place."""
        self.drag(place, place)

    def swipe(self, start, end):
        """Puts a finger down at a place, and moves it to another."""
        self.call("Input.dispatchTouchEvent", type="touchStart", touchPoints=[{"x": start[0], "y": start[1]}])
        for step in range(1, 6):
            x, y = (start[axis] + (end[axis] - start[axis]) * step / 5 for axis in (0, 1))
            self.call("Input.dispatchTouchEvent", type="touchMove", touchPoints=[{"x": x, "y": y}])
        self.call("Input.dispatchTouchEvent", type="touchEnd", touchPoints=[])


@contextlib.contextmanager
def opened():
    """A page of a browser that ends with this context."""
    read_asked, write_asked = os.pipe()
    read_told, write_told = os.pipe()
    with tempfile.TemporaryDirectory() as profile:
        # The browser reads its calls at 3 and writes its answers at 4.
        words = ["sh", "-c", f'exec "$@" 3<&{read_asked} 4>&{write_told}', "sh", program(), *FLAGS, f"--user-data-dir={profile}"]
        kept = (read_asked, write_told)
        with subprocess.Popen(words, pass_fds=kept, stdout=subprocess.DEVNULL, stderr=subprocess.DEVNULL) as process:
            for end in kept:
                os.close(end)
            with open(write_asked, "wb") as to_browser, open(read_told, "rb") as from_browser:
                try:
                    yield Page(to_browser, from_browser)
                finally:
                    process.terminate()
                    process.wait()
