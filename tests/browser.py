"""A headless Chromium, driven by its DevTools protocol over a pair of pipes."""

import base64
import fcntl
import json
import os
import pathlib
import subprocess
import time

FLAGS = "--headless=new --no-sandbox --disable-gpu --disable-dev-shm-usage --no-first-run --hide-scrollbars --remote-debugging-pipe".split()
# the protocol's pipes are the files 3 and 4 of the browser
STARTS = 'to=$1 from=$2; shift 2; exec "$@" 3<&"$to" 4>&"$from"'
# seconds that an answer of the browser may take
PATIENCE = 120


def pipe():
    """A pipe whose ends are none of the browser's own files."""
    ends = os.pipe()
    above = [fcntl.fcntl(it, fcntl.F_DUPFD_CLOEXEC, 10) for it in ends]
    for it in ends:
        os.close(it)
    return above


class Browser:
    """A browser with one page. It notes what the page reports as errors, and the addresses that it asks for."""

    def __init__(self, folder, width=1440, height=900):
        theirs, to = pipe()
        self.answers, answering = pipe()
        words = ["chromium", *FLAGS, f"--user-data-dir={folder}", f"--window-size={width},{height}", "about:blank"]
        self.process = subprocess.Popen(["bash", "-c", STARTS, "bash", str(theirs), str(answering), *words], pass_fds=(theirs, answering),
                                        stdin=subprocess.DEVNULL, stdout=subprocess.DEVNULL, stderr=subprocess.DEVNULL)  # fmt: skip
        os.close(theirs)
        os.close(answering)
        self.to, self.read, self.sent, self.session = to, b"", 0, None
        self.errors, self.requests = [], []
        pages = [it for it in self.send("Target.getTargets")["targetInfos"] if it["type"] == "page"]
        self.session = self.send("Target.attachToTarget", targetId=pages[0]["targetId"], flatten=True)["sessionId"]
        for it in ("Page", "Runtime", "Log", "Network"):
            self.send(f"{it}.enable")

    def message(self):
        """The next message of the browser."""
        while b"\0" not in self.read:
            piece = os.read(self.answers, 1 << 20)
            if not piece:
                raise EOFError("the browser has ended")
            self.read += piece
        first, _, self.read = self.read.partition(b"\0")
        return json.loads(first)

    def note(self, method, params):
        """Notes what a page reports by itself."""
        if method == "Runtime.exceptionThrown":
            told = params["exceptionDetails"]
            self.errors.append(told.get("exception", {}).get("description", told["text"]))
        elif method == "Log.entryAdded" and params["entry"]["level"] == "error":
            self.errors.append(params["entry"]["text"])
        elif method == "Network.requestWillBeSent":
            self.requests.append(params["request"]["url"])

    def send(self, method, **params):
        """What the browser answers to a call of the protocol."""
        self.sent += 1
        call = {"id": self.sent, "method": method, "params": params}
        if self.session:
            call["sessionId"] = self.session
        whole = json.dumps(call).encode() + b"\0"
        while whole:
            whole = whole[os.write(self.to, whole) :]
        while True:
            told = self.message()
            if told.get("id") == self.sent:
                assert "error" not in told, (method, told["error"])
                return told["result"]
            self.note(told.get("method"), told.get("params"))

    def value(self, expression):
        """The value of an expression of JavaScript, once it is there."""
        told = self.send("Runtime.evaluate", expression=expression, awaitPromise=True, returnByValue=True)
        failed = told.get("exceptionDetails")
        assert not failed, failed.get("exception", {}).get("description", failed["text"])
        return told["result"].get("value")

    def call(self, function, *values):
        """What a function of JavaScript gives for these values."""
        return self.value(f"({function})(...{json.dumps(values)})")

    def until(self, expression):
        """Waits until an expression is true."""
        end = time.monotonic() + PATIENCE
        while not self.value(expression):
            assert time.monotonic() < end, f"never came: {expression}; {self.errors}"
            time.sleep(0.02)

    def open(self, url):
        """Opens a page anew, and waits until it says that it is ready, or why it is not."""
        self.send("Page.navigate", url="about:blank")
        self.send("Page.navigate", url=url)
        self.until("document.documentElement?.dataset.ready || !(document.getElementById('alert')?.hidden ?? true)")

    def type(self, text):
        """Types a text where the page has its focus."""
        self.send("Input.insertText", text=text)

    def key(self, name, code):
        """Presses a key."""
        for it in ("keyDown", "keyUp"):
            self.send("Input.dispatchKeyEvent", type=it, key=name, code=name, windowsVirtualKeyCode=code)

    def show(self, width, height, is_dark=False, is_phone=False):
        """Sets how large the page is, and whether it is dark."""
        scale = 2 if is_phone else 1
        self.send("Emulation.setDeviceMetricsOverride", width=width, height=height, deviceScaleFactor=scale, mobile=is_phone)
        scheme = {"name": "prefers-color-scheme", "value": "dark" if is_dark else "light"}
        self.send("Emulation.setEmulatedMedia", features=[scheme])

    def picture(self, path):
        """Writes a picture of the page."""
        pathlib.Path(path).write_bytes(base64.b64decode(self.send("Page.captureScreenshot", format="png")["data"]))

    def close(self):
        """Ends the browser."""
        try:
            self.send("Browser.close")
        except (EOFError, BrokenPipeError):
            pass
        finally:
            try:
                self.process.wait(10)
            except subprocess.TimeoutExpired:
                self.process.kill()
                self.process.wait()
            os.close(self.to)
            os.close(self.answers)
