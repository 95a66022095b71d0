"""A headless Chromium that a script drives by the DevTools protocol, over a pipe."""

import base64
import json
import os
import select
import shutil
import subprocess
import tempfile
import time

# The status of a script that found no browser: that is no pass.
NO_BROWSER = 77
NAMES = ("chromium", "chromium-browser", "google-chrome", "chrome")
# No service of the browser itself is to run beside the page.
QUIET = (
    "--headless=new", "--no-sandbox", "--disable-gpu", "--no-first-run", "--no-default-browser-check", "--hide-scrollbars", "--mute-audio",
    "--disable-background-networking", "--disable-component-update", "--disable-sync", "--disable-extensions", "--disable-default-apps",
)
SECONDS = 900


def found():
    """The path of a Chromium, or None."""
    return next(filter(None, map(shutil.which, NAMES)), None)


class Browser:
    """A browser that ends with its `with`."""

    def __init__(self, path):
        self.path, self.number, self.inbox, self.rest = path, 0, [], b""

    def __enter__(self):
        self.room = tempfile.TemporaryDirectory(ignore_cleanup_errors=True)
        theirs, self.out = os.pipe()
        self.into, answers = os.pipe()
        # The protocol is spoken on the descriptors 3 and 4.
        shell = f"exec 3<&{theirs} 4>&{answers}; exec \"$0\" \"$@\""
        words = [self.path, *QUIET, "--remote-debugging-pipe", f"--user-data-dir={self.room.name}", "about:blank"]
        self.child = subprocess.Popen(["bash", "-c", shell, *words], pass_fds=(theirs, answers), stdout=subprocess.DEVNULL, stderr=subprocess.DEVNULL)
        os.close(theirs)
        os.close(answers)
        return self

    def __exit__(self, *_):
        try:
            self.call("Browser.close")
            self.child.wait(10)
        except (OSError, RuntimeError, subprocess.TimeoutExpired):
            self.child.kill()
            self.child.wait()
        os.close(self.out)
        os.close(self.into)
        self.room.cleanup()

    def read(self, until):
        """The next message, or None where none comes before that time."""
        while b"\0" not in self.rest:
            if not select.select([self.into], [], [], max(0, until - time.monotonic()))[0]:
                return None
            part = os.read(self.into, 1 << 20)
            if not part:
                raise RuntimeError("the browser has ended")
            self.rest += part
        one, self.rest = self.rest.split(b"\0", 1)
        return json.loads(one)

    def call(self, method, session=None, **params):
        """What the browser answers to a call. Events that come meanwhile are kept."""
        self.number += 1
        message = {"id": self.number, "method": method, "params": params, **({"sessionId": session} if session else {})}
        text = json.dumps(message).encode() + b"\0"
        while text:
            text = text[os.write(self.out, text):]
        until = time.monotonic() + SECONDS
        while (got := self.read(until)) is not None:
            if got.get("id") != self.number:
                self.inbox.append(got)
            elif "error" in got:
                raise RuntimeError(f"{method}: {got['error']['message']}")
            else:
                return got["result"]
        raise RuntimeError(f"{method}: no answer within {SECONDS} seconds")

    def page(self, url, width=1400, height=900):
        return Page(self, url, width, height)


class Page:
    """A page, with what went wrong in it and what it asked for."""

    def __init__(self, browser, url, width, height):
        self.browser = browser
        self.target = browser.call("Target.createTarget", url="about:blank")["targetId"]
        self.session = browser.call("Target.attachToTarget", targetId=self.target, flatten=True)["sessionId"]
        for domain in ("Page", "Runtime", "Log", "Network", "DOM"):
            self.call(f"{domain}.enable")
        # Times of the page are those of its thread, whatever else the machine has to do.
        self.call("Performance.enable", timeDomain="threadTicks")
        self.size(width, height)
        self.call("Page.navigate", url=url)
        self.wait("location.href !== 'about:blank' && document.readyState === 'complete'")

    def call(self, method, **params):
        return self.browser.call(method, self.session, **params)

    def size(self, width, height):
        self.call("Emulation.setDeviceMetricsOverride", width=width, height=height, deviceScaleFactor=1, mobile=False)

    def events(self, method):
        self.evaluate("0")
        return [got["params"] for got in self.browser.inbox if got.get("sessionId") == self.session and got["method"] == method]

    def evaluate(self, text):
        """The value of an expression, of its promise too."""
        got = self.call("Runtime.evaluate", expression=text, awaitPromise=True, returnByValue=True)
        if "exceptionDetails" in got:
            details = got["exceptionDetails"]
            raise RuntimeError(details.get("exception", {}).get("description", details["text"]))
        return got["result"].get("value")

    def wait(self, text):
        """Waits until an expression is true. Where something went wrong in the page it may never be."""
        until = time.monotonic() + SECONDS
        while not self.evaluate(text):
            if problems := self.problems():
                raise RuntimeError(f"it is not so that {text}: {problems}")
            if time.monotonic() > until:
                raise RuntimeError(f"it is not so that {text}")
            time.sleep(0.01)

    def settle(self):
        """Waits until what was asked for is drawn. The page is the viewer's."""
        self.wait("typeof Viewer === 'object' && Viewer.page !== undefined")
        self.evaluate("new Promise((done) => requestAnimationFrame(() => requestAnimationFrame(() => done(1))))")

    def key(self, key):
        for kind in ("keyDown", "keyUp"):
            more = {"text": key} if len(key) == 1 and kind == "keyDown" else {}
            self.call("Input.dispatchKeyEvent", type=kind, key=key, **more)
        self.settle()

    def write(self, text):
        self.call("Input.insertText", text=text)
        self.settle()

    def click(self, x, y, count=1):
        for kind in ("mousePressed", "mouseReleased"):
            self.call("Input.dispatchMouseEvent", type=kind, x=x, y=y, button="left", clickCount=count)
        self.settle()

    def wheel(self, x, y, dx, dy, ctrl=False):
        self.call("Input.dispatchMouseEvent", type="mouseWheel", x=x, y=y, deltaX=dx, deltaY=dy, modifiers=2 if ctrl else 0)
        self.settle()

    def drop(self, *paths, x=400, y=300):
        """Drops files on the page."""
        data = {"items": [], "files": [str(path) for path in paths], "dragOperationsMask": 1}
        for kind in ("dragEnter", "dragOver", "drop"):
            self.call("Input.dispatchDragEvent", type=kind, x=x, y=y, data=data)

    def pick(self, selector, *paths):
        """Picks files by the page's own button for them."""
        root = self.call("DOM.getDocument")["root"]["nodeId"]
        node = self.call("DOM.querySelector", nodeId=root, selector=selector)["nodeId"]
        self.call("DOM.setFileInputFiles", nodeId=node, files=[str(path) for path in paths])

    def screenshot(self, path):
        self.settle()
        data = self.call("Page.captureScreenshot", format="png")["data"]
        path.write_bytes(base64.b64decode(data))

    def problems(self):
        """Errors and warnings of the console, exceptions, and what the browser itself reports."""
        told = [one["exceptionDetails"]["text"] + str(one["exceptionDetails"].get("exception", {}).get("description", "")) for one in self.events("Runtime.exceptionThrown")]
        told += [str([arg.get("value") for arg in one["args"]]) for one in self.events("Runtime.consoleAPICalled") if one["type"] in ("error", "warning", "assert")]
        return told + [one["entry"]["text"] for one in self.events("Log.entryAdded") if one["entry"]["level"] in ("error", "warning")]

    def asked(self):
        """The addresses that the page asked for."""
        return [one["request"]["url"] for one in self.events("Network.requestWillBeSent")]

    def seconds(self):
        """The processor seconds that the page's thread had so far."""
        return next(one["value"] for one in self.call("Performance.getMetrics")["metrics"] if one["name"] == "TaskDuration")

    def close(self):
        self.browser.call("Target.closeTarget", targetId=self.target)
