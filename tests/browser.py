"""A headless browser, driven over a pipe by the DevTools protocol."""

import base64
import itertools
import json
import os
import select
import shutil
import subprocess
import tempfile
import time

NAMES = ("chromium", "chromium-browser", "google-chrome", "google-chrome-stable")
EMPTY = "about:blank"
PATIENCE = 600  # seconds for one answer
CODES = {"Backspace": 8, "Tab": 9, "Enter": 13, "Escape": 27, "End": 35, "Home": 36, "ArrowLeft": 37, "ArrowUp": 38,
         "ArrowRight": 39, "ArrowDown": 40}


def found():
    """Returns the path of a browser, or None. The variable BROWSER_OF_TESTS names another one."""
    return os.environ.get("BROWSER_OF_TESTS") or next(filter(None, map(shutil.which, NAMES)), None)


class Page:
    """The one page of a browser, in which `evaluate` returns the value of an expression."""

    def wait_for(self, text):
        """Waits until an expression in the page is true."""
        end = time.monotonic() + PATIENCE
        while not self.evaluate(text):
            if time.monotonic() > end:
                raise TimeoutError(f"{text} does not come to be so")
            time.sleep(0.02)

    def finish(self, seconds):
        """Waits until the browser ends, as it was told to, and removes what it has kept."""
        try:
            self.process.wait(seconds)
        except subprocess.TimeoutExpired:
            self.process.kill()
            self.process.wait()
        self.room.cleanup()


class Browser(Page):
    """Chromium."""

    def __init__(self, path):
        self.room = tempfile.TemporaryDirectory()
        to_browser, self.input = os.pipe()
        self.output, from_browser = os.pipe()
        self.numbers = itertools.count(1)
        self.rest = b""
        self.log = []  # what the page complained about
        self.is_empty = True  # the page
        words = [path, "--headless=new", "--no-sandbox", "--disable-gpu", "--no-first-run", "--disable-dev-shm-usage",
                 "--hide-scrollbars", f"--user-data-dir={self.room.name}", "--remote-debugging-pipe", EMPTY]
        ends = f"exec {{a}}<&{to_browser} {{b}}>&{from_browser}; exec 3<&$a 4>&$b; exec \"$@\""  # either end may have number 3 or 4
        self.process = subprocess.Popen(["bash", "-c", ends, "bash", *words], pass_fds=(to_browser, from_browser),
                                        stdout=subprocess.DEVNULL, stderr=subprocess.DEVNULL, start_new_session=True)
        os.close(to_browser)
        os.close(from_browser)
        self.session = None
        target = next(one["targetId"] for one in self.ask("Target.getTargets")["targetInfos"] if one["type"] == "page")
        self.session = self.ask("Target.attachToTarget", targetId=target, flatten=True)["sessionId"]
        for part in ("Page", "Runtime", "Log", "Network"):
            self.ask(f"{part}.enable")

    def message(self):
        """The next message of the browser."""
        while b"\0" not in self.rest:
            if not select.select([self.output], [], [], PATIENCE)[0]:
                raise TimeoutError("the browser does not answer")
            data = os.read(self.output, 1 << 20)
            if not data:
                raise EOFError("the browser has ended")
            self.rest += data
        text, self.rest = self.rest.split(b"\0", 1)
        return json.loads(text)

    def ask(self, method, **parameters):
        """Asks for something, and returns the result."""
        number = next(self.numbers)
        question = {"id": number, "method": method, "params": parameters}
        if self.session:
            question["sessionId"] = self.session
        os.write(self.input, json.dumps(question).encode() + b"\0")
        while True:
            message = self.message()
            if message.get("id") == number:
                if "error" in message:
                    raise RuntimeError(f"{method}: {message['error']['message']}")
                return message["result"]
            self.note(message)

    def note(self, message):
        """Keeps complaints of the page, and each address that it asks for beside its own file."""
        parameters = message.get("params", {})
        if message.get("method") in ("Runtime.exceptionThrown", "Log.entryAdded"):
            self.log.append(json.dumps(parameters))
        if message.get("method") == "Network.requestWillBeSent":
            address = parameters["request"]["url"]
            if not address.startswith(("file:", "data:", "blob:")):
                self.log.append(f"asks for {address}")

    def evaluate(self, text):
        """The value of an expression in the page."""
        result = self.ask("Runtime.evaluate", expression=text, returnByValue=True, awaitPromise=True)
        if "exceptionDetails" in result:
            raise RuntimeError(f"{text[:80]}: {json.dumps(result['exceptionDetails'])[:500]}")
        return result["result"].get("value")

    def leave(self, address=EMPTY):
        """Goes to an empty page."""
        self.ask("Page.navigate", url=address)
        self.is_empty = True

    def go(self, address):
        """Goes to an address from an empty page, so that nothing of the page before is there."""
        if not self.is_empty:
            self.leave()
        self.is_empty = False
        self.ask("Page.navigate", url=address)

    def open(self, path, address=""):
        """Opens a film from its file, and waits until it is shown."""
        self.go(f"file://{os.path.abspath(path)}{address}")
        self.wait_for("document.body && document.body.dataset.open === 'yes'")

    def key(self, key):
        """Presses a key."""
        text = {"text": key} if len(key) == 1 else {"text": "\r"} if key == "Enter" else {}
        code = CODES.get(key, ord(key[0]))
        for kind in ("keyDown", "keyUp"):
            more = text if kind == "keyDown" else {}
            self.ask("Input.dispatchKeyEvent", type=kind, key=key, windowsVirtualKeyCode=code, **more)

    def click(self, selector):
        """Clicks the middle of an element, with the mouse."""
        box = self.evaluate(f"(() => {{ const e = document.querySelector({json.dumps(selector)}); e.scrollIntoView({{block: "
                            f"'center'}});"
                            "const b = e.getBoundingClientRect(); return [b.x + b.width / 2, b.y + b.height / 2]; })()")
        self.click_at(*box)

    def click_at(self, x, y):
        for kind in ("mousePressed", "mouseReleased"):
            self.ask("Input.dispatchMouseEvent", type=kind, x=x, y=y, button="left", clickCount=1)

    def look(self, width, height, dark=False, media=""):
        """Sets the size and the kind of the window."""
        self.ask("Emulation.setDeviceMetricsOverride", width=width, height=height, deviceScaleFactor=1, mobile=False)
        colours = [{"name": "prefers-color-scheme", "value": "dark" if dark else "light"}]
        self.ask("Emulation.setEmulatedMedia", media=media, features=colours)

    def picture(self, path):
        """Writes what is seen, without loss, as a picture of the kind that the file's name ends with: .webp or .png."""
        kind = os.path.splitext(path)[1][1:]
        quality = {"quality": 100} if kind == "webp" else {}
        result = self.ask("Page.captureScreenshot", format=kind, **quality)
        with open(path, "wb") as file:
            file.write(base64.b64decode(result["data"]))

    def save_into(self, folder):
        """Lets the page save files into a folder."""
        self.ask("Browser.setDownloadBehavior", behavior="allow", downloadPath=folder)

    def paper(self, path):
        """Writes the page as it is printed, a PDF."""
        result = self.ask("Page.printToPDF", preferCSSPageSize=True, printBackground=False)
        with open(path, "wb") as file:
            file.write(base64.b64decode(result["data"]))

    def end(self):
        try:
            self.session = None
            self.ask("Browser.close")
        except (OSError, EOFError, TimeoutError, RuntimeError):
            pass
        os.close(self.input)
        os.close(self.output)
        self.finish(10)
