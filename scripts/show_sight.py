"""Where a page of `metroheap show` is looked at, for scripts/check-show: a browser, or node with a stand-in for the document."""
import base64
import fcntl
import html.parser
import json
import os
import pathlib
import select
import shutil
import subprocess
import sys
import tempfile
import urllib.parse

BROWSERS = ["chromium-headless-shell", "chromium", "chromium-browser", "google-chrome"]
DOCUMENT = pathlib.Path(__file__).resolve().parent / "show_document.js"
# No answer takes so long.
SECONDS = 60
# A box of the page is less wide than the window.
MARGIN = 32
KEYS = {"Escape": 27, "ArrowLeft": 37, "ArrowUp": 38, "ArrowRight": 39, "ArrowDown": 40, "End": 35, "Home": 36, "PageUp": 33, "PageDown": 34}
# Elements without an end
EMPTY = ("meta", "input", "br", "col", "link")


class Browser:
    """A Chromium that reads commands from its descriptor 3 and answers on 4; a message ends with a NUL."""

    kind = "browser"

    def __init__(self, path):
        self.home = tempfile.TemporaryDirectory(prefix="check-show-")
        inner_read, self.write = self.pipe()
        self.read, inner_write = self.pipe()
        words = [path, "--headless", "--no-sandbox", "--disable-gpu", "--disable-dev-shm-usage", "--hide-scrollbars", "--disable-frame-rate-limit", "--disable-gpu-vsync", "--remote-debugging-pipe", f"--user-data-dir={self.home.name}"]
        opened = [(os.POSIX_SPAWN_DUP2, inner_read, 3), (os.POSIX_SPAWN_DUP2, inner_write, 4), *((os.POSIX_SPAWN_OPEN, fd, os.devnull, os.O_RDWR, 0) for fd in (0, 1, 2))]
        self.process = os.posix_spawn(path, words, {**os.environ, "HOME": self.home.name}, file_actions=opened)
        os.close(inner_read)
        os.close(inner_write)
        self.bytes, self.count, self.heard, self.session = b"", 0, [], {}
        target = self.call("Target.createTarget", url="about:blank")["targetId"]
        self.session = {"sessionId": self.call("Target.attachToTarget", targetId=target, flatten=True)["sessionId"]}
        for part in ("Page", "Runtime", "Network"):
            self.call(f"{part}.enable")

    @staticmethod
    def pipe():
        """The two ends of a pipe, above 9: so that neither is 3 or 4."""
        ends = os.pipe()
        high = [fcntl.fcntl(end, fcntl.F_DUPFD_CLOEXEC, 10) for end in ends]
        for end in ends:
            os.close(end)
        return high

    def message(self):
        while b"\0" not in self.bytes:
            if not select.select([self.read], [], [], SECONDS)[0]:
                sys.exit(f"check-show: no answer for {SECONDS} s to {self.asked}")
            found = os.read(self.read, 1 << 20)
            if not found:
                sys.exit("check-show: the browser ended")
            self.bytes += found
        text, _, self.bytes = self.bytes.partition(b"\0")
        return json.loads(text)

    def send(self, method, **given):
        """Sends a command, and doesn't wait for its answer."""
        self.count += 1
        self.asked = (method, given)
        os.write(self.write, json.dumps({"id": self.count, "method": method, "params": given, **self.session}).encode() + b"\0")

    def call(self, method, **given):
        self.send(method, **given)
        while (answer := self.message()).get("id") != self.count:
            self.hear(answer)
        if "error" in answer:
            sys.exit(f"check-show: {method}: {answer['error']}")
        return answer["result"]

    def hear(self, said):
        """Keeps what wasn't asked for. An answer to a command that didn't wait is only looked at."""
        if "error" in said:
            sys.exit(f"check-show: {said['error']}")
        if said.get("method") == "Runtime.exceptionThrown":
            sys.exit(f"check-show: an error on the page: {said['params']['exceptionDetails']}")
        self.heard.append(said)

    def value(self, expression):
        """The value of an expression on the page; if it is a promise, what it becomes."""
        answer = self.call("Runtime.evaluate", expression=expression, returnByValue=True, awaitPromise=True)
        if "exceptionDetails" in answer:
            sys.exit(f"check-show: {expression[:60]}: {answer['exceptionDetails']}")
        return answer["result"].get("value")

    def wait(self, condition, wanted="null"):
        """Waits until a condition of the page's attributes and texts holds, and gives what is wanted then."""
        changes = "{ attributes: true, childList: true, characterData: true, subtree: true }"
        see = f"const see = () => {{ if (!({condition})) return; changes.disconnect(); done({wanted}); }}"
        return self.value(f"new Promise((done) => {{ {see}; const changes = new MutationObserver(see); changes.observe(document.documentElement, {changes}); see(); }})")

    def frames(self):
        """Waits until what was asked to be drawn is drawn."""
        self.value("new Promise((done) => requestAnimationFrame(() => requestAnimationFrame(done)))")

    def open(self, address):
        self.heard.clear()
        self.call("Page.navigate", url=address)
        while not any(said.get("method") == "Page.loadEventFired" for said in self.heard):
            self.hear(self.message())
        self.wait("document.body.dataset.moment !== undefined")

    def requests(self):
        return [said["params"]["request"]["url"] for said in self.heard if said.get("method") == "Network.requestWillBeSent"]

    def press(self, key, part=""):
        """Presses a key, on an element or on the whole."""
        if part:
            self.value(f"document.getElementById('{part}').focus()")
        code = {"key": key, "code": key, "windowsVirtualKeyCode": KEYS.get(key) or ord(key.upper())}
        # An element has its key before it is left.
        (self.call if part else self.send)("Input.dispatchKeyEvent", type="rawKeyDown", **code)
        self.send("Input.dispatchKeyEvent", type="keyUp", **code)
        if part:
            self.value(f"document.getElementById('{part}').blur()")

    def click(self, part, x):
        """Clicks into an element, so far from its left."""
        left, y = self.value(f"(() => {{ const it = document.getElementById('{part}'); it.scrollIntoView({{ block: 'end' }}); const box = it.getBoundingClientRect(); return [box.x, box.y + box.height / 2]; }})()")
        for kind in ("mousePressed", "mouseReleased"):
            self.call("Input.dispatchMouseEvent", type=kind, x=left + x, y=y, button="left", clickCount=1)

    def hover(self, part, x, y):
        """Moves the mouse into an element, so far from its left and its top."""
        see = "if (it.getBoundingClientRect().y < 0 || it.getBoundingClientRect().bottom > innerHeight) it.scrollIntoView({ block: 'end' });"
        left, top = self.value(f"(() => {{ const it = document.getElementById('{part}'); {see} const box = it.getBoundingClientRect(); return [box.x, box.y]; }})()")
        self.call("Input.dispatchMouseEvent", type="mouseMoved", x=left + x, y=top + y)

    def wait_long(self, condition):
        """Waits until a condition holds of which no attribute and no text shows when it does."""
        self.value(f"new Promise((done) => {{ const see = () => {condition} ? done() : setTimeout(see, 20); see(); }})")

    def size(self, width, height, scale=1):
        self.call("Emulation.setDeviceMetricsOverride", width=width, height=height, deviceScaleFactor=scale, mobile=False)

    def theme(self, name):
        self.call("Emulation.setEmulatedMedia", features=[{"name": "prefers-color-scheme", "value": name}])
        self.wait(f"document.documentElement.dataset.theme === '{name}'")

    def picture(self, path, part=None):
        """A picture of the window, or of an element of the page with a margin."""
        self.frames()
        clip = {}
        if part is not None:
            x, y, width, height = self.value(f"(() => {{ const it = document.querySelector('{part}').getBoundingClientRect(); return [it.x, it.y + scrollY, it.width, it.height]; }})()")
            clip = {"clip": {"x": x - 8, "y": y - 8, "width": width + 16, "height": height + 16, "scale": 1}, "captureBeyondViewport": True}
        pathlib.Path(path).write_bytes(base64.b64decode(self.call("Page.captureScreenshot", format="png", **clip)["data"]))

    def close(self):
        """Ends the browser: its pipe ends."""
        os.close(self.write)
        os.waitpid(self.process, 0)
        self.home.cleanup()


class Tree(html.parser.HTMLParser):
    """The elements of a page: of each its name, its attributes, and the texts and elements in it."""

    def __init__(self, text):
        super().__init__()
        self.open = [["", {}, []]]
        self.feed(text)
        self.close()
        if len(self.open) != 1:
            sys.exit(f"check-show: an element of the page doesn't end: {self.open[-1][0]}")
        self.root = next(it for it in self.open[0][2] if it[0] == "html")

    def handle_starttag(self, tag, attrs):
        element = [tag, dict(attrs), []]
        self.open[-1][2].append(element)
        if tag not in EMPTY:
            self.open.append(element)

    def handle_endtag(self, tag):
        if self.open.pop()[0] != tag:
            sys.exit(f"check-show: an element of the page ends where another began: {tag}")

    def handle_data(self, data):
        self.open[-1][2].append(data)


class Node:
    """The script of a page in node, over a stand-in for the document: nothing is laid out, and what is drawn is kept."""

    kind = "node"

    def __init__(self, path):
        self.process = subprocess.Popen([path, DOCUMENT], stdin=subprocess.PIPE, stdout=subprocess.PIPE)
        self.last = ""

    def ask(self, *words):
        """What a command gives. All that the page asked for is done then, but timers."""
        self.process.stdin.write(json.dumps(words).encode() + b"\n")
        self.process.stdin.flush()
        if not select.select([self.process.stdout], [], [], SECONDS)[0]:
            self.process.kill()
            sys.exit(f"check-show: no answer for {SECONDS} s to {words[:2]}")
        answer = json.loads(self.process.stdout.readline() or '{"error": "node ended"}')
        if "error" in answer:
            sys.exit(f"check-show: an error on the page, after {words[0]} {str(words[1:2])[:60]}: {answer['error']}")
        return answer.get("value")

    def value(self, expression):
        self.last = expression
        return self.ask("value", expression)

    def wait(self, condition, wanted="null"):
        """What is wanted, if the condition holds."""
        holds, found = self.ask("value", f"[Boolean({condition}), {wanted}]")
        if not holds:
            moment = self.ask("value", "document.body.dataset.moment")
            sys.exit(f"check-show: after {self.last[:80]} this doesn't hold on the page, at moment {moment}: {condition}")
        return found

    def frames(self):
        """What was asked to be drawn is drawn already."""

    def open(self, address):
        parts = urllib.parse.urlsplit(address)
        text = pathlib.Path(urllib.parse.unquote(parts.path)).read_text(encoding="utf-8")
        self.last = "opening"
        self.ask("open", Tree(text).root, parts._replace(fragment="").geturl(), parts.fragment and "#" + parts.fragment)

    def requests(self):
        """The page, and what it names elsewhere."""
        return ["", *self.ask("loads")]

    def press(self, key, part=""):
        """Presses a key, on an element or on the whole."""
        self.last = key
        self.ask("press", key, part)

    def click(self, part, x):
        self.last = f"a click on {part}"
        self.ask("point", "onclick", part, x, 1)

    def hover(self, part, x, y):
        self.last = f"hovering over {part}"
        self.ask("point", "onmousemove", part, x, y)

    def wait_long(self, condition):
        """Lets timers run, after which the condition is to hold."""
        self.ask("elapse")
        self.wait(condition)

    def size(self, width, height, scale=1):
        self.ask("size", width - MARGIN)

    def drawn(self, part, names=(), fill=""):
        """The calls by which a canvas was drawn on: the name of each, what it was given, and the colours and the line of that time."""
        return self.ask("drawn", part, names, fill)

    def copied(self):
        """What was copied, in order."""
        return self.ask("copied")

    def close(self):
        self.process.stdin.close()
        self.process.wait()


def find_browser():
    """Starts a Chromium, if there is one."""
    path = next(filter(None, map(shutil.which, BROWSERS)), None)
    return path and Browser(path)


def find_node():
    path = shutil.which("node")
    return path and Node(path)
