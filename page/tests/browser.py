"""A headless Chromium, or its engine alone, driven by the DevTools protocol over a pair of pipes."""
import base64
import itertools
import json
import os
import select
import shutil
import subprocess
import tempfile


# How many seconds an answer of the browser is waited for, and less than that in the page for a condition, so that its fault is told. Both only end what
# hangs: where the machine has much else to do, what takes a second takes a minute.
PATIENCE = 900
WAIT = 600

# Counts the requests to the debugger that aren't answered yet.
COUNT_REQUESTS = """(() => {
    const { postMessage } = Worker.prototype, known = new WeakSet();
    window.unanswered = 0;
    Worker.prototype.postMessage = function (...words) {
        if (!known.has(this)) this.addEventListener('message', () => { window.unanswered--; });
        known.add(this);
        window.unanswered++;
        return postMessage.apply(this, words);
    };
})()"""

# Waits until they are answered, and what is drawn then asks for no more.
REQUESTS_ARE_ANSWERED = """(async () => {
    const drawn = () => new Promise(done => requestAnimationFrame(() => setTimeout(done)));
    for (let times = 0; times < 2; times = window.unanswered === 0 ? times + 1 : 0) await drawn();
})()"""

# That the page's script runs: it lists the keys first.
HAS_BEGUN = "document.getElementById('key-list')?.childElementCount !== 0"


class BrowserFault(Exception):
    """The error that the browser returned in place of a result."""


class Browser:
    def __init__(self, program, *more):
        self.program, self.profile = program, tempfile.mkdtemp()
        to_read, self.writes = os.pipe()
        self.reads, to_write = os.pipe()
        words = [program, "--headless=new", "--no-sandbox", "--disable-gpu", "--hide-scrollbars", "--remote-debugging-pipe",
                 "--no-first-run", "--disable-extensions", "--disable-background-networking", "--force-device-scale-factor=1",
                 f"--user-data-dir={self.profile}", *more, "about:blank"]
        self.process = subprocess.Popen(words, preexec_fn=lambda: pass_pipes(to_read, to_write), close_fds=False,
                                        stdin=subprocess.DEVNULL, stdout=subprocess.DEVNULL, stderr=subprocess.DEVNULL)
        os.close(to_read)
        os.close(to_write)
        self.rest, self.events, self.numbers = b"", [], itertools.count(1)

    def close(self):
        self.process.terminate()
        self.process.wait()
        os.close(self.reads)
        os.close(self.writes)
        shutil.rmtree(self.profile, ignore_errors=True)

    def message(self):
        """The next message. Each message ends with a zero byte."""
        while b"\0" not in self.rest:
            if not select.select([self.reads], [], [], PATIENCE)[0]:
                raise BrowserFault(f"the browser said nothing for {PATIENCE} seconds")
            more = os.read(self.reads, 1 << 20)
            if not more:
                raise BrowserFault("the browser is gone")
            self.rest += more
        said, _, self.rest = self.rest.partition(b"\0")
        return json.loads(said)

    def call(self, method, session=None, **values):
        """Calls a method of the protocol, and stores the events that arrive before its answer."""
        number = next(self.numbers)
        request = {"id": number, "method": method, "params": values}
        if session:
            request["sessionId"] = session
        said = json.dumps(request).encode() + b"\0"
        while said:
            said = said[os.write(self.writes, said):]
        while True:
            answer = self.message()
            if answer.get("id") != number:
                self.events.append(answer)
            elif "error" in answer:
                raise BrowserFault(f"{method}: {answer['error']['message']}")
            else:
                return answer["result"]

    def event(self, method, session):
        """Waits for an event, and returns its parameters."""
        while True:
            for i, event in enumerate(self.events):
                if event.get("method") == method and event.get("sessionId") == session:
                    return self.events.pop(i)["params"]
            self.events.append(self.message())


def pass_pipes(to_read, to_write):
    """Chromium reads requests from 3 and writes answers to 4."""
    first, second = os.dup(to_read), os.dup(to_write)
    os.dup2(first, 3)
    os.dup2(second, 4)


class Tab:
    """A page in the browser, with hands."""

    KEYS = {"ArrowLeft": 37, "ArrowRight": 39, "Home": 36, "End": 35, "PageUp": 33, "PageDown": 34, "Enter": 13, "Tab": 9, "Escape": 27}

    def __init__(self, browser, width=1440, height=920):
        self.browser = browser
        target = browser.call("Target.createTarget", url="about:blank")["targetId"]
        self.session = browser.call("Target.attachToTarget", targetId=target, flatten=True)["sessionId"]
        self.target = target
        for domain in ("Page", "Runtime", "DOM", "Log"):
            self.call(f"{domain}.enable")
        self.call("Page.addScriptToEvaluateOnNewDocument", source=COUNT_REQUESTS)
        self.resize(width, height)

    def call(self, method, **values):
        return self.browser.call(method, self.session, **values)

    def close(self):
        self.browser.call("Target.closeTarget", targetId=self.target)

    def resize(self, width, height):
        self.call("Emulation.setDeviceMetricsOverride", width=width, height=height, deviceScaleFactor=1, mobile=False)

    def prefer(self, scheme):
        self.call("Emulation.setEmulatedMedia", features=[{"name": "prefers-color-scheme", "value": scheme}])

    def load(self, path, place=None):
        self.call("Page.navigate", url="about:blank")
        self.browser.event("Page.loadEventFired", self.session)
        self.call("Page.navigate", url=f"file://{path}" + ("" if place is None else f"#call={place}"))
        self.browser.event("Page.loadEventFired", self.session)
        self.wait(HAS_BEGUN)

    def run(self, script):
        """The value of an expression in the page. If it is a promise, its result is waited for."""
        answer = self.call("Runtime.evaluate", expression=script, awaitPromise=True, returnByValue=True)
        if "exceptionDetails" in answer:
            raise BrowserFault(f"{script[:200]}: {answer['exceptionDetails'].get('exception', {}).get('description')}")
        return answer["result"].get("value")

    def wait(self, condition, seconds=WAIT):
        """Waits until an expression is true."""
        self.run(f"""new Promise((done, failed) => {{
            const end = performance.now() + {seconds * 1000};
            const look = () => ({condition}) ? done() : performance.now() > end ? failed(new Error("no end of waiting")) : setTimeout(look, 5);
            look();
        }})""")

    def be_answered(self):
        """Waits until the debugger has answered all that the page has requested, and the page has drawn it."""
        self.run(REQUESTS_ARE_ANSWERED)

    def text(self, name):
        return self.run(f"document.getElementById({json.dumps(name)}).textContent")

    def box(self, name):
        """Left, top, width and height of an element in the window, after it is scrolled there."""
        return self.run(f"""(() => {{
            const found = document.querySelector({json.dumps(name)});
            found.scrollIntoView({{ block: "nearest" }});
            const box = found.getBoundingClientRect();
            return [box.left, box.top, box.width, box.height];
        }})()""")

    def mouse(self, kind, x, y, **more):
        self.call("Input.dispatchMouseEvent", type=kind, x=x, y=y, **more)

    def click_at(self, x, y):
        self.mouse("mousePressed", x, y, button="left", buttons=1, clickCount=1)
        self.mouse("mouseReleased", x, y, button="left", clickCount=1)

    def click(self, name):
        left, top, width, height = self.box(name)
        self.click_at(left + width / 2, top + height / 2)

    def drag(self, x1, y1, x2, y2):
        self.mouse("mousePressed", x1, y1, button="left", buttons=1, clickCount=1)
        self.mouse("mouseMoved", x2, y2, button="left", buttons=1)
        self.mouse("mouseReleased", x2, y2, button="left", clickCount=1)

    def key(self, key, shift=False):
        text = {"text": key} if len(key) == 1 else {"text": "\r"} if key == "Enter" else {}
        values = {"key": key, "modifiers": 8 if shift else 0, "windowsVirtualKeyCode": self.KEYS.get(key, ord(key[0].upper()))}
        self.call("Input.dispatchKeyEvent", type="keyDown", **values, **text)
        self.call("Input.dispatchKeyEvent", type="keyUp", **values)

    def type(self, text):
        self.call("Input.insertText", text=text)

    def drop(self, *paths):
        """Drops files on the lower half of the page, where a run has its picture: an element that is made again meanwhile would get no drop."""
        x, y = self.run("[Math.round(innerWidth * 0.3), Math.round(innerHeight * 0.7)]")
        data = {"items": [], "files": list(paths), "dragOperationsMask": 1}
        for kind in ("dragEnter", "dragOver", "drop"):
            self.call("Input.dispatchDragEvent", type=kind, x=x, y=y, data=data)

    def picture(self, path, name=None):
        """Writes a picture of the window, or of one element of the page."""
        cut = {}
        if name:
            left, top, width, height = self.box(name)
            cut = {"clip": {"x": left, "y": top, "width": width, "height": height, "scale": 1}}
        with open(path, "wb") as file:
            file.write(base64.b64decode(self.call("Page.captureScreenshot", format="png", **cut)["data"]))

    def forget(self):
        """Discards what the page has reported so far."""
        self.browser.events.clear()

    def faults(self):
        """The errors that the page wrote to its console or threw."""
        told = [event["params"] for event in self.browser.events if event.get("sessionId") == self.session
                and event.get("method") in ("Runtime.exceptionThrown", "Log.entryAdded")]
        return [json.dumps(it)[:400] for it in told if it.get("entry", {"level": "error"})["level"] == "error"]
