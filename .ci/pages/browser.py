"""Debian's Chromium without a screen, asked by its DevTools protocol over a pipe."""
import json
import os
import select
import shutil
import subprocess
import time

PROGRAM = shutil.which("chromium") or shutil.which("chromium-browser")
FLAGS = ["--headless", "--no-sandbox", "--disable-gpu", "--hide-scrollbars", "--remote-debugging-pipe"]


class Browser:
    """One page of a browser, and the errors that its console has shown."""

    def __init__(self, folder, width=1400, height=1500):
        read, theirs_out = os.pipe()
        theirs_in, write = os.pipe()
        # Chromium reads commands from 3, and writes answers to 4.
        words = ["bash", "-c", f'exec "$0" "$@" 3<&{theirs_in} 4>&{theirs_out}', PROGRAM, *FLAGS, f"--user-data-dir={folder}/profile", "about:blank"]
        self.process = subprocess.Popen(words, pass_fds=(theirs_in, theirs_out), stdout=subprocess.DEVNULL, stderr=subprocess.DEVNULL)
        os.close(theirs_in)
        os.close(theirs_out)
        self.read, self.write, self.left, self.count, self.session = read, write, b"", 0, None
        self.errors, self.loaded = [], False
        target = self.ask("Target.createTarget", url="about:blank")["targetId"]
        self.session = self.ask("Target.attachToTarget", targetId=target, flatten=True)["sessionId"]
        for domain in ("Page", "Runtime", "Log"):
            self.ask(f"{domain}.enable")
        self.ask("Emulation.setDeviceMetricsOverride", width=width, height=height, deviceScaleFactor=1, mobile=False)

    def __enter__(self):
        return self

    def __exit__(self, *_):
        self.process.kill()
        self.process.wait()
        os.close(self.read)
        os.close(self.write)

    def message(self, until):
        """The next message of the browser."""
        while b"\0" not in self.left:
            if not select.select([self.read], [], [], max(0, until - time.time()))[0]:
                raise TimeoutError("the browser doesn't answer")
            self.left += os.read(self.read, 1 << 20)
        one, self.left = self.left.split(b"\0", 1)
        return json.loads(one)

    def note(self, message):
        """Keeps what the console shows of errors."""
        name, about = message.get("method"), message.get("params", {})
        if name == "Runtime.exceptionThrown":
            self.errors.append(str(about["exceptionDetails"].get("exception", about["exceptionDetails"]).get("description", about)))
        elif name == "Runtime.consoleAPICalled" and about["type"] == "error":
            self.errors.append(str(about["args"]))
        elif name == "Log.entryAdded" and about["entry"]["level"] == "error":
            self.errors.append(about["entry"]["text"])
        self.loaded = self.loaded or name == "Page.loadEventFired"

    def ask(self, method, **params):
        """What the browser answers to a command."""
        self.count += 1
        words = dict(id=self.count, method=method, params=params, **({"sessionId": self.session} if self.session else {}))
        os.write(self.write, json.dumps(words).encode() + b"\0")
        until = time.time() + 120
        while (answer := self.message(until)).get("id") != self.count:
            self.note(answer)
        if "error" in answer:
            raise RuntimeError(f"{method}: {answer['error']['message']}")
        return answer["result"]

    def open(self, path):
        self.errors, self.loaded = [], False
        self.ask("Page.navigate", url=f"file://{path}")
        until = time.time() + 120
        while not self.loaded:
            self.note(self.message(until))
        self.rest()

    def value(self, expression):
        """The value of an expression in the page; a promise is awaited."""
        answer = self.ask("Runtime.evaluate", expression=expression, returnByValue=True, awaitPromise=True)
        if "exceptionDetails" in answer:
            raise RuntimeError(f"{expression}: {answer['exceptionDetails']['exception'].get('description')}")
        return answer["result"].get("value")

    def rest(self):
        """Waits until what was asked for is drawn, and lanes without a job in sight are hidden."""
        self.value("new Promise((done) => setTimeout(() => requestAnimationFrame(() => requestAnimationFrame(done)), 220))")

    def mouse(self, kind, x, y, **more):
        self.ask("Input.dispatchMouseEvent", type=kind, x=x, y=y, **more)

    def click(self, x, y):
        for kind in ("mousePressed", "mouseReleased"):
            self.mouse(kind, x, y, button="left", buttons=int(kind == "mousePressed"), clickCount=1)
        self.rest()

    def touch(self, kind, *points):
        """Fingers at these points."""
        self.ask("Input.dispatchTouchEvent", type=kind, touchPoints=[dict(x=x, y=y, id=number) for number, (x, y) in enumerate(points)])

    def press(self, key):
        code = {"+": "Equal", "-": "Minus"}.get(key, key)
        more = {"text": key} if len(key) == 1 else {}
        self.ask("Input.dispatchKeyEvent", type="keyDown", key=key, code=code, **more)
        self.ask("Input.dispatchKeyEvent", type="keyUp", key=key, code=code)
        self.rest()
