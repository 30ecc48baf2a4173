"""A headless Chromium, by its debugging protocol over two pipes."""
import base64
import json
import os
import shutil
import subprocess
import sys
import tempfile


class Browser:
    """One page of a browser. What its console says is in `messages`."""

    def __init__(self, program):
        self.folder = tempfile.mkdtemp()
        theirs_in, ours_out = os.pipe()
        ours_in, theirs_out = os.pipe()

        def placed():
            # The browser reads commands at 3 and writes at 4; the pipes may have these numbers.
            reads, writes = os.dup(theirs_in), os.dup(theirs_out)
            os.dup2(reads, 3)
            os.dup2(writes, 4)

        words = [program, "--headless", "--remote-debugging-pipe", "--disable-gpu",
                 "--hide-scrollbars", "--no-first-run", f"--user-data-dir={self.folder}"]
        if os.geteuid() == 0:
            words.append("--no-sandbox")
        self.process = subprocess.Popen(
            words, preexec_fn=placed, close_fds=False, stderr=subprocess.DEVNULL,
            env={**os.environ, "TMPDIR": self.folder})
        os.close(theirs_in)
        os.close(theirs_out)
        self.reads, self.writes = os.fdopen(ours_in, "rb"), os.fdopen(ours_out, "wb")
        self.left, self.number, self.session = b"", 0, None
        self.messages, self.seen = [], []
        target = self.ask("Target.createTarget", url="about:blank")["targetId"]
        self.session = self.ask("Target.attachToTarget", targetId=target, flatten=True)["sessionId"]
        for domain in ("Page", "Runtime", "Log"):
            self.ask(f"{domain}.enable")

    def __enter__(self):
        return self

    def __exit__(self, *_):
        self.process.terminate()
        self.process.wait()
        self.reads.close()
        self.writes.close()
        shutil.rmtree(self.folder, ignore_errors=True)

    def receive(self):
        while b"\0" not in self.left:
            piece = os.read(self.reads.fileno(), 1 << 16)
            if not piece:
                sys.exit("the browser ended")
            self.left += piece
        message, _, self.left = self.left.partition(b"\0")
        message = json.loads(message)
        if message.get("method") in ("Runtime.consoleAPICalled", "Runtime.exceptionThrown",
                                     "Log.entryAdded"):
            self.messages.append(json.dumps(message["params"]))
        self.seen.append(message.get("method"))
        return message

    def ask(self, method, **params):
        """What the browser answers to a command."""
        self.number += 1
        command = {"id": self.number, "method": method, "params": params}
        if self.session:
            command["sessionId"] = self.session
        self.writes.write(json.dumps(command).encode() + b"\0")
        self.writes.flush()
        while True:
            message = self.receive()
            if message.get("id") == self.number:
                if "error" in message:
                    sys.exit(f"{method}: {message['error']['message']}")
                return message["result"]

    def size(self, width, height):
        self.ask("Emulation.setDeviceMetricsOverride", width=width, height=height,
                 deviceScaleFactor=1, mobile=False)

    def see(self, deficiency):
        """Draws pages as one sees them who has a deficiency of this name, or `none`."""
        self.ask("Emulation.setEmulatedVisionDeficiency", type=deficiency)

    def open(self, address):
        """Opens a page; the milliseconds until it was drawn."""
        for page in ("about:blank", address):  # so that another end of an address opens it again
            self.seen.clear()
            self.ask("Page.navigate", url=page)
            while "Page.loadEventFired" not in self.seen:
                self.receive()
        return self.settled()

    def reload(self):
        self.seen.clear()
        self.ask("Page.reload")
        while "Page.loadEventFired" not in self.seen:
            self.receive()
        self.settled()

    def settled(self):
        """The milliseconds since the page began to open, once it is drawn."""
        return self.value("new Promise(done => requestAnimationFrame(() => "
                          "requestAnimationFrame(() => done(performance.now()))))")

    def value(self, script):
        """The value of an expression in the page."""
        answer = self.ask("Runtime.evaluate", expression=script, awaitPromise=True,
                          returnByValue=True)
        if "exceptionDetails" in answer:
            sys.exit(f"{script}: {answer['exceptionDetails']}")
        return answer["result"].get("value")

    def press(self, key, code, text=""):
        for kind in ("keyDown", "keyUp"):
            self.ask("Input.dispatchKeyEvent", type=kind, key=key, code=key, text=text,
                     windowsVirtualKeyCode=code)

    def type(self, text):
        self.ask("Input.insertText", text=text)

    def point(self, script):
        """Moves the pointer to the middle of the element that an expression gives."""
        box = self.value(f"(element => {{ element.scrollIntoView({{block: 'center'}}); const box = "
                         "element.getBoundingClientRect(); return {x: box.x + box.width / 2, "
                         f"y: box.y + box.height / 2}}; }})({script})")
        self.ask("Input.dispatchMouseEvent", type="mouseMoved", **box)
        return box

    def click(self, script):
        box = self.point(script)
        for kind in ("mousePressed", "mouseReleased"):
            self.ask("Input.dispatchMouseEvent", type=kind, button="left", clickCount=1, **box)
        self.settled()

    def wheel(self, down, x, y):
        self.ask("Input.dispatchMouseEvent", type="mouseWheel", x=x, y=y, deltaX=0, deltaY=down)
        self.settled()

    def drag(self, right, down, x, y):
        """Presses the button at a place, and lets it go so many pixels from there."""
        for kind, share in (("mousePressed", 0), ("mouseMoved", 0.5), ("mouseMoved", 1),
                            ("mouseReleased", 1)):
            self.ask("Input.dispatchMouseEvent", type=kind, button="left", buttons=1, clickCount=1,
                     x=x + share * right, y=y + share * down)
        self.settled()

    def pinch(self, before, after, x, y):
        """Two fingers go from a distance of so many pixels, round a place, to another one."""
        def points(apart):
            return [{"x": x + side * apart / 2, "y": y, "id": number}
                    for number, side in enumerate((-1, 1))]

        for kind, there in (("touchStart", points(before)), ("touchMove", points(after)),
                            ("touchEnd", [])):
            self.ask("Input.dispatchTouchEvent", type=kind, touchPoints=there)
        self.settled()

    def screenshot(self, path):
        picture = self.ask("Page.captureScreenshot", format="png")["data"]
        with open(path, "wb") as file:
            file.write(base64.b64decode(picture))
