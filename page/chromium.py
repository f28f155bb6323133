"""A headless chromium, driven over two pipes by its own protocol: https://chromedevtools.github.io/devtools-protocol/"""

import base64
import json
import os
import select
import shutil
import subprocess
import tempfile
import time

# So long it is waited for anything: more on a machine that has much else to do.
PATIENCE_SECONDS = float(os.environ.get("PATIENCE", "60"))


class Chromium:
    """The browser. Its pages are made by `open`."""

    def __init__(self, program):
        self.folder = tempfile.mkdtemp(prefix="page-test-")
        to_browser, self.commands = os.pipe()
        self.reports, from_browser = os.pipe()
        words = [program, "--headless", "--remote-debugging-pipe", f"--user-data-dir={self.folder}/profile", "--no-first-run"]
        # The sandbox wants another user than root.
        words += ["--disable-gpu", "--hide-scrollbars", *["--no-sandbox"] * (os.geteuid() == 0), "about:blank"]
        # The browser reads commands from 3 and writes reports to 4.
        shell = f'exec "$@" 3<&{to_browser} 4>&{from_browser}'
        with open(f"{self.folder}/said", "wb") as said:
            self.process = subprocess.Popen(["bash", "-c", shell, "", *words], pass_fds=(to_browser, from_browser), stdout=said, stderr=said)
        os.close(to_browser)
        os.close(from_browser)
        self.number, self.unread, self.events = 0, b"", []

    def next_message(self, until):
        while b"\0" not in self.unread:
            ready, _, _ = select.select([self.reports], [], [], max(0, until - time.time()))
            got = os.read(self.reports, 1 << 20) if ready else b""
            if not got:
                said = open(f"{self.folder}/said", errors="replace").read()[-1000:]
                raise RuntimeError(f"chromium {'ended' if ready else 'gave no answer'}: {said}")
            self.unread += got
        message, _, self.unread = self.unread.partition(b"\0")
        return json.loads(message)

    def call(self, method, session=None, **parameters):
        """The answer to a command. Events that come before it are kept."""
        self.number += 1
        command = {"id": self.number, "method": method, "params": parameters, **({"sessionId": session} if session else {})}
        sent = json.dumps(command).encode() + b"\0"
        while sent:
            sent = sent[os.write(self.commands, sent) :]
        until = time.time() + PATIENCE_SECONDS
        while True:
            message = self.next_message(until)
            if message.get("id") == self.number:
                if "error" in message:
                    raise RuntimeError(f"{method}: {message['error']}")
                return message["result"]
            self.events.append(message)

    def open(self, address, before=None):
        return Tab(self, address, before)

    def close(self):
        try:
            self.call("Browser.close")
            self.process.wait(timeout=20)
        except (RuntimeError, OSError, subprocess.TimeoutExpired):
            self.process.kill()
            self.process.wait()
        shutil.rmtree(self.folder, ignore_errors=True)


class Tab:
    """One page. `before` is a script that runs before those of the page."""

    def __init__(self, browser, address, before=None):
        self.browser = browser
        self.target = browser.call("Target.createTarget", url="about:blank")["targetId"]
        self.session = browser.call("Target.attachToTarget", targetId=self.target, flatten=True)["sessionId"]
        for part in ("Page", "Runtime", "Network", "DOM", "Accessibility"):
            self.call(f"{part}.enable")
        if before:
            self.call("Page.addScriptToEvaluateOnNewDocument", source=before)
        self.call("Page.navigate", url=address)

    def call(self, method, **parameters):
        return self.browser.call(method, session=self.session, **parameters)

    def ask(self, expression):
        """The value of an expression of JavaScript, once it is there."""
        wish = {"expression": expression, "awaitPromise": True, "returnByValue": True, "userGesture": True}
        answer = self.call("Runtime.evaluate", **wish)
        if "exceptionDetails" in answer:
            raise RuntimeError(f"{expression[:200]}: {answer['exceptionDetails'].get('exception', answer['exceptionDetails'])}")
        return answer["result"].get("value")

    def wait_for(self, expression):
        until = time.time() + PATIENCE_SECONDS
        while not self.ask(expression):
            if time.time() > until:
                raise RuntimeError(f"this didn't come to be: {expression}")
            time.sleep(0.01)

    def press(self, key, modifiers=0):
        codes = {"Backspace": 8, "Tab": 9, "Enter": 13, "Escape": 27, "End": 35, "Home": 36, "ArrowLeft": 37, "ArrowUp": 38}
        codes |= {"ArrowRight": 39, "ArrowDown": 40, "Insert": 45, "Delete": 46}
        code = codes.get(key) or ord(key.upper())
        wish = {"key": key, "code": key, "windowsVirtualKeyCode": code, "modifiers": modifiers}
        more = {"text": "\r"} if key == "Enter" else {}
        # Without a window of its own the browser takes no keys for editing: the command goes with the key.
        undoing = {(2, "z"): ["undo"], (10, "z"): ["redo"]}.get((modifiers, key))
        more |= {"commands": undoing} if undoing else {}
        self.call("Input.dispatchKeyEvent", type="keyDown", **wish, **more)
        self.call("Input.dispatchKeyEvent", type="keyUp", **wish)

    def type(self, text):
        self.call("Input.insertText", text=text)

    def point(self, x, y):
        self.call("Input.dispatchMouseEvent", type="mouseMoved", x=x, y=y)

    def show_as(self, width, height, scheme="light"):
        self.call("Emulation.setDeviceMetricsOverride", width=width, height=height, deviceScaleFactor=1, mobile=False)
        self.call("Emulation.setEmulatedMedia", features=[{"name": "prefers-color-scheme", "value": scheme}])

    def picture(self):
        return base64.b64decode(self.call("Page.captureScreenshot", format="png", optimizeForSpeed=False)["data"])

    def requests(self):
        """What this page asked for since it was opened."""
        sent = [it for it in self.browser.events if it.get("sessionId") == self.session and it["method"] == "Network.requestWillBeSent"]
        return [it["params"]["request"]["url"] for it in sent]

    def close(self):
        self.browser.call("Target.closeTarget", targetId=self.target)
