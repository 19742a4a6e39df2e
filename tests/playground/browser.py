"""Headless Chromium, driven by its protocol over two pipes."""
import base64
import contextlib
import json
import os
import shutil
import signal
import subprocess
import tempfile
import time

FLAGS = [
    "--headless", "--no-sandbox", "--disable-gpu", "--hide-scrollbars", "--no-first-run", "--disable-extensions", "--force-color-profile=srgb",
    "--remote-debugging-pipe",
]

CLEANINGS = 50


def found():
    """Where Chromium is, or None."""
    return shutil.which("chromium") or shutil.which("chromium-browser")


class Browser:
    """One page of a browser. It is a context manager."""

    def __init__(self, *flags):
        self._folder = tempfile.TemporaryDirectory()
        read, self._to = os.pipe()
        self._from, write = os.pipe()
        words = [found(), *FLAGS, *flags, f"--user-data-dir={self._folder.name}"]
        # The browser reads commands from 3 and writes answers to 4.
        command = ["bash", "-c", f'exec "$@" 3<&{read} 4>&{write}', "bash", *words, "about:blank"]
        self._process = subprocess.Popen(command, pass_fds=(read, write), stdout=subprocess.DEVNULL, stderr=subprocess.DEVNULL, start_new_session=True)
        os.close(read)
        os.close(write)
        self._rest, self._number, self._session = b"", 0, None
        target = self.call("Target.createTarget", url="about:blank")["targetId"]
        self._session = self.call("Target.attachToTarget", targetId=target, flatten=True)["sessionId"]
        self.faults = []
        for part in ("Page", "Runtime", "Log"):
            self.call(f"{part}.enable")

    def __enter__(self):
        return self

    def __exit__(self, *_):
        self._process.terminate()
        self._process.wait()
        with contextlib.suppress(ProcessLookupError):
            os.killpg(self._process.pid, signal.SIGKILL)
        os.close(self._to)
        os.close(self._from)
        self._clean_up()

    def _clean_up(self):
        """Removes the folder, again if what the browser started wrote into it meanwhile: such processes end a moment after it."""
        for left in range(CLEANINGS - 1, -1, -1):
            try:
                return self._folder.cleanup()
            except OSError:
                if not left:
                    raise
                time.sleep(0.1)

    def call(self, method, **words):
        self._number += 1
        session = {"sessionId": self._session} if self._session else {}
        os.write(self._to, json.dumps({"id": self._number, "method": method, "params": words, **session}).encode() + b"\0")
        while True:
            message = self._message()
            if message.get("method") in ("Runtime.exceptionThrown", "Log.entryAdded"):
                self.faults.append(message["params"])
            if message.get("id") == self._number:
                if "error" in message:
                    raise RuntimeError(f"{method}: {message['error']}")
                return message["result"]

    def _message(self):
        while b"\0" not in self._rest:
            read = os.read(self._from, 1 << 20)
            if not read:
                raise RuntimeError("the browser has ended")
            self._rest += read
        message, self._rest = self._rest.split(b"\0", 1)
        return json.loads(message)

    def evaluate(self, text):
        """The value of an expression in the page, which may be a promise."""
        answer = self.call("Runtime.evaluate", expression=text, awaitPromise=True, returnByValue=True)
        if "exceptionDetails" in answer:
            raise RuntimeError(str(answer["exceptionDetails"]))
        return answer["result"].get("value")

    def open(self, address, until):
        """Loads a page, and waits for an expression in it to be true."""
        self.call("Page.navigate", url="about:blank")
        self.call("Page.navigate", url=address)
        self.wait(until)

    def wait(self, until):
        turns = "new Promise((done, fail) => { let left = 1200; const ask = () => { let is = false; try { is = %s } catch {} "
        turns += "if (is) done(true); else if (left-- > 0) setTimeout(ask, 25); else fail(new Error('it never came')); }; ask(); })"
        for tries in (3, 2, 1, 0):
            try:
                return self.evaluate(turns % until)
            except RuntimeError as error:
                # A page that is being loaded takes the place of the one that was asked.
                if tries == 0 or "never came" in str(error):
                    raise

    def size(self, width, height, mobile=False):
        self.call("Emulation.setDeviceMetricsOverride", width=width, height=height, deviceScaleFactor=1, mobile=mobile)

    def scheme(self, name):
        self.call("Emulation.setEmulatedMedia", features=[{"name": "prefers-color-scheme", "value": name}])

    def key(self, name):
        code, text = {"Tab": (9, ""), "Enter": (13, "\r")}[name]
        for kind in ("keyDown", "keyUp"):
            self.call("Input.dispatchKeyEvent", type=kind, key=name, code=name, text=text, windowsVirtualKeyCode=code)

    def type(self, text):
        self.call("Input.insertText", text=text)

    def picture(self):
        return base64.b64decode(self.call("Page.captureScreenshot", format="png")["data"])
