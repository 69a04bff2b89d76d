"""A page in headless Chromium, driven over the pipe of its debugging protocol: no port, no network, nothing but Python."""
import base64
import json
import os
import pathlib
import select
import shutil
import subprocess
import tempfile
import time

NAMES = ["chromium-headless-shell", "chromium", "chromium-browser", "google-chrome"]


def program():
    """The browser that there is, or none."""
    return next(filter(None, map(shutil.which, NAMES)), None)


class Browser:
    """`with Browser(page) as browser:` opens the page's file; `value` evaluates an expression in it."""

    def __init__(self, page, width=1100, height=900):
        self.page, self.size, self.last, self.rest, self.requests, self.errors = page, f"{width},{height}", 0, b"", [], []

    def __enter__(self):
        self.folder = tempfile.TemporaryDirectory()
        to_read, self.commands = os.pipe()
        self.answers, to_write = os.pipe()
        options = ["--headless", "--no-sandbox", "--disable-gpu", "--disable-dev-shm-usage", "--hide-scrollbars", "--force-color-profile=srgb",
                   "--user-data-dir=" + self.folder.name, "--window-size=" + self.size, "--remote-debugging-pipe", "about:blank"]
        # the browser reads commands from file 3 and writes answers to file 4
        self.process = subprocess.Popen(
            ["bash", "-c", f'exec "$0" "$@" 3<&{to_read} 4>&{to_write}', program(), *options],
            pass_fds=(to_read, to_write), stdout=subprocess.DEVNULL, stderr=subprocess.DEVNULL)
        os.close(to_read)
        os.close(to_write)
        target = self.ask("Target.createTarget", url="about:blank")["targetId"]
        self.session = self.ask("Target.attachToTarget", targetId=target, flatten=True)["sessionId"]
        for domain in ("Page", "Runtime", "DOM", "Log", "Network", "Accessibility"):
            self.ask(domain + ".enable")
        self.ask("Page.navigate", url=pathlib.Path(self.page).resolve().as_uri())
        self.wait("document.readyState === 'complete'")
        return self

    def __exit__(self, *_):
        self.process.kill()
        self.process.wait()
        self.folder.cleanup()

    def message(self):
        while b"\0" not in self.rest:
            if not select.select([self.answers], [], [], 60)[0]:
                raise TimeoutError("the browser does not answer")
            part = os.read(self.answers, 1 << 20)
            if not part:
                raise RuntimeError("the browser has ended")
            self.rest += part
        text, self.rest = self.rest.split(b"\0", 1)
        return json.loads(text)

    def ask(self, method, **params):
        self.last += 1
        asked = {"id": self.last, "method": method, "params": params}
        if hasattr(self, "session"):
            asked["sessionId"] = self.session
        os.write(self.commands, json.dumps(asked).encode() + b"\0")
        while (told := self.message()).get("id") != self.last:
            self.note(told)
        if "error" in told:
            raise RuntimeError(f"{method}: {told['error']['message']}")
        return told["result"]

    def note(self, told):
        """Keeps what the page asked of the network, and every error that the browser tells."""
        method, params = told.get("method"), told.get("params", {})
        if method == "Network.requestWillBeSent":
            self.requests.append(params["request"]["url"])
        elif method == "Runtime.exceptionThrown":
            self.errors.append(params["exceptionDetails"].get("text", "") + " " + str(params["exceptionDetails"].get("exception", {}).get("description")))
        elif method == "Log.entryAdded" and params["entry"]["level"] == "error":
            self.errors.append(params["entry"]["text"])

    def value(self, expression):
        told = self.ask("Runtime.evaluate", expression=expression, awaitPromise=True, returnByValue=True, userGesture=True)
        if "exceptionDetails" in told:
            raise RuntimeError(f"{expression}: {told['exceptionDetails']}")
        return told["result"].get("value")

    def holds(self, expression):
        """Whether it holds now; while another page is being loaded nothing does."""
        try:
            return self.value(f"!!({expression})")
        except RuntimeError:
            return False

    def wait(self, expression, seconds=30):
        end = time.monotonic() + seconds
        while not self.holds(expression):
            if time.monotonic() > end:
                raise RuntimeError(f"waited {seconds} s in vain for {expression}")
            time.sleep(0.02)

    def choose(self, file):
        """Hands a file to the page's own input, as a user does who chooses it."""
        root = self.ask("DOM.getDocument")["root"]["nodeId"]
        node = self.ask("DOM.querySelector", nodeId=root, selector="#file")["nodeId"]
        self.value("document.getElementById('told').replaceChildren(), document.getElementById('file').value = ''")
        self.ask("DOM.setFileInputFiles", files=[str(file)], nodeId=node)
        self.wait("document.querySelector('#told h2')")

    def press(self, key, text=None):
        number = {"Tab": 9, "Enter": 13, "ArrowRight": 39, "ArrowDown": 40}[key]
        for kind in ("keyDown", "keyUp"):
            more = {"text": text} if text and kind == "keyDown" else {}
            self.ask("Input.dispatchKeyEvent", type=kind, key=key, code=key, windowsVirtualKeyCode=number, **more)

    def picture(self, file, height=None):
        if height is None:
            height = self.value("document.documentElement.scrollHeight")
        width = int(self.size.split(",")[0])
        clip = {"x": 0, "y": 0, "width": width, "height": height, "scale": 1}
        data = self.ask("Page.captureScreenshot", format="png", captureBeyondViewport=True, clip=clip)["data"]
        pathlib.Path(file).write_bytes(base64.b64decode(data))
