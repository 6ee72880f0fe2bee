"""Chromium without a window, told what to do over a pipe by its own protocol."""
import base64
import fcntl
import json
import os
import shutil
import subprocess
import tempfile

KEYS = {
    "Tab": 9, "Enter": 13, "Escape": 27, " ": 32, "PageUp": 33, "PageDown": 34, "End": 35, "Home": 36, "ArrowLeft": 37, "ArrowUp": 38,
    "ArrowRight": 39, "ArrowDown": 40,
}
LOCAL = ("file:", "data:", "about:", "blob:")
OPTIONS = [
    "--headless=new", "--no-sandbox", "--disable-gpu", "--disable-dev-shm-usage", "--no-first-run", "--disable-extensions",
    "--disable-ipc-flooding-protection", "--remote-debugging-pipe",
]


def moved(end):
    """The same end of a pipe under a number above those that the browser's take."""
    other = fcntl.fcntl(end, fcntl.F_DUPFD_CLOEXEC, 50)
    os.close(end)
    return other


class Browser:
    def __init__(self, program):
        self.folder = tempfile.mkdtemp()
        theirs, self.out = map(moved, os.pipe())
        self.into, to_us = map(moved, os.pipe())

        def ends():
            os.dup2(theirs, 3)
            os.dup2(to_us, 4)

        self.process = subprocess.Popen(
            [program, *OPTIONS, f"--user-data-dir={self.folder}", "about:blank"],
            preexec_fn=ends, close_fds=False, stdout=subprocess.DEVNULL, stderr=subprocess.DEVNULL,
        )
        os.close(theirs)
        os.close(to_us)
        self.number, self.left, self.events = 0, b"", []
        target = self.call("Target.createTarget", url="about:blank")["targetId"]
        self.session = self.call("Target.attachToTarget", targetId=target, flatten=True)["sessionId"]
        for domain in ("Page", "Runtime", "Log", "Network"):
            self.ask(f"{domain}.enable")
        self.ask("Page.setLifecycleEventsEnabled", enabled=True)
        self.has_size(1440, 900)
        self.ask("Emulation.setFocusEmulationEnabled", enabled=True)

    def read(self):
        while b"\0" not in self.left:
            piece = os.read(self.into, 1 << 20)
            if not piece:
                raise EOFError("the browser has ended")
            self.left += piece
        message, _, self.left = self.left.partition(b"\0")
        return json.loads(message)

    def call(self, method, session=None, **words):
        self.number += 1
        message = {"id": self.number, "method": method, "params": words, **({"sessionId": session} if session else {})}
        data = json.dumps(message).encode() + b"\0"
        while data:
            data = data[os.write(self.out, data):]
        while True:
            answer = self.read()
            if answer.get("id") == self.number:
                if "error" in answer:
                    raise RuntimeError(answer["error"])
                return answer["result"]
            self.events.append(answer)

    def ask(self, method, **words):
        return self.call(method, self.session, **words)

    def goes(self, address):
        """Goes to a page, and waits until it is loaded."""
        loader = self.ask("Page.navigate", url=address)["loaderId"]

        def is_load(event):
            said = event.get("params", {})
            return event.get("method") == "Page.lifecycleEvent" and (said["name"], said["loaderId"]) == ("load", loader)

        while not any(map(is_load, self.events)):
            self.events.append(self.read())

    def has_size(self, width, height, scale=1):
        self.ask("Emulation.setDeviceMetricsOverride", width=width, height=height, deviceScaleFactor=scale, mobile=False)

    def has_media(self, **features):
        """Emulates media features, as prefers_color_scheme="dark"."""
        self.ask("Emulation.setEmulatedMedia", features=[{"name": name.replace("_", "-"), "value": value} for name, value in features.items()])

    def open(self, address):
        """Opens a page anew, and forgets what was told of those before."""
        self.goes("about:blank")
        self.events = []
        self.goes(address)

    def script(self, text, waits=False):
        answer = self.ask("Runtime.evaluate", expression=text, returnByValue=True, awaitPromise=waits)
        if "exceptionDetails" in answer:
            raise RuntimeError(answer["exceptionDetails"].get("exception", {}).get("description") or answer["exceptionDetails"])
        return answer["result"].get("value")

    def key(self, key, modifiers=0):
        words = {"key": key, "code": key, "windowsVirtualKeyCode": KEYS.get(key, 0), "modifiers": modifiers}
        self.ask("Input.dispatchKeyEvent", type="keyDown", **words, **({"text": key} if len(key) == 1 else {}))
        self.ask("Input.dispatchKeyEvent", type="keyUp", **words)

    def picture(self, path):
        with open(path, "wb") as file:
            file.write(base64.b64decode(self.ask("Page.captureScreenshot", format="png")["data"]))

    def problems(self):
        """What the console and the policy told, what was asked of a network, and dialogs."""
        found = []
        for event in self.events:
            method, said = event.get("method"), event.get("params", {})
            if method == "Log.entryAdded":
                found.append(f"{said['entry']['level']}: {said['entry']['text']}")
            elif method == "Runtime.exceptionThrown":
                found.append(said["exceptionDetails"].get("exception", {}).get("description", str(said)))
            elif method == "Runtime.consoleAPICalled":
                found.append(f"console: {[word.get('value') for word in said['args']]}")
            elif method == "Network.requestWillBeSent" and not said["request"]["url"].startswith(LOCAL):
                found.append(f"request: {said['request']['url']}")
            elif method == "Page.javascriptDialogOpening":
                found.append(f"dialog: {said['message']}")
        return found

    def close(self):
        try:
            self.call("Browser.close")
        except (EOFError, OSError, RuntimeError):
            pass
        self.process.wait(10)
        os.close(self.out)
        os.close(self.into)
        shutil.rmtree(self.folder, ignore_errors=True)
