"""A headless Chromium, driven by the DevTools protocol over a pipe: each message is a JSON object that ends in a byte
0. It gets a profile of its own, and no network."""
import base64
import json
import os
import pathlib
import select
import subprocess
import tempfile
import time

# The keys that the tests press, as the protocol names them: key, code, the code of Windows.
KEYS = {"ArrowRight": ("ArrowRight", 39), "ArrowLeft": ("ArrowLeft", 37), "ArrowDown": ("ArrowDown", 40),
        "Home": ("Home", 36), "End": ("End", 35), "Enter": ("Enter", 13), "Tab": ("Tab", 9),
        "Escape": ("Escape", 27)}


class Browser:
    def __init__(self, command):
        self.profile = tempfile.TemporaryDirectory(ignore_cleanup_errors=True)
        to_browser, self.out = os.pipe()
        self.into, from_browser = os.pipe()

        def as_wanted():
            # (the browser reads descriptor 3 and writes 4)
            os.dup2(to_browser, 13)
            os.dup2(from_browser, 14)
            os.dup2(13, 3)
            os.dup2(14, 4)

        self.process = subprocess.Popen(
            [command, "--headless=new", "--no-sandbox", "--disable-gpu", "--disable-dev-shm-usage", "--no-first-run",
             "--disable-extensions", "--disable-background-networking", "--host-resolver-rules=MAP * ~NOTFOUND",
             "--remote-debugging-pipe", f"--user-data-dir={self.profile.name}", "about:blank"],
            preexec_fn=as_wanted, close_fds=False,
            stdin=subprocess.DEVNULL, stdout=subprocess.DEVNULL, stderr=subprocess.DEVNULL)
        os.close(to_browser)
        os.close(from_browser)
        self.buffer = b""
        self.number = 0
        self.session = None
        self.events = []
        target = self.ask("Target.createTarget", {"url": "about:blank"})["targetId"]
        self.session = self.ask("Target.attachToTarget", {"targetId": target, "flatten": True})["sessionId"]
        for domain in ["Page", "Runtime", "Log", "Network"]:
            self.ask(domain + ".enable")
        self.ask("Emulation.setDeviceMetricsOverride",
                 {"width": 1400, "height": 1000, "deviceScaleFactor": 1, "mobile": False})

    def message(self, seconds):
        """The next message."""
        end = time.monotonic() + seconds
        while b"\0" not in self.buffer:
            left = end - time.monotonic()
            if left <= 0 or not select.select([self.into], [], [], left)[0]:
                raise TimeoutError("the browser doesn't answer")
            more = os.read(self.into, 1 << 20)
            if not more:
                raise EOFError("the browser has ended")
            self.buffer += more
        text, self.buffer = self.buffer.split(b"\0", 1)
        return json.loads(text)

    def ask(self, method, parameters=None, seconds=60):
        """What the browser answers."""
        self.number += 1
        message = {"id": self.number, "method": method, "params": parameters or {}}
        if self.session:
            message["sessionId"] = self.session
        text = json.dumps(message).encode() + b"\0"
        while text:
            text = text[os.write(self.out, text):]
        while True:
            answer = self.message(seconds)
            if answer.get("id") == self.number:
                if "error" in answer:
                    raise RuntimeError(f"{method}: {answer['error']}")
                return answer["result"]
            self.events.append(answer)

    def open(self, path, place=""):
        """Opens a file."""
        # (another fragment alone would load nothing)
        self.ask("Page.navigate", {"url": "about:blank"})
        self.events = []
        self.ask("Page.navigate", {"url": pathlib.Path(path).resolve().as_uri() + place})
        end = time.monotonic() + 60
        while self.run("document.readyState") != "complete":
            if time.monotonic() > end:
                raise TimeoutError("the page isn't loaded")
            time.sleep(0.02)

    def run(self, script):
        """The value of an expression."""
        answer = self.ask("Runtime.evaluate", {"expression": script, "returnByValue": True})
        if "exceptionDetails" in answer:
            raise RuntimeError(json.dumps(answer["exceptionDetails"])[:800])
        return answer["result"].get("value")

    def comes_to(self, script, value):
        """Whether an expression gets a value soon."""
        end = time.monotonic() + 10
        while self.run(script) != value:
            if time.monotonic() > end:
                return False
            time.sleep(0.02)
        return True

    def press(self, key):
        """Presses a key, and lets it go; a capital letter is pressed with the shift key."""
        code, number = KEYS.get(key, (("Digit" if key.isdigit() else "Key") + key.upper(), ord(key[0].upper())))
        event = {"key": key, "code": code, "windowsVirtualKeyCode": number,
                 "modifiers": 8 if len(key) == 1 and key.isupper() else 0}
        if len(key) == 1:
            event["text"] = key
        elif key == "Enter":
            event["text"] = "\r"
        self.ask("Input.dispatchKeyEvent", {"type": "keyDown", **event})
        self.ask("Input.dispatchKeyEvent", {"type": "keyUp", **event})

    def choose(self, field, path):
        """Chooses a file in a field of the page."""
        node = self.ask("DOM.getDocument")["root"]["nodeId"]
        node = self.ask("DOM.querySelector", {"nodeId": node, "selector": field})["nodeId"]
        self.ask("DOM.setFileInputFiles", {"nodeId": node, "files": [str(path)]})

    def troubles(self):
        """What went wrong in the page: exceptions, messages of the console, and requests."""
        found = []
        for event in self.events:
            method = event.get("method")
            if method == "Runtime.exceptionThrown":
                found.append(json.dumps(event["params"]["exceptionDetails"])[:500])
            elif method in ("Log.entryAdded", "Runtime.consoleAPICalled"):
                found.append(json.dumps(event["params"])[:500])
            elif method == "Network.requestWillBeSent":
                url = event["params"]["request"]["url"]
                if not url.startswith(("file:", "about:")):
                    found.append("asks for " + url[:200])
            elif method == "Page.javascriptDialogOpening":
                found.append("opens a dialog")
        return found

    def looks(self, scheme="light", media="screen"):
        """Lets pages look so."""
        self.ask("Emulation.setEmulatedMedia",
                 {"media": media, "features": [{"name": "prefers-color-scheme", "value": scheme}]})

    def picture(self, path, whole=True):
        """A picture of the page."""
        answer = self.ask("Page.captureScreenshot", {"format": "png", "captureBeyondViewport": whole})
        pathlib.Path(path).write_bytes(base64.b64decode(answer["data"]))

    def paper(self, path):
        """The page as it is printed."""
        answer = self.ask("Page.printToPDF", {"printBackground": False})
        pathlib.Path(path).write_bytes(base64.b64decode(answer["data"]))

    def close(self):
        try:
            self.session = None
            self.ask("Browser.close", seconds=10)
            self.process.wait(10)
        except Exception:  # noqa: BLE001  (it is ended in any case)
            self.process.kill()
            self.process.wait()
        os.close(self.out)
        os.close(self.into)
        self.profile.cleanup()
