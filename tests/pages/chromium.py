"""A small driver of Chromium without a window, by its DevTools protocol."""
import json
import os
import shutil
import subprocess
import tempfile
import time

from pages.websocket import PATIENCE, Socket

NAMES = ("chromium", "chromium-browser", "google-chrome")
# its bit among the modifiers of a key
CONTROL = 2
FEW_FUNCTIONS = 20
COMPLAINTS = ("Runtime.consoleAPICalled", "Runtime.exceptionThrown", "Log.entryAdded")


def found():
    """Returns where Chromium is, or None."""
    return next(filter(None, map(shutil.which, NAMES)), None)


class Browser:
    """One Chromium with a fresh profile and one page.

    `complaints` has what its console says and the exceptions that it throws.
    """

    def __init__(self, program):
        self.scratch = tempfile.mkdtemp(prefix="towerbench-")
        # A test may open hundreds of documents in a few seconds, which Chromium otherwise drops
        words = [
            "--headless=new",
            "--no-sandbox",
            "--disable-gpu",
            "--disable-dev-shm-usage",
            "--disable-ipc-flooding-protection",
            "--remote-debugging-port=0",
            "--hide-scrollbars",
            f"--user-data-dir={self.scratch}/profile",
        ]
        self.process = subprocess.Popen(
            [program, *words, "about:blank"],
            stdin=subprocess.DEVNULL,
            stdout=subprocess.DEVNULL,
            stderr=subprocess.DEVNULL,
        )
        port, path = self.listening_address()
        self.socket, self.number, self.session, self.events = Socket(port, path), 0, None, []
        self.complaints = []
        target = self.ask("Target.createTarget", url="about:blank")["targetId"]
        self.session = self.ask("Target.attachToTarget", targetId=target, flatten=True)["sessionId"]
        for domain in ("Page", "Runtime", "Log", "DOM", "Network"):
            self.ask(f"{domain}.enable")
        self.ask(
            "Network.emulateNetworkConditions",
            offline=True,
            latency=0,
            downloadThroughput=0,
            uploadThroughput=0,
        )

    def listening_address(self):
        """Returns the port and the path that Chromium listens at, once it has written them."""
        for _ in range(PATIENCE * 10):
            try:
                with open(
                    os.path.join(self.scratch, "profile", "DevToolsActivePort"), encoding="ascii"
                ) as file:
                    port, path = file.read().split("\n")[:2]
                return int(port), path
            except (OSError, ValueError):
                time.sleep(0.1)
        raise ValueError("Chromium doesn't begin")

    def ask(self, method, **given):
        self.number += 1
        message = {"id": self.number, "method": method, "params": given}
        if self.session:
            message["sessionId"] = self.session
        self.socket.send(json.dumps(message))
        while True:
            answer = json.loads(self.socket.receive())
            if answer.get("id") == self.number:
                if "error" in answer:
                    raise ValueError(f"{method}: {answer['error']}")
                return answer["result"]
            self.take_event(answer)

    def take_event(self, event):
        self.events.append(event["method"])
        if event["method"] in COMPLAINTS:
            self.complaints.append(json.dumps(event["params"])[:400])

    def open(self, address):
        """Opens a page again, also if it differs from the last one by what is after its `#`
        alone."""
        for url in ("about:blank", address):
            self.events = []
            self.ask("Page.navigate", url=url)
            while "Page.loadEventFired" not in self.events:
                self.take_event(json.loads(self.socket.receive()))

    def value(self, expression):
        """Returns what an expression, or its promise, yields in the page."""
        answer = self.ask(
            "Runtime.evaluate", expression=expression, returnByValue=True, awaitPromise=True
        )
        if "exceptionDetails" in answer:
            raise ValueError(json.dumps(answer["exceptionDetails"])[:400])
        return answer["result"].get("value")

    def count_calls(self):
        """Starts to count the calls of the page's functions."""
        self.ask("Profiler.enable")
        self.ask("Profiler.startPreciseCoverage", callCount=True, detailed=False)

    def calls(self):
        """Returns how many calls of the page's functions there were since the last time."""
        scripts = [it["functions"] for it in self.ask("Profiler.takePreciseCoverage")["result"]]
        # What a test evaluates is a script of a few functions
        return sum(
            each["count"]
            for functions in scripts
            if len(functions) > FEW_FUNCTIONS
            for it in functions
            for each in it["ranges"]
        )

    def press(self, key, modifiers=0, **more):
        for kind in ("keyDown", "keyUp"):
            self.ask("Input.dispatchKeyEvent", type=kind, key=key, modifiers=modifiers, **more)

    def click(self, x, y):
        for kind in ("mousePressed", "mouseReleased"):
            self.ask("Input.dispatchMouseEvent", type=kind, x=x, y=y, button="left", clickCount=1)

    def size(self, width, height):
        self.ask(
            "Emulation.setDeviceMetricsOverride",
            width=width,
            height=height,
            deviceScaleFactor=1,
            mobile=False,
        )

    def close(self):
        self.process.terminate()
        self.process.wait(PATIENCE)
        self.socket.close()
        shutil.rmtree(self.scratch, ignore_errors=True)
