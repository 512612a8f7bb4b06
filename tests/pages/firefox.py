"""A small driver of Firefox without a window, by the protocol WebDriver BiDi."""
import json
import os
import re
import shutil
import subprocess
import tempfile
import time

from pages.websocket import PATIENCE, Socket

NAMES = ("firefox-esr", "firefox")
LISTENS = re.compile(r"WebDriver BiDi listening on ws://127\.0\.0\.1:(\d+)")
# how the protocol writes keys that have no character
KEYS = {"Enter": "\ue007", "Escape": "\ue00c", "Delete": "\ue017"}
MOVES = ("End", "Home", "ArrowLeft", "ArrowUp", "ArrowRight", "ArrowDown")
KEYS.update((key, chr(0xE010 + place)) for place, key in enumerate(MOVES))
# the keys that are held, by Chromium's bits for them: Control and Shift
MODIFIERS = {2: "\ue009", 8: "\ue008"}


def found():
    """Returns where Firefox is, or None."""
    return next(filter(None, map(shutil.which, NAMES)), None)


class Browser:
    """One Firefox with a fresh profile and one page; `complaints` are the lines of its console."""

    def __init__(self, program):
        self.scratch = tempfile.mkdtemp(prefix="towerbench-")
        os.mkdir(f"{self.scratch}/profile")
        words = [
            "--headless",
            "--remote-debugging-port=0",
            "--profile",
            f"{self.scratch}/profile",
            "about:blank",
        ]
        with open(f"{self.scratch}/said", "wb") as said:
            self.process = subprocess.Popen(
                [program, *words], stdin=subprocess.DEVNULL, stdout=said, stderr=said
            )
        self.socket, self.number, self.complaints = Socket(self.port(), "/session"), 0, []
        self.ask("session.new", capabilities={})
        self.ask("session.subscribe", events=["log.entryAdded"])
        self.context = self.ask("browsingContext.getTree")["contexts"][0]["context"]

    def port(self):
        """Returns the port that Firefox listens at, once it says so."""
        for _ in range(PATIENCE * 10):
            with open(f"{self.scratch}/said", encoding="utf-8", errors="replace") as said:
                found = LISTENS.search(said.read())
            if found:
                return int(found.group(1))
            time.sleep(0.1)
        raise ValueError("Firefox doesn't begin")

    def ask(self, method, **given):
        self.number += 1
        self.socket.send(json.dumps({"id": self.number, "method": method, "params": given}))
        while True:
            answer = json.loads(self.socket.receive())
            if answer.get("id") == self.number:
                if answer["type"] == "error":
                    raise ValueError(f"{method}: {answer['message']}")
                return answer["result"]
            if answer.get("method") == "log.entryAdded":
                self.complaints.append(json.dumps(answer["params"])[:400])

    def open(self, address):
        for url in ("about:blank", address):
            self.ask("browsingContext.navigate", context=self.context, url=url, wait="complete")

    def value(self, expression):
        """Returns what an expression, or its promise, yields in the page."""
        text = f"(async () => JSON.stringify(await ({expression})))()"
        answer = self.ask(
            "script.evaluate", expression=text, target={"context": self.context}, awaitPromise=True
        )
        if answer["type"] == "exception":
            raise ValueError(answer["exceptionDetails"]["text"][:400])
        return json.loads(answer["result"]["value"]) if "value" in answer["result"] else None

    def perform(self, kind, *actions, **more):
        self.ask(
            "input.performActions",
            context=self.context,
            actions=[{"type": kind, "id": kind, "actions": actions, **more}],
        )

    def press(self, key, modifiers=0, **_):
        held = [
            {"type": "keyDown", "value": it} for bit, it in MODIFIERS.items() if modifiers & bit
        ]
        value = KEYS.get(key, key)
        self.perform(
            "key",
            *held,
            {"type": "keyDown", "value": value},
            {"type": "keyUp", "value": value},
            *({**it, "type": "keyUp"} for it in held),
        )

    def click(self, x, y):
        self.perform(
            "pointer",
            {"type": "pointerMove", "x": round(x), "y": round(y)},
            {"type": "pointerDown", "button": 0},
            {"type": "pointerUp", "button": 0},
        )

    def size(self, width, height):
        self.ask(
            "browsingContext.setViewport",
            context=self.context,
            viewport={"width": width, "height": height},
        )

    def close(self):
        self.process.terminate()
        self.process.wait(PATIENCE)
        self.socket.close()
        shutil.rmtree(self.scratch, ignore_errors=True)
