"""Chromium, and a page in it: clicks, typing, what is seen, pictures."""

from __future__ import annotations

import base64
import json
import os
import shutil
import subprocess
import sys
import time
from typing import Dict, List, Optional, Tuple

SECONDS = 60
WIDE, NARROW = (1280, 800), (360, 740)
IS_READY = """document.readyState === 'complete' &&
    !document.getElementById('ending').textContent.startsWith('loading')"""
BOX = "(element => { element.scrollIntoView({ block: 'nearest' }); const { x, y, width, height } = element.getBoundingClientRect();"
BOX += " return [x, y, width, height] })"
KEYS = {"Enter": (13, "\r"), "Escape": (27, ""), "Tab": (9, ""), "Backspace": (8, ""), "End": (35, ""), "d": (68, "")}
KEYS.update(ArrowRight=(39, ""))
CONTROL = 2
# stands in a page for the program where that is asked for `check`: by the text, and as a program without it otherwise
STAND_IN = """(answers => {
    const none = { status: 1, error: "error: unrecognized subcommand 'check'" };
    const bytes = text => new TextEncoder().encode(text);
    window.Worker = class extends Worker {
        postMessage(message) {
            if (!message.job || message.job.words[0] !== 'check') return super.postMessage(message);
            const [file] = Object.values(message.job.files);
            const answer = answers[new TextDecoder('utf-8', { ignoreBOM: true }).decode(file)] || none;
            const told = answer.error ? { error: bytes(answer.error) } : { out: bytes(answer.out) };
            for (const data of [told, { ended: { status: answer.status } }]) setTimeout(() => this.onmessage({ data }));
        }
    };
})"""
Wrong = List[str]


class Browser:
    """Chromium without a window, which is told what to do over two pipes."""

    def __init__(self, profile: str) -> None:
        command = shutil.which("chromium") or sys.exit("web/try: the command chromium is not on the path")
        to_it, self.to = os.pipe()
        self.back, from_it = os.pipe()
        words = [command, "--headless", "--no-sandbox", "--disable-gpu", "--remote-debugging-pipe"]
        words += [f"--user-data-dir={profile}", "about:blank"]

        def connect() -> None:
            # (Chromium reads file 3 and writes file 4)
            kept = os.dup(to_it), os.dup(from_it)
            os.dup2(kept[0], 3)
            os.dup2(kept[1], 4)

        how = {"stdin": subprocess.DEVNULL, "stdout": subprocess.DEVNULL, "stderr": subprocess.DEVNULL}
        self.process = subprocess.Popen(words, preexec_fn=connect, close_fds=False, **how)
        os.close(to_it)
        os.close(from_it)
        self.number, self.unread, self.session = 0, b"", None
        self.heard: List[dict] = []

    def message(self) -> dict:
        while b"\0" not in self.unread:
            more = os.read(self.back, 1 << 20)
            if not more:
                sys.exit("web/try: chromium ended")
            self.unread += more
        message, _, self.unread = self.unread.partition(b"\0")
        return json.loads(message)

    def ask(self, method: str, **given: object) -> dict:
        """Asks for something, and returns the answer. What the browser tells meanwhile is kept."""
        self.number += 1
        asked = {"id": self.number, "method": method, "params": given}
        if self.session:
            asked["sessionId"] = self.session
        os.write(self.to, json.dumps(asked).encode() + b"\0")
        while True:
            message = self.message()
            if message.get("id") == self.number:
                if "error" in message:
                    raise RuntimeError(f"{method}: {message['error']['message']}")
                return message["result"]
            self.heard.append(message)

    def attach(self) -> None:
        targets = self.ask("Target.getTargets")["targetInfos"]
        target = next(each["targetId"] for each in targets if each["type"] == "page")
        self.session = self.ask("Target.attachToTarget", targetId=target, flatten=True)["sessionId"]
        for domain in ("Page", "Runtime", "Network", "Log"):
            self.ask(f"{domain}.enable")

    def end(self) -> None:
        self.process.kill()
        self.process.wait()


class Page:
    """The page in the browser, as its user has it."""

    def __init__(self, browser: Browser, path: str, pictures: str) -> None:
        self.browser, self.address, self.pictures = browser, f"file://{os.path.abspath(path)}", pictures

    # what is seen

    def value(self, expression: str) -> object:
        """The value of an expression in the page."""
        ran = self.browser.ask("Runtime.evaluate", expression=expression, returnByValue=True, awaitPromise=True)
        if "exceptionDetails" in ran:
            raise RuntimeError(ran["exceptionDetails"].get("exception", {}).get("description", "an exception"))
        return ran["result"].get("value")

    def shows(self, name: str) -> str:
        return self.value(f"document.getElementById({name!r}).textContent")

    def has(self, expression: str, seconds: float = SECONDS) -> bool:
        """Whether something comes true in time."""
        until = time.monotonic() + seconds
        while time.monotonic() < until:
            if self.value(expression):
                return True
            time.sleep(0.02)
        return False

    def ends(self, seconds: float = SECONDS) -> str:
        """What is told of a run when it has ended."""
        self.has("document.getElementById('stop').disabled", seconds)
        return self.shows("ending")

    def asks(self) -> bool:
        return self.has("!document.getElementById('answer').hidden")

    def picture(self, name: str) -> None:
        shot = self.browser.ask("Page.captureScreenshot")["data"]
        with open(f"{self.pictures}/{name.replace(' ', '-')}.png", "wb") as file:
            file.write(base64.b64decode(shot))

    def told(self, method: str) -> List[dict]:
        """What the browser has told of some sort."""
        return [message["params"] for message in self.browser.heard if message.get("method") == method]

    # what is done

    def opens(
        self,
        behind: str = "",
        size: Tuple[int, int] = WIDE,
        answers: Optional[Dict[str, dict]] = None,
        before: str = "",
        **features: str,
    ) -> None:
        """Opens the page anew, with something behind its address, and waits until it is ready.

        `answers` are those of `check`, by the text; without them the program itself is asked. `before` is a script that
        runs before those of the page.
        """
        stand_in = "" if answers is None else f"{STAND_IN}({json.dumps(answers)})"
        first = self.browser.ask("Page.addScriptToEvaluateOnNewDocument", source=f"{stand_in};{before}")
        shape = {"width": size[0], "height": size[1], "deviceScaleFactor": 1, "mobile": size == NARROW}
        self.browser.ask("Emulation.setDeviceMetricsOverride", **shape)
        wanted = [{"name": f"prefers-{feature}", "value": value} for feature, value in features.items()]
        self.browser.ask("Emulation.setEmulatedMedia", features=wanted)
        self.browser.ask("Page.navigate", url="about:blank")
        self.browser.ask("Page.navigate", url=self.address + behind)
        if not self.has(IS_READY):
            raise RuntimeError("the page was not ready in time")
        self.browser.ask("Page.removeScriptToEvaluateOnNewDocument", **first)

    def clicks(self, selector: str, at: Optional[Tuple[float, float]] = None) -> None:
        """Clicks on the middle of an element, or at a place in it."""
        box = self.value(f"{BOX}(document.querySelector({selector!r}))")
        x, y = (box[0] + at[0], box[1] + at[1]) if at else (box[0] + box[2] / 2, box[1] + box[3] / 2)
        for kind in ("mouseMoved", "mousePressed", "mouseReleased"):
            how = {"type": kind, "x": x, "y": y, "button": "left", "clickCount": int(kind != "mouseMoved")}
            self.browser.ask("Input.dispatchMouseEvent", **how)

    def points(self, selector: str, x: float, y: float) -> None:
        """Moves the pointer to a place in an element."""
        box = self.value(f"(b => [b.x, b.y])(document.querySelector({selector!r}).getBoundingClientRect())")
        self.browser.ask("Input.dispatchMouseEvent", type="mouseMoved", x=box[0] + x, y=box[1] + y)

    def presses(self, key: str, modifiers: int = 0) -> None:
        code, text = KEYS[key]
        for kind in ("keyDown", "keyUp"):
            shown = {"text": text} if kind == "keyDown" and text and not modifiers else {}
            how = {"type": kind, "key": key, "code": key, "windowsVirtualKeyCode": code, "modifiers": modifiers}
            self.browser.ask("Input.dispatchKeyEvent", **how, **shown)

    def types(self, text: str) -> None:
        """Types a text, key by key."""
        for letter in text:
            if letter == "\n":
                self.presses("Enter")
            else:
                self.browser.ask("Input.dispatchKeyEvent", type="char", text=letter)

    def puts(self, text: str) -> None:
        """Puts a text in the place of the program's, as by pasting it."""
        self.clicks("#text")
        self.value("document.getElementById('text').select()")
        self.browser.ask("Input.insertText", text=text)

    def holds(self, text: str) -> None:
        """Has the program's text be this one, however long it is. (Chromium takes minutes to insert a long one.)"""
        self.value(
            f"(field => {{ field.value = {json.dumps(text)}; field.dispatchEvent(new Event('input')) }})(document.getElementById('text'))"
        )

    def steps_to(self, number: object) -> None:
        """Moves the slider to a statement of the run, or to its last one."""
        at = "slider.max" if number == "last" else json.dumps(str(number))
        self.value(f"(slider => {{ slider.value = {at}; slider.dispatchEvent(new Event('input')) }})(document.getElementById('step'))")

    def finds(self, expression: str, wanted: str) -> bool:
        """Whether an expression of the page comes to have a text."""
        return self.has(f"({expression}).includes({json.dumps(wanted)})", 10)

    def chooses(self, example: str) -> None:
        """Chooses an example from the list."""
        self.value(f"document.getElementById('example').value = {example!r}")
        self.value("document.getElementById('example').dispatchEvent(new Event('change'))")


def lacking(what: str, text: str, *wanted: str) -> Wrong:
    """What of a text is not as it must be."""
    return [f"{what}: wanted {part!r} in {text!r}" for part in wanted if part not in text]
