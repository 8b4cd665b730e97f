"""Pages in Chromium without a screen, by its own remote debugging over two pipes: what is clicked, typed and said in them."""
import base64
import contextlib
import json
import os
import select
import subprocess
import tempfile
import time

from lib.counts import NotRun, lack_of

# How long an answer may take, in seconds: a machine that has much else to do is slow.
PATIENCE = 120

FLAGS = ("--headless", "--no-sandbox", "--disable-gpu", "--disable-dev-shm-usage", "--hide-scrollbars", "--no-first-run", "--disable-extensions",
         "--disable-background-networking", "--disable-component-update", "--remote-debugging-pipe")

# The keys that are pressed, with what they type and their numbers.
KEYS = {
    "Enter": ("\r", 13), "Escape": ("", 27), "Tab": ("", 9),
    "ArrowLeft": ("", 37), "ArrowUp": ("", 38), "ArrowRight": ("", 39), "ArrowDown": ("", 40),
}


class Chromium:
    """A Chromium, and one page in it. `told` has what the page wrote on its console, and each error of it."""

    def __init__(self, width=1400, height=1000):
        if why := lack_of("chromium"):
            raise NotRun(why)
        self.told, self.asked, self.session, self.buffer = [], 0, None, b""
        self.loads = 0
        with contextlib.ExitStack() as stack:
            home = stack.enter_context(tempfile.TemporaryDirectory(ignore_cleanup_errors=True))
            self.process = start([*FLAGS, f"--user-data-dir={home}", f"--window-size={width},{height}"], self)
            stack.callback(self.end)
            target = self.ask("Target.createTarget", url="about:blank")["targetId"]
            self.session = self.ask("Target.attachToTarget", targetId=target, flatten=True)["sessionId"]
            for domain in ("Page", "Runtime", "Log", "Network"):
                self.ask(f"{domain}.enable")
            self.stack = stack.pop_all()

    def __enter__(self):
        return self

    def __exit__(self, *_):
        self.stack.close()

    def end(self):
        self.process.terminate()
        try:
            self.process.wait(10)
        except subprocess.TimeoutExpired:
            self.process.kill()
            self.process.wait()
        os.close(self.to)
        os.close(self.back)

    # ---- messages

    def ask(self, method, **words):
        """The result of a command."""
        self.asked += 1
        message = {"id": self.asked, "method": method, "params": words}
        if self.session:
            message["sessionId"] = self.session
        os.write(self.to, json.dumps(message).encode() + b"\0")
        while True:
            answer = self.next_message()
            if answer.get("id") == self.asked:
                if "error" in answer:
                    raise RuntimeError(f"{method}: {answer['error']}")
                return answer["result"]
            self.note(answer)

    def next_message(self):
        begun = time.monotonic()
        while b"\0" not in self.buffer:
            if not select.select([self.back], [], [], max(0, begun + PATIENCE - time.monotonic()))[0]:
                raise RuntimeError("Chromium does not answer")
            part = os.read(self.back, 1 << 20)
            if not part:
                raise RuntimeError("Chromium has ended")
            self.buffer += part
        message, _, self.buffer = self.buffer.partition(b"\0")
        return json.loads(message)

    def note(self, event):
        method, words = event.get("method"), event.get("params")
        if method == "Page.loadEventFired":
            self.loads += 1
        elif method == "Runtime.exceptionThrown":
            details = words["exceptionDetails"]
            self.told.append(details.get("exception", {}).get("description") or details["text"])
        elif method == "Runtime.consoleAPICalled":
            self.told.append(f"{words['type']}: {[it.get('value') for it in words['args']]}")
        elif method == "Log.entryAdded":
            self.told.append(words["entry"]["text"])
        elif method == "Page.javascriptDialogOpening":
            self.told.append(f"dialog: {words['message']}")
        elif method == "Network.requestWillBeSent" and not words["request"]["url"].startswith("file:"):
            self.told.append(f"request: {words['request']['url']}")

    # ---- the page

    def open(self, url):
        """Goes to an address. One that differs from the page's own behind `#` alone loads nothing."""
        loads = self.loads
        is_loaded = "loaderId" in self.ask("Page.navigate", url=url)
        while is_loaded and self.loads == loads:
            self.note(self.next_message())

    def run(self, script):
        """The value of an expression of the page's script."""
        found = self.ask("Runtime.evaluate", expression=script, returnByValue=True, awaitPromise=True)
        if "exceptionDetails" in found:
            raise RuntimeError(f"{script}: {found['exceptionDetails'].get('exception', {}).get('description')}")
        return found["result"].get("value")

    def click(self, selector, modifiers=0):
        """Clicks on the middle of what a selector finds, as a mouse does; the page is moved so that it is seen."""
        found = f"document.querySelector({json.dumps(selector)})"
        self.run(f"{found}.scrollIntoView({{block: 'center'}})")
        box = self.run(f"(({{x, y, width, height}}) => [x + width / 2, y + height / 2])({found}.getBoundingClientRect())")
        for kind in ("mousePressed", "mouseReleased"):
            self.ask("Input.dispatchMouseEvent", type=kind, x=box[0], y=box[1], button="left", clickCount=1, modifiers=modifiers)

    def press(self, key):
        text, number = KEYS.get(key, (key, ord(key[0].upper())))
        words = {"key": key, "windowsVirtualKeyCode": number, **({"text": text} if text else {})}
        self.ask("Input.dispatchKeyEvent", type="keyDown", **words)
        self.ask("Input.dispatchKeyEvent", type="keyUp", key=key, windowsVirtualKeyCode=number)

    def type(self, text):
        self.ask("Input.insertText", text=text)

    def media(self, kind="", scheme="light"):
        """Has the page shown on a screen or on paper, and with a light or a dark ground."""
        self.ask("Emulation.setEmulatedMedia", media=kind, features=[{"name": "prefers-color-scheme", "value": scheme}])

    def picture(self, path):
        with open(path, "wb") as file:
            file.write(base64.b64decode(self.ask("Page.captureScreenshot", format="png")["data"]))

    def paper(self, path):
        with open(path, "wb") as file:
            file.write(base64.b64decode(self.ask("Page.printToPDF", printBackground=False)["data"]))


def start(words, pipes):
    """Starts Chromium, which reads what it is asked from descriptor 3, and answers on descriptor 4."""
    asks, pipes.to = os.pipe()
    pipes.back, answers = os.pipe()
    # Descriptors are handed out from the least on, so `answers` is none that the first of both takes.
    command = ["bash", "-c", f'exec chromium "$@" 3<&{asks} 4>&{answers}', "chromium", *words]
    try:
        return subprocess.Popen(command, pass_fds=(asks, answers), stdin=subprocess.DEVNULL, stdout=subprocess.DEVNULL, stderr=subprocess.DEVNULL)
    finally:
        os.close(asks)
        os.close(answers)
