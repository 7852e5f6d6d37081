"""For checks/forms: Chromium, driven by the DevTools protocol over two pipes, as messages of JSON that end in a zero byte."""
import base64
import json
import os
import select
import subprocess
import time

PATIENCE = 60  # seconds that a check waits for what should come sooner
KEYS = {"Tab": 9, "Enter": 13, " ": 32, "ArrowLeft": 37, "ArrowUp": 38, "ArrowRight": 39, "ArrowDown": 40}


class Browser:
    """A browser without windows; `tab` opens a page in it. Names of hosts in `found_here` lead to this machine."""

    def __init__(self, profile, found_here=()):
        to_browser, self.writer = os.pipe()
        self.reader, from_browser = os.pipe()
        rules = ", ".join(f"MAP {name} 127.0.0.1" for name in found_here)
        words = ["chromium", "--headless=new", "--no-sandbox", "--disable-gpu", "--hide-scrollbars", "--lang=en-US", "--no-first-run",
                 f"--user-data-dir={profile}", f"--host-resolver-rules={rules}", "--remote-debugging-pipe", "about:blank"]
        script = f'exec "$@" 3<&{to_browser} 4>&{from_browser}'
        self.process = subprocess.Popen(["bash", "-c", script, "chromium", *words], stdin=subprocess.DEVNULL, stdout=subprocess.DEVNULL,
                                        stderr=subprocess.DEVNULL, pass_fds=(to_browser, from_browser))
        os.close(to_browser)
        os.close(from_browser)
        self.sent, self.rest, self.answers, self.tabs = 0, b"", {}, {}

    def send(self, method, session=None, **values):
        """Sends a message, and returns the number by which its answer is known."""
        self.sent += 1
        message = {"id": self.sent, "method": method, "params": values, **({"sessionId": session} if session else {})}
        data = json.dumps(message).encode() + b"\0"
        while data:
            data = data[os.write(self.writer, data):]
        return self.sent

    def ask(self, method, session=None, **values):
        """What a message is answered."""
        number, until = self.send(method, session, **values), time.monotonic() + PATIENCE
        while number not in self.answers:
            if not self.hear(until):
                raise TimeoutError(f"Chromium does not answer {method}")
        answer = self.answers.pop(number)
        if "error" in answer:
            raise RuntimeError(f"{method}: {answer['error']}")
        return answer["result"]

    def hear(self, until):
        """Takes what came from the browser; whether something came before that time."""
        left = until - time.monotonic()
        if left <= 0 or not select.select([self.reader], [], [], left)[0]:
            return False
        piece = os.read(self.reader, 1 << 20)
        if not piece:
            raise EOFError("Chromium ended")
        *whole, self.rest = (self.rest + piece).split(b"\0")
        for message in map(json.loads, whole):
            if "id" in message:
                self.answers[message["id"]] = message
            elif message.get("sessionId") in self.tabs:
                self.tabs[message["sessionId"]].take(message["method"], message["params"])
        return True

    def tab(self):
        target = self.ask("Target.createTarget", url="about:blank")["targetId"]
        session = self.ask("Target.attachToTarget", targetId=target, flatten=True)["sessionId"]
        self.tabs[session] = Tab(self, session, target)
        return self.tabs[session].begun()

    def end(self):
        try:
            self.send("Browser.close")
            self.process.wait(PATIENCE)
        except (OSError, subprocess.TimeoutExpired):
            self.process.kill()
            self.process.wait()
        os.close(self.writer)
        os.close(self.reader)


class Tab:
    """A page. `came` has what its documents asked for and were answered: method, path, status, and the body that was sent."""

    def __init__(self, browser, session, target):
        self.browser, self.session, self.target = browser, session, target
        self.came, self.asked, self.loads, self.posts, self.faults = [], {}, 0, 0, []

    def begun(self):
        for domain in ("Page", "Network", "Runtime", "Log"):
            self.do(f"{domain}.enable")
        self.do("Target.setAutoAttach", autoAttach=True, waitForDebuggerOnStart=True, flatten=True)
        return self

    def do(self, method, **values):
        return self.browser.ask(method, self.session, **values)

    def take(self, method, values):
        """Keeps what an event says of the page, or of a frame of it that has a process of its own."""
        if method == "Target.attachedToTarget":
            frame = values["sessionId"]
            self.browser.tabs[frame] = self
            for call in ("Network.enable", "Runtime.runIfWaitingForDebugger"):
                self.browser.send(call, frame)
        elif method == "Page.loadEventFired":
            self.loads += 1
        elif method == "Network.requestWillBeSent" and values.get("type") == "Document":
            if "redirectResponse" in values:
                self.answered(values["requestId"], values["redirectResponse"])
            self.asked[values["requestId"]] = values["request"]
            self.posts += values["request"]["method"] == "POST"
        elif method == "Network.responseReceived" and values.get("type") == "Document":
            self.answered(values["requestId"], values["response"])
        elif method == "Log.entryAdded" and values["entry"]["level"] == "error" and values["entry"]["source"] != "network":
            self.faults.append(values["entry"]["text"])
        elif method == "Runtime.exceptionThrown":
            self.faults.append(values["exceptionDetails"]["text"])

    def answered(self, number, response):
        asked = self.asked.pop(number, {})
        headers = {name.lower(): text for name, text in response["headers"].items()}
        self.came.append((asked.get("method"), response["url"].partition("://")[2].partition("/")[2], response["status"], asked.get("postData", ""), headers))

    def until_loaded(self, loads, patience=PATIENCE):
        """Waits until one more page is loaded than that."""
        until = time.monotonic() + patience
        while self.loads <= loads:
            if not self.browser.hear(until):
                raise TimeoutError("no page was loaded")

    def rests(self, seconds):
        """Takes what comes in so many seconds."""
        until = time.monotonic() + seconds
        while self.browser.hear(until):
            pass

    def taken(self):
        """What the documents asked for since this was called last."""
        came, self.came = self.came, []
        return came

    def go(self, address):
        loads = self.loads
        said = self.do("Page.navigate", url=address)
        if "errorText" in said:
            raise RuntimeError(f"{address}: {said['errorText']}")
        self.until_loaded(loads)

    def reload(self):
        loads = self.loads
        self.do("Page.reload")
        self.until_loaded(loads)

    def back(self):
        """To the page before, which the browser may keep or ask for again."""
        history = self.do("Page.getNavigationHistory")
        self.do("Page.navigateToHistoryEntry", entryId=history["entries"][history["currentIndex"] - 1]["id"])
        self.rests(1)

    def value(self, script):
        """The value of an expression of JavaScript in the page."""
        said = self.do("Runtime.evaluate", expression=script, returnByValue=True, awaitPromise=True)
        if "exceptionDetails" in said:
            raise RuntimeError(f"{said['exceptionDetails']}")
        return said["result"].get("value")

    def place(self, selector):
        """Where the middle of an element is seen, which is scrolled into sight."""
        found = self.value(f"(() => {{ const one = document.querySelector({json.dumps(selector)}); if (!one) return null;"
                           " one.scrollIntoView({block: 'center', behavior: 'instant'}); const box = one.getClientRects()[0];"
                           " return [box.x + box.width / 2, box.y + box.height / 2]; })()")
        if not found:
            raise RuntimeError(f"no {selector} in the page")
        return found

    def press(self, selector, times=1):
        """Clicks so many times on an element, without a wait between."""
        x, y = self.place(selector)
        for count in range(1, times + 1):
            for kind in ("mousePressed", "mouseReleased"):
                self.browser.send("Input.dispatchMouseEvent", self.session, type=kind, x=x, y=y, button="left", clickCount=count)

    def click(self, selector, times=1):
        """Clicks, and waits for the page to which that leads."""
        loads = self.loads
        self.press(selector, times)
        self.until_loaded(loads)

    def key(self, name):
        text = {"Enter": "\r", " ": " "}.get(name)
        code = KEYS[name]
        values = {"key": name, "code": "Space" if name == " " else name, "windowsVirtualKeyCode": code, "nativeVirtualKeyCode": code}
        self.do("Input.dispatchKeyEvent", type="keyDown" if text else "rawKeyDown", **values, **({"text": text} if text else {}))
        self.do("Input.dispatchKeyEvent", type="keyUp", **values)

    def write(self, text):
        """Types a text, a key for each character."""
        for letter in text:
            code = ord(letter.upper()) if letter.isascii() and letter.isalnum() else 0
            self.do("Input.dispatchKeyEvent", type="keyDown", key=letter, text=letter, windowsVirtualKeyCode=code)
            self.do("Input.dispatchKeyEvent", type="keyUp", key=letter, windowsVirtualKeyCode=code)

    def wide(self, width, height=900, scale=1):
        self.do("Emulation.setDeviceMetricsOverride", width=width, height=height, deviceScaleFactor=scale, mobile=False)

    def seen(self, media="", scheme="light"):
        self.do("Emulation.setEmulatedMedia", media=media, features=[{"name": "prefers-color-scheme", "value": scheme}])

    def picture(self, path):
        """Leaves a picture of the whole page."""
        with open(path, "wb") as file:
            file.write(base64.b64decode(self.do("Page.captureScreenshot", format="png", captureBeyondViewport=True)["data"]))

    def printed(self, path):
        """Leaves the page as it is printed."""
        data = base64.b64decode(self.do("Page.printToPDF", printBackground=True)["data"])
        with open(path, "wb") as file:
            file.write(data)
        return data

    def close(self):
        self.browser.ask("Target.closeTarget", targetId=self.target)
        self.browser.tabs.pop(self.session, None)
