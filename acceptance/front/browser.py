"""A headless Chromium over its DevTools protocol, by a pipe: one JSON message after the other, each ended by a zero."""

import base64
import contextlib
import json
import os
import pathlib
import select
import subprocess
from collections.abc import Callable, Iterator, Mapping
from typing import Any

from acceptance.front.waits import settings, until

FLAGS = ["--headless=new", "--remote-debugging-pipe", "--no-sandbox", "--disable-gpu", "--hide-scrollbars", "--no-first-run",
         "--disable-extensions", "--disable-background-networking", "--disable-component-update", "--disable-sync",
         "--disable-renderer-backgrounding", "--disable-background-timer-throttling",
         "--disable-backgrounding-occluded-windows", "--force-prefers-reduced-motion"]

# A page that is left asks no more. On a busy machine it goes on for seconds, but without the headers of its tab: then the
# browser would wait for a password, on each of the connections that the next page needs.
LEAVE = "window.isLeft = true; window.fetch = () => new Promise(() => {}); 0"
ANSWERED_HERE = "/no/such/file/of/the/front"
LATENCY = 10  # milliseconds for each time that a page is slower
PAUSE = 650  # milliseconds: that of front/shared/form.js, and some more
TWO_FRAMES = "new Promise((done) => requestAnimationFrame(() => requestAnimationFrame(done)))"


class Browser:
    """A running Chromium. `answer`: what it answers paused requests with; `on_event`: is called with each event."""

    def __init__(self, profile: str | pathlib.Path) -> None:
        out, self.write = os.pipe()
        self.source, into = os.pipe()
        shell = f'exec "$0" "$@" 3<&{out} 4>&{into}'
        words = ["bash", "-c", shell, "chromium", *FLAGS, f"--user-data-dir={profile}", "about:blank"]
        self.process = subprocess.Popen(words, pass_fds=(out, into), stdout=subprocess.DEVNULL, stderr=subprocess.DEVNULL)
        os.close(out)
        os.close(into)
        self.rest, self.last = b"", 0
        self.events: list[dict[str, Any]] = []
        self.answer: tuple[int, bytes] | None = None
        self.on_event: Callable[[dict[str, Any]], object] | None = None

    def call(self, method: str, session: str | None = None, **params: Any) -> Any:
        """Calls a method of the protocol; returns its result. Raises RuntimeError if it fails."""
        return self._until(self.send(method, session, **params), method)

    def send(self, method: str, session: str | None = None, **params: Any) -> int:
        """Calls a method whose result nobody awaits; returns the number of the call."""
        self.last += 1
        message = {"id": self.last, "method": method, "params": params, **({"sessionId": session} if session else {})}
        os.write(self.write, json.dumps(message).encode() + b"\0")
        return self.last

    def _until(self, number: int, method: str) -> Any:
        """Reads messages up to the reply of this number; returns its result."""
        while True:
            got = self._message()
            if got.get("id") == number:
                if "error" in got:
                    raise RuntimeError(f"{method}: {got['error']}")
                return got["result"]
            if "method" in got:
                self._event(got)

    def _event(self, got: dict[str, Any]) -> None:
        """Keeps an event, and answers a request that is paused."""
        self.events.append(got)
        if self.on_event:
            self.on_event(got)
        if got["method"] == "Fetch.requestPaused" and self.answer:
            status, body = self.answer
            self.send("Fetch.fulfillRequest", got["sessionId"], requestId=got["params"]["requestId"], responseCode=status,
                      body=base64.b64encode(body).decode())

    def _message(self) -> dict[str, Any]:
        """The next message. Raises RuntimeError if none comes."""
        while b"\0" not in self.rest:
            ready = select.select([self.source], [], [], 2 * settings.patience)[0]
            piece = os.read(self.source, 1 << 20) if ready else b""
            if not piece:
                raise RuntimeError("the browser is gone, or says nothing")
            self.rest += piece
        one, self.rest = self.rest.split(b"\0", 1)
        return json.loads(one)

    def page(self, headers: Mapping[str, str] | None = None, site: str = "") -> "Page":
        """Opens a tab that sends these headers with each request, and shares no cookies and nothing kept with other tabs;
        `site`: whose pages it shows."""
        context = self.call("Target.createBrowserContext", disposeOnDetach=True)["browserContextId"]
        target = self.call("Target.createTarget", url="about:blank", browserContextId=context)["targetId"]
        session = self.call("Target.attachToTarget", targetId=target, flatten=True)["sessionId"]
        return Page(self, session, context, headers, site)

    @contextlib.contextmanager
    def tab(self, site: str, headers: Mapping[str, str] | None = None) -> Iterator["Page"]:
        """A context with a tab, which is closed then. Raises AssertionError if the browser complained of what it showed."""
        page = self.page(headers, site)
        yield page
        said = page.close()
        assert not said, said

    def end(self) -> None:
        with contextlib.suppress(RuntimeError, OSError):
            self.call("Browser.close")
        try:
            self.process.wait(20)
        except subprocess.TimeoutExpired:
            self.process.kill()
            self.process.wait()


class Page:
    """A tab of the browser."""

    def __init__(self, browser: Browser, session: str, context: str, headers: Mapping[str, str] | None, site: str) -> None:
        self.browser, self.session, self.context, self.site, self.opened = browser, session, context, site, 0
        for domain in ("Page", "Runtime", "Log", "Network"):
            self.call(f"{domain}.enable")
        self.call("Emulation.setFocusEmulationEnabled", enabled=True)  # keys reach the page, whichever tab is in front
        if headers:
            self.call("Network.setExtraHTTPHeaders", headers=headers)
        if settings.slower > 1:
            self.call("Emulation.setCPUThrottlingRate", rate=settings.slower)
            self.call("Network.emulateNetworkConditions", offline=False, latency=LATENCY * settings.slower,
                      downloadThroughput=-1, uploadThroughput=-1)
        self.size(1200, 850)

    def close(self) -> list[str]:
        """Closes the tab; returns what the browser complained of."""
        said = self.complaints()
        self.browser.answer = self.browser.on_event = None
        self.browser.call("Target.disposeBrowserContext", browserContextId=self.context)
        self.browser.events = [event for event in self.browser.events if event.get("sessionId") not in (self.session, None)]
        return said

    def call(self, method: str, **params: Any) -> Any:
        return self.browser.call(method, self.session, **params)

    def size(self, width: int, height: int, scale: float = 1, mobile: bool = False) -> None:
        self.call("Emulation.setDeviceMetricsOverride", width=width, height=height, deviceScaleFactor=scale, mobile=mobile)

    def js(self, code: str) -> Any:
        """Runs a script; returns its value, awaited. Raises RuntimeError if it throws."""
        got = self.call("Runtime.evaluate", expression=code, awaitPromise=True, returnByValue=True)
        if "exceptionDetails" in got:
            raise RuntimeError(f"{code}: {got['exceptionDetails']['exception'].get('description')}")
        return got["result"].get("value")

    def wait(self, condition: str, minutes: float = .5) -> None:
        try:
            until(lambda: self.holds(condition), condition, minutes)
        except AssertionError as late:
            raise AssertionError(f"{late}\n--- the page shows:\n{self.text()[:2000]}") from None

    def holds(self, condition: str) -> bool:
        """Whether the condition holds. While another page loads there is none to ask: then it does not."""
        try:
            return self.js(f"Boolean({condition})")
        except RuntimeError as lost:
            if not any(word in str(lost) for word in ("context", "navigated", "Cannot read properties of null")):
                raise
            return False

    def at(self, hash_: str) -> "Page":
        """Loads a page of the desk whose tab this is."""
        return self.open(self.site, hash_)

    def open(self, site: str, hash_: str, condition: str = "document.querySelector('main h1')") -> "Page":
        """Loads a page of a desk again: the text after `?` differs each time, and nothing reads it."""
        self.opened += 1
        return self.visit(f"{site}/?{self.opened}#{hash_}", condition)

    def visit(self, address: str, condition: str = "document.querySelector('main h1')") -> "Page":
        """Loads a page, even if it is shown already: by its path that of the tab's site."""
        self.call("Page.bringToFront")
        self.js(LEAVE)
        self.call("Page.navigate", url=address if "://" in address else self.site + address)
        self.await_page(condition)
        return self

    def reload(self, condition: str = "document.querySelector('main h1')") -> None:
        self.js(LEAVE)
        self.call("Page.reload")
        self.await_page(condition)

    def await_page(self, condition: str) -> None:
        """Waits until a new page is loaded and the condition holds there."""
        self.wait(f"!window.isLeft && document.readyState === 'complete' && {condition}", minutes=1)

    def go(self, hash_: str, condition: str = "true") -> None:
        """To another page of the same site, by its address alone."""
        self.js(f"location.hash = {json.dumps(hash_)}")
        self.wait(condition)

    def quote(self, text: str) -> str:
        return json.dumps(text)

    def text(self, selector: str = "main") -> str:
        """The text that an element shows; nothing if there is no such element."""
        return self.js(f"document.querySelector({json.dumps(selector)})?.innerText ?? ''")

    def see(self, words: str, selector: str = "main") -> None:
        """Waits until an element of a page that is loaded, so that its scripts have run, shows these words."""
        quoted, place = json.dumps(words), json.dumps(selector)
        self.wait("document.readyState === 'complete'"
                  f" && (document.querySelector({place})?.innerText ?? '').includes({quoted})")

    def fill(self, label: str, value: object, card: str | None = None) -> None:
        """Writes a value into the field with this label, which gets the focus."""
        self.js(f"({FIND})({json.dumps(label)}, {json.dumps(card)}, (input) => "
                f"{{ input.focus(); input.value = {json.dumps(value)}; }})")

    def choose(self, label: str, card: str | None = None) -> None:
        self.js(f"({FIND})({json.dumps(label)}, {json.dumps(card)}, (input) => input.click())")

    def press(self, button: str, card: str | None = None) -> None:
        """Clicks the button, link or summary with these words."""
        self.js(f"({PRESS})({json.dumps(button)}, {json.dumps(card)})")

    def insist(self, button: str, words: str, selector: str = "main", card: str | None = None) -> None:
        """Presses a button again and again until the page says this: forms pass over what looks like a second click."""
        def said():
            return words in self.text(selector) or self.press(button, card)
        until(said, f"{button} leads to: {words}")

    def pass_pause(self) -> None:
        """Waits, by the page's clock, until no form takes what is done now for a repetition of what it answered
        last."""
        began = self.js("performance.now()")
        self.wait(f"performance.now() > {began} + {PAUSE}")

    def press_starting(self, words: str) -> None:
        """Clicks the first button, link or summary whose text begins with these words."""
        self.js(f"[...document.querySelectorAll('summary, button, a')].find((one) => "
                f"one.textContent.startsWith({json.dumps(words)})).click()")

    def second_click(self, button: str) -> None:
        """Sends the second click of two to this button, wherever the first one was."""
        self.js(WATCH_CLICK)

        def clicked():  # a page that moves just then takes none
            place = self.js(f"({PLACE})({json.dumps(button)})")
            for kind in ("mousePressed", "mouseReleased"):
                self.call("Input.dispatchMouseEvent", type=kind, button="left", clickCount=2, x=place[0], y=place[1])
            return self.js(TWO_FRAMES + ".then(() => window.clicked)")
        until(clicked, f"{button} can be clicked")

    def key_in(self, label: str, key: str, card: str | None = None) -> None:
        self.js(f"({FIND})({json.dumps(label)}, {json.dumps(card)}, (input) => input.focus())")
        self.key(key)

    def scan(self, code: str) -> None:
        """Sends what a barcode reader sends: letters and digits one after the other, and Enter."""
        self.digits(code)
        self.key("Enter")

    def digits(self, code: str) -> None:
        """Presses the keys of these digits and letters."""
        for letter in code:
            key = ("Digit" if letter.isdigit() else "Key") + letter.upper()
            for kind in ("keyDown", "keyUp"):
                self.call("Input.dispatchKeyEvent", type=kind, key=letter, code=key, windowsVirtualKeyCode=ord(letter.upper()),
                          **({"text": letter} if kind == "keyDown" else {}))

    def tab_to(self, words: str) -> None:
        """Presses Tab up to what begins with these words. Raises AssertionError if it does not come."""
        begins = f"startsWith({json.dumps(words)})"
        self.tab_until(f"document.activeElement.textContent.replace(/\\s+/g, ' ').trim().{begins}", words)

    def tab_to_field(self, name: str) -> None:
        """Presses Tab up to the field of this name. Raises AssertionError if it does not come."""
        self.tab_until(f"document.activeElement.name === {json.dumps(name)}", f"the field {name}")

    def tab_until(self, condition: str, what: str) -> None:
        """Presses Tab until a condition holds. Raises AssertionError if it does not come to hold."""
        for _ in range(80):
            self.key("Tab")
            if self.js(condition):
                return
        raise AssertionError(f"Tab does not come to {what}")

    def key(self, key: str, repeat: bool = False) -> None:
        """Presses a key; `repeat`: as one that is held down."""
        code = {"Enter": 13, "Tab": 9, "Escape": 27, " ": 32}[key]
        text = {"text": "\r"} if key == "Enter" else {}
        self.call("Input.dispatchKeyEvent", type="keyDown", key=key, code=key, windowsVirtualKeyCode=code,
                  autoRepeat=repeat, **text)
        self.call("Input.dispatchKeyEvent", type="keyUp", key=key, code=key, windowsVirtualKeyCode=code)

    def type(self, text: str) -> None:
        self.call("Input.insertText", text=text)

    def focus_name(self) -> str:
        """What has the focus: its text, its name or its tag."""
        return self.js("document.activeElement.innerText || document.activeElement.name || document.activeElement.tagName")

    def file(self, path: str | pathlib.Path) -> None:
        """Chooses a file in the page's field for files."""
        found = self.call("Runtime.evaluate", expression="document.querySelector('input[type=file]')")
        self.call("DOM.setFileInputFiles", files=[str(path)], objectId=found["result"]["objectId"])

    def shot(self, path: pathlib.Path, full: bool = True) -> None:
        """Writes a picture of the page, or of the window alone, as PNG."""
        self.js(TWO_FRAMES)
        height = self.js("document.documentElement.scrollHeight")
        width = self.js("innerWidth")
        clip = {"clip": {"x": 0, "y": 0, "width": width, "height": height, "scale": 1}} if full else {}
        got = self.call("Page.captureScreenshot", format="png", captureBeyondViewport=full, **clip)
        path.write_bytes(base64.b64decode(got["data"]))

    def pdf(self, path: pathlib.Path) -> None:
        """Writes the page as it would be printed, as PDF."""
        got = self.call("Page.printToPDF", preferCSSPageSize=True, paperWidth=8.27, paperHeight=11.69)
        path.write_bytes(base64.b64decode(got["data"]))

    def answer_with(self, pattern: str | None, status: int, body: bytes) -> None:
        """The browser itself answers requests like `pattern`, or no more where it is None. It tells that it will before
        it does, so a request of ours is put until it is answered so."""
        self.browser.answer = (status, body)
        if pattern is None:
            self.call("Fetch.disable")
            return
        self.call("Fetch.enable", patterns=[{"urlPattern": pattern}, {"urlPattern": f"*{ANSWERED_HERE}"}])
        until(lambda: self.js(f"fetch('{ANSWERED_HERE}').then((answer) => answer.status)") == status,
              f"the browser answers {pattern}")

    def count_sent(self, method: str, part: str) -> int:
        """How many requests with this method, and this part in their addresses, the page has sent so far."""
        self.js("0")  # what was told before this is read
        requests = [event["params"]["request"] for event in self.browser.events
                    if event.get("sessionId") == self.session and event["method"] == "Network.requestWillBeSent"]
        return sum(one["method"] == method and part in one["url"] for one in requests)

    def complaints(self) -> list[str]:
        """What the browser said of the pages: blocked by their policy, scripts that failed, files that were not there."""
        said = []
        for event in self.browser.events:
            if event.get("sessionId") != self.session:
                continue
            if event["method"] == "Log.entryAdded":
                entry = event["params"]["entry"]
                # the last two are of a slow machine
                if entry["source"] not in ("network", "violation", "intervention"):
                    said.append(entry["text"])
            if event["method"] == "Runtime.exceptionThrown":
                said.append(event["params"]["exceptionDetails"]["exception"].get("description", "exception"))
        return said


WATCH_CLICK = """window.clicked = false;
  document.addEventListener('click', () => { window.clicked = true; }, { once: true, capture: true })"""
SCOPE = """const named = (card) => [...document.querySelectorAll('.card')]
    .find((one) => one.querySelector('h2')?.innerText === card);
  const scope = card === null ? document : card === 'dialog' ? document.querySelector('dialog') : named(card);"""
FIND = """(label, card, act) => { %s
  const found = [...scope.querySelectorAll('label')].find((one) => one.innerText === label);
  if (!found) throw new Error('no label ' + label); act(document.getElementById(found.htmlFor)); }""" % SCOPE
PRESS = """(button, card) => { %s
  const words = (one) => one.textContent.replace(/[ \\n]+/g, ' ').trim();
  const found = [...scope.querySelectorAll('button, summary, a')].find((one) => words(one) === button);
  if (!found) throw new Error('no button ' + button); found.click(); }""" % SCOPE
PLACE = """(button) => { const words = (one) => one.textContent.replace(/[ \\n]+/g, ' ').trim();
  const found = [...document.querySelectorAll('button')].find((one) => words(one) === button);
  found.scrollIntoView({ block: 'center' }); const { left, top, width, height } = found.getBoundingClientRect();
  return [left + width / 2, top + height / 2]; }"""
