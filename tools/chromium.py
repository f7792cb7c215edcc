"""Headless Chromium, driven by the DevTools protocol over a pipe: JSON texts that end with a zero byte, on the descriptors 3 and 4."""
import fcntl
import json
import os
import select
import shutil
import signal
import tempfile
import time

NAMES = ("chromium", "chromium-browser", "google-chrome", "google-chrome-stable")
FLAGS = ("--headless", "--remote-debugging-pipe", "--disable-gpu", "--disable-dev-shm-usage", "--disable-background-networking",
         "--disable-component-update", "--disable-extensions", "--disable-sync", "--disable-crash-reporter", "--mute-audio",
         "--no-first-run", "--hide-scrollbars",
         # fonts of any size, widths of texts in fractions of a pixel, and sheets of a file read by a page that is a file
         "--blink-settings=minimumFontSize=0,minimumLogicalFontSize=0",
         "--font-render-hinting=none", "--allow-file-access-from-files")


class BrowserFault(Exception):
    """What stands between the caller and the page, as one line."""


def found():
    """The browser's path, or None."""
    return next(filter(None, map(shutil.which, NAMES)), None)


class Chromium:
    """A browser with one page, for a `with` block. No call takes longer than `seconds`."""

    def __init__(self, seconds=60):
        self.seconds, self.number, self.read, self.events = seconds, 0, b"", []
        self.process, self.session = None, None

    def __enter__(self):
        path = found()
        if path is None:
            raise BrowserFault(f"no browser: none of {', '.join(NAMES)} is installed")
        self.folder = tempfile.mkdtemp(prefix="vizlog-browser-")
        theirs, self.to = os.pipe()
        self.back, answers = os.pipe()
        ends = [fcntl.fcntl(end, fcntl.F_DUPFD_CLOEXEC, 10) for end in (theirs, answers)]
        os.close(theirs)
        os.close(answers)
        words = [path, *FLAGS, f"--user-data-dir={self.folder}"] + (["--no-sandbox"] if os.geteuid() == 0 else []) + ["about:blank"]
        actions = [(os.POSIX_SPAWN_OPEN, at, os.devnull, os.O_RDWR, 0) for at in (0, 1, 2)]
        actions += [(os.POSIX_SPAWN_DUP2, end, at) for at, end in zip((3, 4), ends)]
        self.process = os.posix_spawn(path, words, os.environ, file_actions=actions, setpgroup=0)
        for end in ends:
            os.close(end)
        try:
            target = self.call("Target.createTarget", url="about:blank")["targetId"]
            self.session = self.call("Target.attachToTarget", targetId=target, flatten=True)["sessionId"]
            for domain in ("Page", "Network", "Runtime"):
                self.call(f"{domain}.enable")
        except BaseException:
            self.__exit__()
            raise
        return self

    def __exit__(self, *_):
        try:
            os.killpg(self.process, signal.SIGKILL)
        except ProcessLookupError:
            pass
        os.waitpid(self.process, 0)
        os.close(self.to)
        os.close(self.back)
        for _ in range(20):
            # its other processes end a moment later, and write until then
            shutil.rmtree(self.folder, ignore_errors=True)
            if not os.path.exists(self.folder):
                break
            time.sleep(0.1)

    def message(self, deadline):
        """The browser's next message."""
        while b"\0" not in self.read:
            ready, _, _ = select.select([self.back], [], [], max(0, deadline - time.monotonic()))
            if not ready:
                raise BrowserFault(f"the browser gave no answer in {self.seconds} seconds")
            piece = os.read(self.back, 1 << 20)
            if not piece:
                raise BrowserFault("the browser ended")
            self.read += piece
        text, _, self.read = self.read.partition(b"\0")
        message = json.loads(text)
        if message.get("method") == "Page.javascriptDialogOpening":
            # nobody is there to answer; the browser's reply to this is passed over
            self.tell("Page.handleJavaScriptDialog", accept=False)
        return message

    def tell(self, method, **params):
        """Makes a call, and gives its number."""
        self.number += 1
        told = {"id": self.number, "method": method, "params": params}
        if self.session:
            told["sessionId"] = self.session
        text = json.dumps(told).encode() + b"\0"
        try:
            while text:
                text = text[os.write(self.to, text):]
        except BrokenPipeError:
            raise BrowserFault("the browser ended") from None
        return self.number

    def call(self, method, **params):
        """What the browser answers to a call."""
        number = self.tell(method, **params)
        deadline = time.monotonic() + self.seconds
        while True:
            answer = self.message(deadline)
            if answer.get("id") == number:
                break
            self.events.append(answer)
        if "error" in answer:
            raise BrowserFault(f"{method}: {answer['error'].get('message', answer['error'])}")
        return answer["result"]

    def screen(self, width, height):
        """A viewport of these many pixels, without scroll bars."""
        self.call("Emulation.setDeviceMetricsOverride", width=width, height=height, deviceScaleFactor=1, mobile=False)
        self.call("Emulation.setScrollbarsHidden", hidden=True)

    def open(self, url):
        """Loads a page and waits until it says that it is loaded."""
        self.events = []
        answer = self.call("Page.navigate", url=url)
        if answer.get("errorText"):
            raise BrowserFault(f"{url} can't be loaded: {answer['errorText']}")
        deadline = time.monotonic() + self.seconds
        while not any(event.get("method") == "Page.loadEventFired" for event in self.events):
            self.events.append(self.message(deadline))
        for event in self.events:
            params = event.get("params", {})
            if event.get("method") == "Network.responseReceived" and params.get("type") == "Document" \
                    and params.get("frameId") == answer["frameId"] and params["response"]["status"] >= 400:
                raise BrowserFault(f"{url} can't be loaded: status {params['response']['status']}")

    def sheets(self):
        """The style sheets that were loaded, as texts by their addresses; None for one that isn't there."""
        asked, found = {}, {}
        for event in self.events:
            params = event.get("params", {})
            if event.get("method") == "Network.requestWillBeSent":
                asked[params["requestId"]] = params["request"]["url"]
            elif event.get("method") == "Network.responseReceived" and params.get("type") == "Stylesheet":
                url = params["response"]["url"]
                if params["response"]["status"] >= 400:
                    found[url] = None
                    continue
                try:
                    body = self.call("Network.getResponseBody", requestId=params["requestId"])
                except BrowserFault:
                    continue
                if not body["base64Encoded"]:
                    found[url] = body["body"]
            elif event.get("method") == "Network.loadingFailed" and params.get("type") == "Stylesheet":
                found[asked.get(params["requestId"], "")] = None
        return found

    def run(self, script):
        """The value of a script in the page, promises awaited."""
        answer = self.call("Runtime.evaluate", expression=script, awaitPromise=True, returnByValue=True)
        if "exceptionDetails" in answer:
            fault = answer["exceptionDetails"]
            text = fault.get("exception", {}).get("description") or fault.get("text", "")
            raise BrowserFault(f"the script failed in the page: {text.splitlines()[0] if text else 'no reason told'}")
        return answer["result"].get("value")
