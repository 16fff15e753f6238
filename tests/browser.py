"""Headless Chromium for tests, driven over its debugging pipe, and a web server whose requests are noted; Python's standard library alone.

    with Site(folder) as site, Browser() as browser:
        page = browser.open(site.base + "?store=stores/a.vts", 640, 400)
        page.ask("1 + 1")          # the value of an expression; a promise is waited for
        page.shot("a.png")
        page.told                  # what the page wrote on the console, and its errors
        site.asked                 # what was asked of the server

`find()` tells where Chromium is installed, or None.
"""
import base64
import contextlib
import itertools
import json
import os
import shutil
import signal
import subprocess
import sys
import tempfile
import threading
import time

TOP = os.path.dirname(os.path.dirname(os.path.abspath(__file__)))
sys.path.insert(0, os.path.join(TOP, "examples", "viewer"))
import serve  # noqa: E402

NAMES = ("chromium", "chromium-browser", "google-chrome", "google-chrome-stable", "chrome")
FLAGS = [
    "--headless=new",
    "--no-sandbox",
    "--use-angle=swiftshader",
    "--enable-unsafe-swiftshader",
    "--ignore-gpu-blocklist",
    "--remote-debugging-pipe",
    "--no-first-run",
    "--no-default-browser-check",
    "--disable-extensions",
    "--disable-background-networking",
    "--disable-component-update",
    "--disable-sync",
    "--mute-audio",
    "--hide-scrollbars",
]


def find():
    """The path of Chromium, or None where it is not installed."""
    return next(filter(None, map(shutil.which, NAMES)), None)


class Failed(Exception):
    """The browser or the page refused something, or took too long."""


class Browser:
    """A browser of its own, with a folder of its own for what it keeps."""

    def __init__(self, *flags):
        self.kept = tempfile.TemporaryDirectory(prefix="browser-", ignore_cleanup_errors=True)
        theirs, self.into = os.pipe()
        self.out_of, also_theirs = os.pipe()
        words = ["sh", "-c", 'exec "$@" 3<&%d 4>&%d' % (theirs, also_theirs), "sh", find() or NAMES[0]]
        words += FLAGS + ["--user-data-dir=" + self.kept.name, *flags, "about:blank"]
        quiet = None if os.environ.get("LOUD") else subprocess.DEVNULL
        self.process = subprocess.Popen(words, pass_fds=(theirs, also_theirs), stdin=subprocess.DEVNULL, stdout=quiet, stderr=quiet, start_new_session=True)
        os.close(theirs)
        os.close(also_theirs)
        self.numbers, self.answers, self.heard, self.ended = itertools.count(1), {}, {}, False
        self.changed = threading.Condition()
        threading.Thread(target=self.listen, daemon=True).start()

    def __enter__(self):
        return self

    def __exit__(self, *_):
        self.close()

    def listen(self):
        """Takes what the browser says, each message ended by a zero byte: answers by their number, events by their session."""
        with open(self.out_of, "rb", buffering=0) as pipe:
            rest = b""
            while piece := pipe.read(1 << 16):
                *whole, rest = (rest + piece).split(b"\0")
                for said in map(json.loads, whole):
                    self.take(said)
        with self.changed:
            self.ended = True
            self.changed.notify_all()

    def take(self, said):
        with self.changed:
            if "id" in said:
                self.answers[said["id"]] = said
            elif said.get("sessionId") in self.heard:
                self.heard[said["sessionId"]].append(said)
            self.changed.notify_all()

    def wait(self, test, seconds, what):
        """Waits until the test of what was heard gives a value, and returns it."""
        end = time.monotonic() + seconds
        with self.changed:
            while True:
                found = test()
                if found is not None:
                    return found
                if self.ended or time.monotonic() > end:
                    raise Failed("the browser ended" if self.ended else "no answer in %d s: %s" % (seconds, what))
                self.changed.wait(max(0.01, end - time.monotonic()))

    def call(self, method, session=None, seconds=120, **values):
        number = next(self.numbers)
        message = {"id": number, "method": method, "params": values, **({"sessionId": session} if session else {})}
        data = json.dumps(message).encode() + b"\0"
        while data:
            data = data[os.write(self.into, data) :]
        said = self.wait(lambda: self.answers.pop(number, None), seconds, method)
        if "error" in said:
            raise Failed("%s: %s" % (method, said["error"].get("message")))
        return said["result"]

    def open(self, url, width=960, height=600, **how):
        """A new page of this size, shown once its load event came."""
        return Page(self, width, height, **how).go(url)

    def close(self):
        with contextlib.suppress(Failed, OSError):
            self.call("Browser.close", seconds=5)
        with contextlib.suppress(subprocess.TimeoutExpired):
            self.process.wait(5)
        if self.process.poll() is None:
            os.killpg(self.process.pid, signal.SIGKILL)
            self.process.wait()
        os.close(self.into)
        self.kept.cleanup()


class Page:
    """A page of a browser. `keeps`: whether the browser's cache is on and the page shares what pages keep with the others that do; else it has a profile of
    its own, with nothing in it. `script`: what runs before the page's own."""

    def __init__(self, browser, width, height, keeps=False, script=""):
        self.browser = browser
        self.context = {} if keeps else {"browserContextId": browser.call("Target.createBrowserContext")["browserContextId"]}
        self.target = browser.call("Target.createTarget", url="about:blank", **self.context)["targetId"]
        self.session = browser.call("Target.attachToTarget", targetId=self.target, flatten=True)["sessionId"]
        browser.heard[self.session] = self.events = []
        for part in ("Runtime", "Page", "Network", "Log"):
            self.call(part + ".enable")
        self.call("Network.setCacheDisabled", cacheDisabled=not keeps)
        self.resize(width, height)
        if script:
            self.call("Page.addScriptToEvaluateOnNewDocument", source=script)

    def call(self, method, seconds=120, **values):
        return self.browser.call(method, self.session, seconds, **values)

    def resize(self, width, height, ratio=1):
        self.call("Emulation.setDeviceMetricsOverride", width=width, height=height, deviceScaleFactor=ratio, mobile=False)

    def link(self, bits, wait):
        """From now on so many bits a second come, and an answer begins so many milliseconds after it was asked for."""
        self.call("Network.emulateNetworkConditions", offline=False, latency=wait, downloadThroughput=bits / 8, uploadThroughput=bits / 8)

    def go(self, url, seconds=60):
        begun = len(self.events)
        self.call("Page.navigate", url=url)
        loaded = lambda: next((it for it in self.events[begun:] if it["method"] == "Page.loadEventFired"), None)
        self.browser.wait(loaded, seconds, "load of " + url)
        return self

    def ask(self, expression, seconds=120):
        """The value of an expression of the page, as JSON has it. A promise is waited for; an error of the page is Failed."""
        said = self.call("Runtime.evaluate", seconds, expression=expression, awaitPromise=True, returnByValue=True)
        if "exceptionDetails" in said:
            raise Failed(text_of(said["exceptionDetails"]))
        return said["result"].get("value")

    def until(self, expression, seconds=60, every=0.05):
        """Waits until an expression of the page is true, and returns its value."""
        end = time.monotonic() + seconds
        while True:
            found = self.ask(expression)
            if found:
                return found
            if time.monotonic() > end:
                raise Failed("not so in %d s: %s" % (seconds, expression))
            time.sleep(every)

    def pixels(self, expression):
        """The bytes of an array of bytes of the page, as a Uint8Array."""
        coded = "((all) => { let text = ''; for (let i = 0; i < all.length; i += 32768) text += String.fromCharCode(...all.subarray(i, i + 32768)); return btoa(text); })"
        return base64.b64decode(self.ask("Promise.resolve(%s).then(%s)" % (expression, coded)))

    def shot(self, name):
        """Writes what the page shows as a PNG file."""
        with open(name, "wb") as file:
            file.write(base64.b64decode(self.call("Page.captureScreenshot", format="png")["data"]))

    @property
    def told(self):
        """What the page wrote on the console, its errors, and what the browser noted of it, in order."""
        with self.browser.changed:
            return [it for it in map(said_by, self.events) if it]

    def close(self):
        self.browser.heard.pop(self.session, None)
        with contextlib.suppress(Failed):
            self.browser.call("Target.closeTarget", targetId=self.target)
            if self.context:
                self.browser.call("Target.disposeBrowserContext", **self.context)


def text_of(details):
    return details.get("exception", {}).get("description") or details["text"]


def said_by(event):
    """The line of an event that tells something, or None."""
    values = event["params"]
    if event["method"] == "Runtime.exceptionThrown":
        return "error: " + text_of(values["exceptionDetails"])
    if event["method"] == "Runtime.consoleAPICalled":
        return values["type"] + ": " + " ".join(str(it.get("value", it.get("description"))) for it in values["args"])
    if event["method"] == "Log.entryAdded":
        entry = values["entry"]
        return "%s: %s %s" % (entry["level"], entry["text"], entry.get("url", ""))
    return None


class Site:
    """A web server for the viewer's page and the files of a folder, which notes what is asked, and answers amiss where it is told to.

    `asked` has for each request of a file under /stores/ its path, its first byte and the one after the last, or None for both where it was
    for the whole file. `amiss` is None, or a function of the number of the request, counted from 1, and of these three values, which gives
    None for a right answer, or else the status of a wrong one, HANGS for no answer before the site ends, or BREAKS for one that breaks off
    after half of its bytes. `ranges` is false for a server that answers no ranges. `wait`: seconds that an answer takes at least. `most`:
    the most requests that were answered at a time. `headers`: what answers have beside their own.
    """

    def __init__(self, folder, page=serve.HERE):
        self.folder, self.headers = folder, {}
        self.asked, self.amiss, self.ranges, self.wait, self.lock = [], None, True, 0, threading.Lock()
        self.now, self.most, self.ended = 0, 0, threading.Event()
        kind = type("Noted", (Noted,), {"site": self, "folder": folder, "page": page})
        self.server = serve.Server(("127.0.0.1", 0), kind)
        self.base = "http://127.0.0.1:%d/" % self.server.server_address[1]
        threading.Thread(target=self.server.serve_forever, daemon=True).start()

    def __enter__(self):
        return self

    def __exit__(self, *_):
        self.ended.set()
        self.server.shutdown()
        self.server.server_close()

    @contextlib.contextmanager
    def noting(self, path, span):
        """Notes a request while it is answered; gives its number."""
        with self.lock:
            self.asked.append((path, *span))
            number, self.now = len(self.asked), self.now + 1
            self.most = max(self.most, self.now)
        try:
            yield number
        finally:
            with self.lock:
                self.now -= 1


HANGS, BREAKS = "hangs", "breaks"


class Noted(serve.Handler):
    """The handler of a Site."""

    site = None

    def do_GET(self, has_body=True):
        name = self.name_of(self.path)
        if not (self.path.startswith("/stores/") and name and os.path.isfile(name) and has_body):
            return super().do_GET(has_body)
        if not self.site.ranges:
            del self.headers["Range"]
        span = serve.span_of(self.headers.get("Range"), os.path.getsize(name)) or (None, None)
        with self.site.noting(self.path, span) as number:
            time.sleep(self.site.wait)
            amiss = self.site.amiss and self.site.amiss(number, self.path, *span)
            if amiss == HANGS:
                self.close_connection = True
                return self.site.ended.wait()
            if amiss == BREAKS:
                return self.break_off(name, span)
            return self.say(amiss, Content_Length=0) if amiss else super().do_GET(has_body)

    def break_off(self, name, span):
        told, (start, end) = os.stat(name), span
        self.say(206, Content_Range="bytes %d-%d/%d" % (start, end - 1, told.st_size), Content_Length=end - start, ETag=serve.tag_of(told))
        with open(name, "rb") as file:
            file.seek(start)
            self.wfile.write(file.read((end - start) // 2))
        self.close_connection = True

    def end_headers(self):
        for both in self.site.headers.items():
            self.send_header(*both)
        super().end_headers()
