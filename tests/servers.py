#!/usr/bin/env python3
"""Tests the viewer behind real web servers, with the browser's cache on, as visitors have it.

usage: servers.py [--short] [--only TEST]

The page stands behind nginx with the types of Debian's package (and once more with `expires 1h`), behind serve.py and
behind Python's http.server. Each is visited cold, warm, and after its store was replaced. The requests are those that
the servers note, the pixels are compared with the texels of the store's file, and what has to be asked for is worked
out from the pixels. Then come servers that fail in each way for which the page has a sentence, and serve.py's own rules.

`--short` leaves out the second nginx, and storage that is refused in three of four ways.

Wants Chromium; without nginx its part is left out, which the output names. The last line has how many passed and failed.
"""
import argparse
import contextlib
import http.client
import json
import os
import random
import re
import shutil
import socket
import subprocess
import sys
import tempfile
import time

TOP = os.path.dirname(os.path.dirname(os.path.abspath(__file__)))
sys.path[:0] = [os.path.join(TOP, "tests"), os.path.join(TOP, "tests", "viewer")]
import browser  # noqa: E402
import textures  # noqa: E402
from looks import Look, differ, mapped_of, pages_asked, shown  # noqa: E402
from stores import Store  # noqa: E402

PAGE = os.path.join(TOP, "examples", "viewer")
WIDE, HIGH, TILE = 320, 200, 32
HERE, BESIDE = (350, 250, 1), (300, 250, 1)
NGINX = """
%(user)s
daemon off;
pid %(room)s/nginx.pid;
error_log %(room)s/error.log;
events { worker_connections 64; }
http {
    include /etc/nginx/mime.types;
    default_type application/octet-stream;
    sendfile on;
    gzip on;
    log_format noted '$request_uri|$http_range|$status|$body_bytes_sent';
    access_log %(room)s/access.log noted;
    client_body_temp_path %(room)s; proxy_temp_path %(room)s; fastcgi_temp_path %(room)s;
    uwsgi_temp_path %(room)s; scgi_temp_path %(room)s;
    server { listen 127.0.0.1:%(port)d; root %(root)s; index index.html; %(more)s }
}
"""
# Reads a file of a server by the page's own modules, and gives the kind of what it fails by and its sentence.
READS = """(async (url, limit, start, length) => {
  const { addressOf, kindOf, sentenceOf, WebFile } = await import('./source.js');
  const { load } = await import('./vtex.js');
  try {
    const file = new WebFile(addressOf(url, location.href), { limit, keep: false });
    const head = await file.open();
    (await load()).open(head, file.length);
    if (length) await file.read(start, new Uint8Array(length), () => {});
    return ['none', ''];
  } catch (error) {
    return [kindOf(error), sentenceOf(error)];
  }
})(%s)"""
# How many pieces are kept of another store than the one with this validator.
STALE = """new Promise((done) => {
  indexedDB.open('vtex').onsuccess = ({ target }) => {
    const asked = target.result.transaction('uses').objectStore('uses').getAllKeys();
    asked.onsuccess = () => done(asked.result.filter(([name]) => !name.includes(viewer.session.link.source.tag)).length);
  };
})"""

passed, failed, is_short = 0, 0, False


def check(good, what):
    global passed, failed
    passed, failed = passed + bool(good), failed + (not good)
    if not good:
        print("failed: " + what, flush=True)


def free_port():
    with socket.socket() as it:
        it.bind(("127.0.0.1", 0))
        return it.getsockname()[1]


def store_bytes(seed):
    """A store of noise with 700x500 texels."""
    _, texture = textures.read_image(b"".join(textures.noise(700, 500, seed, 1)))
    return textures.store_of(1, textures.chain_of(texture, TILE), TILE)


def put(name, data):
    """Puts a file in the place of another at once, as a copy that is renamed does."""
    with open(name + ".new", "wb") as file:
        file.write(data)
    os.replace(name + ".new", name)


# ---- servers: `base`, and `asked()`, the ranges of /stores/ since the last call, in order


class Process:
    """A server that is a process of its own, and its log, from which its requests are read."""

    def __init__(self, words, log, port, **how):
        self.log, self.port, self.base = log, port, "http://127.0.0.1:%d/" % port
        self.process = subprocess.Popen(
            words, stdin=subprocess.DEVNULL, stdout=subprocess.DEVNULL, **how
        )
        for _ in range(100):
            with contextlib.suppress(OSError), socket.create_connection(("127.0.0.1", port)):
                break
            time.sleep(0.1)
        self.read = 0

    def lines(self):
        time.sleep(0.1)
        with open(self.log) as file:
            lines = file.read().splitlines()
        news, self.read = lines[self.read :], len(lines)
        return news

    def __enter__(self):
        return self

    def __exit__(self, *_):
        self.process.terminate()
        self.process.wait()


class Nginx(Process):
    """nginx with the types of Debian's package; `more`: what else its configuration has."""

    def __init__(self, root, room, more=""):
        room = tempfile.mkdtemp(dir=room)
        user = "user root;" if os.geteuid() == 0 else ""
        words = {"room": room, "root": root, "port": free_port(), "more": more, "user": user}
        name = os.path.join(room, "nginx.conf")
        with open(name, "w") as file:
            file.write(NGINX % words)
        log = os.path.join(room, "access.log")
        program = shutil.which("nginx") or "/usr/sbin/nginx"
        command = [program, "-c", name, "-e", os.path.join(room, "error.log")]
        super().__init__(command, log, words["port"], stderr=subprocess.DEVNULL)

    def asked(self):
        found = []
        for line in self.lines():
            path, words, status, sent = line.split("|")
            span = re.fullmatch(r"bytes=([0-9]+)-([0-9]+)", words)
            if path.startswith("/stores/"):
                start, end = (int(span[1]), int(span[2]) + 1) if span else (None, None)
                found.append((path, start, end))
                if status == "206" and int(sent) != end - start:
                    raise ValueError("nginx sent another range: " + line)
        return found


class Plain(Process):
    """Python's own http.server, which serves no ranges."""

    def __init__(self, root, room):
        log, port = os.path.join(room, "plain.log"), free_port()
        words = [sys.executable, "-m", "http.server", str(port), "--bind", "127.0.0.1"]
        with open(log, "w") as file:
            super().__init__(words, log, port, cwd=root, stderr=file)

    def asked(self):
        return [(line, None, None) for line in self.lines() if "GET /stores/" in line]


class Own(browser.Site):
    """serve.py, with the requests that it notes."""

    def asked_now(self):
        with self.lock:
            news = list(self.asked)
            self.asked.clear()
        return news


def asked_of(server):
    return server.asked_now() if isinstance(server, Own) else server.asked()


# ---- visits


class Visits:
    """Visits of a store behind a server in one profile, whose browser's cache is on."""

    def __init__(self, there, server, file, name):
        self.there, self.server, self.file, self.name = there, server, file, name
        self.store = None

    def put(self, seed):
        data = store_bytes(seed)
        put(self.file, data)
        self.store = Store(data)

    def open(self, view=HERE, script="", options=""):
        words = "#map=%s,%s,%s&filter=nearest" % view
        asked_of(self.server)
        url = "%s?store=stores/a.vts%s%s" % (self.server.base, options, words)
        page = self.there.open("about:blank", WIDE, HIGH, keeps=True, script=script).go(url)
        page.until("!!window.ready", 30)
        return page

    def is_right(self, page, view, what):
        """The picture becomes sharp, and each of its pixels is the texel of the file as it is now."""
        good = page.ask("ready.then((viewer) => viewer && viewer.sharp())")
        check(good, "%s, %s: it becomes sharp: %s" % (self.name, what, text_of(page)))
        if good:
            look = Look(self.store, WIDE, HIGH, view)
            check(differ(shown(page, look), look) == 0, "%s, %s: its pixels" % (self.name, what))
        check(page.told == [], "%s, %s: console: %s" % (self.name, what, page.told))

    def pages(self, view):
        """The pages that the picture needs beside the pinned ones, and the pinned ones."""
        return Look(self.store, WIDE, HIGH, view).lines()

    def due(self, page, views):
        first = self.store.geometry.pages - page.ask("viewer.session.cache.pinned")
        pages = set(range(first, self.store.geometry.pages))
        return sorted(pages.union(*(self.pages(view) for view in views)))

    def asked_right(self, page, due, most, what):
        """The head and the tiles of some pages were asked for, each once, by no more requests than some."""
        told = page.ask("ready.then((viewer) => viewer.session.link.bytes)")
        asked = asked_of(self.server)
        title = "%s, %s: " % (self.name, what)
        check(
            asked[:1] == [("/stores/a.vts", 0, 16)], title + "the head comes first: %s" % asked[:1]
        )
        check(
            sorted(pages_asked(self.store, asked[1:])) == due,
            title + "the tiles that are asked for",
        )
        check(len(asked) <= most, title + "%d requests, at most %d are due" % (len(asked), most))
        bytes_due = len(due) * self.store.tile_bytes
        check(told == bytes_due, title + "%d bytes, %d are due" % (told, bytes_due))


def text_of(page):
    return page.ask("document.getElementById('trouble').textContent")


def try_visits(there, server, file, name):
    """Cold, warm, beside it, and after the store was replaced, between visits and while it is shown."""
    visits = Visits(there, server, file, name)
    visits.put(1)
    page = visits.open()
    visits.is_right(page, HERE, "cold")
    # A row of wanted tiles is a request, so there are no more than rows of all levels, and head and pinned tiles.
    rows = sum(
        min(-(-HIGH // 2**k // TILE) + 2, it[3])
        for k, it in enumerate(visits.store.geometry.levels)
    )
    cold = visits.due(page, [HERE])
    visits.asked_right(page, cold, rows + 2, "cold")
    page.close()
    page = visits.open()
    visits.is_right(page, HERE, "warm")
    visits.asked_right(page, [], 1, "warm")
    check(
        page.ask("viewer.session.link.keptBytes") == len(cold) * visits.store.tile_bytes,
        name + ", warm: kept bytes",
    )
    page.close()
    page = visits.open(BESIDE)
    visits.is_right(page, BESIDE, "beside")
    both = visits.due(page, [HERE, BESIDE])
    visits.asked_right(page, sorted(set(both) - set(cold)), rows + 2, "beside")
    page.close()
    visits.put(2)
    page = visits.open()
    visits.is_right(page, HERE, "replaced")
    visits.asked_right(page, cold, rows + 2, "replaced")
    check(page.ask(STALE) == 0, name + ", replaced: what was kept of the old store is given up")
    try_replaced(visits, page)
    page.close()
    page = visits.open(BESIDE)
    visits.is_right(page, BESIDE, "replaced while it was shown")
    page.close()
    page = visits.open(BESIDE)
    visits.asked_right(page, [], 1, "replaced, warm")
    page.close()


def try_replaced(visits, page):
    """A store that is replaced while it is shown: the page stops, and no pixel is of the new file."""
    old = visits.store
    visits.put(3)
    page.ask("viewer.move({ mode: 'map', u: 100, v: 100, scale: 1 })")
    good = page.ask("viewer.sharp()") is False
    kind = page.ask("viewer.session.link.trouble && viewer.session.link.trouble.kind")
    check(good and kind == "replaced", "%s, replaced while it is shown: %s" % (visits.name, kind))
    look = Look(old, WIDE, HIGH, (100, 100, 1), mapped_of(page))
    check(
        differ(shown(page, look), look) == 0,
        visits.name + ", replaced while it is shown: its pixels",
    )


def test_nginx(there, room, root, file):
    if shutil.which("nginx") is None and not os.path.exists("/usr/sbin/nginx"):
        return print(
            "left out: nginx, which is not installed (Debian: apt-get install nginx-light)"
        )
    kinds = (("nginx", ""), ("nginx, expires 1h", "expires 1h;"))
    for name, more in kinds[:1] if is_short else kinds:
        with Nginx(root, room, more) as server:
            try_visits(there, server, file, name)


def test_serve(there, room, root, file):
    with Own(os.path.join(root, "stores"), root) as server:
        try_visits(there, server, file, "serve.py")


def test_at_a_time(there, room, root, file):
    """With the browser's cache on, requests go six at a time."""
    with Own(os.path.join(root, "stores"), root) as server:
        visits = Visits(there, server, file, "six at a time")
        visits.put(4)
        server.wait = 0.1
        page = visits.open()
        visits.is_right(page, HERE, "cold")
        check(server.most == 6, "six requests at a time: %d" % server.most)
        page.close()


def test_no_storage(there, room, root, file):
    """Where storage is refused, everything goes on, and is read anew by each visit."""
    refuse = "indexedDB.constructor.prototype.open = () => { throw new DOMException('', 'SecurityError'); };"
    hang = "indexedDB.constructor.prototype.open = () => ({});"
    gone = "Object.defineProperty(globalThis, 'indexedDB', { value: undefined });"
    full = "IDBObjectStore.prototype.put = () => { throw new DOMException('', 'QuotaExceededError'); };"
    with Own(os.path.join(root, "stores"), root) as server:
        kinds = (("full", full), ("refused", refuse), ("hangs", hang), ("none", gone))
        for name, script in kinds[:1] if is_short else kinds:
            visits = Visits(there, server, file, "storage " + name)
            visits.put(5)
            for time_of in ("first", "second"):
                page = visits.open(script=script)
                visits.is_right(page, HERE, time_of)
                visits.asked_right(page, visits.due(page, [HERE]), 99, time_of)
                page.close()


def test_bound(there, room, root, file):
    """What is kept stays within its bound, and what was used longest ago goes first."""
    with Own(os.path.join(root, "stores"), root) as server:
        page = there.open(server.base, WIDE, HIGH)
        told = page.ask(
            """(async () => {
          const { Kept } = await import('./kept.js');
          const open = (name) => Kept.open(name, 'tag', 10000, 4000), piece = (kept, i) => kept.covers(500 * i, 500 * i + 500);
          const one = await open('one'), bytes = (i) => new Uint8Array(500).fill(i);
          for (let i = 0; i < 6; i++) {
            await one.write(500 * i, bytes(i));
            await new Promise((done) => setTimeout(done, 5));
          }
          const back = new Uint8Array(700);
          const used = await one.read(100, new Uint8Array(300)) && await new Promise((done) => setTimeout(done, 5, true)) && await one.read(900, back);
          await new Promise((done) => setTimeout(done, 5));
          const two = await open('two');
          for (let i = 0; i < 3; i++) await two.write(500 * i, bytes(9));
          const again = await open('one'), other = await Kept.open('one', 'other', 10000, 4000), gone = await open('one');
          const list = (kept) => [0, 1, 2, 3, 4, 5].map((i) => Number(piece(kept, i)));
          return { used, back: [...new Set(back)], one: list(again), two: list(two), other: list(other), gone: list(gone) };
        })()"""
        )
        check(
            told["used"] and told["back"] == [1, 2, 3], "bytes of several pieces: %s" % told["back"]
        )
        # 4,500 bytes are more than 4,000. Until 3,000 are left go 4 and 5, which were never read, and 0, which was read first.
        check(told["one"] == [0, 1, 1, 1, 0, 0], "the bound: %s" % told["one"])
        check(told["two"] == [1, 1, 1, 0, 0, 0], "what was written last is kept: %s" % told["two"])
        check(
            told["other"] == told["gone"] == [0] * 6,
            "another validator clears the address: %s" % told,
        )
        page.close()


def test_without_ranges(there, room, root, file):
    """Python's http.server: the page has its modules and a sentence; the player reads the whole file."""
    put(file, store_bytes(6))
    with Plain(root, room) as server:
        for _ in range(2):
            page = there.open("%s?store=stores/a.vts" % server.base, WIDE, HIGH, keeps=True)
            page.until("!!window.ready", 30)
            check(page.ask("ready") is None, "http.server: nothing is shown")
            check("serves no byte ranges" in text_of(page), "http.server: " + text_of(page))
            check(page.told == [], "http.server: console: %s" % page.told)
            page.close()


def test_failures(there, room, root, file):
    """Each way to fail has its kind and its sentence."""
    put(file, store_bytes(7))
    stores = os.path.join(root, "stores")
    with open(os.path.join(stores, "none.vts"), "wb"):
        pass
    put(os.path.join(stores, "text.vts"), b"This is no store, but a text of some length.\n")
    with Own(stores, root) as server, Own(stores, root) as other:
        page = there.open(server.base, WIDE, HIGH)

        def due(kind, words, url, *more):
            told = page.ask(READS % ", ".join(json.dumps(it) for it in (url, 600, *more)))
            check(told[0] == kind and words in told[1], "%s: %s" % (url, told))

        tile = 16, 3 * TILE * TILE
        due("none", "", "stores/a.vts", *tile)
        due("missing", "status 404", "stores/nothing.vts")
        due("not-store", "is no store", "stores/none.vts")
        due("not-store", "is no store", "stores/text.vts")
        due("address", "is no address", "http://")
        due("address", "is no address", "ftp://127.0.0.1/a.vts")
        due("address", "is no address", "javascript:alert(1)")
        due("unreachable", "127.0.0.1 cannot be reached", "http://127.0.0.1:%d/a.vts" % free_port())
        away = other.base + "stores/a.vts"
        due("cors", "Access-Control-Allow-Origin", away)
        other.headers = {"Access-Control-Allow-Origin": "*"}
        due("headers", "Access-Control-Expose-Headers", away)
        other.headers["Access-Control-Expose-Headers"] = "Content-Range, ETag"
        due("none", "", away, *tile)
        for status, kind in (
            (403, "refused"),
            (401, "refused"),
            (503, "busy"),
            (429, "busy"),
            (400, "status"),
        ):
            server.amiss = lambda number, *_, status=status: status
            due(kind, "status %d" % status, "stores/a.vts")
        for first in (1, 2):
            for amiss, kind in (
                (browser.BREAKS, "broken"),
                (browser.HANGS, "timeout"),
                (404, "replaced"),
            ):
                if (first, amiss) == (1, 404):
                    continue
                server.asked.clear()
                server.amiss = lambda number, *_, amiss=amiss: amiss if number >= first else None
                due(kind, "", "stores/a.vts", *tile)
        server.amiss, server.ranges = None, False
        due("ranges", "serves no byte ranges", "stores/a.vts")
        server.ranges = True
        page.close()


def test_recovery(there, room, root, file):
    """Bodies that break off and answers that do not come are tried again until the picture is sharp and right."""
    with Own(os.path.join(root, "stores"), root) as server:
        visits = Visits(there, server, file, "broken bodies")
        visits.put(8)
        server.amiss = (
            lambda number, *_: browser.BREAKS if number in (1, 3) or number % 4 == 0 else None
        )
        page = visits.open()
        good = page.ask("ready.then((viewer) => viewer && viewer.sharp())")
        look = Look(visits.store, WIDE, HIGH, HERE)
        check(
            good and differ(shown(page, look), look) == 0,
            "bodies that break off: %s" % text_of(page),
        )
        check(page.ask("viewer.session.link.failures") > 0, "bodies that break off are noted")
        page.close()
        server.asked.clear()
        server.amiss = lambda number, *_: browser.HANGS if number in (1, 3, 4) else None
        told = page_reads_after_hang(there, server)
        check(told == [["timeout"], True, ["timeout"]], "answers that do not come: %s" % told)


def page_reads_after_hang(there, server):
    """Opens a file whose first request hangs and reads tiles by a link of which two hang; what failed, and whether all came."""
    page = there.open(server.base, WIDE, HIGH)
    told = page.ask(
        """(async () => {
      const { addressOf, tried, WebFile } = await import('./source.js');
      const { load } = await import('./vtex.js');
      const { Link } = await import('./link.js');
      const file = new WebFile(addressOf('stores/a.vts', location.href), { limit: 500, keep: false }), heard = [], failures = new Set();
      const head = await tried(() => file.open(), { heard: (error) => heard.push(error.kind) });
      const store = (await load()).open(head, file.length), link = new Link(file, store, { run: 1 });
      const pages = [0, 5, 9, 20], came = new Map();
      for (let i = 0; i < 400 && came.size < pages.length; i++) {
        link.send(pages.filter((page) => !came.has(page) && !link.isUnderWay(page)));
        await new Promise((done) => setTimeout(done, 20));
        if (link.problem) failures.add(link.problem.kind);
        for (const [page, tile] of link.take().came) came.set(page, tile);
      }
      return [heard, came.size === pages.length, [...failures]];
    })()"""
    )
    page.close()
    return told


def test_names(there, room, root, file):
    """Names with per cent signs, spaces and other letters are read, and are the page's title."""
    stores = os.path.join(root, "stores")
    with Own(stores, root) as server:
        for name, words in (
            ("50% off.vts", "50% off.vts"),
            ("50% off.vts", "50%2525 off.vts"),
            ("Übersicht.vts", "Übersicht.vts"),
        ):
            put(os.path.join(stores, name), store_bytes(9))
            page = there.open(
                "%s?store=stores/%s" % (server.base, words.replace(" ", "%20")), WIDE, HIGH
            )
            good = page.until("!!window.ready", 30) and page.ask(
                "ready.then((viewer) => viewer && viewer.sharp())"
            )
            check(good and page.told == [], "%s: %s %s" % (words, text_of(page), page.told))
            check(
                name in page.ask("document.title"),
                "%s: title %s" % (words, page.ask("document.title")),
            )
            page.close()


# ---- serve.py's own rules, without a browser


def answer_of(port, path, method="GET", **headers):
    link = http.client.HTTPConnection("127.0.0.1", port, timeout=20)
    names = {name.replace("_", "-"): value for name, value in headers.items()}
    link.request(method, path, headers=names)
    answer = link.getresponse()
    told = answer.status, answer.read(), dict(answer.getheaders())
    link.close()
    return told


def test_rules(there, room, root, file):
    """Links, dot files, pipes, hosts, If-Range and the list of stores."""
    folder = os.path.join(room, "served")
    os.makedirs(os.path.join(folder, "below"))
    data = store_bytes(10)
    for name in ("a.vts", "below/b.txt", ".hidden"):
        put(os.path.join(folder, name), data)
    put(os.path.join(folder, "short.vts"), data[:-1])
    put(os.path.join(room, "outside.txt"), b"outside")
    os.symlink("../outside.txt", os.path.join(folder, "out.txt"))
    os.symlink("..", os.path.join(folder, "up"))
    os.symlink("a.vts", os.path.join(folder, "inside.txt"))
    os.mkfifo(os.path.join(folder, "pipe.vts"))
    words = [sys.executable, os.path.join(PAGE, "serve.py"), folder, "--port"]
    port = free_port()
    with Process(words + [str(port)], None, port):
        for path, status in (
            ("/stores/a.vts", 200),
            ("/stores/below/b.txt", 200),
            ("/stores/inside.txt", 200),
            ("/stores/out.txt", 404),
            ("/stores/up/outside.txt", 404),
            ("/stores/.hidden", 404),
            ("/stores/pipe.vts", 404),
            ("/stores/below", 404),
            ("/stores/../serve.py", 404),
            ("/stores/%2e%2e/serve.py", 404),
            ("/stores/..%2fserve.py", 404),
            ("/serve.py", 200),
            ("/", 200),
        ):
            found = answer_of(port, path)[0]
            check(found == status, "serve.py: %s: status %d, %d is due" % (path, found, status))
        for host, status in (
            ("localhost", 200),
            ("127.0.0.1:1", 200),
            ("[::1]:8000", 200),
            ("evil.example", 403),
            ("10.0.0.1", 403),
            ("localhost.evil.example", 403),
            ("", 403),
        ):
            found = answer_of(port, "/stores/a.vts", Host=host)[0]
            check(
                found == status, "serve.py: Host %s: status %d, %d is due" % (host, found, status)
            )
        _, _, headers = answer_of(port, "/stores/a.vts", "HEAD")
        part = {"Range": "bytes=16-31"}
        for validator, status in (
            (headers["ETag"], 206),
            (headers["Last-Modified"], 206),
            ('"other"', 200),
            ("W/" + headers["ETag"], 200),
        ):
            found, body, _ = answer_of(port, "/stores/a.vts", If_Range=validator, **part)
            check(
                found == status and body == (data[16:32] if status == 206 else data),
                "serve.py: If-Range %s: %d" % (validator, found),
            )
        found = json.loads(answer_of(port, "/stores.json")[1])
        g = Store(data).geometry
        due = {
            "name": "a.vts",
            "address": "stores/a.vts",
            "width": g.width,
            "height": g.height,
            "channels": 3,
            "depth": 1,
            "tile": TILE,
            "levels": len(g.levels),
            "bytes": len(data),
        }
        check(found == {"stores": [due]}, "serve.py: /stores.json: %s" % found)
    port = free_port()
    with Process(words + [str(port), "--host", "0.0.0.0"], None, port):
        for host, status in (
            ("192.168.7.7:80", 200),
            ("localhost", 200),
            (socket.gethostname(), 200),
            ("evil.example", 403),
        ):
            found = answer_of(port, "/stores/a.vts", Host=host)[0]
            check(
                found == status,
                "serve.py --host 0.0.0.0: Host %s: status %d, %d is due" % (host, found, status),
            )
    try_changed(folder, data)


def try_changed(folder, data):
    """An answer whose file is written over meanwhile breaks off."""
    name = os.path.join(folder, "large.bin")
    put(name, bytes(32 << 20))
    with Own(folder) as server:
        with socket.create_connection(("127.0.0.1", server.server.server_address[1])) as link:
            link.sendall(b"GET /stores/large.bin HTTP/1.1\r\nHost: localhost\r\n\r\n")
            got = len(link.recv(4096))
            with open(name, "r+b") as file:
                file.write(random.Random(1).randbytes(1000))
            while piece := link.recv(1 << 20):
                got += len(piece)
        check(
            0 < got < 32 << 20, "serve.py: a file that is written over breaks off: %d bytes" % got
        )


TESTS = (
    test_rules,
    test_bound,
    test_failures,
    test_recovery,
    test_names,
    test_no_storage,
    test_at_a_time,
    test_without_ranges,
    test_serve,
    test_nginx,
)


def main():
    global is_short
    parser = argparse.ArgumentParser(
        description=__doc__, formatter_class=argparse.RawDescriptionHelpFormatter
    )
    parser.add_argument("--short", action="store_true")
    parser.add_argument("--only")
    words = parser.parse_args()
    is_short = words.short
    chosen = [it for it in TESTS if words.only in (None, it.__name__)]
    if browser.find() is None:
        print("left out: the page behind servers, since Chromium is not installed")
        chosen = [it for it in chosen if it is test_rules]
    with contextlib.ExitStack() as held:
        room = held.enter_context(tempfile.TemporaryDirectory(prefix="vtex-servers-"))
        there = held.enter_context(browser.Browser()) if browser.find() else None
        root = os.path.join(room, "root")
        shutil.copytree(PAGE, root, ignore=shutil.ignore_patterns("*.py", "__pycache__"))
        os.mkdir(os.path.join(root, "stores"))
        for test in chosen:
            begun = time.monotonic()
            test(there, room, root, os.path.join(root, "stores", "a.vts"))
            print("%s: %.0f s" % (test.__name__, time.monotonic() - begun), flush=True)
    print("%d passed, %d failed" % (passed, failed))
    return 1 if failed else 0


if __name__ == "__main__":
    sys.exit(main())
