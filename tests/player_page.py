"""Opens the player in headless Chromium: its pictures, hands, residency, requests, flaws and faults. Called by player.py."""
import hashlib
import os
import subprocess
import time

import strip
from browser import Browser, Site
from client import pictures_of
from journals import Journal, pass_rows
from real_rows import WALK_PATH
from stores import BILINEAR, NEAREST, Path, Store, contents, picture_of, row_shown
from walks import Settings

ROUTE = "size 96 60\nfocal 48\nat 0 0 65536 16384 0\nto 7 131072 65536 16384 11585 11585\n"
# What a folder of walks holds by name: the sides, the seed and the maximum of the texture, the tile side, the path, the settings, and the lost reads.
WALKS = {
    "small": ((200, 119, 4, 255), 16, WALK_PATH, Settings(frames=60, samplers=7, batch=5), (3, 4, 11)),
    "wide": ((130, 257, 5, 65535), 32, WALK_PATH, Settings(frames=40, batch=4, settled=True, filtering=BILINEAR), ()),
    "large": ((1200, 1000, 6, 255), 64, ROUTE, Settings(frames=120, batch=24), (9,)),
}
BEGIN = "globalThis.player && player.shown.isDrawn"
# The SHA-256 of the file of each pass's picture, in hexadecimal digits.
DIGESTS = """(async (passes) => {
  const found = [];
  for (const pass of passes) {
    for (await player.show(pass); !player.shown.isDrawn;) await new Promise((done) => setTimeout(done, 5));
    const bytes = new Uint8Array(await crypto.subtle.digest('SHA-256', player.file()));
    found.push([...bytes].map((byte) => byte.toString(16).padStart(2, '0')).join(''));
  }
  return found;
})(%s)"""
# The bytes that the picture's canvas shows, four a pixel.
CANVAS = "(({ width, height }, context) => new Uint8Array(context.getImageData(0, 0, width, height).data.buffer))(document.getElementById('picture'), document.getElementById('picture').getContext('2d'))"
# A place over the picture, by shares of its sides.
OVER = "(() => { const it = document.getElementById('picture').getBoundingClientRect(); return { x: it.left + it.width * %s, y: it.top + it.height * %s }; })()"
# Drops some files on the page, which it fetches before.
DROP = """(async (names) => {
  const dropped = new DataTransfer();
  for (const name of names) dropped.items.add(new File([await (await fetch('stores/' + name)).blob()], name));
  dispatchEvent(new DragEvent('drop', { dataTransfer: dropped, cancelable: true }));
})(%s)"""


def digest(picture):
    return hashlib.sha256(picture).hexdigest()


class Walked:
    """A walk in the folder by the name of its files, and what is due of it."""

    def __init__(self, folder, name):
        self.names = {kind: "%s.%s" % (name, end) for kind, end in (("store", "vts"), ("path", "path"), ("journal", "txt"))}
        self.files = {kind: os.path.join(folder, file) for kind, file in self.names.items()}
        self.words = "&".join("%s=stores/%s" % both for both in self.names.items())
        self.store, self.path = Store(contents(self.files["store"])), Path(contents(self.files["path"]))
        self.journal, self.known = Journal(self.store.geometry, self.path.height, contents(self.files["journal"])), {}

    def tables(self):
        """Each pass with the table at its start."""
        table, at = {}, 0
        for a_pass in self.journal.passes:
            at = self.journal.apply(table, at, a_pass.start)
            yield a_pass, dict(table)

    def digests(self, filtering):
        """What DIGESTS is to find of all passes, by journals.py, and of the last pass of each picture, by client.py."""
        if filtering not in self.known:
            self.path.filtering = filtering
            passes = [picture_of(self.store, self.path, pass_rows(self.store, self.path, self.journal, *both)) for both in self.tables()]
            self.known[filtering] = [digest(picture) for picture in passes], [digest(picture) for picture in pictures_of(*self.files.values(), filtering)]
        return self.known[filtering]

    def shown_pages(self):
        """The pages that some row of some pass shows, by the nearest texels."""
        pages = set()
        for a_pass, start in self.tables():
            draw = lambda store, path, picture, y, table: pages.update(page for page, *_ in row_shown(store.geometry, path, picture, y, table))
            pass_rows(self.store, self.path, self.journal, a_pass, start, draw)
        return pages

    def captions(self, version):
        """How many pages of each level are mapped at a version."""
        table, counts = {}, []
        self.journal.apply(table, 0, version)
        for width, height, columns, rows, first in self.store.geometry.levels:
            counts.append(sum(first <= page < first + columns * rows for page in table))
        return counts


def pictures_are(check, page, walk, filtering, what):
    """The bytes of all passes' pictures are due, and those of the last passes are what client.py draws."""
    passes = list(range(1, len(walk.journal.passes) + 1))
    found, (due, by_client) = page.ask(DIGESTS % passes), walk.digests(filtering)
    check.say(found == due, "%s: pictures of all passes" % what)
    last = {a_pass.picture: made for a_pass, made in zip(walk.journal.passes, found)}
    check.say(list(last.values()) == by_client, "%s: pictures as replayed by client.py" % what)


def text_of(page, name):
    return page.ask("document.getElementById('%s').textContent" % name)


def press(page, key, times=1):
    for _ in range(times):
        for kind in ("keyDown", "keyUp"):
            page.call("Input.dispatchKeyEvent", type=kind, key=key, code="Space" if key == " " else key, windowsVirtualKeyCode=0)


def click(page, selector, x=None):
    """A click in the middle of an element, or at a share of its width."""
    left, top, width, height = page.ask("(() => { const it = document.querySelector('%s').getBoundingClientRect(); return [it.left, it.top, it.width, it.height]; })()" % selector)
    where = {"x": left + width * (0.5 if x is None else x), "y": top + height / 2, "button": "left", "clickCount": 1}
    page.call("Input.dispatchMouseEvent", type="mousePressed", buttons=1, **where)
    page.call("Input.dispatchMouseEvent", type="mouseReleased", **where)


def is_quiet(check, page, what, may=()):
    """The console has no line but those of requests that were answered amiss on purpose."""
    said = [line for line in page.told if not any(word in line for word in may)]
    check.say(not said, "%s: console: %s" % (what, said))


def canvas_is(check, page, walk, filtering, what):
    """The pixels on the screen are those of the last pass's picture; of samples of two bytes the higher ones."""
    page.until(BEGIN + " && player.shown.pass === %d" % len(walk.journal.passes))
    found, last = page.pixels(CANVAS), walk.journal.last_passes()[-1]
    walk.path.filtering = filtering
    samples = b"".join(pass_rows(walk.store, walk.path, walk.journal, *last))[:: walk.store.depth]
    due = b"".join(samples[at : at + 3] + b"\xff" for at in range(0, len(samples), 3))
    check.say(found == due, what + ": the pixels of the canvas")


def try_walk(check, browser, site, walk, name):
    """All pictures by both filters, by the address."""
    for filtering in (NEAREST, BILINEAR):
        page = browser.open(site.base + "player.html?%s&filter=%s" % (walk.words, filtering), 1300, 1100)
        page.until(BEGIN)
        pictures_are(check, page, walk, filtering, "%s, %s" % (name, filtering))
        canvas_is(check, page, walk, filtering, "%s, %s" % (name, filtering))
        is_quiet(check, page, "%s, %s" % (name, filtering))
        page.close()


def try_hands(check, browser, site, walk):
    """Keys, time line, slider, list, play and the residency."""
    page, passes = browser.open(site.base + "player.html?" + walk.words, 1300, 1100), walk.journal.passes
    page.until(BEGIN)
    at = lambda: page.until(BEGIN + " && [player.shown.pass, player.shown.version]")
    check.say(at() == [1, passes[0].last], "first pass")
    press(page, "ArrowRight", 3)
    check.say(at() == [4, passes[3].last], "keys: next pass")
    press(page, "ArrowUp", 2)
    check.say(at() == [4, passes[3].last - 2], "keys: version before")
    press(page, "ArrowLeft")
    press(page, "PageDown")
    check.say(at()[0] == 4 and passes[3].picture == passes[2].picture + 1, "keys: pass before, next picture")
    press(page, "End")
    check.say(at() == [len(passes), len(walk.journal.changes)], "keys: last pass")
    press(page, "Home")
    check.say(at()[0] == 0 and "head" in text_of(page, "pass-said"), "keys: the head")
    click(page, "#line", 5.5 / (len(passes) + 1))
    check.say(at() == [5, passes[4].last], "time line")
    for version in (0, 1, passes[2].last, len(walk.journal.changes) // 2, len(walk.journal.changes)):
        page.ask("(() => { const it = document.getElementById('version'); it.value = %d; it.dispatchEvent(new Event('input')); })()" % version)
        page.until("player.shown.version === %d && player.shown.isDrawn" % version)
        found = page.ask("[...document.querySelectorAll('#levels figcaption')].map((it) => Number(/, ([0-9]+) mapped/.exec(it.textContent)[1]))")
        check.say(found == walk.captions(version), "residency at version %d" % version)
        check.say(version == 0 or passes[at()[0] - 1].last >= version or at()[0] == 0, "the pass of version %d" % version)
    page.ask("player.show(2)")
    page.ask("(() => { document.getElementById('speed').value = 30; })()")
    click(page, "#play")
    page.until("player.shown.isPlaying")
    page.until("!player.shown.isPlaying && player.shown.pass === %d" % len(passes))
    page.ask("player.show(7)")
    page.until(BEGIN)
    event = "document.querySelector('#events-all div:nth-child(2)')"
    text = page.ask(event + ".textContent")
    page.ask(event + ".click()")
    page.until("player.shown.isDrawn")
    check.say(text.split(" ")[1] == str(at()[1]), "a click on an event: %s" % text)
    page.call("Input.dispatchMouseEvent", type="mouseMoved", **page.ask(OVER % (0.1, 0.25)))
    page.until("document.getElementById('pixel-said').textContent.includes('sampler')")
    try_where(check, page, walk)
    is_quiet(check, page, "hands")
    page.close()


def try_where(check, page, walk):
    """The camera of the shown picture on the store's map, which is read once its section is opened."""
    page.ask("document.querySelector('#where summary').click()")
    page.until("!!document.querySelector('#where vtex-view')?.engine?.isSharp")
    page.until(BEGIN)
    picture, view = walk.journal.passes[page.ask("player.shown.pass") - 1].picture, "document.querySelector('#where vtex-view')"
    u, v = walk.path.cameras[picture][:2]
    due = [(u / 256) % walk.store.geometry.width, (v / 256) % walk.store.geometry.height]
    mark = page.ask("(({ u, v }) => [Number(u), Number(v)])(%s.querySelector('.camera').dataset)" % view)
    check.say(mark == due, "the camera on the map: %s, %s is due" % (mark, due))
    check.say(page.ask(view + ".store.width") == walk.store.geometry.width, "the map is the store's")


def try_requests(check, browser, site, walk):
    """A store that is not small is read by ranges: its header, and each tile that a pass shows, once."""
    site.asked.clear()
    page = browser.open(site.base + "player.html?" + walk.words, 1300, 1100)
    page.until(BEGIN)
    page.ask(DIGESTS % list(range(1, len(walk.journal.passes) + 1)))
    spans = [(first, end) for name, first, end in site.asked if name.endswith(".vts")]
    tile, found = walk.store.tile_bytes, []
    for first, end in spans[1:]:
        check.say((first - 16) % tile == 0 == (end - 16) % tile, "ranges: whole tiles")
        found += range((first - 16) // tile, (end - 16) // tile)
    check.say(spans[0] == (0, 16) and len(walk.store.data) > 4 << 20, "ranges: the header")
    check.say(sorted(found) == sorted(walk.shown_pages()), "ranges: the tiles that are shown, each once")
    page.close()


def try_files(check, browser, site, walks):
    """Files that are chosen on the page, one after the other, and then another walk's journal, which is none of this store."""
    page = browser.open(site.base + "player.html", 1300, 1100)
    check.say(page.ask("document.getElementById('walk').hidden"), "no files: nothing is shown")
    root = page.call("DOM.getDocument")["root"]["nodeId"]

    def choose(kind, file):
        node = page.call("DOM.querySelector", nodeId=root, selector="input[data-file=%s]" % kind)["nodeId"]
        page.call("DOM.setFileInputFiles", nodeId=node, files=[file])

    for kind, file in walks["large"].files.items():
        choose(kind, file)
        page.until("document.getElementById('%s-said').textContent.startsWith('%s:')" % (kind, os.path.basename(file)))
    page.until(BEGIN)
    pictures_are(check, page, walks["large"], NEAREST, "chosen files")
    choose("journal", walks["wide"].files["journal"])
    page.until("document.getElementById('journal-said').className.includes('flaw')")
    check.say("bad line 2" in text_of(page, "journal-said") and page.ask("document.getElementById('walk').hidden"), "chosen files: a journal of another store")
    is_quiet(check, page, "chosen files")
    page.close()


def try_drop_and_save(check, browser, site, folder, walk):
    """Files that are dropped on the page, and a picture that is saved."""
    page, last = browser.open(site.base + "player.html", 1300, 1100), len(walk.journal.passes)
    page.ask(DROP % list(walk.names.values()))
    page.until(BEGIN)
    kept = os.path.join(folder, "kept")
    browser.call("Browser.setDownloadBehavior", behavior="allow", downloadPath=kept, **page.context)
    page.ask("player.show(%d)" % last)
    page.until(BEGIN)
    click(page, "#save")
    name, end = os.path.join(kept, "picture%04d.ppm" % walk.journal.passes[-1].picture), time.monotonic() + 30
    while not os.path.exists(name) and time.monotonic() < end:
        time.sleep(0.05)
    check.say(digest(contents(name) or b"") == walk.digests(NEAREST)[1][-1], "a saved picture")
    is_quiet(check, page, "dropped files")
    page.close()


def try_flaws(check, browser, site, folder, walk):
    """Each file with a flaw, and one that is missing."""
    store, path, journal = (contents(walk.files[kind]) for kind in ("store", "path", "journal"))
    rows = [
        ("store", b"VTS3" + store[4:], "bad magic"),
        ("store", b"", "bad magic"),
        ("store", store[:15], "length 15, wanted 16"),
        ("store", store[:12] + b"\0\0\0\3" + store[16:], "bad geometry"),
        ("store", store[:-1], "length %d, wanted %d" % (len(store) - 1, len(store))),
        ("path", path + b"at 0 0 0 0 0\n", "bad line %d" % (path.count(b"\n") + 1)),
        ("path", b"", "bad line 1"),
        ("path", b"size 2 1\nfocal 1\nto 1 0 0 1 0 0\n", "no key at line 3"),
        ("path", path + b"to 9999 0 0 1 0 0\n", "too many pictures"),
        ("journal", journal[:-1], "bad line %d" % journal.count(b"\n")),
        ("journal", journal.replace(b"pass 3 ", b"pass 4 "), "bad line %d" % (journal[: journal.index(b"pass 3 ")].count(b"\n") + 1)),
        ("journal", None, "status 404"),
    ]
    for kind, data, line in rows:
        name = os.path.join(folder, "flawed")
        os.path.exists(name) and os.remove(name)
        if data is not None:
            with open(name, "wb") as file:
                file.write(data)
        page = browser.open(site.base + "player.html?" + walk.words.replace(walk.names[kind], "flawed"), 1000, 600)
        page.until("document.getElementById('%s-said').className.includes('flaw')" % kind)
        check.say("stores/flawed: " in text_of(page, kind + "-said") and line in text_of(page, kind + "-said"), "flaw: %s: %s" % (line, text_of(page, kind + "-said")))
        check.say(page.ask("document.getElementById('walk').hidden"), "flaw: %s: no walk is shown" % line)
        is_quiet(check, page, "flaw: " + line, ["status of 404", "status of 416"])
        page.close()


def try_faults(check, browser, site, walk):
    """A server that fails now and then, one that answers no ranges, and a store that is replaced."""
    url = site.base + "player.html?" + walk.words
    site.amiss = lambda number, name, first, end: 503 if number % 3 == 0 else None
    page = browser.open(url, 1000, 600)
    page.until(BEGIN)
    pictures_are(check, page, walk, NEAREST, "a server that fails")
    is_quiet(check, page, "a server that fails", ["status of 503"])
    page.close()
    site.amiss, site.ranges = None, False
    page = browser.open(url, 1000, 600)
    page.until(BEGIN)
    pictures_are(check, page, walk, NEAREST, "a server without ranges")
    is_quiet(check, page, "a server without ranges")
    page.close()
    site.ranges = True
    page = browser.open(url, 1000, 600)
    page.until(BEGIN)
    os.utime(walk.files["store"], (time.time() + 9,) * 2)
    page.ask("(() => { player.show(%d); })()" % len(walk.journal.passes))
    page.until("!document.getElementById('told').hidden")
    check.say("replaced" in text_of(page, "told"), "a store that was replaced")
    is_quiet(check, page, "a store that was replaced")
    page.close()


def make_shots(check, browser, site, folder, program, shots):
    """The picture of docs/PLAYER.md: a live walk over the map of strip.py, in a pass whose rows have several versions."""
    name, run = os.path.join(folder, "terrain"), lambda words: subprocess.run([program, *words], stdin=subprocess.DEVNULL, stdout=subprocess.DEVNULL)
    strip.terrain(name + ".ppm")
    with open(name + ".path", "wb") as file:
        file.write(b"size 320 200\nfocal 100\nat 131072 131072 51200 11585 11585\nto 40 262144 196608 30000 16384 0\n")
    run(["tile", name + ".ppm", name + ".vts", "--tile", "32"])
    run(["walk", name + ".vts", name + ".path", name, "--journal", name + ".txt", "--frames", "200", "--batch", "24", "--loaders", "1"])
    walk = Walked(folder, "terrain")
    varied = max(range(9, len(walk.journal.passes)), key=lambda n: len({row[1] for row in walk.journal.passes[n - 1].rows}))
    page = browser.open(site.base + "player.html?%s&pass=%d" % (walk.words, varied), 1280, 1130)
    page.until(BEGIN)
    page.call("Input.dispatchMouseEvent", type="mouseMoved", **page.ask(OVER % (0.4, 0.55)))
    page.until("document.getElementById('pixel-said').textContent.includes('sampler')")
    page.shot(os.path.join(shots, "player.png"))
    is_quiet(check, page, "screenshot")


def try_page(check, make_walk, program, shots, is_short=False):
    folder = os.path.abspath("walks")
    os.mkdir(folder)
    for name, walk in WALKS.items():
        for end, data in zip(("vts", "path", "txt"), make_walk(*walk)):
            with open(os.path.join(folder, "%s.%s" % (name, end)), "wb") as file:
                file.write(data)
    walks = {name: Walked(folder, name) for name in WALKS}
    with Site(folder) as site, Browser() as browser:
        for name, walk in walks.items():
            if not (is_short and name == "large"):
                try_walk(check, browser, site, walk, name)
        try_hands(check, browser, site, walks["small"])
        if is_short:
            return try_requests(check, browser, site, walks["large"])
        try_hands(check, browser, site, walks["large"])
        try_requests(check, browser, site, walks["large"])
        try_files(check, browser, site, walks)
        try_drop_and_save(check, browser, site, folder, walks["wide"])
        try_flaws(check, browser, site, folder, walks["small"])
        try_faults(check, browser, site, walks["large"])
        if shots and program:
            make_shots(check, browser, site, folder, program, shots)
