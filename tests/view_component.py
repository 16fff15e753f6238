#!/usr/bin/env python3
"""Tests the component <vtex-view>, its engine, and the viewer's page around it, in headless Chromium with its cache on.

usage: view_component.py [--short] [--only TEST]

The pages of docs/EMBEDDING.md run as they stand there. Pictures are compared with the texels of the
store's file, which this script reads by itself. `--short` leaves out what takes longest; `--only`
names one test. Where tsc is installed, the types are checked with a page in TypeScript.
"""
import argparse
import json
import os
import re
import shutil
import subprocess
import sys
import tempfile
import time

TOP = os.path.dirname(os.path.dirname(os.path.abspath(__file__)))
sys.path[:0] = [os.path.join(TOP, "tests"), os.path.join(TOP, "tests", "viewer")]
import browser  # noqa: E402
import textures  # noqa: E402
from looks import BESIDE, Look, differ, shown  # noqa: E402
from stores import Store  # noqa: E402

WIDE, HIGH = 300, 180
EXACT = "filter=nearest"
passed, failed = 0, 0


def check(good, what):
    global passed, failed
    passed, failed = passed + bool(good), failed + (not good)
    if not good:
        print("failed: " + what)


def contents(name):
    with open(name, "rb") as file:
        return file.read()


def put(name, data):
    with open(name, "wb") as file:
        file.write(data)


def store_of(width, height, tile, depth, seed):
    _, texture = textures.read_image(b"".join(textures.noise(width, height, seed, depth)))
    return textures.store_of(depth, textures.chain_of(texture, tile), tile)


def heights_store():
    """A store of two bytes a sample whose samples go from 0 to 4000 over its columns."""
    width, height = 256, 128
    row = b"".join((4000 * x // (width - 1)).to_bytes(2, "big") * 3 for x in range(width))
    _, texture = textures.read_image(b"P6\n%d %d\n65535\n" % (width, height) + row * height)
    return textures.store_of(2, textures.chain_of(texture, 32), 32)


STORES = {
    "a": lambda: store_of(700, 500, 32, 1, 7),
    "b": lambda: store_of(300, 200, 16, 1, 9),
    "strip": lambda: store_of(4096, 2, 8, 1, 3),
    "thin": lambda: store_of(3, 1000, 8, 1, 3),
    "heights": heights_store,
    "50% off": lambda: store_of(65, 33, 8, 1, 5),
}


class Bench:
    """What every test needs: the site, the browser, the stores, and whether it is the short form."""

    def __init__(self, site, there, stores, is_short):
        self.site, self.there, self.stores, self.is_short = site, there, stores, is_short

    def path(self, name):
        return os.path.join(self.site.folder, name)

    def page(self, body, width=640, height=400, **how):
        """A page of the site with this body, one folder below the component."""
        put(self.path("page.html"), b"<!doctype html><meta charset=utf-8><link rel=icon href=data:,>" + body.encode())
        return self.open("stores/page.html", width, height, **how)

    def open(self, words, width=WIDE, height=HIGH, **how):
        return self.there.open(self.site.base + words, width, height, keeps=True, **how)

    def viewer(self, words, width=WIDE, height=HIGH, **how):
        """The viewer's page, once its picture is sharp or it has a sentence."""
        page = self.open(words, width, height, **how)
        page.until("!!window.ready")
        good = page.ask("ready.then((viewer) => viewer && viewer.sharp())")
        return page, good


IMPORT = "<script type=module>import '../vtex-view.js'; window.isReady = true;</script>"
STYLE = "<style>body { margin: 0 } vtex-view { width: %dpx; height: %dpx }</style>" % (WIDE, HIGH)
NOTED = (
    "<script>window.heard = []; for (const name of ['open', 'move', 'sharp', 'error', 'problem'])"
    " addEventListener(name, (event) => heard.push([event.target.id, name]), true);</script>"
)


def element_shown(page, look, selector="vtex-view"):
    """The picture of an element, as `shown` has that of the viewer."""
    page.ask("window.viewer = document.querySelector('%s').engine; 0" % selector)
    return shown(page, look)


def is_quiet(page, what, may=()):
    told = [line for line in page.told if not any(word in line for word in may)]
    check(told == [], "%s: console: %s" % (what, told))


def text_of(page, name):
    return page.ask("document.getElementById('%s').textContent" % name)


def press(page, key):
    for kind in ("keyDown", "keyUp"):
        page.call("Input.dispatchKeyEvent", type=kind, key=key)


def is_map(bench, page, name, view, what, selector="vtex-view"):
    """The pixels of an element are the texels of a store."""
    look = Look(bench.stores[name], WIDE, HIGH, view)
    check(differ(element_shown(page, look, selector), look) == 0, what + ": its pixels")


# ---- the component


def test_element(bench):
    """Events, methods, pixels, destroy, another store, and an element that moves in the page."""
    body = "<vtex-view id=one src=a.vts view='map=350,250,1&%s'></vtex-view>" % EXACT
    page = bench.page(STYLE + NOTED + body + IMPORT)
    page.until("!!(window.isReady && document.getElementById('one').engine)")
    page.ask("window.one = document.getElementById('one'); 0")
    check(page.ask("one.sharp()"), "the element becomes sharp")
    is_map(bench, page, "a", (350, 250, 1), "the element")
    check(page.ask("[one.store.width, one.store.height, one.store.tile]") == [700, 500, 32], "shape")
    heard = page.ask("heard.map((it) => it[1])")
    check(heard[0] == "open" and "sharp" in heard, "events of the opening: %s" % heard)
    page.ask("heard.length = 0, one.move({ mode: 'map', u: 100, v: 90, scale: 2 })")
    check(page.ask("one.sharp()"), "after a move")
    is_map(bench, page, "a", (100, 90, 2), "after a move")
    check(page.ask("heard.map((it) => it[1])") == ["move", "sharp"], "events of a move")
    check(page.ask("one.words") == "map=100,90,2&filter=nearest", "words: " + page.ask("one.words"))
    page.ask("one.setAttribute('view', 'map=200,100,1&filter=nearest'), one.sharp()")
    is_map(bench, page, "a", (200, 100, 1), "the attribute view")
    page.ask("one.fit(), one.sharp()")
    is_map(bench, page, "a", None, "fit")
    page.ask("one.changeMode()")
    check(page.ask("one.look.view.mode") == "fly" and page.ask("one.sharp()"), "a flight")
    page.ask("document.body.prepend(document.createElement('p')), document.body.append(one); 0")
    check(page.ask("new Promise((done) => setTimeout(() => done(!!one.engine), 50))"), "it is moved")
    page.ask("one.src = 'b.vts'")
    page.until("one.engine && one.store.width === 300")
    page.ask("one.set({ filter: 'nearest' }), one.move({ mode: 'map', u: 150, v: 100, scale: 1 })")
    check(page.ask("one.sharp()"), "another store")
    is_map(bench, page, "b", (150, 100, 1), "another store")
    page.ask("window.old = one.engine; one.destroy()")
    check(page.ask("one.engine === null && !one.shadowRoot.querySelector('canvas')"), "destroy")
    check(page.ask("old.sharp()") is False, "a picture that was destroyed is never sharp")
    said = page.ask("(() => { try { one.fit(); } catch (error) { return error.message; } })()")
    check(said == "vtex-view: no store is open.", "a method after destroy: %s" % said)
    page.ask("one.destroy(), old.destroy()")
    page.ask("one.open('a.vts').then(() => one.sharp())")
    check(page.ask("one.store.width") == 700, "it opens again after destroy")
    page.ask("one.remove()")
    page.until("one.engine === null")
    check(True, "an element that is taken out of the page lets go")
    page.ask("document.body.append(one); 0")
    page.until("one.engine && one.store.width === 700")
    check(True, "and begins again where it was")
    is_quiet(page, "the element")
    page.close()


def test_two(bench):
    """Two elements on a page, each with its own store; one is destroyed while it reads."""
    body = "".join(
        "<vtex-view id=%s src=%s.vts view='map=120,90,1&%s'></vtex-view>" % (it, it, EXACT)
        for it in "ab"
    )
    page = bench.page(STYLE + body + IMPORT)
    page.until("[...document.querySelectorAll('vtex-view')].every((it) => it.engine)")
    for name in "ab":
        check(page.ask("document.getElementById('%s').sharp()" % name), "two: %s is sharp" % name)
    for name in "ab":
        is_map(bench, page, name, (120, 90, 1), "two: " + name, "#" + name)
    page.ask("document.getElementById('a').destroy()")
    page.ask("document.getElementById('b').move({ mode: 'map', u: 60, v: 70, scale: 1 })")
    check(page.ask("document.getElementById('b').sharp()"), "two: the other one goes on")
    is_map(bench, page, "b", (60, 70, 1), "two: the other one", "#b")
    bench.site.wait = 0.3
    page.ask("document.getElementById('a').src = 'a.vts?slow'; 0")
    page.ask("document.getElementById('a').destroy()")
    page.ask("new Promise((done) => setTimeout(done, 900))")
    bench.site.wait = 0
    check(page.ask("document.getElementById('a').engine === null"), "two: ended while it opens")
    is_quiet(page, "two")
    page.close()


def test_overlays(bench):
    """Children with data-u and data-v stand at their texel; points and texels are inverse."""
    spots = [(350, 250), (300, 200), (420, 310)]
    inside = "".join("<b class=spot data-u=%d data-v=%d>x</b>" % it for it in spots)
    inside += "<i data-u=340 data-v=230 data-width=40 data-height=20></i><u>fixed</u>"
    body = "<vtex-view src=a.vts view='map=350,250,2'>%s</vtex-view>" % inside
    page = bench.page(STYLE + body + IMPORT)
    page.until("!!(window.isReady && document.querySelector('vtex-view').engine)")
    page.ask("window.one = document.querySelector('vtex-view'), one.sharp()")
    places = "[...one.querySelectorAll('%s')].map((it) => it.getBoundingClientRect()).map((it) => [it.x, it.y, it.width, it.height])"
    due = [(WIDE / 2 + (u - 350) / 2, HIGH / 2 + (v - 250) / 2) for u, v in spots]
    found = page.ask(places % ".spot")
    near = lambda a, b, by=0.02: all(abs(x - y) < by for x, y in zip(a, b))
    check(all(map(near, found, due)), "overlays on a map: %s" % found)
    box = page.ask(places % "i")[0]
    check(near(box, (WIDE / 2 - 5, HIGH / 2 - 10, 20, 10)), "an overlay with sides: %s" % box)
    page.ask("one.move({ mode: 'map', u: 350, v: 250, scale: 2, turn: Math.PI / 2 }), one.sharp()")
    found = page.ask(places % ".spot")
    due = [(WIDE / 2 - (v - 250) / 2, HIGH / 2 + (u - 350) / 2) for u, v in spots]
    check(all(map(near, found, due)), "overlays on a turned map: %s" % found)
    page.ask("one.move({ mode: 'fly', u: 350, v: 400, h: 30, c: 0, s: -1, focal: 0.5 }), one.sharp()")
    for x, y in ((150, 100), (20.5, 30.5), (280, 170)):
        back = page.ask("one.pointAt(...one.texelAt(%s, %s))" % (x, y))
        check(abs(back[0] - x) < 0.6 and abs(back[1] - y) < 1, "a flight's point: %s" % back)
    state = page.ask("getComputedStyle(one.querySelector('.spot')).visibility")
    check(state == "visible", "an overlay ahead of the camera is visible")
    page.ask("one.move({ mode: 'fly', u: 350, v: 200, h: 9, c: 0, s: -1, focal: 0.5 }), one.sharp()")
    state = page.ask("getComputedStyle(one.querySelector('.spot')).visibility")
    check(state == "hidden", "an overlay behind the camera is hidden")
    is_quiet(page, "overlays")
    page.close()


PICTURE_OF = """%s.then(createImageBitmap).then((image) => {
  const canvas = new OffscreenCanvas(image.width, image.height), context = canvas.getContext('2d');
  context.drawImage(image, 0, 0);
  return { width: image.width, height: image.height, data: [...context.getImageData(0, 0, image.width, image.height).data] };
})"""


def test_values(bench):
    """Texel, level and samples under a point; the picture and a region as PNG files."""
    body = "<vtex-view src=a.vts view='map=350,250,1&%s'></vtex-view>" % EXACT
    page = bench.page(STYLE + body + IMPORT)
    page.until("!!(window.isReady && document.querySelector('vtex-view').engine)")
    page.ask("window.one = document.querySelector('vtex-view'), one.sharp()")
    store = bench.stores["a"]
    for x, y in ((0.5, 0.5), (150, 90), (299.5, 179.5), (37.25, 111)):
        value = page.ask("one.valueAt(%s, %s)" % (x, y))
        u, v = int(350 + x - WIDE / 2), int(250 + y - HIGH / 2)
        texel = texel_of(store, u, v)
        check([value["u"], value["v"]] == [u, v], "the texel under a point: %s" % value)
        check(value["samples"] == texel and value["level"] == 0, "its samples: %s" % value)
    page.ask("one.move({ mode: 'map', u: 0, v: 0, scale: 1 }), one.sharp()")
    check(page.ask("one.valueAt(10, 10)") is None, "no value beside the texture")
    look = Look(store, WIDE, HIGH, (0, 0, 1))
    picture = page.ask(PICTURE_OF % "one.picture()")
    rows = rows_of(picture)
    check(differ(rows, look) == 0, "the saved picture has the pixels that are shown")
    region = {"x": 29, "y": 40, "width": 70, "height": 33}
    picture = page.ask(PICTURE_OF % ("one.regionPicture(%s)" % json.dumps(region)))
    due = [[bytes(texel_of(store, 29 + x, 40 + y)) for x in range(70)] for y in range(33)]
    check(rows_of(picture) == due, "a saved region has the texels of the store")
    for wrong in ({"x": -1}, {"width": 900}, {"height": 0}, {"x": 1.5}):
        call = "one.regionPicture(%s).catch((error) => error.name)" % json.dumps({**region, **wrong})
        check(page.ask(call) == "RangeError", "a region that is none: %s" % wrong)
    check(page.ask("one.engine.region") == {"x": 0, "y": 0, "width": 150, "height": 90}, "region")
    is_quiet(page, "values")
    page.close()


def texel_of(store, u, v):
    """The samples of a texel of level 0, by docs/FORMATS.md."""
    tile, g = store.geometry.tile, store.geometry
    page = (v // tile) * g.levels[0][2] + u // tile
    at = 16 + page * store.tile_bytes + 3 * ((v % tile) * tile + u % tile)
    return list(store.data[at : at + 3])


def rows_of(picture):
    data, width = picture["data"], picture["width"]
    pixels = [bytes(data[at : at + 3]) for at in range(0, len(data), 4)]
    return [pixels[at : at + width] for at in range(0, len(pixels), width)]


def test_errors(bench):
    """The error event and the sentence; a store that comes later; attributes that are wrong."""
    page = bench.page(STYLE + NOTED + "<vtex-view id=one src=later.vts></vtex-view>" + IMPORT)
    page.until("window.heard.some((it) => it[1] === 'error')")
    page.ask("window.one = document.getElementById('one'); 0")
    sentence = "one.shadowRoot.querySelector('[role=alert]')"
    check("404" in page.ask(sentence + ".textContent"), "the element has a sentence")
    put(bench.path("later.vts"), contents(bench.path("b.vts")))
    page.ask(sentence + ".querySelector('button').click()")
    page.until("one.engine && one.store.width === 300")
    check(page.ask(sentence + ".hidden"), "a click tries again, and the sentence goes")
    os.remove(bench.path("later.vts"))
    page.ask("one.addEventListener('error', (event) => { event.preventDefault(); window.error = [event.detail.kind, event.detail.message]; })")
    call = "one.open('none.vts').catch((error) => error.kind)"
    check(page.ask(call) == "missing", "open rejects")
    check(page.ask("error[0]") == "missing", "the event has the error")
    check(page.ask(sentence + ".hidden"), "no sentence where the page has its own")
    check(page.ask("one.open('http://').catch((error) => error.kind)") == "address", "no address")
    call = "one.open(new Blob(['no store at all'])).catch((error) => window.error)"
    check("is no store" in page.ask(call)[1], "a file that is no store")
    is_quiet(page, "errors", ["404"])
    page.close()


def pages_of_embedding():
    text = contents(os.path.join(TOP, "docs", "EMBEDDING.md")).decode()
    return re.findall(r"```html\n(.*?)```", text, re.S)


def test_embedding(bench):
    """The pages of docs/EMBEDDING.md run as they stand there."""
    pages = pages_of_embedding()
    check(len(pages) >= 2, "docs/EMBEDDING.md has its pages")
    root = bench.path("embedding")
    os.makedirs(os.path.join(root, "stores"), exist_ok=True)
    link = os.path.join(root, "vtex")
    shutil.copytree(browser.serve.HERE, link, dirs_exist_ok=True)
    shutil.copyfile(bench.path("a.vts"), os.path.join(root, "stores", "photo.vts"))
    for number, text in enumerate(pages):
        put(os.path.join(root, "page%d.html" % number), text.encode())
        lines = text[text.index("<script") :].split("\n")
        check(len(lines) <= 13, "page %d of docs/EMBEDDING.md: ten lines of script" % number)
        page = bench.open("stores/embedding/page%d.html" % number, 640, 400)
        engine = "(document.querySelector('vtex-view')?.engine ?? window.engine)"
        page.until(engine + "?.isSharp", 30)
        size = page.ask("[%s.canvas.clientWidth > 100, %s.store.width]" % (engine, engine))
        check(size == [True, 700], "page %d of docs/EMBEDDING.md: %s" % (number, size))
        is_quiet(page, "page %d of docs/EMBEDDING.md" % number, ["info: "])
        page.close()


TYPED = """
import { VtexView, Engine, WebFile, flightsOf, readPath } from '%s';
const view = document.querySelector('vtex-view')!;
view.addEventListener('open', ({ detail }) => view.move({ mode: 'map', u: detail.width / 2, v: 0, scale: 1 }));
view.addEventListener('error', ({ detail }) => console.log(detail.message));
const all: VtexView = view, due: Promise<boolean> = all.sharp();
Engine.open(document.createElement('canvas'), new WebFile('x'), { frames: 100, filter: 'nearest' })
  .then((engine) => engine.play(flightsOf(readPath(new Uint8Array()))));
// @ts-expect-error no such filter
view.set({ filter: 'cubic' });
// @ts-expect-error a map has a scale
view.move({ mode: 'map', u: 1, v: 1 });
// @ts-expect-error a frame count is a number
Engine.open(document.createElement('canvas'), new WebFile('x'), { frames: 'many' });
export { due };
"""


def test_types(bench):
    """The types by tsc, and that they name what the modules have."""
    page = bench.page(STYLE + "<vtex-view></vtex-view>" + IMPORT)
    page.until("window.isReady")
    text = contents(os.path.join(browser.serve.HERE, "vtex-view.d.ts")).decode()
    for name in ("VtexView", "Engine"):
        body = re.search(r"export class %s .*?\n}" % name, text, re.S).group()
        names = sorted(set(re.findall(r"^ +(?:readonly )?([a-z]\w*)[(:]", body, re.M)))
        names += re.findall(r"; readonly (\w+):", body)
        mine = "import('../vtex-view.js').then((all) => %s.filter((it) => !(it in all.%s.prototype)))"
        absent = page.ask(mine % (json.dumps(names), name))
        fields = {"engine", "canvas", "source", "store", "look", "usual", "trouble"}
        check(len(names) > 8 and set(absent) <= fields, "%s has what its types have: %s" % (name, absent))
    page.close()
    tsc = shutil.which("tsc")
    if tsc is None:
        return print("left out: types, since tsc is not installed (Debian: apt-get install node-typescript)")
    with tempfile.TemporaryDirectory() as folder:
        put(os.path.join(folder, "page.ts"), (TYPED % os.path.join(browser.serve.HERE, "vtex-view.js")).encode())
        words = [tsc, "--noEmit", "--strict", "--target", "es2022", "--module", "es2022"]
        words += ["--lib", "es2022,dom,dom.iterable", "--moduleResolution", "node"]
        run = subprocess.run([*words, "page.ts"], cwd=folder, capture_output=True, text=True, timeout=120)
        check(run.returncode == 0, "tsc: " + run.stdout)
    package = json.loads(contents(os.path.join(browser.serve.HERE, "package.json")))
    for name in ("main", "types"):
        check(os.path.isfile(os.path.join(browser.serve.HERE, package.get(name, "-"))), "package: " + name)
    check(package["version"] == "1.0.0" and "dependencies" not in package, "package.json")


# ---- the viewer's page


def beside(page):
    """The part of the picture's pixels that are beside the texture."""
    data = page.pixels("viewer.screen.pixels(viewer.look)")
    count = sum(data[at : at + 3] == bytes(BESIDE) for at in range(0, len(data), 4))
    return count / (len(data) // 4)


def test_shapes(bench):
    """Stores that are thinner than a pixel as a whole, and views outside of the texture."""
    for name in ("strip", "thin"):
        page, good = bench.viewer("?store=stores/%s.vts#%s" % (name, EXACT))
        check(good and beside(page) < 0.995, name + ": its texels are seen")
        look = Look(bench.stores[name], WIDE, HIGH, None)
        check(differ(shown(page, look), look) == 0, name + ": its pixels")
        is_quiet(page, name)
        page.close()
    for words in ("map=99999,99999,1", "map=-5,-5,0.001", "map=1,1,1e9", "fly=0,0,1e9,0"):
        page, good = bench.viewer("?store=stores/a.vts#" + words)
        check(good and beside(page) < 0.95 and page.ask("notes.hidden"), words + " shows something")
        page.close()
    for words, name in (
        ("map=1,1,0", "map=1,1,0"),
        ("map=,,", "map=,,"),
        ("fly=0,0,-5,0", "fly=0,0,-5,0"),
        ("filter=cubic", "filter=cubic"),
        ("range=9,3", "range=9,3"),
    ):
        page, good = bench.viewer("?store=stores/a.vts#" + words)
        told = text_of(page, "notes")
        check(good and name in told, "%s is named: %s" % (words, told))
        is_quiet(page, words)
        page.close()
    for words in ("frames=abc", "pinned=0", "parallel=0", "run=0", "parallel=abc"):
        page, good = bench.viewer("?store=stores/a.vts&" + words)
        told = text_of(page, "notes")
        check(good and words in told and "whole number" in told, "%s is named: %s" % (words, told))
        is_quiet(page, words)
        page.close()
    page, good = bench.viewer("?store=stores/50%25 off.vts".replace(" ", "%20"))
    check(good and page.ask("document.title").startswith("50% off.vts"), "a name with a percent sign")
    is_quiet(page, "a name with a percent sign")
    page.close()


def test_paths(bench):
    """A path that is missing, bad or without keys: the map is there, and a sentence."""
    put(bench.path("none.path"), b"size 320 200\nfocal 160\n")
    put(bench.path("bad.path"), b"size 320 200\nfocal\n")
    put(bench.path("good.path"), b"size 320 200\nfocal 160\nat 0 0 10240 16384 0\nto 99 9000 0 10240 16384 0\n")
    for name, word in (("absent", "status 404"), ("none", "no key"), ("bad", "line 2")):
        page, good = bench.viewer("?store=stores/a.vts&path=stores/%s.path#%s" % (name, EXACT))
        check(good and word in text_of(page, "notes"), "path %s: %s" % (name, text_of(page, "notes")))
        look = Look(bench.stores["a"], WIDE, HIGH, None)
        check(differ(shown(page, look), look) == 0, "path %s: the map is drawn" % name)
        press(page, "f")
        check("path" in text_of(page, "notes"), "path %s: the sentence stays" % name)
        is_quiet(page, "path " + name, ["404"])
        page.close()
    page, good = bench.viewer("?store=stores/a.vts&path=stores/good.path")
    press(page, " ")
    page.until("viewer.path && viewer.shown > 5")
    check(text_of(page, "play") == "Stop", "the button stops a path that is played")
    press(page, " ")
    stopped = page.ask("viewer.look.view.u")
    check(page.ask("viewer.path === null") and text_of(page, "play") == "Play", "it is stopped")
    press(page, " ")
    page.until("viewer.shown > 5")
    check(page.ask("viewer.look.view.u") >= stopped, "it goes on where it was stopped")
    is_quiet(page, "a path that is stopped")
    page.close()


def choose_file(page, selector, file):
    root = page.call("DOM.getDocument")["root"]["nodeId"]
    node = page.call("DOM.querySelector", nodeId=root, selector=selector)["nodeId"]
    page.call("DOM.setFileInputFiles", nodeId=node, files=[file])


DROP = """fetch('stores/%s').then((it) => it.blob()).then((blob) => {
  const data = new DataTransfer();
  data.items.add(new File([blob], '%s'));
  dispatchEvent(new DragEvent('drop', { dataTransfer: data, cancelable: true }));
})"""


def test_files(bench):
    """A wrong file of this computer and then a right one; a dropped file; a list of stores."""
    put(bench.path("wrong.vts"), b"not a store at all")
    page = bench.open("#" + EXACT)
    page.until("document.querySelectorAll('#stores a').length > 3")
    check("700 × 500" in text_of(page, "stores"), "the stores of the server are listed")
    choose_file(page, "#local", bench.path("wrong.vts"))
    page.until("document.getElementById('trouble').textContent.includes('is no store')")
    check(page.ask("document.getElementById('choose').checkVisibility()"), "choose again")
    choose_file(page, "#local", bench.path("a.vts"))
    page.until("!!window.viewer")
    check(page.ask("viewer.sharp()") and page.ask("trouble.hidden"), "a right file after a wrong one")
    look = Look(bench.stores["a"], WIDE, HIGH, None)
    check(differ(shown(page, look), look) == 0, "a file of this computer: its pixels")
    # A graphics processor that is lost comes back with the same file and look.
    page.ask("viewer.move({ mode: 'map', u: 200, v: 100, scale: 1 }), viewer.sharp()")
    page.ask("window.lose = viewer.screen.gl.getExtension('WEBGL_lose_context'), window.old = viewer, lose.loseContext()")
    page.until("!document.getElementById('trouble').hidden")
    check("graphics processor" in text_of(page, "trouble"), "a lost graphics processor is named")
    page.ask("new Promise((done) => setTimeout(done, 50)).then(() => lose.restoreContext())")
    page.until("window.viewer && viewer !== old && viewer.look")
    check(page.ask("viewer.sharp()"), "a graphics processor that comes back")
    look = Look(bench.stores["a"], WIDE, HIGH, (200, 100, 1))
    check(differ(shown(page, look), look) == 0, "it comes back with file and view")
    page.ask(DROP % ("b.vts", "b.vts"))
    page.until("window.viewer && viewer.store.width === 300")
    check(page.ask("viewer.sharp()"), "a dropped store")
    is_quiet(page, "files", ["CONTEXT_LOST", "context"])
    page.close()
    page, _ = bench.viewer("?store=stores/none.vts")
    check("404" in text_of(page, "trouble"), "a store that is missing")
    put(bench.path("none.vts"), contents(bench.path("b.vts")))
    page.ask("document.querySelector('#trouble button').click()")
    page.until("window.viewer && viewer.store.width === 300")
    check(page.ask("trouble.hidden"), "a button tries again")
    os.remove(bench.path("none.vts"))
    page.close()


def test_replaced(bench):
    """A store that is replaced while it is shown: a button loads it anew, and all is of the new one."""
    put(bench.path("changing.vts"), contents(bench.path("a.vts")))
    page, good = bench.viewer("?store=stores/changing.vts#map=100,100,1&" + EXACT)
    check(good, "before the store is replaced")
    data = store_of(700, 500, 32, 1, 11)
    put(bench.path("changing.vts"), data)
    page.ask("viewer.move({ mode: 'map', u: 500, v: 300, scale: 1 })")
    check(page.ask("viewer.sharp()") is False, "a replaced store is noticed")
    button = "document.querySelector('#trouble button')"
    check(page.ask(button + ".textContent") == "Load it anew", "a button loads it anew")
    page.ask("window.old = viewer, %s.click()" % button)
    page.until("window.viewer && viewer !== old && viewer.look")
    check(page.ask("viewer.sharp()") and page.ask("trouble.hidden"), "it is loaded anew")
    look = Look(Store(data), WIDE, HIGH, (500, 300, 1))
    check(differ(shown(page, look), look) == 0, "all pixels are of the new store")
    is_quiet(page, "a replaced store")
    page.close()


def test_heights(bench):
    """Samples of two bytes: the range of the coarse levels, colours, hillshade, and their words."""
    page, good = bench.viewer("?store=stores/heights.vts#" + EXACT)
    least, most = page.ask("viewer.look.range")
    check(good and least < 200 and 3800 < most <= 4000, "the range: %s to %s" % (least, most))
    data = page.pixels("viewer.screen.pixels(viewer.look)")
    check(max(data[::4]) > 240, "heights are bright at the upper end")
    page.ask("viewer.set({ range: [1000, 3000], colours: 'terrain', hillshade: true, showsLevels: true })")
    page.until("location.hash.includes('range=1000,3000')")
    words = page.ask("location.hash")
    check(all(it in words for it in ("colours=terrain", "hillshade", "levels", EXACT)), words)
    page.close()
    page, good = bench.viewer("?store=stores/heights.vts" + words)
    look = page.ask("viewer.look")
    seen = [look[it] for it in ("range", "colours", "hillshade", "showsLevels")]
    check(good and seen == [[1000, 3000], "terrain", True, True], "the address has it: %s" % seen)
    page.ask("viewer.set({ showsLevels: false, hillshade: false, colours: 'viridis', range: [0, 4000] })")
    data = page.pixels("viewer.screen.pixels(viewer.look)")
    row = data[4 * WIDE * (HIGH // 2) : 4 * WIDE * (HIGH // 2 + 1)]
    ends = [tuple(row[4 * x : 4 * x + 3]) for x in (25, WIDE - 26)]
    near = lambda a, b: all(abs(x - y) < 40 for x, y in zip(a, b))
    check(near(ends[0], (68, 1, 84)) or near(ends[0], (70, 50, 126)), "viridis below: %s" % (ends[0],))
    check(near(ends[1], (253, 231, 37)) or near(ends[1], (160, 218, 57)), "viridis above: %s" % (ends[1],))
    page.ask("viewer.set({ colours: 'grey', hillshade: true })")
    page.ask("viewer.sharp()")
    lit = page.pixels("viewer.screen.pixels(viewer.look)")
    page.ask("viewer.set({ hillshade: false })")
    plain = page.pixels("viewer.screen.pixels(viewer.look)")
    at = 4 * (WIDE * (HIGH // 2) + WIDE // 2)
    check(0 < plain[at] < lit[at], "ground that rises to the east faces the light from the west")
    check(page.ask("getComputedStyle(heights).display") != "none", "its controls are there")
    is_quiet(page, "heights")
    page.close()


def test_hands(bench):
    """Turning, inertia, keys by the focus alone, list of keys, read-out, scale bar, phones."""
    page, good = bench.viewer("?store=stores/a.vts#map=350,250,1&" + EXACT, 700, 520)
    check(good, "before the hand")
    press(page, "]")
    check(abs(page.ask("viewer.look.view.turn") - 0.2617994) < 1e-6, "a key turns the map")
    check(page.ask("viewer.sharp()"), "a turned map becomes sharp")
    store, (width, height) = bench.stores["a"], page.ask("[viewer.canvas.width, viewer.canvas.height]")
    data, wrong = page.pixels("viewer.screen.pixels(viewer.look)"), 0
    for x, y in ((10, 10), (350, 260), (200, 130), (600, 300), (333, 77), (505, 404)):
        place = page.ask("viewer.texelAt(%s, %s)" % (x + 0.5, y + 0.5))
        at = 4 * ((height - 1 - y) * width + x)
        due = bytes(texel_of(store, int(place[0]), int(place[1]))) if place else bytes(BESIDE)
        wrong += data[at : at + 3] != due
    check(wrong <= 1, "a turned map: %d of 6 pixels are not the texel at their place" % wrong)
    press(page, "n")
    check(page.ask("viewer.look.view.turn") == 0 and page.ask("north.hidden"), "and back")
    before = page.ask("viewer.look.view.scale")
    page.ask("document.getElementById('filter').focus()")
    press(page, "1")
    press(page, "m")
    check(page.ask("viewer.look.view.mode") == "map", "letters act by the picture's focus alone")
    page.ask("viewer.canvas.focus()")
    press(page, "?")
    check(page.ask("document.getElementById('keys').open"), "the list of keys")
    page.ask("document.getElementById('keys').close()")
    mouse = lambda kind, x, y, **more: page.call("Input.dispatchMouseEvent", type=kind, x=x, y=y, **more)
    mouse("mouseMoved", 350, 260)
    page.until("document.getElementById('value').textContent.includes('level 0')")
    texel = "texel 350, 250 · level 0 · %d %d %d" % tuple(texel_of(store, 350, 250))
    check(text_of(page, "value") == texel, "the read-out: " + text_of(page, "value"))
    check(before == 1 and text_of(page, "length") == "100 texels", "the bar: " + text_of(page, "length"))
    width = page.ask("document.querySelector('#bar i').getBoundingClientRect().width")
    check(width == 100, "the bar's length: %s" % width)
    drag(page, mouse)
    at_end = page.ask("viewer.look.view.u")
    page.until("viewer.look.view.u !== %s" % at_end)
    check(page.ask("viewer.look.view.u") < 320, "the map glides on")
    page.call("Emulation.setEmulatedMedia", features=[{"name": "prefers-reduced-motion", "value": "reduce"}])
    page.ask("viewer.canvas.dispatchEvent(new KeyboardEvent('keydown', { key: 'Shift' }))")
    page.ask("viewer.move({ mode: 'map', u: 350, v: 250, scale: 1 })")
    drag(page, mouse)
    held = page.ask("viewer.look.view.u")
    time.sleep(0.2)
    check(page.ask("viewer.look.view.u") == held, "with less motion it stays")
    is_quiet(page, "hands")
    page.close()
    for width, height in ((844, 390), (390, 844), (640, 360)):
        page, good = bench.viewer("?store=stores/a.vts", width, height)
        check(page.ask("panel.hidden") or width == 844, "a phone of %dx%d" % (width, height))
        for name in ("more", "less"):
            page.ask("if (%s) more.click()" % ("panel.hidden" if name == "less" else "!panel.hidden"))
            page.ask("document.getElementById('%s').scrollIntoView()" % name)
            over = "(() => { const it = %s.getBoundingClientRect(); return document.elementFromPoint(it.x + it.width / 2, it.y + it.height / 2).id; })()"
            check(page.ask(over % name) == name, "%dx%d: %s can be touched" % (width, height, name))
        page.close()


def drag(page, mouse):
    """A quick drag to the right, at its own times, since the machine may be slow."""
    page.ask("viewer.canvas.focus()")
    begun, held = time.time(), {"button": "left", "buttons": 1}
    mouse("mousePressed", 300, 200, clickCount=1, timestamp=begun, **held)
    for i in range(1, 5):
        mouse("mouseMoved", 300 + 10 * i, 200, timestamp=begun + 0.016 * i, **held)
    mouse("mouseReleased", 340, 200, button="left", timestamp=begun + 0.07)


def test_flights(bench):
    """By hand a flight goes by both sides of a pixel; a path by the width; a few frames by coarser levels."""
    page, good = bench.viewer("?store=stores/a.vts", 480, 300)
    count = "(%s, viewer.sharp()).then(() => viewer.session.wanted.pages.length)"
    flight = "viewer.move({ mode: 'fly', u: 350, v: 400, h: 40, c: 0, s: -1, focal: 0.5 }, %s)"
    walk, hand = (page.ask(count % (flight % it)) for it in ("true", "false"))
    check(0 < hand < walk / 2, "pages of a flight: %d by hand, %d of a path" % (hand, walk))
    page.close()
    page, good = bench.viewer("?store=stores/a.vts&frames=40&pinned=1", 480, 300)
    page.ask(count % (flight % "false"))
    check(page.ask("viewer.bias > 0 && viewer.session.fits()"), "too few frames: coarser levels")
    page.ask("viewer.fit()")
    check(page.ask("viewer.sharp()") and page.ask("viewer.isSharp"), "and a map after it")
    is_quiet(page, "flights")
    page.close()
    # In a portrait window a pixel at the bottom is as deep as in one held wide.
    page, good = bench.viewer("?store=stores/a.vts", 300, 480)
    page.ask(count % (flight % "false"))
    tall = page.ask("[viewer.texelAt(150, 470)[1] - viewer.texelAt(150, 460)[1], viewer.texelAt(160, 470)[0] - viewer.texelAt(150, 470)[0]]")
    check(0.3 < tall[0] / tall[1] < 1, "a portrait window: %s" % tall)
    page.close()


def test_access(bench):
    """Live regions that change only with their sentence; names; a page that was opened as a file."""
    script = "window.changes = 0; addEventListener('DOMContentLoaded', () => { for (const it of ['trouble', 'passing']) new MutationObserver(() => { changes++; }).observe(document.getElementById(it), { childList: true, subtree: true, characterData: true }); });"
    bench.site.amiss = lambda number, *_: 503 if number > 3 else None
    page = bench.open("?store=stores/a.vts&pinned=1#map=350,250,1", script=script)
    time.sleep(4)
    count = page.ask("changes")
    check(count <= 4, "sentences were written %d times in four seconds of 503" % count)
    bench.site.amiss = None
    page.close()
    page, good = bench.viewer("?store=stores/a.vts")
    nameless = "[...document.querySelectorAll('canvas, button, select, input, a')].filter((it) => it.checkVisibility() && !it.ariaLabel && !it.textContent.trim() && !it.closest('label') && !it.title && !it.closest('#levels')).map((it) => it.id)"
    check(page.ask(nameless) == [], "controls without a name: %s" % page.ask(nameless))
    small = "[...document.querySelectorAll('#tools button, #tools select')].filter((it) => it.checkVisibility() && it.getBoundingClientRect().height < 24).map((it) => it.id)"
    check(page.ask(small) == [], "controls that are too small: %s" % page.ask(small))
    colour = "getComputedStyle(document.body).color"
    found = set()
    for scheme in ("dark", "light"):
        page.call("Emulation.setEmulatedMedia", features=[{"name": "prefers-color-scheme", "value": scheme}])
        found.add(page.ask(colour))
    check(len(found) == 2, "light and dark: %s" % found)
    page.close()
    page = bench.there.open("about:blank", WIDE, HIGH, keeps=True)
    page.go("file://" + os.path.join(browser.serve.HERE, "index.html"))
    page.until("getComputedStyle(early).visibility === 'visible'")
    check("serve.py" in text_of(page, "early"), "a page that was opened as a file")
    page.close()
    page = bench.open("player.html", 900, 600)
    page.until("document.getElementById('told').hidden")
    check(page.ask(nameless) == [], "player: controls without a name: %s" % page.ask(nameless))
    page.close()


TESTS = (
    test_element,
    test_two,
    test_overlays,
    test_values,
    test_errors,
    test_embedding,
    test_types,
    test_shapes,
    test_paths,
    test_files,
    test_replaced,
    test_heights,
    test_hands,
    test_flights,
    test_access,
)
LONG = (test_shapes, test_access, test_paths, test_types, test_hands, test_flights)


def run(words):
    with tempfile.TemporaryDirectory(prefix="vtex-component-") as folder:
        for name, make in STORES.items():
            put(os.path.join(folder, name + ".vts"), make())
        stores = {name: Store(contents(os.path.join(folder, name + ".vts"))) for name in STORES}
        with browser.Site(folder) as site, browser.Browser() as there:
            bench = Bench(site, there, stores, words.short)
            for test in TESTS:
                if words.only not in (None, test.__name__) or (words.short and test in LONG):
                    continue
                begun = time.monotonic()
                try:
                    test(bench)
                except browser.Failed as error:
                    check(False, "%s: %s" % (test.__name__, error))
                print("%s: %.0f s" % (test.__name__, time.monotonic() - begun), flush=True)


def main():
    parser = argparse.ArgumentParser(
        description=__doc__, formatter_class=argparse.RawDescriptionHelpFormatter
    )
    parser.add_argument("--short", action="store_true")
    parser.add_argument("--only")
    words = parser.parse_args()
    if browser.find() is None:
        print("left out: Chromium is not installed (Debian: apt-get install chromium)")
    else:
        run(words)
    print("%d passed, %d failed" % (passed, failed))
    return 1 if failed else 0


if __name__ == "__main__":
    sys.exit(main())
