#!/usr/bin/env python3
"""Tests the viewer of examples/viewer: its WebAssembly modules, and the page in headless Chromium.

usage: viewer.py [--node | --modules | --page] [--short] [--only TEST] [--shots FOLDER]

`--node`: what needs node alone: vtex.js, and, with gcc and the library for C, both modules by 300 random runs beside it. `--modules`: this, and whether the
modules are those of a fresh build, which wants rt and `rt lib` in crates/vtex_c once. `--page`: the page alone, in Chromium. `--short`: all but the fresh
build, with fewer views, in one to two minutes. What is not installed is left out, and the output says so. `--only`: one test of the page by its name.
`--shots`: a folder for pictures of the page.

The page's pictures are compared with the texels of the store's file, which this script reads by itself; and the requests of the page, which the server
notes, with the pages that the picture's pixels want. The last line is `N passed, M failed`.
"""
import argparse
import os
import random
import shutil
import sys
import tempfile
import time

TOP = os.path.dirname(os.path.dirname(os.path.abspath(__file__)))
sys.path[:0] = [os.path.join(TOP, "tests"), os.path.join(TOP, "tests", "viewer")]
import browser  # noqa: E402
import modules  # noqa: E402
import textures  # noqa: E402
from looks import Look, differ, flight_differs, mapped_of, pages_asked, reaches, shown  # noqa: E402
from stores import Path, Store  # noqa: E402

WIDE, HIGH = 320, 200
passed, failed, left_out, is_short = 0, 0, [], False


def say(good, what):
    global passed, failed
    passed, failed = passed + bool(good), failed + (not good)
    if not good:
        print("failed: " + what)


def contents(name):
    with open(name, "rb") as file:
        return file.read()


def make_stores(folder):
    """Stores of noise: their names, sides, tiles and depths."""
    for name, width, height, tile, depth in (("a", 700, 500, 32, 1), ("wide", 300, 200, 16, 2), ("small", 65, 33, 4, 1), ("one", 50, 40, 64, 2), ("line", 1500, 3, 8, 1), ("fine", 700, 500, 2, 1), ("sixteen", 700, 500, 16, 1)):
        _, texture = textures.read_image(b"".join(textures.noise(width, height, 7, depth)))
        with open(os.path.join(folder, name + ".vts"), "wb") as file:
            file.write(textures.store_of(depth, textures.chain_of(texture, tile), tile))


# ---- what is shown, and what is asked for


def sharp(page, seconds=90):
    return page.ask("ready.then((viewer) => viewer && viewer.sharp())", seconds)


def exact(store, words):
    """The words of a view that is drawn by the nearest texels and, of samples of two bytes, by their whole range."""
    return (words + "&" if words else "#") + "filter=nearest" + "&range=0,65535" * (store.depth == 2)


def views_of(store, number):
    """Some maps of a store: whole, and of texels and parts of texels, near its middle and its corners."""
    g, choose = store.geometry, random.Random(number)
    most = max(1, 2 * min(max(g.width / WIDE, g.height / HIGH), min(g.width, g.height) / 2))  # the page shows no map that is smaller
    yield "", None
    scales = (1, 0.5, 2, 3, 0.078125, choose.randrange(8, 640) / 64)
    for scale in scales[: 2 if is_short else None]:
        u, v = choose.choice([(g.width / 2, g.height / 2), (0, 0), (g.width, 0), (choose.randrange(g.width), choose.randrange(g.height))])
        yield "#map=%s,%s,%s" % (u, v, scale), (u, v, min(scale, most))


def test_maps(site, there, stores):
    """Each pixel of settled maps is the store's texel; asked are the header, the pinned tiles, and each tile that is wanted or above such a one, once."""
    for number, (name, store) in enumerate(sorted(stores.items())):
        for words, view in views_of(store, number):
            site.asked.clear()
            choice = random.Random(name + words)
            options = "&module=32" * choice.randrange(2) + "&pinned=1" * choice.randrange(2) + "&bare" * choice.randrange(2)
            words = exact(store, words)
            page = there.open("%s?store=stores/%s.vts%s%s" % (site.base, name, options, words), WIDE, HIGH)
            what = name + options + words
            say(sharp(page), what + ": it becomes sharp")
            look = Look(store, WIDE, HIGH, view)
            say(differ(shown(page, look), look) == 0, what + ": a pixel is not the store's texel")
            pinned = page.ask("viewer.session.cache.pinned")
            say(site.asked[0][1:] == (0, 16) and site.asked[1][1:] == reaches(store, store.geometry.pages - pinned, pinned), what + ": header and pinned tiles come first")
            asked = sorted(pages_asked(store, site.asked[2:]))
            say(asked == sorted(look.lines() - set(range(store.geometry.pages - pinned, store.geometry.pages))), what + ": asked are the tiles that are wanted, and those above them, once")
            say(page.ask("viewer.session.link.bytes") + 16 == sum(end - start for _, start, end in site.asked), what + ": the panel's bytes")
            say(page.told == [], what + ": " + " ".join(page.told))
            page.close()


def test_blends(site, there, stores):
    """Bilinear maps are the blends of the store's texels, but for the rounding of the last bit."""
    for name in ("a", "wide", "small"):
        for words, view in list(views_of(stores[name], 5))[1 : 2 if is_short else 5]:
            page = there.open("%s?store=stores/%s.vts%s" % (site.base, name, exact(stores[name], words).replace("nearest", "bilinear")), WIDE, HIGH)
            say(sharp(page), name + words + ": a blend becomes sharp")
            look = Look(stores[name], WIDE, HIGH, view, is_bilinear=True)
            say(differ(shown(page, look), look, most=1) == 0, name + words + ": a pixel is not the blend")
            say(page.told == [], name + words + ": " + " ".join(page.told))
            page.close()


def test_flights(site, there, stores):
    """Flights are those of `vtex walk` but for pixels at the edge of a texel, since the page computes in floats; a path is played to its end."""
    text = b"size 320 200\nfocal 160\nat 0 0 10240 16384 0\nat 30000 60000 20480 -11585 11585\nto 12 60000 9000 30480 14000 6000\n"
    path = Path(text)
    for picture in (1,) if is_short else (0, 1, 13):
        u, v, h, c, s = path.cameras[picture]
        page = there.open(site.base + "?store=stores/a.vts&bare#filter=nearest", WIDE, HIGH)
        say(sharp(page), "before a flight")
        page.ask("viewer.move({ mode: 'fly', u: %d / 256, v: %d / 256, h: %d / 256, c: %d / 16384, s: %d / 16384, focal: 160 / 320 }, true)" % (u, v, h, c, s))
        say(page.ask("viewer.sharp()"), "a flight becomes sharp")
        look = Look(stores["a"], WIDE, HIGH, None)
        part = flight_differs(shown(page, look), stores["a"], path, picture)
        say(part < 0.02, "a flight has %.1f %% other pixels than vtex walk" % (100 * part))
        page.close()
    with open(os.path.join(site.folder, "flight.path"), "wb") as file:
        file.write(text)
    page = there.open(site.base + "?store=stores/a.vts&path=stores/flight.path", WIDE, HIGH)
    say(sharp(page), "before a path")
    page.ask("document.getElementById('play').click()")
    page.until("viewer.path === null && Math.abs(viewer.look.view.u - 60000 / 256) < 1e-9")
    say(page.ask("viewer.sharp()") and page.told == [], "a path is played to its end")
    page.close()


# ---- faults


def test_faults(site, there, stores):
    trouble = "ready.then(() => document.getElementById('trouble').textContent)"
    said = lambda page: [line for line in page.told if "503" not in line and "404" not in line]

    def opened(words, **how):
        return there.open(site.base + words, WIDE, HIGH, **how)

    site.amiss = lambda number, *_: 503 if number == 1 or number % 3 == 0 else None
    site.asked.clear()
    page = opened("?store=stores/a.vts#map=350,250,1&filter=nearest")
    say(sharp(page) and page.ask("viewer.session.link.failures") > 0, "one answer in three is a 503, and it becomes sharp")
    look = Look(stores["a"], WIDE, HIGH, (350, 250, 1))
    say(differ(shown(page, look), look) == 0 and said(page) == [], "its pixels are the store's texels")
    page.close()
    site.amiss = None

    site.ranges = False
    page = opened("?store=stores/a.vts")
    say("serves no byte ranges" in page.ask(trouble) and page.told == [], "a server without ranges is named")
    page.close()
    site.ranges = True

    for name, words in (("index.html", "is no store"), ("stores/none.vts", "status 404"), ("stores/short.vts", "is no store"), ("stores/empty.vts", "is no store")):
        with open(os.path.join(site.folder, "short.vts"), "wb") as file:
            file.write(contents(os.path.join(site.folder, "a.vts"))[:-1])
        open(os.path.join(site.folder, "empty.vts"), "wb").close()
        page = opened("?store=" + name)
        told = page.ask(trouble)
        say(words in told and [line for line in said(page) if "416" not in line] == [], "%s: %s" % (name, told))
        page.close()

    changing = os.path.join(site.folder, "changing.vts")
    shutil.copyfile(os.path.join(site.folder, "a.vts"), changing)
    page = opened("?store=stores/changing.vts")
    say(sharp(page), "before its store is replaced")
    data = bytearray(contents(changing))
    data[16] ^= 1
    with open(changing, "wb") as file:
        file.write(data)
    page.ask("viewer.move({ mode: 'map', u: 300, v: 200, scale: 1 })")
    say(page.ask("viewer.sharp()") is False and "was replaced" in page.ask(trouble) and page.told == [], "a store that was replaced is noticed")
    page.close()

    page = opened("?store=stores/a.vts", script="HTMLCanvasElement.prototype.getContext = () => null")
    say("no WebGL 2" in page.ask(trouble), "a browser without WebGL 2 is told")
    page.close()
    page = opened("")
    say(page.ask("document.getElementById('choose').checkVisibility()") and page.told == [], "without a store the page asks for one")
    page.close()


def test_few_frames(site, there, stores):
    """With too few frames the picture settles on the finest pages that are mapped."""
    for frames in (21, 40):
        page = there.open(site.base + "?store=stores/a.vts&pinned=1&frames=%d#map=350,250,1&filter=nearest" % frames, WIDE, HIGH)
        say(sharp(page), "%d frames settle" % frames)
        look = Look(stores["a"], WIDE, HIGH, (350, 250, 1), mapped_of(page))
        say(len(look.table) == frames, "all frames are used")
        say(differ(shown(page, look), look) == 0 and page.told == [], "with %d frames a pixel is the texel of the finest mapped page" % frames)
        page.close()


def test_small_tiles(site, there, stores):
    """A request has a whole row of wanted tiles, so that small ones stay usable: 16,000 tiles of two texels a side take some 200 requests."""
    for name in ("fine", "sixteen"):
        with open(os.path.join(site.folder, name + ".vts"), "rb") as file:
            store = Store(file.read())
        site.asked.clear()
        page = there.open(site.base + "?store=stores/%s.vts&pinned=1#map=350,250,1&filter=nearest" % name, WIDE, HIGH)
        say(sharp(page, 60), name + ": it becomes sharp")
        look = Look(store, WIDE, HIGH, (350, 250, 1))
        say(differ(shown(page, look), look) == 0, name + ": a pixel is not the store's texel")
        most = 2 + sum(min(-(-HIGH // 2**k // store.geometry.tile) + 2, rows) for k, (_, _, _, rows, _) in enumerate(store.geometry.levels))
        say(len(site.asked) <= most, "%s: %d requests, at most %d are due" % (name, len(site.asked), most))
        say(page.told == [], name + ": " + " ".join(page.told))
        page.close()


# ---- a slow link, and the hand


def test_link(site, there, stores):
    """On a slow link the first picture comes long before the sharp one, and a request that nothing wants any more is given up."""
    page = there.open("about:blank", WIDE, HIGH)
    page.link(2e6, 60)
    page.go(site.base + "?store=stores/a.vts&pinned=2#map=100,100,1&filter=nearest")
    page.until("window.viewer && viewer.times.first > 0")
    say(page.ask("viewer.isSharp") is False, "the first picture is coarse")
    page.until("viewer.session.link.flights.size >= 2 && viewer.session.tiles > 20")
    page.ask("viewer.move({ mode: 'map', u: 600, v: 400, scale: 1 })")
    say(page.ask("viewer.sharp()"), "after a jump it becomes sharp")
    say(page.ask("viewer.session.link.aborted") > 0, "a request for what is no longer wanted is given up")
    look = Look(stores["a"], WIDE, HIGH, (600, 400, 1))
    say(differ(shown(page, look), look) == 0 and page.told == [], "after a jump each pixel is the store's texel")
    page.close()


def test_hand(site, there, stores):
    page = there.open(site.base + "?store=stores/a.vts", WIDE, HIGH)
    page.call("Emulation.setEmulatedMedia", features=[{"name": "prefers-reduced-motion", "value": "reduce"}])
    say(sharp(page), "before the hand")
    view, key = (lambda: page.ask("viewer.look.view")), (lambda name: [page.call("Input.dispatchKeyEvent", type=kind, key=name) for kind in ("keyDown", "keyUp")])
    mouse = lambda kind, x, y, **more: page.call("Input.dispatchMouseEvent", type=kind, x=x, y=y, button="left", **more)
    key("1")
    say((view()["u"], view()["v"], view()["scale"]) == (350, 250, 1), "the key 1 shows a texel a pixel")
    mouse("mousePressed", 150, 60, buttons=1, clickCount=1)
    for x in (140, 120, 110):
        mouse("mouseMoved", x, 80, buttons=1)
    mouse("mouseReleased", 110, 80)
    say((view()["u"], view()["v"]) == (390, 230), "dragging moves the map with the hand")
    before = view()
    page.call("Input.dispatchMouseEvent", type="mouseWheel", x=200, y=50, deltaX=0, deltaY=-300)
    page.until("viewer.look.view.scale < 1")
    under = lambda it: (it["u"] + (200 - WIDE / 2) * it["scale"], it["v"] + (50 - HIGH / 2) * it["scale"])
    say(view()["scale"] == 0.5 and max(abs(a - b) for a, b in zip(under(before), under(view()))) < 1e-9, "the wheel zooms about the pointer")
    page.call("Emulation.setTouchEmulationEnabled", enabled=True, maxTouchPoints=2)
    touch = lambda kind, *at: page.call("Input.dispatchTouchEvent", type=kind, touchPoints=[{"x": x, "y": y, "id": i} for i, (x, y) in enumerate(at)])
    touch("touchStart", (100, 100), (140, 100))
    touch("touchMove", (90, 100), (170, 100))
    touch("touchEnd")
    page.until("Math.abs(viewer.look.view.scale - 0.25) < 0.01")
    say(True, "two fingers zoom")
    say(page.ask("viewer.sharp()"), "after the hand it becomes sharp")
    time.sleep(0.5)
    address, drawn = page.ask("location.href"), page.ask("viewer.look.view")
    other = there.open(address, WIDE, HIGH)
    say(sharp(other) and max(abs(other.ask("viewer.look.view")[it] - drawn[it]) for it in ("u", "v", "scale")) < 0.01, "the address has the view")
    other.close()
    key("m")
    say(view()["mode"] == "fly", "the key M flies")
    key("ArrowUp")
    key("m")
    say(view()["mode"] == "map" and view()["v"] < drawn["v"], "and back, further on")
    key("f")
    say(page.ask("viewer.sharp()") and view()["scale"] == 2.5, "the key F fits")
    cells = "[...document.querySelectorAll('#levels canvas')].map((it) => { const all = it.getContext('2d').getImageData(0, 0, it.width, it.height).data; let n = 0; for (let i = 0; i < all.length; i += 4) n += all[i] !== 58; return n; })"
    page.ask("document.getElementById('more').click()")
    say(sum(page.ask(cells)) == page.ask("viewer.session.frames - viewer.session.cache.info().free"), "the panel's levels have a spot for each mapped page")
    say(page.told == [], "the hand: " + " ".join(page.told))
    page.close()


def test_local_file(site, there, stores):
    """A store of this computer, chosen in the page, is shown with no request."""
    page = there.open(site.base + exact(stores["wide"], ""), WIDE, HIGH)
    site.asked.clear()
    root = page.call("DOM.getDocument")["root"]["nodeId"]
    node = page.call("DOM.querySelector", nodeId=root, selector="#local")["nodeId"]
    page.call("DOM.setFileInputFiles", nodeId=node, files=[os.path.join(site.folder, "wide.vts")])
    page.until("!!window.viewer")
    say(sharp(page) and site.asked == [], "a store of this computer is shown")
    look = Look(stores["wide"], WIDE, HIGH, None)
    say(differ(shown(page, look), look) == 0 and page.told == [], "each pixel is the store's texel")
    page.close()


def take_shots(site, there, folder):
    for name, words in (("map", "#map=350,250,1"), ("flight", "#fly=100,400,40,-40"), ("levels", "#fly=100,400,40,-40")):
        page = there.open(site.base + "?store=stores/a.vts" + words, 960, 600)
        sharp(page)
        if name == "levels":
            page.ask("viewer.set({ showsLevels: true }), viewer.sharp()")
        page.shot(os.path.join(folder, name + ".png"))
        page.close()


TESTS = (test_maps, test_blends, test_flights, test_faults, test_few_frames, test_small_tiles, test_link, test_hand, test_local_file)


def test_page(shots, only):
    with tempfile.TemporaryDirectory(prefix="vtex-viewer-") as folder:
        make_stores(folder)
        stores = {name: Store(contents(os.path.join(folder, name + ".vts"))) for name in ("a", "wide", "small", "one", "line")}
        with browser.Site(folder) as site, browser.Browser() as there:
            for test in [it for it in TESTS if only in (None, it.__name__)]:
                begun = time.monotonic()
                test(site, there, stores)
                print("%s: %.0f s" % (test.__name__, time.monotonic() - begun), flush=True)
            if shots:
                take_shots(site, there, shots)


def main():
    global is_short
    parser = argparse.ArgumentParser(description=__doc__, formatter_class=argparse.RawDescriptionHelpFormatter)
    for name in ("--node", "--modules", "--page", "--short"):
        parser.add_argument(name, action="store_true")
    parser.add_argument("--shots")
    parser.add_argument("--only")
    words = parser.parse_args()
    is_short = words.short
    if not words.page and shutil.which("node") is None:
        left_out.append("the modules in node, which is not installed (Debian: apt-get install nodejs)")
    elif not words.page:
        modules.check_node(say, left_out.append)
    if not (words.page or words.node or words.short):
        modules.check_build(say, left_out.append)
    if not (words.modules or words.node):
        if browser.find() is None:
            left_out.append("the page, since Chromium is not installed (Debian: apt-get install chromium)")
        else:
            test_page(words.shots, words.only)
    for what in left_out:
        print("left out: " + what)
    print("%d passed, %d failed" % (passed, failed))
    return 1 if failed else 0


if __name__ == "__main__":
    sys.exit(main())
