"""Flips bytes of a walk's files one at a time, and says which flips evidence.py finds, and where those lie that it does not."""
import random
from collections import Counter

NOT_FOUND = {
    "header": "in the header of the store: with this side each pixel shows the same",
    "tile": "in a tile that no picture shows",
    "texel": "in a texel that no pixel shows, of a tile that a picture shows",
    "blend": "in a texel that a blend shows, by less than half a step",
    "map": "in a `map` line: a frame, which no picture shows, or a page that no row shows",
    "unmap": "in an `unmap` line: a page that no row shows any more",
    "lost": "in a `lost` line: a page that came to nothing",
    "pass": "in a `pass` line: a pass that was drawn again",
    "row": "in a `row` line: the sampler, a version that shows the same, or a row that was drawn again",
}


def where(evidence, shown, kind, at):
    """In what part of the journal or the store a byte lies, of which these texels are shown."""
    if kind == "journal":
        return evidence.journal[evidence.journal.rfind(b"\n", 0, at) + 1 :].split(b" ")[0].decode()
    if at < 16:
        return "header"
    store = evidence.replay()[1]
    if any(texel <= at < texel + 3 * store.depth for texel in shown):
        return "blend"
    return "texel" if (at - 16) // store.tile_bytes in {(texel - 16) // store.tile_bytes for texel in shown} else "tile"


def flip(evidence, most):
    """Flips the lowest bit of so many bytes of each kind of file, or of each byte with 0."""
    shown = {texel for _, rows in evidence.rows() for pixels in rows for pixel in pixels for _, _, texel in pixel}
    for kind in ("journal", "pictures", "store"):
        held, chance, missed = getattr(evidence, kind), random.Random(1), []
        files = held if kind == "pictures" else [held]
        places = [(number, at) for number, data in enumerate(files) for at in range(len(data))]
        places = places if most == 0 else chance.sample(places, min(most, len(places)))
        for number, at in places:
            other = list(files)
            other[number] = files[number][:at] + bytes([files[number][at] ^ 1]) + files[number][at + 1 :]
            setattr(evidence, kind, other if kind == "pictures" else other[0])
            missed += [] if not evidence.agrees() else [at]
        setattr(evidence, kind, held)
        print("%s: %d of %d flips are found" % (kind, len(places) - len(missed), len(places)))
        for part, count in sorted(Counter(where(evidence, shown, kind, at) for at in missed).items()):
            print("  not found: %d %s" % (count, NOT_FOUND[part]))
