// The tiles of a store for the player: those that its pictures show, read as they are lacking, and held within a bound.
import { openStore, tileStart } from './geometry.js';
import { mostOf, runsOf } from './runs.js';
import { tried } from './source.js';

const WHOLE = 4 << 20, MOST_HELD = 256 << 20, REQUESTS = 6;

/** How often a request of the player is tried again. */
export const AGAIN = 3;

/** A store that is open: its geometry, and its tiles as far as they were read. A small one is read whole. */
export class TileSource {
  static async open(library, source, signal) {
    const head = await tried(() => source.open(signal), { signal, most: AGAIN }), { length } = source, tiles = new TileSource();
    Object.assign(tiles, { source, store: openStore(library, head, length), tiles: new Map(), held: 0, read: head.length, whole: null });
    if (length <= WHOLE) {
      tiles.whole = await tiles.bytes(0, length, signal);
      tiles.read = length;
    }
    return tiles;
  }

  // The bytes of the file from `start` up to `end`.
  async bytes(start, end, signal) {
    const bytes = new Uint8Array(end - start);
    await tried(() => this.source.read(start, bytes, () => {}, signal), { signal, most: AGAIN });
    return bytes;
  }

  /** A page's tile, or null where it was not read. */
  at(page) {
    if (this.whole !== null) return this.whole.subarray(tileStart(this.store, page), tileStart(this.store, page + 1));
    const tile = this.tiles.get(page) ?? null;
    if (tile !== null) {
      this.tiles.delete(page);
      this.tiles.set(page, tile);
    }
    return tile;
  }

  /** Reads the tiles of some pages. Those that follow one another are read at once, and some requests go at a time. */
  async load(pages, signal) {
    const runs = runsOf([...pages].sort((a, b) => a - b), mostOf(this.store)), next = async () => {
      for (let run; (run = runs.pop()) !== undefined;) await this.loadRun(run, signal);
    };
    await Promise.all(Array.from({ length: Math.min(REQUESTS, runs.length) }, next));
  }

  async loadRun([first, count], signal) {
    const { store } = this, { tileBytes } = store, bytes = await this.bytes(tileStart(store, first), tileStart(store, first + count), signal);
    for (let i = 0; i < count; i++) this.tiles.set(first + i, bytes.slice(i * tileBytes, (i + 1) * tileBytes));
    this.held += bytes.length;
    this.read += bytes.length;
  }

  /** Lets go of the tiles that were used longest ago where there are too many. */
  trim() {
    for (const page of this.tiles.keys()) {
      if (this.held <= MOST_HELD) break;
      this.tiles.delete(page);
      this.held -= this.store.tileBytes;
    }
  }
}
