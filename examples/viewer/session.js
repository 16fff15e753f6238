// A cache and its link: what is wanted goes in, what is mapped comes out. Nothing here draws.
import { parentsOf } from './geometry.js';
import { CAME, LOST, UNDER_WAY } from './vtex.js';

const ALL = 65535;                                         // no cache has more frames, so no plan more loads
const EARLY_BYTES = 32e6;                                  // tiles that came before their parents are held up to here, even if nothing needs them

/** Which pages the pixels of the view want, and how many pixels each. */
export class Wanted {
  constructor(pages) {
    this.pixels = new Uint32Array(pages);
    this.pages = [];
  }

  clear() {
    for (const page of this.pages) this.pixels[page] = 0;
    this.pages = [];
  }

  add(page, pixels = 1) {
    if (this.pixels[page] === 0) this.pages.push(page);
    this.pixels[page] += pixels;
  }

  pairs() {
    const list = new Uint32Array(2 * this.pages.length);
    this.pages.forEach((page, i) => { [list[2 * i], list[2 * i + 1]] = [page, this.pixels[page]]; });
    return list;
  }
}

/** The pages that some wanted pages need: these, and all above them. */
export class Needed {
  constructor(store) {
    this.parents = parentsOf(store);
    this.stamps = new Uint32Array(store.pages);
    this.stamp = 0;
    this.pages = [];
  }

  has(page) { return this.stamps[page] === this.stamp; }

  /** Takes other wanted pages. */
  set(wanted) {
    this.stamp++;
    this.pages = [];
    for (let page of wanted) {
      for (; page >= 0 && !this.has(page); page = this.parents[page]) {
        this.stamps[page] = this.stamp;
        this.pages.push(page);
      }
    }
  }
}

export class Session {
  /** `upload` is called for each change, in order, with its page, its frame, whether it is a map, and the tile of a map. */
  constructor(store, link, { frames, levels, upload }) {
    Object.assign(this, { store, link, frames, upload });
    this.cache = store.cache(frames, levels);
    this.wanted = new Wanted(store.pages);
    this.needed = new Needed(store);
    this.mapped = new Uint8Array(store.pages);             // 1 for each page that has a frame
    this.early = new Map();                                // tiles that came before the cache planned them
    this.isSettled = false;                                // the last pass found nothing to load, and nothing is on its way
    Object.assign(this, { passes: 0, passTime: 0, lastPass: 0, tiles: 0 });
  }

  /** Reads and uploads the pinned pages, which are the last of the file, by one request. */
  async pin() {
    const { cache, store } = this, first = store.pages - cache.pinned, size = store.tileBytes;
    const bytes = await this.link.readRun(first, cache.pinned);
    this.show((page) => bytes.subarray((page - first) * size, (page - first + 1) * size));
  }

  /** Settles what has come. Where a request was freed, or `isNew` says that other pages are wanted, it passes what is wanted (which may be nothing), and
   *  sends what the link can carry. Returns whether the page table changed. */
  step(isNew = false) {
    if (isNew) {
      this.needed.set(this.wanted.pages);
      this.link.abort((page) => !this.needed.has(page));
    }
    let changed = this.take();
    if (this.link.trouble) return changed;
    if (isNew || this.link.isFreed || (changed && this.early.size > 0)) changed = this.pass() || changed;
    return changed;
  }

  // Passes what is wanted until no tile that came early is planned any more. Whole runs of what the picture needs are sent, also below pages that did
  // not come yet: their tiles wait for their parents here. What is planned and not sent is settled as lost at once, and so planned anew by the next pass.
  pass() {
    const { cache, link, early } = this;
    let changed = false;
    for (let shown = true; shown;) {
      const before = cache.info().loads, begun = performance.now();
      cache.passWanted(this.wanted.pairs(), ALL);
      this.lastPass = performance.now() - begun;
      this.passTime += this.lastPass;
      this.passes++;
      const loads = cache.loads(), planned = [];
      for (let i = 3 * before; i < loads.length; i += 3) planned.push(loads[i]);
      link.send((this.fits() ? this.needed.pages : planned).filter((page) => !this.isThere(page)));
      this.isSettled = loads.length === 0;
      shown = planned.length > 0 && this.settle(loads, before, early);
      changed = shown || changed;
    }
    this.trim();
    return changed;
  }

  isThere(page) { return this.mapped[page] === 1 || this.early.has(page) || this.link.isUnderWay(page); }

  // Whether there are frames for all that the picture needs, beside the pinned pages.
  fits() {
    const first = this.store.pages - this.cache.pinned;
    return this.needed.pages.reduce((count, page) => count + (page < first ? 1 : 0), this.cache.pinned) <= this.frames;
  }

  // Settles the loads, of which those from a number on are just planned: one whose tile has come came, one that is on its way stays, another is lost.
  settle(loads, before, came, gone = null) {
    const states = new Uint8Array(loads.length / 3).fill(UNDER_WAY), tiles = new Map();
    for (let i = 0; i < states.length; i++) {
      const page = loads[3 * i];
      if (came.has(page)) {
        states[i] = CAME;
        tiles.set(page, came.get(page));
        came.delete(page);
      } else if (gone?.has(page) || (i >= before && !this.link.isUnderWay(page))) states[i] = LOST;
    }
    this.cache.settle(states);
    return this.show((page) => tiles.get(page));
  }

  // Settles what came and what was lost; a tile that no load waits for is held. Returns whether the page table changed.
  take() {
    const { came, gone } = this.link.take();
    if (came.size + gone.size === 0) return false;
    const loads = this.cache.loads(), changed = this.settle(loads, loads.length, came, gone);
    for (const [page, tile] of came) if (this.mapped[page] === 0) this.early.set(page, tile);
    return changed;
  }

  // Lets go of early tiles that nothing needs where there are too many.
  trim() {
    if (this.early.size * this.store.tileBytes <= EARLY_BYTES) return;
    for (const page of this.early.keys()) if (!this.needed.has(page)) this.early.delete(page);
  }

  show(tileOf) {
    const changes = this.cache.changes();
    for (let i = 0; i < changes.length; i += 3) {
      const [page, frame, isMap] = [changes[i], changes[i + 1], changes[i + 2] === 1];
      this.mapped[page] = isMap ? 1 : 0;
      this.upload(page, frame, isMap, isMap ? tileOf(page) : undefined);
      this.tiles += isMap ? 1 : 0;
    }
    return changes.length > 0;
  }

  /** Aborts what is on its way, and gives the cache's memory back. */
  close() {
    this.link.close();
    this.cache.close();
  }
}
