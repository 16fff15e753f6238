// Draws the pictures of a journal, by docs/FORMATS.md.
//
// Pure functions over bytes, for a page, its worker and node; nothing is read or fetched here. All numbers are integers below 2^53, so that sums and
// products are exact. Quotients rounded down are too: a quotient that is no whole number lies further below the next one than it is rounded.

import { indexOf, tileStart } from './geometry.js';

export const NEAREST = 'nearest', BILINEAR = 'bilinear';
export const UNMAP = 0, MAP = 1, LOST = 2;
// ---- The table of a journal (read in journal.js) at a version

/** The page table of a journal: `frames` has each page's frame, or -1, at `version`. */
export class Table {
  constructor(journal, pages) {
    this.journal = journal;
    this.frames = new Int32Array(pages).fill(-1);
    this.version = 0;
  }

  /** Makes the changes up to a version, or takes those behind it back. */
  goTo(version) {
    const { changes, events } = this.journal;
    for (; this.version < version; this.version++) this.set(events, changes[this.version], MAP);
    for (; this.version > version; this.version--) this.set(events, changes[this.version - 1], UNMAP);
    return this;
  }

  set({ kind, page, frame }, event, isMapped) {
    this.frames[page[event]] = kind[event] === isMapped ? frame[event] : -1;
  }
}

// ---- Pictures

const modulo = (number, by) => number - by * Math.floor(number / by);

/** Where the pixels of a picture's row lie on level 0, in 1/256 texel, into `across` and `down`; answers the row's level. */
export function placeRow(store, path, picture, y, across, down) {
  const [u, v, h, c, s] = path.cameras.subarray(5 * picture, 5 * picture + 5);
  const z = Math.floor((h * path.focal) / (y + 1)), p = Math.floor(h / (y + 1)), wide = 256 * store.width, high = 256 * store.height;
  const left = u + Math.floor((z * c) / 16384), top = v + Math.floor((z * s) / 16384);
  for (let x = 0; x < path.width; x++) {
    const away = (2 * x + 1 - path.width) * p;
    across[x] = modulo(left - Math.floor((away * s) / 32768), wide);
    down[x] = modulo(top + Math.floor((away * c) / 32768), high);
  }
  let level = 0;
  while (level + 1 < store.levels.length && 256 * 2 ** (level + 1) <= p) level++;
  return level;
}

/** The texels of a level that are blended at a place in 1/256 texel of level 0, each with its weight of 65,536; or the one that shows it. */
export function texelsAt(store, level, across, down, filter) {
  const { width, height } = store.levels[level], a = across >> level, b = down >> level, e = a & 255, f = b & 255;
  if (filter === NEAREST) return [{ column: a >> 8, row: b >> 8, weight: 65536 }];
  const columns = [a >> 8, ((a >> 8) + 1) % width], rows = [b >> 8, ((b >> 8) + 1) % height];
  return [[0, 0], [1, 0], [0, 1], [1, 1]].map(([i, j]) => ({ column: columns[i], row: rows[j], weight: (i ? e : 256 - e) * (j ? f : 256 - f) }));
}

/** The sample of one byte or two at a place of some bytes. */
export function sampleAt(bytes, at, depth) {
  return depth === 1 ? bytes[at] : (bytes[at] << 8) | bytes[at + 1];
}

// Writes a sample; answers the place behind it.
function putSample(bytes, at, depth, sample) {
  if (depth === 2) bytes[at++] = sample >> 8;
  bytes[at] = sample & 255;
  return at + 1;
}

/** Draws the passes of a walk, which is a store, a path and a journal. `tileAt(page)` answers a page's tile as the store holds it, or null where it is
 *  not at hand. */
export class Drawing {
  constructor(walk, tileAt) {
    const { pages, tileBytes } = walk.store;
    Object.assign(this, { walk, tileAt, table: new Table(walk.journal, pages), blank: new Uint8Array(tileBytes) });
    // What was looked up for each page at this stamp: how many levels coarser it is shown, and that tile. And how many texels want the page.
    Object.assign(this, { stamp: 0, stamps: new Int32Array(pages), ups: new Uint8Array(pages), tiles: new Array(pages).fill(null), counts: new Int32Array(pages) });
    this.across = new Int32Array(walk.path.width);
    this.down = new Int32Array(walk.path.width);
  }

  /** The picture that a pass draws: its samples, the mip level that each pixel shows (the coarsest of a blend) and that each row wants, the pages that
   *  it wants, each with the number of its pixels (of texels, in blends), and the shown pages whose tiles are not at hand, for which zeros stand. */
  pass(number, filter) {
    const { store, path, journal } = this.walk, { width, height } = path, versions = journal.rows.version.subarray((number - 1) * height, number * height);
    const drawn = { raster: new Uint8Array(3 * store.depth * width * height), levels: new Uint8Array(width * height), rowLevels: new Uint8Array(height) };
    this.lacking = new Set();
    this.counts.fill(0);
    this.tiles.fill(null);
    this.stamp++;
    for (const y of Array.from(versions.keys()).sort((a, b) => versions[a] - versions[b])) {
      if (versions[y] !== this.table.version) this.stamp++;
      this.table.goTo(versions[y]);
      drawn.rowLevels[y] = placeRow(store, path, journal.picture[number], y, this.across, this.down);
      filter === BILINEAR ? this.blendRow(drawn, y) : this.copyRow(drawn, y);
    }
    return { ...drawn, wanted: this.wanted(), lacking: [...this.lacking] };
  }

  wanted() {
    const pages = Array.from(this.counts.keys()).filter((page) => this.counts[page] > 0);
    return { pages: Int32Array.from(pages), counts: Int32Array.from(pages, (page) => this.counts[page]) };
  }

  // Notes what shows the page of a level in a column and a row: the first page of its line that the table maps.
  lookUp(page, level, column, row) {
    const { store } = this.walk;
    let up = 0, shown = page;
    while (this.table.frames[shown] < 0) {
      up++;
      shown = indexOf(store, level + up, column >> up, row >> up);
    }
    const tile = this.tileAt(shown);
    if (tile === null) this.lacking.add(shown);
    this.stamps[page] = this.stamp;
    this.ups[page] = up;
    this.tiles[page] = tile ?? this.blank;
  }

  copyRow({ raster, levels, rowLevels }, y) {
    const { across, down, stamps, stamp, ups, tiles, counts } = this, { store, path } = this.walk, level = rowLevels[y];
    const { columns, first } = store.levels[level], shift = 31 - Math.clz32(store.tile), mask = store.tile - 1, size = 3 * store.depth;
    for (let x = 0, to = y * path.width * size; x < path.width; x++) {
      const column = across[x] >> (8 + level), row = down[x] >> (8 + level), page = first + (row >> shift) * columns + (column >> shift);
      if (stamps[page] !== stamp) this.lookUp(page, level, column >> shift, row >> shift);
      counts[page]++;
      const up = ups[page], tile = tiles[page], from = size * ((((row >> up) & mask) << shift) + ((column >> up) & mask));
      for (let i = 0; i < size; i++) raster[to++] = tile[from + i];
      levels[y * path.width + x] = level + up;
    }
  }

  blendRow({ raster, levels, rowLevels }, y) {
    const { across, down, stamps, stamp, ups, tiles, counts } = this, { store, path } = this.walk, { depth } = store, level = rowLevels[y];
    const { width, height, columns, first } = store.levels[level], shift = 31 - Math.clz32(store.tile), mask = store.tile - 1;
    for (let x = 0, to = 3 * depth * y * path.width; x < path.width; x++) {
      const a = across[x] >> level, b = down[x] >> level, e = a & 255, f = b & 255, left = a >> 8, top = b >> 8;
      let red = 32768, green = 32768, blue = 32768, shown = 0;
      for (let corner = 0; corner < 4; corner++) {
        const isRight = corner & 1, isBelow = corner & 2, weight = (isRight ? e : 256 - e) * (isBelow ? f : 256 - f);
        const column = isRight ? (left + 1 === width ? 0 : left + 1) : left, row = isBelow ? (top + 1 === height ? 0 : top + 1) : top;
        const page = first + (row >> shift) * columns + (column >> shift);
        if (stamps[page] !== stamp) this.lookUp(page, level, column >> shift, row >> shift);
        counts[page]++;
        const up = ups[page], tile = tiles[page], from = 3 * depth * ((((row >> up) & mask) << shift) + ((column >> up) & mask));
        if (up > shown) shown = up;
        red += weight * sampleAt(tile, from, depth);
        green += weight * sampleAt(tile, from + depth, depth);
        blue += weight * sampleAt(tile, from + 2 * depth, depth);
      }
      to = putSample(raster, putSample(raster, putSample(raster, to, depth, red >>> 16), depth, green >>> 16), depth, blue >>> 16);
      levels[y * path.width + x] = level + shown;
    }
  }
}

/** What a pixel of a pass is made of: its row's level, and of each texel its weight, its column and row, the page that it wants, the page that shows it, how
 *  many levels coarser that is, and its frame, and the byte of the store at which its samples begin. `table` is of the journal, and moves to the row's version. */
export function pixelOf({ store, path, journal }, table, number, x, y, filter) {
  const across = new Int32Array(path.width), down = new Int32Array(path.width);
  const level = placeRow(store, path, journal.picture[number], y, across, down);
  const { frames } = table.goTo(journal.rows.version[(number - 1) * path.height + y]), shift = 31 - Math.clz32(store.tile), mask = store.tile - 1;
  const texels = texelsAt(store, level, across[x], down[x], filter).map(({ column, row, weight }) => {
    let up = 0;
    const pageAt = () => indexOf(store, level + up, column >> (up + shift), row >> (up + shift)), page = pageAt();
    while (frames[pageAt()] < 0) up++;
    const shown = pageAt(), place = (((row >> up) & mask) << shift) + ((column >> up) & mask);
    return { weight, page, column, row, shown, up, frame: frames[shown], byte: tileStart(store, shown) + 3 * store.depth * place };
  });
  return { level, texels };
}

/** The bytes of a picture's file. */
export function pictureFile(store, path, raster) {
  const head = new TextEncoder().encode(`P6\n${path.width} ${path.height}\n${256 ** store.depth - 1}\n`), file = new Uint8Array(head.length + raster.length);
  file.set(head);
  file.set(raster, head.length);
  return file;
}
