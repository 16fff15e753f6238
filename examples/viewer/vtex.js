// The page cache of include/vtex.h for JavaScript, over the WebAssembly module that build.py makes. It depends on nothing else.
//
//     const library = await load();                       // vtex.wasm, or vtex32.wasm in an engine without 64-bit memories
//     const store = library.open(head, length);           // by a store's first 16 bytes and its length
//     const cache = store.cache(1024, 2);                 // frames, and levels that stay mapped
//     cache.passPages(ids, most); cache.loads(); cache.settle(states); cache.changes(); cache.lookUp(page); cache.close(); store.close();
//
// A call that returns another status than VTEX_DONE throws a VtexError, whose name is the status's. So does a number that is no integer from 0 to
// 4294967295, before the module sees it (VTEX_BAD_NUMBER), and any use of a store or a cache after its `close` (VTEX_CLOSED), which may be called again.
// Pages, frames and counts are Numbers. The module has a 64-bit memory, so its addresses and lengths are BigInts at a call; vtex32.wasm takes the same.
// None of this file is proved.

export const NO_PAGE = 0xffffffff;

/** What became of a load, for `settle`. */
export const CAME = 0, LOST = 1, UNDER_WAY = 2;

const STATUSES = [
  ['VTEX_DONE', 'it was done'],
  ['VTEX_BAD_SHAPE', 'the sides or the tile side make no chain of pages'],
  ['VTEX_BAD_NUMBER', 'a number or a length is outside its bounds'],
  ['VTEX_NO_MEMORY', 'memory was refused'],
  ['VTEX_CLOSED', 'it is not open'],
  ['VTEX_BAD_STORE', "the bytes are no store's"],
];

/** A call that was refused: `name` is the status's name, as VTEX_BAD_STORE, `status` its number, `call` the call. */
export class VtexError extends Error {
  constructor(call, status) {
    const [name, meaning] = STATUSES[status] ?? ['VTEX_UNKNOWN', `status ${status}`];
    super(`${call}: ${meaning}`);
    Object.assign(this, { name, status, call });
  }
}

const NO_MEMORY = 3, BAD_NUMBER = 2, CLOSED = 4, HEAD_BYTES = 16, MOST = 0xffffffff;

// Refuses what is no integer from 0 to `most`: the module would take a part of it for another number.
function mustBeWhole(call, numbers, most = MOST) {
  for (const number of numbers) if (!Number.isInteger(number) || number < 0 || number > most) throw new VtexError(call, BAD_NUMBER);
}

// A list of numbers as the array of words that a call reads.
function wordsOf(call, list) {
  if (list instanceof Uint32Array) return list;
  mustBeWhole(call, list);
  return Uint32Array.from(list);
}

// A module of thirteen bytes with a 64-bit memory, to ask whether the engine has such.
const HAS_64 = WebAssembly.validate(new Uint8Array([0, 97, 115, 109, 1, 0, 0, 0, 5, 3, 1, 4, 1]));

/** Fetches and starts the module, from beside this file where no other place is given. */
export async function load(base = import.meta.url, is64 = HAS_64) {
  const name = is64 ? 'vtex.wasm' : 'vtex32.wasm', answer = await fetch(new URL(name, base));
  if (!answer.ok) throw new Error(`${name}: status ${answer.status}`);
  return start(await answer.arrayBuffer(), name);
}

/** Starts a module of these bytes. */
export async function start(bytes, name = '') {
  return new Library((await WebAssembly.instantiate(bytes, {})).instance.exports, name);
}

export class Library {
  constructor(calls, name) {
    Object.assign(this, { calls, name });
  }

  // The memory may grow at a call, and what was seen of it before is then detached: each view is made where it is used.
  words(at, count) { return new Uint32Array(this.calls.memory.buffer, at, count); }

  octets(at, count) { return new Uint8Array(this.calls.memory.buffer, at, count); }

  take(bytes) {
    const at = Number(this.calls.vtex_malloc(BigInt(bytes)));
    if (at === 0) throw new VtexError('vtex_malloc', NO_MEMORY);
    return at;
  }

  give(at) { this.calls.vtex_free(BigInt(at)); }

  ask(call, ...values) {
    const status = this.calls[call](...values) >>> 0;
    if (status !== 0) throw new VtexError(call, status);
  }

  /** How many bytes of memory the module has. */
  get memory() { return this.calls.memory.buffer.byteLength; }

  /** A store, by its first 16 bytes (or all, where there are fewer) and its length in bytes. */
  open(head, length) {
    mustBeWhole('vtex_store_open', [length], Number.MAX_SAFE_INTEGER);
    if (!(head instanceof Uint8Array) || head.length > HEAD_BYTES) throw new VtexError('vtex_store_open', BAD_NUMBER);
    return new Store(this, (at, small) => {
      this.octets(small, head.length).set(head);
      this.ask('vtex_store_open', BigInt(small), BigInt(head.length), BigInt(length), BigInt(at));
    });
  }

  /** The store of a texture of these sides, cut into tiles of this side, with samples of `depth` bytes, without its file. */
  shape(width, height, tile, depth = 1) {
    mustBeWhole('vtex_page_count', [width, height, tile, depth]);
    return new Store(this, (at) => this.words(at, 4).set([width, height, tile, depth]));
  }
}

/** A store's shape: `width`, `height`, `tile`, `depth`, `pages`, its `levels` with their sides, columns, rows and first pages, and the bytes of a tile.
 *  Made by `open` and `shape` of a library; `close` closes its caches too, and gives their memory back. */
export class Store {
  constructor(library, fill) {
    Object.assign(this, { library, caches: new Set(), isOpen: true, at: library.take(16), small: 0 });  // `at`: a vtex_store, which begins with its vtex_shape
    try {
      this.small = library.take(64);                       // what a call reads or returns
      fill(this.at, this.small);
      [this.width, this.height, this.tile, this.depth] = library.words(this.at, 4);
      this.pages = this.number('vtex_page_count');
      this.levels = Array.from({ length: this.number('vtex_level_count') }, (_, k) => this.level(k));
      this.tileBytes = this.range(0).length;
    } catch (error) {
      this.close();
      throw error;
    }
  }

  // Calls the module about this store, with some numbers; what it returns is in `small` then.
  ask(call, ...numbers) {
    if (!this.isOpen) throw new VtexError(call, CLOSED);
    mustBeWhole(call, numbers);
    this.library.ask(call, BigInt(this.at), ...numbers, BigInt(this.small));
  }

  number(call, ...numbers) {
    this.ask(call, ...numbers);
    return this.library.words(this.small, 1)[0];
  }

  level(k) {
    this.ask('vtex_level', k);
    const [width, height, columns, rows, first] = this.library.words(this.small, 5);
    return { width, height, columns, rows, first };
  }

  /** Where a page's tile stands in the file: its first byte, and how many it has. */
  range(page) {
    this.ask('vtex_store_tile', page);
    const [start, length] = new BigUint64Array(this.library.calls.memory.buffer, this.small, 2);
    return { start: Number(start), length: Number(length) };
  }

  pageOfTexel(level, x, y) { return this.number('vtex_page_of_texel', level, x, y); }

  pageAt(level, column, row) {
    if (!this.isOpen) throw new VtexError('vtex_page_at', CLOSED);
    mustBeWhole('vtex_page_at', [level, column, row]);
    this.library.words(this.small + 16, 3).set([level, column, row]);
    this.library.ask('vtex_page_at', BigInt(this.at), BigInt(this.small + 16), BigInt(this.small));
    return this.library.words(this.small, 1)[0];
  }

  nameOf(page) {
    this.ask('vtex_page_name', page);
    const [level, column, row] = this.library.words(this.small, 3);
    return { level, column, row };
  }

  /** The page over this one in the next coarser level, or NO_PAGE for the root. */
  parent(page) { return this.number('vtex_parent', page); }

  /** How many pages the last so many levels have. They are the last so many pages. */
  pinned(levels) { return this.number('vtex_pinned_count', levels); }

  /** A cache of so many frames over the store's pages, in which the last `levels` levels stay mapped. */
  cache(frames, levels) { return new Cache(this, frames, levels); }

  close() {
    if (!this.isOpen) return;
    for (const cache of [...this.caches]) cache.close();
    this.isOpen = false;
    this.library.give(this.at);
    if (this.small) this.library.give(this.small);
  }
}

/** Which pages have frames, which are loaded next, and what is shown meanwhile. `close` gives its memory back. */
export class Cache {
  constructor(store, frames, levels) {
    mustBeWhole('vtex_cache_open', [frames]);
    Object.assign(this, { store, frames, library: store.library, pinned: store.pinned(levels), list: 0, room: 0, isOpen: true });
    this.place = BigInt(this.library.take(Number(this.library.calls.vtex_cache_size())));
    this.library.calls.vtex_cache_init(this.place);
    store.caches.add(this);
    try {
      this.ask('vtex_cache_open', BigInt(store.at), frames, this.pinned);
    } catch (error) {
      this.close();
      throw error;
    }
  }

  ask(call, ...values) {
    if (!this.isOpen) throw new VtexError(call, CLOSED);
    mustBeWhole(call, values.filter((value) => typeof value !== 'bigint'));
    this.library.ask(call, this.place, ...values);
  }

  // Room for so many words, kept for later calls. Its address is good until more is asked for.
  roomFor(words) {
    if (words > this.room) {
      if (this.list) this.library.give(this.list);
      this.room = this.list = 0;
      const room = Math.max(1024, words);
      this.list = this.library.take(4 * room);
      this.room = room;
    }
    return this.list || this.roomFor(1);
  }

  // A pass of one of the three forms over a list, which has `size` words an entry.
  pass(call, list, size, most) {
    if (!this.isOpen) throw new VtexError(call, CLOSED);
    const words = wordsOf(call, list);
    mustBeWhole(call, [most, words.length / size]);
    const at = this.roomFor(words.length);
    this.library.words(at, words.length).set(words);
    this.ask(call, BigInt(at), BigInt(words.length / size), most);
  }

  /** A pass over page indexes, one a pixel, NO_PAGE where a pixel wants none. At most `most` entries of the plan become loads. */
  passPages(ids, most) { this.pass('vtex_cache_pass_pages', ids, 1, most); }

  /** A pass over pages and their numbers of pixels, one after the other in a list. */
  passWanted(pairs, most) { this.pass('vtex_cache_pass_wanted', pairs, 2, most); }

  /** A pass over a number of pixels for each page. */
  passCounts(pixels, most) { this.pass('vtex_cache_pass_counts', pixels, 1, most); }

  info() {
    this.ask('vtex_cache_info', BigInt(this.store.small));
    const [pages, free, loads, changes] = this.library.words(this.store.small, 4);
    return { pages, free, loads, changes };
  }

  triples(call, count) {
    const at = this.roomFor(3 * count);
    this.library.calls[call](this.place, BigInt(at), BigInt(count));
    return this.library.words(at, 3 * count).slice();
  }

  /** The loads under way, the oldest first: of each its page, its frame and its victim (or NO_PAGE), one after the other. */
  loads() { return this.triples('vtex_cache_loads', this.info().loads); }

  /** For each of `loads()` UNDER_WAY where one of these pages still needs it, else LOST: `settle` takes it. */
  staleLoads(pages) {
    const count = this.info().loads, list = wordsOf('vtex_cache_stale_loads', pages);
    const at = this.roomFor(pages.length + ((count + 3) >> 2)), states = at + 4 * pages.length;
    this.library.words(at, pages.length).set(list);
    this.ask('vtex_cache_stale_loads', BigInt(at), BigInt(pages.length), BigInt(states), BigInt(count));
    return this.library.octets(states, count).slice();
  }

  /** What the last settling or the opening changed: of each change its page, its frame, and 1 for a map or 0 for an unmap. */
  changes() { return this.triples('vtex_cache_changes', this.info().changes); }

  /** Notes what became of the loads: CAME, LOST or UNDER_WAY for each of `loads()`. */
  settle(states) {
    if (!this.isOpen) throw new VtexError('vtex_cache_settle', CLOSED);
    mustBeWhole('vtex_cache_settle', states, 255);
    const at = this.roomFor((states.length + 3) >> 2);
    this.library.octets(at, states.length).set(states);
    this.ask('vtex_cache_settle', BigInt(at), BigInt(states.length));
  }

  /** The finest mapped page over a page's place, its frame and its level. */
  lookUp(page) {
    this.ask('vtex_cache_look_up', page, BigInt(this.store.small));
    const [found, frame, level] = this.library.words(this.store.small, 3);
    return { page: found, frame, level };
  }

  /** The page table of a level, row by row: for each page 0, or its frame and 1. */
  table(level) {
    if (!this.isOpen) throw new VtexError('vtex_cache_table', CLOSED);
    mustBeWhole('vtex_cache_table', [level], this.store.levels.length - 1);
    const { columns, rows } = this.store.levels[level], count = columns * rows, at = this.roomFor(count);
    this.ask('vtex_cache_table', level, BigInt(at), BigInt(count));
    return this.library.words(at, count).slice();
  }

  /** Gives the cache's memory back. A second call does nothing. */
  close() {
    if (!this.isOpen) return;
    this.ask('vtex_cache_close');
    this.isOpen = false;
    this.store.caches.delete(this);
    this.library.give(Number(this.place));
    if (this.list) this.library.give(this.list);
    this.list = this.room = 0;
  }
}
