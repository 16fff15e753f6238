// The random runs of trial.c by a WebAssembly module of examples/viewer: the same calls with the same values, whose answers go into the same hash.
//
// usage: node [--experimental-wasm-memory64] trial.mjs MODULE RUNS PASSES
//
// Prints a line for each run, as trial.c does, then `held` and the bytes that were not given back; on the error output what a pass costs.
import { readFileSync } from 'node:fs';

const [file, runs, passes] = process.argv.slice(2);
const { exports: calls } = new WebAssembly.Instance(new WebAssembly.Module(readFileSync(file)));

const LIST = 4096, LOADS = 65536, NO_PAGE = 0xffffffff;

// ---- numbers of 64 bits, as two words

// The higher word of a product of two words.
function high(a, b) {
  const a0 = a & 0xffff, a1 = a >>> 16, b0 = b & 0xffff, b1 = b >>> 16, low = a0 * b0, middle = a1 * b0 + (low >>> 16);
  return (a1 * b1 + Math.floor(middle / 65536) + Math.floor((a0 * b1 + (middle & 0xffff)) / 65536)) >>> 0;
}

const FACTOR = [0x9e3779b9, 0x7f4a7c15];
let stateHigh = 0, stateLow = 0, hashHigh = 0, hashLow = 0;

function below(bound) {
  stateHigh ^= (stateHigh << 13) | (stateLow >>> 19);
  stateLow ^= stateLow << 13;
  stateLow ^= (stateLow >>> 7) | (stateHigh << 25);
  stateHigh ^= stateHigh >>> 7;
  stateHigh ^= (stateHigh << 17) | (stateLow >>> 15);
  stateLow ^= stateLow << 17;
  return ((stateHigh >>> 0) * 4096 + (stateLow >>> 20)) % bound;
}

// Takes a number of 64 bits into the hash: multiplied by an odd number, and mixed.
function tell(low, up = 0) {
  const l = (hashLow ^ low) >>> 0, h = (hashHigh ^ up) >>> 0;
  hashLow = Math.imul(l, FACTOR[1]) >>> 0;
  hashHigh = (high(l, FACTOR[1]) + Math.imul(h, FACTOR[1]) + Math.imul(l, FACTOR[0])) >>> 0;
  const mixedLow = (hashLow >>> 29) | (hashHigh << 3), mixedHigh = hashHigh >>> 29;
  hashLow = (hashLow ^ mixedLow) >>> 0;
  hashHigh = (hashHigh ^ mixedHigh) >>> 0;
}

// ---- the module's memory

let seen = new Uint32Array(0);

// The words of the memory as it is now: a call may have made it grow.
function words() {
  if (seen.buffer !== calls.memory.buffer) seen = new Uint32Array(calls.memory.buffer);
  return seen;
}

const take = (bytes) => Number(calls.vtex_malloc(BigInt(bytes)));
const ask = (call, ...values) => calls[call](...values) >>> 0;
const big = (number) => BigInt(number);

// Sets some words at an address, and returns it as the module takes it.
function put(at, ...values) {
  words().set(values, at / 4);
  return big(at);
}

const tellWords = (at, count) => {
  const all = words();
  for (let i = 0; i < count; i++) tell(all[at / 4 + i]);
};

// ---- the runs of trial.c

class Run {
  constructor(room, shape, pages) {
    Object.assign(this, { room, shape, pages, cache: big(take(Number(calls.vtex_cache_size()))), list: take(4 * LIST), counts: take(4 * pages) });
    Object.assign(this, { loads: take(12 * LOADS), changes: take(24 * LOADS), states: take(LOADS) });
  }

  free() { for (const at of [Number(this.cache), this.list, this.counts, this.loads, this.changes, this.states]) calls.vtex_free(big(at)); }

  pass() {
    const { cache, pages, list, counts } = this, n = below(LIST), form = below(3), from = below(pages), most = below(200), all = words();
    for (let i = 0; i < n; i++) all[list / 4 + i] = below(8) ? (from + below(300)) % pages : below(4) ? below(pages) : NO_PAGE;
    if (form === 0) {
      for (let i = 0; i < pages; i++) all[counts / 4 + i] = below(16) ? 0 : below(50);
      tell(ask('vtex_cache_pass_counts', cache, big(counts), big(pages - (below(20) ? 0 : 1)), most));
    } else if (form === 1) {
      for (let i = 0; i < n; i++) if (all[list / 4 + i] === NO_PAGE) all[list / 4 + i] = below(50) ? 0 : pages;
      tell(ask('vtex_cache_pass_wanted', cache, big(list), big(n >> 1), most));
    } else tell(ask('vtex_cache_pass_pages', cache, big(list), big(n), most));
  }

  settle() {
    const { cache, loads, changes, states } = this, count = Number(calls.vtex_cache_loads(cache, big(loads), big(LOADS)));
    tell(count);
    const bytes = new Uint8Array(calls.memory.buffer);
    for (let i = 0; i < count; i++) {
      tellWords(loads + 12 * i, 3);
      bytes[states + i] = below(10) ? below(3) : 7;
    }
    tell(ask('vtex_cache_settle', cache, big(states), big(count)));
    const changed = Number(calls.vtex_cache_changes(cache, big(changes), big(2 * LOADS)));
    tell(changed);
    tellWords(changes, 3 * changed);
  }

  look() {
    const { cache, room, shape, pages, loads } = this, [store, at] = [room + 16, room + 32];
    put(store, ...shape, 1 + below(3));
    const page = below(pages + 2), told = (call, count, ...values) => {
      words().fill(0, at / 4, at / 4 + 5);
      tell(ask(call, ...values, big(at)));
      tellWords(at, count);
    };
    told('vtex_cache_look_up', 3, cache, page);
    words().fill(0, at / 4, at / 4 + 5);
    tell(ask('vtex_cache_info', cache, big(at)));
    tellWords(at + 4, 2);
    words().fill(0, at / 4, at / 4 + 5);
    tell(ask('vtex_store_tile', big(store), page, big(at)));
    const all = words();
    tell(all[at / 4], all[at / 4 + 1]);
    tell(all[at / 4 + 2], all[at / 4 + 3]);
    told('vtex_page_name', 3, big(room), page);
    told('vtex_parent', 1, big(room), page);
    ask('vtex_level_count', big(room), big(at));
    const k = below(words()[at / 4] + 1);
    words().fill(0, at / 4, at / 4 + 5);
    tell(ask('vtex_level', big(room), k, big(at)));
    const [, , columns, rows, first] = words().subarray(at / 4, at / 4 + 5), cells = columns * rows;
    tell(first);
    if (cells > 0 && cells <= LOADS) {
      tell(ask('vtex_cache_table', cache, k, big(loads), big(cells)));
      tellWords(loads, cells);
    }
  }
}

// One run from a seed, with its hash as 16 hexadecimal digits.
function trial(room, seed) {
  const begin = BigInt.asUintN(64, big(seed) * 0x9e3779b97f4a7c15n + 1n);
  [stateHigh, stateLow, hashHigh, hashLow] = [Number(begin >> 32n), Number(begin & 0xffffffffn), 0, 0];
  const shape = [1 + below(9000), 1 + below(9000), 2 << (3 + below(4))], at = room + 32;
  put(room, ...shape);
  put(at, 0);
  const status = ask('vtex_page_count', big(room), big(at)), pages = words()[at / 4];
  tell(status);
  tell(pages);
  if (status === 0) {
    ask('vtex_pinned_count', big(room), 1 + below(3), big(at));
    const pinned = words()[at / 4], run = new Run(room, shape, pages);
    calls.vtex_cache_init(run.cache);
    tell(ask('vtex_cache_open', run.cache, big(room), pinned + below(600), pinned));
    for (let i = 0; i < passes; i++) {
      run.pass();
      run.settle();
      run.look();
    }
    tell(ask('vtex_cache_close', run.cache));
    run.free();
  }
  return [hashHigh, hashLow].map((word) => (word >>> 0).toString(16).padStart(8, '0')).join('');
}

// The milliseconds of a pass over the page ids of a feedback of 480x270, with nothing to load after the first.
function cost(room) {
  const n = 480 * 270, cache = big(take(Number(calls.vtex_cache_size()))), list = take(4 * n), states = take(LOADS), shape = put(room, 16384, 16384, 64);
  words().set(Array.from({ length: n }, (_, i) => (Math.floor(i / 480 / 16) % 256) * 256 + Math.floor((i % 480) / 16) % 256), list / 4);
  calls.vtex_cache_init(cache);
  ask('vtex_cache_open', cache, shape, 1024, 1);
  let begun = 0;
  for (let i = 0; i < 201; i++) {
    if (i === 1) begun = performance.now();
    ask('vtex_cache_pass_pages', cache, big(list), big(n), 65535);
    const count = Number(calls.vtex_cache_loads(cache, big(list), 0n));
    new Uint8Array(calls.memory.buffer, states, count).fill(0);
    ask('vtex_cache_settle', cache, big(states), big(count));
  }
  const spent = (performance.now() - begun) / 200;
  ask('vtex_cache_close', cache);
  for (const at of [Number(cache), list, states]) calls.vtex_free(big(at));
  return spent;
}

const room = take(128);
for (let i = 1; i <= Number(runs); i++) console.log(`${i} ${trial(room, i)}`);
console.error(`a pass over 129600 page ids: ${cost(room).toFixed(3)} ms`);
calls.vtex_free(big(room));
console.log(`held ${calls.vtex_held()}`);
