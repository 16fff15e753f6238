// Tests vtex.js in node, over both modules: its geometry beside sums of its own, and that no wrong use of it harms what is open.
//
// usage: node [--experimental-wasm-memory64] tests/vtex_module.mjs
//
// vtex.wasm is left out where this node has no 64-bit memories. Random shapes are of a fixed seed. The last line has how many passed and failed.
import { readFileSync } from 'node:fs';
import { parentsOf } from '../examples/viewer/geometry.js';
import { CAME, LOST, NO_PAGE, start, UNDER_WAY, VtexError } from '../examples/viewer/vtex.js';

let passed = 0, failed = 0;

function check(good, what) {
  if (good) passed++;
  else {
    failed++;
    console.log(`failed: ${what}`);
  }
}

// A call has to throw a VtexError of this name.
function refuses(name, what, call) {
  try {
    call();
    check(false, `${what}: it is taken`);
  } catch (error) {
    check(error instanceof VtexError && error.name === name, `${what}: ${error.name}: ${error.message}`);
  }
}

let state = 12345;
const below = (bound) => {
  state = (Math.imul(state, 1103515245) + 12345) >>> 0;
  return (state >>> 8) % bound;
};

// The levels of a texture by docs/FORMATS.md: each half as wide and as high as the one before, rounded up, until one tile has it.
function levelsDue(width, height, tile) {
  const levels = [];
  for (let first = 0, [w, h] = [width, height]; ; [w, h] = [Math.ceil(w / 2), Math.ceil(h / 2)]) {
    const columns = Math.ceil(w / tile), rows = Math.ceil(h / tile);
    levels.push({ width: w, height: h, columns, rows, first });
    first += columns * rows;
    if (w <= tile && h <= tile) return levels;
  }
}

function headOf(width, height, tile, depth = 1) {
  const head = new Uint8Array(16), words = new DataView(head.buffer);
  head.set(new TextEncoder().encode(depth === 1 ? 'VTS1' : 'VTS2'));
  [width, height, tile].forEach((number, i) => words.setUint32(4 + 4 * i, number));
  return head;
}

function lengthOf(width, height, tile, depth = 1) {
  const { first, columns, rows } = levelsDue(width, height, tile).at(-1);
  return 16 + 3 * depth * tile * tile * (first + columns * rows);
}

const opened = (library, ...shape) => library.open(headOf(...shape), lengthOf(...shape));

function testGeometry(library) {
  for (let i = 0; i < 60; i++) {
    const tile = 2 << below(7), most = Math.min(16384, 300 * tile), shape = [1 + below(most), 1 + below(most), tile, 1 + below(2)];
    const what = `${library.name}, ${shape}`, store = opened(library, ...shape), bytes = 3 * shape[3] * tile * tile, due = levelsDue(...shape);
    check(JSON.stringify(store.levels) === JSON.stringify(due), `${what}: levels`);
    check(store.pages === (lengthOf(...shape) - 16) / bytes && store.tileBytes === bytes, `${what}: pages and bytes of a tile`);
    const parents = parentsOf(store);
    for (let j = 0; j < 40; j++) {
      const page = j === 0 ? store.pages - 1 : below(store.pages), { level, column, row } = store.nameOf(page);
      check(due[level].first + row * due[level].columns + column === page && store.pageAt(level, column, row) === page, `${what}: page ${page}`);
      check(store.range(page).start === 16 + bytes * page && store.range(page).length === bytes, `${what}: tile ${page}`);
      check(store.parent(page) === (parents[page] < 0 ? NO_PAGE : parents[page]), `${what}: parent of ${page}`);
    }
    const same = library.shape(...shape);
    check(JSON.stringify([same.levels, same.pages, same.depth]) === JSON.stringify([store.levels, store.pages, store.depth]), `${what}: the shape without a file`);
    store.close();
    same.close();
  }
  refuses('VTEX_BAD_SHAPE', 'a tile side of 3', () => library.shape(10, 10, 3));
  refuses('VTEX_BAD_SHAPE', 'a side of 0', () => library.shape(0, 10, 2));
  refuses('VTEX_BAD_SHAPE', 'a side of 16385', () => library.shape(16385, 10, 64));
}

// A head of any length is refused, and what is open is as it was.
function testHeads(library) {
  const store = opened(library, 700, 500, 32), due = JSON.stringify(store.levels), held = library.calls.vtex_held();
  const names = new Set();
  for (const length of [0, 1, 15, 17, 64, 65, 1000, 100000]) {
    const head = new Uint8Array(length).fill(255);
    for (const whole of [length, 16, 1e9]) {
      try {
        library.open(head, whole);
        check(false, `a head of ${length} bytes is taken`);
      } catch (error) {
        names.add(error.name);
        check(error instanceof VtexError, `a head of ${length} bytes: ${error}`);
      }
    }
  }
  check([...names].sort().join() === 'VTEX_BAD_NUMBER,VTEX_BAD_STORE', `heads: ${[...names]}`);
  for (const head of [null, undefined, 'VTS1', [86, 84, 83, 49], new ArrayBuffer(16), new Uint16Array(8)]) {
    refuses('VTEX_BAD_NUMBER', `a head that is ${head}`, () => library.open(head, 16));
  }
  for (const length of [-1, 1.5, NaN, Infinity, 2 ** 60, '16', 16n]) {
    refuses('VTEX_BAD_NUMBER', `a length of ${length}`, () => library.open(headOf(8, 8, 8), length));
  }
  check(JSON.stringify(store.levels.map((_, k) => store.level(k))) === due, 'after refused heads an open store is as it was');
  check(library.calls.vtex_held() === held, 'refused heads give their memory back');
  store.close();
}

// Two caches after another was closed twice have places of their own, and all memory comes back.
function testClose(library) {
  const before = library.calls.vtex_held(), store = opened(library, 700, 500, 32), cache = store.cache(60, 1);
  for (let i = 0; i < 3; i++) cache.close();
  const [one, other] = [store.cache(60, 1), store.cache(70, 2)];
  check(one.place !== other.place, 'two caches have two places');
  for (const it of [one, other]) {
    it.passPages([0, 1, NO_PAGE], 9);
    it.settle(new Uint8Array(it.info().loads).fill(CAME));
  }
  check(one.info().free !== other.info().free && one.pinned !== other.pinned, 'two caches have frames of their own');
  one.close();
  check(other.info().pages === store.pages, 'a cache goes on when another is closed');
  for (let i = 0; i < 3; i++) store.close();
  refuses('VTEX_CLOSED', 'a cache whose store is closed', () => other.info());
  check(library.calls.vtex_held() === before, `closing gives all memory back: ${library.calls.vtex_held() - before}`);
}

function testNumbers(library) {
  const store = opened(library, 700, 500, 32), cache = store.cache(60, 1), held = () => library.calls.vtex_held();
  const before = held();
  for (const wrong of [1.5, -1, NaN, Infinity, 2 ** 32, '1', null, undefined, {}]) {
    const calls = {
      'cache, frames': () => store.cache(wrong, 1), 'cache, levels': () => store.cache(60, wrong), level: () => store.level(wrong), range: () => store.range(wrong),
      nameOf: () => store.nameOf(wrong), parent: () => store.parent(wrong), pageAt: () => store.pageAt(0, wrong, 0), pageOfTexel: () => store.pageOfTexel(0, 0, wrong),
      shape: () => library.shape(wrong, 5, 2), pinned: () => store.pinned(wrong), passPages: () => cache.passPages([0, wrong], 5),
      'passPages, most': () => cache.passPages([0], wrong), passWanted: () => cache.passWanted([0, wrong], 5), passCounts: () => cache.passCounts([wrong], 5),
      settle: () => cache.settle([wrong]), staleLoads: () => cache.staleLoads([wrong]), lookUp: () => cache.lookUp(wrong), table: () => cache.table(wrong),
    };
    for (const [name, call] of Object.entries(calls)) refuses('VTEX_BAD_NUMBER', `${name}, ${wrong}`, call);
  }
  refuses('VTEX_BAD_NUMBER', 'a list of pairs with an odd length', () => cache.passWanted([0, 1, 2], 5));
  refuses('VTEX_BAD_NUMBER', 'frames for fewer than the pinned pages', () => store.cache(0, 1));
  check(held() === before, 'refused calls give their memory back');
  cache.passPages([0, 0, 1], 5);
  check(cache.loads().length / 3 === cache.info().loads && cache.info().loads > 0, 'and the cache goes on');
  cache.settle(new Uint8Array(cache.info().loads).fill(UNDER_WAY));
  cache.settle(new Uint8Array(cache.info().loads).fill(LOST));
  check(cache.info().loads === 0 && cache.changes().length === 0, 'lost loads change nothing');
  store.close();
}

function testAfterClose(library) {
  const store = opened(library, 700, 500, 32), cache = store.cache(60, 1), other = opened(library, 700, 500, 32);
  cache.close();
  const calls = {
    passPages: () => cache.passPages([0], 5), passWanted: () => cache.passWanted([0, 1], 5), passCounts: () => cache.passCounts([1], 5), info: () => cache.info(),
    loads: () => cache.loads(), staleLoads: () => cache.staleLoads([0]), changes: () => cache.changes(), settle: () => cache.settle([]), lookUp: () => cache.lookUp(0),
    table: () => cache.table(0),
  };
  for (const [name, call] of Object.entries(calls)) refuses('VTEX_CLOSED', `${name} of a closed cache`, call);
  store.close();
  const more = {
    level: () => store.level(0), range: () => store.range(0), nameOf: () => store.nameOf(0), parent: () => store.parent(0), pageAt: () => store.pageAt(0, 0, 0),
    pageOfTexel: () => store.pageOfTexel(0, 0, 0), pinned: () => store.pinned(1), cache: () => store.cache(60, 1),
  };
  for (const [name, call] of Object.entries(more)) refuses('VTEX_CLOSED', `${name} of a closed store`, call);
  check(other.range(5).start === 16 + 5 * 3 * 32 * 32, 'another store goes on');
  other.close();
}

for (const name of ['vtex32.wasm', 'vtex.wasm']) {
  const bytes = readFileSync(new URL(`../examples/viewer/${name}`, import.meta.url));
  if (!WebAssembly.validate(bytes)) {
    console.log(`left out: ${name}, since this node has no 64-bit memories`);
    continue;
  }
  const library = await start(bytes, name), before = library.calls.vtex_held();
  for (const test of [testGeometry, testHeads, testClose, testNumbers, testAfterClose]) test(library);
  check(library.calls.vtex_held() === before, `${name}: all memory is given back`);
}
console.log(`${passed} passed, ${failed} failed`);
process.exit(failed > 0 ? 1 : 0);
