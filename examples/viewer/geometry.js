// Pages by their levels, as vtex.js has them from the proved module: `levels` with the finest first, each with its columns, rows and first page. The
// functions take a store of vtex.js, or the plain object that `openStore` makes of one.
import { Flaw } from './errors.js';

const MAGICS = { VTS1: 1, VTS2: 2 }, HEAD_BYTES = 16;

/** The geometry of a store, with its depth in bytes and its length, from its first 16 bytes, or as many as it has: by the module, as an object without
 *  calls, which may be sent to another thread. A Flaw has the line by which the program refuses it. */
export function openStore(library, head, length) {
  const depth = MAGICS[String.fromCharCode(...head.subarray(0, 4))];
  if (depth === undefined) throw new Flaw('bad magic', 'a store begins with VTS1 or VTS2');
  if (length < HEAD_BYTES) throw new Flaw(`length ${length}, wanted ${HEAD_BYTES}`, 'its header is cut short');
  const store = shapeOf(library, head, depth), { width, height, tile, pages, levels, tileBytes } = store, last = store.range(pages - 1);
  const { start } = store.range(0), want = last.start + last.length;
  store.close();
  if (length !== want) throw new Flaw(`length ${length}, wanted ${want}`, length < want ? 'its tiles are cut short' : 'bytes follow its last tile');
  return { width, height, tile, depth, pages, levels, tileBytes, start, length };
}

function shapeOf(library, head, depth) {
  const numbers = new DataView(head.buffer, head.byteOffset), [width, height, tile] = [4, 8, 12].map((at) => numbers.getUint32(at));
  try {
    return library.shape(width, height, tile, depth);
  } catch (error) {
    if (error.name !== 'VTEX_BAD_SHAPE') throw error;
    throw new Flaw('bad geometry', `sides ${width} and ${height} in tiles of ${tile}`);
  }
}

/** What `vtex info` prints of a store. */
export function storeLine({ width, height, tile, levels, pages, length }) {
  return `store ${width} ${height} tile ${tile} levels ${levels.length} pages ${pages} bytes ${length}`;
}

/** Where a page's tile begins in its store. */
export const tileStart = ({ start, tileBytes }, page) => start + tileBytes * page;

/** The level of a page. */
export const levelOfPage = ({ levels }, page) => levels.findLastIndex(({ first }) => first <= page);

/** The index of the page of a level in a column and a row, or -1 where there is none. */
export function indexOf({ levels }, level, column, row) {
  if (level >= levels.length || column >= levels[level].columns || row >= levels[level].rows) return -1;
  return levels[level].first + row * levels[level].columns + column;
}

/** The level, column and row of a page. */
export function nameOf(store, page) {
  const level = levelOfPage(store, page), { first, columns } = store.levels[level], at = page - first;
  return [level, at % columns, Math.floor(at / columns)];
}

/** The page over each page in the next coarser level, or -1 for the root. */
export function parentsOf({ levels, pages }) {
  const parents = new Int32Array(pages).fill(-1);
  for (let k = 0; k + 1 < levels.length; k++) {
    const { first, columns, rows } = levels[k], above = levels[k + 1];
    for (let row = 0, page = first; row < rows; row++) {
      for (let column = 0; column < columns; column++) parents[page++] = above.first + (row >> 1) * above.columns + (column >> 1);
    }
  }
  return parents;
}
