// Draws the pictures of journals by the player's modules, for player.py. Each line of the input is JSON: the names `store`, `path`, `journal`, the
// `prefix` of the pictures, and the `filter`. The line of the answer has the `written` pictures, or `file` and `flaw` of the first input in the
// program's order that is refused. Files are read here; tiles are handed over only once they were asked for, as over a network.
import { readFileSync, writeFileSync } from 'node:fs';
import { createInterface } from 'node:readline';
import { Flaw } from '../examples/viewer/errors.js';
import { openStore, tileStart } from '../examples/viewer/geometry.js';
import { readJournal, lastPasses } from '../examples/viewer/journal.js';
import { readPath } from '../examples/viewer/path.js';
import { Drawing, pictureFile, pixelOf, sampleAt, Table } from '../examples/viewer/replay.js';
import { start } from '../examples/viewer/vtex.js';

const library = await start(readFileSync(new URL('../examples/viewer/vtex32.wasm', import.meta.url)));

// The same with the input's name in the flaw.
function reading(file, read) {
  try {
    return read();
  } catch (error) {
    if (error instanceof Flaw) error.file = file;
    throw error;
  }
}

function walkOf(names) {
  const bytes = readFileSync(names.store);
  const path = reading('path', () => readPath(readFileSync(names.path)));
  const store = reading('store', () => openStore(library, bytes.subarray(0, 16), bytes.length));
  const journal = reading('journal', () => readJournal(readFileSync(names.journal), store, path.height, path.pictures));
  return { bytes, walk: { store, path, journal } };
}

// One pixel of each row by the function that explains pixels: its samples, and the level that shows it.
function hasPixels({ store, path, journal }, bytes, table, pass, filter, { raster, levels }) {
  const { depth } = store;
  for (let y = 0; y < path.height; y++) {
    const x = (7 * y + pass) % path.width, pixel = y * path.width + x, made = pixelOf({ store, path, journal }, table, pass, x, y, filter);
    if (Math.max(...made.texels.map(({ up }) => made.level + up)) !== levels[pixel]) return false;
    for (let channel = 0; channel < 3; channel++) {
      const sum = made.texels.reduce((all, { weight, byte }) => all + weight * sampleAt(bytes, byte + channel * depth, depth), 32768);
      if (Math.floor(sum / 65536) !== sampleAt(raster, depth * (3 * pixel + channel), depth)) return false;
    }
  }
  return true;
}

function replay({ prefix, filter, ...names }) {
  const { bytes, walk } = walkOf(names), { store, path, journal } = walk, tiles = new Map(), table = new Table(journal, store.pages);
  const drawing = new Drawing(walk, (page) => tiles.get(page) ?? null);
  let rounds = 0, wrong = 0;
  const passes = lastPasses(journal);
  passes.forEach((pass, number) => {
    let drawn;
    for (; (drawn = drawing.pass(pass, filter)).lacking.length > 0; rounds++) {
      for (const page of drawn.lacking) tiles.set(page, bytes.subarray(tileStart(store, page), tileStart(store, page + 1)));
    }
    wrong += hasPixels(walk, bytes, table, pass, filter, drawn) ? 0 : 1;
    writeFileSync(`${prefix}${String(number).padStart(4, '0')}.ppm`, pictureFile(store, path, drawn.raster));
  });
  return { written: passes.length, tiles: tiles.size, rounds, wrong };
}

for await (const line of createInterface({ input: process.stdin })) {
  let answer;
  try {
    answer = replay(JSON.parse(line));
  } catch (error) {
    answer = error instanceof Flaw ? { file: error.file, flaw: error.message, why: error.why } : { error: error.stack };
  }
  process.stdout.write(`${JSON.stringify(answer)}\n`);
}
