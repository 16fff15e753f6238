// The worker of the player: reads the files, and draws pictures. Messages to it are `open`, with the three files, and `draw`, with a pass and a filter;
// a new message stops what the last one began. Answers carry the number of their message.

import { readJournal } from './journal.js';
import { Drawing } from './replay.js';
import { Failed, Flaw, sentenceOf, Trouble } from './errors.js';
import { readPath } from './path.js';
import { AGAIN, TileSource } from './player-source.js';
import { sourceOf, tried } from './source.js';
import { load, VtexError } from './vtex.js';

// A server without ranges may send whole files of at most so many bytes.
const MOST_WHOLE = 1 << 30;

let library = null, walk = null, drawing = null, tiles = null, stop = new AbortController(), last = Promise.resolve();

const JOBS = { open, draw };

onmessage = ({ data }) => {
  stop.abort();
  stop = new AbortController();
  const { signal } = stop;
  last = last.then(() => work(data, signal));
};

async function work({ job, number, ...words }, signal) {
  try {
    // Messages that have come meanwhile are heard first.
    await new Promise((done) => setTimeout(done));
    signal.throwIfAborted();
    const [answer, handed] = await JOBS[job](words, signal);
    postMessage({ job, number, ...answer }, handed);
  } catch (error) {
    postMessage({ job, number, ...(error.name === 'AbortError' ? { stopped: true } : { failed: toldOf(error) }) });
  }
}

function toldOf(error) {
  if (error instanceof Flaw) return { line: error.message, why: error.why };
  const isKnown = [Trouble, Failed, VtexError].some((kind) => error instanceof kind);
  return { line: isKnown ? sentenceOf(error) : `${error.name}: ${error.message}`, why: '' };
}

// What was read of each file, or why it is refused. A journal is judged once the two others are read.
async function open({ files }, signal) {
  const said = {}, failed = {};
  const reading = async (name, read) => {
    if (files[name] === null) return;
    try {
      said[name] = await read(sourceOf(files[name], { mostWhole: MOST_WHOLE }));
    } catch (error) {
      if (error.name === 'AbortError') throw error;
      failed[name] = toldOf(error);
    }
  };
  let text = null;
  walk = drawing = tiles = null;
  library ??= await load();
  const whole = (source) => tried(() => source.whole(signal), { signal, most: AGAIN });
  await Promise.all([
    reading('path', async (source) => readPath(await whole(source))),
    reading('store', async (source) => (tiles = await TileSource.open(library, source, signal)).store),
    reading('journal', async (source) => { text = await whole(source); return null; }),
  ]);
  if (text !== null && said.path && said.store) await reading('journal', () => readJournal(text, said.store, said.path.height, said.path.pictures));
  if (said.journal) {
    walk = said;
    drawing = new Drawing(walk, (page) => tiles.at(page));
  }
  return [{ said, failed }, []];
}

async function draw({ pass, filter }, signal) {
  const begun = performance.now();
  let drawn, spent = 0;
  tiles.trim();
  do {
    const from = performance.now();
    drawn = drawing.pass(pass, filter);
    spent += performance.now() - from;
    await tiles.load(drawn.lacking, signal);
  } while (drawn.lacking.length > 0);
  const answer = { pass, filter, ...drawn, drawing: spent, all: performance.now() - begun, read: tiles.read };
  return [answer, [drawn.raster.buffer, drawn.levels.buffer, drawn.rowLevels.buffer]];
}
