// The player: opens a store, a path and a journal, and plays the walk again. The worker reads and draws; this shows what it answers.
//
// The address may hold `store`, `path`, `journal`, `filter`, `view`, `pass` and `version`.

import { eventLine, eventsOf, lastPasses, lineOfPass, passOfVersion } from './journal.js';
import { coarserThanWanted, countsOf, drawLine, drawRows, EventList, imageOf, legendOf, passAt, Residency, rowAt, scaleOf, versionAt } from './player-views.js';
import { nameOf, storeLine } from './geometry.js';
import { flightsOf } from './path.js';
import { Where } from './player-where.js';
import { LOST, MAP, pictureFile, pixelOf, sampleAt, Table, UNMAP } from './replay.js';

const FILES = ['store', 'path', 'journal'];
const MOST_KEPT = 192 << 20;
const at = (id) => document.getElementById(id);
const words = new URLSearchParams(location.search);

// ---- The worker

const worker = new Worker(new URL('player-worker.js', import.meta.url), { type: 'module' });
const waiting = new Map();
let messages = 0;

worker.onmessage = ({ data }) => {
  waiting.get(data.number)(data);
  waiting.delete(data.number);
};
worker.onerror = ({ message }) => tell(`the worker cannot run: ${message ?? 'its modules cannot be read'}`);

// The answer to a message; a later message stops it.
function ask(job, said) {
  const number = ++messages;
  worker.postMessage({ job, number, ...said });
  return new Promise((done) => waiting.set(number, done));
}

// ---- What is open, and what is shown

const files = Object.fromEntries(FILES.map((name) => [name, words.get(name)]));
let walk = null, pass = 0, version = 0, isPlaying = false;
let counts, flights, written, table, pixelTable, residency, wanted;
let drawn = null, pending = null, kept = new Map();
const where = new Where(at('where'), at('where-map'));
const events = new EventList(at('events'), at('events-all'), (chosen) => show(pass, chosen));

const fileName = (file) => (typeof file === 'string' ? file : file.name);
const sourceFor = (file) => (typeof file === 'string' ? new URL(file, location.href).href : file);

function tell(sentence) {
  at('told').className = '';
  at('told').textContent = sentence;
  at('told').hidden = sentence === '';
}

async function openAll() {
  for (const name of FILES) if (files[name]) at(`${name}-said`).replaceChildren(`${fileName(files[name])}: reading`);
  const answer = await ask('open', { files: Object.fromEntries(FILES.map((name) => [name, files[name] && sourceFor(files[name])])) });
  if (answer.stopped) return;
  tell(answer.failed.line ?? '');
  const said = answer.said ?? {};
  for (const name of FILES) sayFile(name, said, answer.failed[name]);
  walk = said.journal ? said : null;
  at('walk').hidden = walk === null;
  at('hint').hidden = FILES.every((name) => files[name]);
  if (walk !== null) begin();
}

// What a file is, or the line by which the program refuses it.
function sayFile(name, { store, path, journal }, failed) {
  const place = at(`${name}-said`);
  place.classList.toggle('flaw', failed !== undefined);
  if (!files[name]) return place.replaceChildren('none');
  const more = document.createElement('small'), line = failed ? failed.line : {
    store: () => store && storeLine(store) + (store.depth === 2 ? ', two bytes a sample' : ''),
    path: () => path && `${path.pictures} pictures of ${path.width}x${path.height}, focal ${path.focal}`,
    journal: () => (journal ? `${journal.passes} passes of ${lastPasses(journal).length} pictures, ${journal.versions} versions, ${journal.pinned} pinned pages, ` +
      `frames up to ${journal.frames - 1}` : 'not judged before store and path are open'),
  }[name]() ?? '';
  more.textContent = failed?.why ? ` (${failed.why})` : '';
  return place.replaceChildren(`${fileName(files[name])}: ${line}`, more);
}

function begin() {
  const { store, journal } = walk;
  counts = countsOf(journal);
  flights = flightsOf(walk.path);
  at('viewer').href = typeof files.store === 'string' ? `index.html?store=${encodeURIComponent(files.store)}` : 'index.html';
  written = new Set(lastPasses(journal));
  [table, pixelTable] = [new Table(journal, store.pages), new Table(journal, store.pages)];
  [kept, drawn, pending, wanted, painted] = [new Map(), null, null, new Int32Array(store.pages), {}];
  residency = new Residency(at('levels'), store, sayPage);
  at('version').max = journal.versions;
  const number = (name, or) => (/^[0-9]{1,9}$/.test(words.get(name) ?? '') ? Number(words.get(name)) : or);
  const first = Math.min(number('pass', Math.min(1, journal.passes)), journal.passes);
  show(first, Math.min(number('version', journal.last[first]), journal.versions));
}

// ---- Showing a pass at a version

// Shows a pass at a version, by default the one at its end. The answer is there once its picture is drawn, or another pass is shown.
function show(newPass, newVersion) {
  const { journal } = walk;
  pass = Math.max(0, Math.min(journal.passes, newPass));
  version = newVersion ?? journal.last[pass];
  drawn = kept.get(keyOf(pass)) ?? null;
  wanted.fill(0);
  drawn?.wanted.pages.forEach((page, i) => { wanted[page] = drawn.wanted.counts[i]; });
  showSoon();
  if (drawn === null && pass > 0) return drawPicture(pass);
  fetchAhead();
  return Promise.resolve();
}

const keyOf = (number) => `${at('filter').value} ${number}`;

let isDue = false;
function showSoon() {
  if (isDue) return;
  isDue = true;
  requestAnimationFrame(() => {
    isDue = false;
    showNow();
  });
}

function showNow() {
  if (walk === null) return;
  const { path, journal } = walk, views = at('views').clientWidth, isNarrow = views < 900;
  const scale = scaleOf(path, isNarrow ? views : Math.max(320, views - 240 - 320 - 28), Math.max(260, window.innerHeight * 0.5));
  drawLine(at('line'), journal, counts, pass);
  drawRows(at('rows'), journal, pass, version, scale);
  events.show(walk, pass, version, Math.max(200, path.height * scale));
  showPicture(scale);
  table.goTo(version);
  residency.draw(table.frames, wanted, (page) => freshPages().has(page));
  sayPass();
  sayVersion();
  where.show(sourceFor(files.store), walk.store, pass > 0 ? flights[journal.picture[pass]] : null);
  keepAddress();
}

// The pages that this pass has mapped up to the version.
let fresh = { of: '', pages: new Set() };
function freshPages() {
  const of = `${pass} ${version}`, { journal } = walk;
  if (fresh.of !== of) {
    const pages = new Set();
    for (let v = journal.start[pass]; pass > 0 && v < version; v++) pages.add(journal.events.page[journal.changes[v]]);
    fresh = { of, pages };
  }
  return fresh.pages;
}

let painted = {};
function showPicture(scale) {
  const { path, store } = walk, canvas = at('picture'), view = at('view').value;
  canvas.style.width = `${path.width * scale}px`;
  canvas.style.height = `${path.height * scale}px`;
  canvas.style.imageRendering = scale >= 1 ? 'pixelated' : 'auto';
  if (drawn === null && pass > 0) {
    canvas.style.opacity = 0.4;
    return;
  }
  canvas.style.opacity = 1;
  if (painted.drawn === drawn && painted.view === view) return;
  painted = { drawn, view };
  [canvas.width, canvas.height] = [path.width, path.height];
  at('view-legend').replaceChildren(...legendOf(store, view));
  if (drawn !== null) canvas.getContext('2d').putImageData(imageOf(path, store, drawn, view), 0, 0);
}

// Draws a pass that is not kept, and shows it if it is still the one to be shown.
async function drawPicture(number) {
  const key = keyOf(number);
  if (pending?.key !== key) pending = { key, answer: ask('draw', { pass: number, filter: at('filter').value }) };
  const mine = pending, answer = await mine.answer;
  if (pending === mine) pending = null;
  if (answer.stopped || key !== keyOf(pass)) return;
  if (answer.failed) {
    isPlaying = false;
    tell(`pass ${number}: ${answer.failed.line}`);
    return;
  }
  tell('');
  keep(key, answer);
  await show(pass, version);
}

function keep(key, answer) {
  kept.set(key, { ...answer, coarser: coarserThanWanted(answer) });
  let bytes = 0;
  for (const one of kept.values()) bytes += one.raster.length + one.levels.length;
  for (const old of kept.keys()) {
    if (bytes <= MOST_KEPT || old === key) break;
    bytes -= kept.get(old).raster.length + kept.get(old).levels.length;
    kept.delete(old);
  }
}

// Draws the next pass beforehand while there is nothing else to do.
async function fetchAhead() {
  const key = keyOf(pass + 1), after = walk;
  if (pass === walk.journal.passes || kept.has(key) || pending !== null) return;
  const mine = pending = { key, answer: ask('draw', { pass: pass + 1, filter: at('filter').value }) }, answer = await mine.answer;
  if (pending === mine) pending = null;
  if (walk === after && !answer.stopped && !answer.failed) keep(key, answer);
}

// ---- What is said in words

const countsText = (number) => `maps ${counts[MAP][number]}, unmaps ${counts[UNMAP][number]}, lost ${counts[LOST][number]}`;

function sayPass() {
  const { journal, store } = walk, end = journal.last[pass], parts = [];
  if (pass === 0) parts.push(`head: ${journal.pinned} pinned pages`);
  else parts.push(`pass ${pass} of ${journal.passes}`, `picture ${journal.picture[pass]}${written.has(pass) ? ', written by this pass' : ', drawn again later'}`);
  parts.push(`line ${lineOfPass(journal, pass)} of the journal`, countsText(pass));
  parts.push(`${counts.mapped[pass]} of ${journal.frames} frames in use at its end`);
  if (drawn !== null) {
    const { coarser } = drawn, all = drawn.levels.length;
    parts.push(`${drawn.wanted.pages.length} pages wanted`, `${coarser} of ${all} pixels coarser than wanted (${((100 * coarser) / all).toFixed(1)} %)`);
    parts.push(`drawn in ${drawn.drawing.toFixed(0)} ms`, `${(drawn.read / 1e6).toFixed(1)} MB of ${(store.length / 1e6).toFixed(1)} MB read`);
  }
  at('pass-said').textContent = parts.join(' · ');
  at('picture-title').textContent = pass === 0 ? 'The head has no picture' : `Picture ${journal.picture[pass]} as pass ${pass} drew it`;
  at('rows-title').textContent = `Versions ${journal.start[pass]} to ${end} of its rows`;
  at('events-title').textContent = `Events of ${pass === 0 ? 'the head' : `pass ${pass}`}`;
  at('play').textContent = isPlaying ? 'Pause' : 'Play';
}

function sayVersion() {
  const { journal, store } = walk, line = version === 0 ? 'nothing is mapped' : eventLine(store, journal.events, journal.changes[version - 1]);
  at('version').value = version;
  at('version-said').textContent = `${version} of ${journal.versions}: ${line}`;
  at('residency-title').textContent = `Residency at version ${version}`;
}

const pageText = (page) => `page ${nameOf(walk.store, page).join(' ')}`;

function sayPage(page) {
  if (page < 0) return at('page-said').replaceChildren();
  const { journal, store } = walk, frame = table.frames[page], pinned = page >= store.pages - journal.pinned ? ', pinned' : '';
  const want = wanted[page] > 0 ? `, wanted by ${wanted[page]} pixels` : '';
  return at('page-said').replaceChildren(`${pageText(page)} (index ${page}): ${frame < 0 ? 'not mapped' : `in frame ${frame}`}${pinned}${want}`);
}

// A row's sampler and version, and where the journal says so.
function rowText(y) {
  const { journal } = walk, [from, to] = eventsOf(journal, pass), { sampler, version: seen } = journal.rows, row = (pass - 1) * journal.height + y;
  return `sampler ${sampler[row]}, version ${seen[row]}, line ${lineOfPass(journal, pass) + to - from + 1 + y} of the journal`;
}

function sayPixel(x, y) {
  const { store } = walk, filter = at('filter').value, made = pixelOf(walk, pixelTable, pass, x, y, filter);
  const lines = made.texels.map(({ weight, page, column, row, shown, up, frame, byte }) => {
    const as = up === 0 ? 'which is mapped' : `shown by ${pageText(shown)}, ${up} coarser`;
    return `  texel (${column}, ${row}) of ${pageText(page)}, ${as}, in frame ${frame}, byte ${byte} of the store${filter === 'bilinear' ? `, weight ${weight}/65536` : ''}`;
  });
  const samples = drawn === null ? '' : `: ${[0, 1, 2].map((c) => sampleAt(drawn.raster, store.depth * (3 * (y * walk.path.width + x) + c), store.depth)).join(' ')}`;
  at('pixel-said').textContent = `pixel (${x}, ${y})${samples}\n  row ${y}: level ${made.level}, ${rowText(y)}\n${lines.join('\n')}`;
}

// The address holds what is shown, where all three files are of a server.
let addressing = null;
function keepAddress() {
  if (addressing !== null || !FILES.every((name) => typeof files[name] === 'string')) return;
  addressing = setTimeout(() => {
    addressing = null;
    if (walk === null) return;
    for (const [name, value] of Object.entries({ filter: at('filter').value, view: at('view').value, pass, version })) words.set(name, value);
    history.replaceState(null, '', `?${String(words).replaceAll('%2F', '/')}`);
  }, 300);
}

// ---- Hands

function toPicture(step) {
  const { journal } = walk, last = lastPasses(journal), current = journal.picture[pass] ?? -1;
  show(last[Math.max(0, Math.min(last.length - 1, current + step))] ?? 0);
}

// A version's own pass, unless the shown one has it too.
function toVersion(number) {
  const { journal } = walk, chosen = Math.max(0, Math.min(journal.versions, number)), isHere = journal.start[pass] <= chosen && chosen <= journal.last[pass];
  return show(isHere ? pass : passOfVersion(journal, chosen), chosen);
}

async function play() {
  isPlaying = !isPlaying;
  if (isPlaying && pass === walk.journal.passes) show(0);
  for (const of = walk; isPlaying && walk === of && pass < walk.journal.passes;) {
    const begun = performance.now();
    await show(pass + 1);
    await new Promise((done) => setTimeout(done, Math.max(0, 1000 / Number(at('speed').value) - (performance.now() - begun))));
  }
  isPlaying = false;
  showSoon();
}

const KEYS = {
  ArrowLeft: () => show(pass - 1), ArrowRight: () => show(pass + 1), ArrowUp: () => toVersion(version - 1), ArrowDown: () => toVersion(version + 1),
  PageUp: () => toPicture(-1), PageDown: () => toPicture(1), Home: () => show(0), End: () => show(walk.journal.passes), ' ': play,
};

document.addEventListener('keydown', (event) => {
  const key = KEYS[event.key], { target } = event;
  if (walk === null || !key || event.ctrlKey || event.metaKey || event.altKey) return;
  if (target.matches('select, input') || (event.key === ' ' && target.matches('button, label'))) return;
  event.preventDefault();
  key();
});

for (const [id, act] of Object.entries({ first: KEYS.Home, back: KEYS.ArrowLeft, next: KEYS.ArrowRight, last: KEYS.End, play, save })) at(id).onclick = act;
at('filter').onchange = () => { at('filter').blur(); if (walk !== null) show(pass, version); };
at('view').onchange = () => { at('view').blur(); showSoon(); };
at('speed').onchange = () => at('speed').blur();
at('version').oninput = () => toVersion(Number(at('version').value));
at('version').onpointerup = () => at('version').blur();
addEventListener('resize', showSoon);

// Calls an act with the place of the pointer while it is pressed.
function whilePressed(element, act) {
  element.onpointerdown = (event) => { element.setPointerCapture(event.pointerId); act(event); };
  element.addEventListener('pointermove', (event) => { if (event.buttons & 1) act(event); });
}

whilePressed(at('line'), ({ offsetX }) => {
  const chosen = passAt(at('line'), walk.journal.passes, offsetX);
  if (chosen !== pass) show(chosen);
});
whilePressed(at('rows'), ({ offsetX }) => show(pass, versionAt(at('rows'), walk.journal, pass, offsetX)));
at('rows').addEventListener('pointermove', ({ offsetY }) => {
  const y = rowAt(at('rows'), walk.journal, offsetY);
  at('pixel-said').textContent = pass > 0 && y >= 0 ? `row ${y}: ${rowText(y)}` : '\u00a0';
});
at('line').addEventListener('pointermove', ({ offsetX }) => {
  const { journal } = walk, over = passAt(at('line'), journal.passes, offsetX), name = over === 0 ? 'head' : `pass ${over}, picture ${journal.picture[over]}`;
  at('line-said').textContent = `${name}: ${countsText(over)}, versions ${journal.start[over]} to ${journal.last[over]}`;
});
at('line').addEventListener('pointerleave', () => { at('line-said').textContent = ''; });
at('picture').addEventListener('pointermove', ({ offsetX, offsetY }) => {
  const { clientWidth, clientHeight } = at('picture'), { width, height } = walk.path, x = Math.floor((offsetX / clientWidth) * width), y = Math.floor((offsetY / clientHeight) * height);
  if (pass > 0 && x >= 0 && y >= 0 && x < width && y < height) sayPixel(x, y);
});
for (const id of ['picture', 'rows']) at(id).addEventListener('pointerleave', () => { at('pixel-said').textContent = '\u00a0'; });

function save() {
  if (drawn === null) return;
  const link = document.createElement('a'), number = String(walk.journal.picture[pass]).padStart(4, '0');
  link.href = URL.createObjectURL(new Blob([pictureFile(walk.store, walk.path, drawn.raster)]));
  link.download = written.has(pass) ? `picture${number}.ppm` : `picture${number}-pass${pass}.ppm`;
  link.click();
  setTimeout(() => URL.revokeObjectURL(link.href), 10000);
}

// ---- Files

function choose(name, file) {
  files[name] = file;
  for (const word of ['pass', 'version', name]) words.delete(word);
}

for (const input of document.querySelectorAll('input[type=file]')) {
  input.onchange = () => {
    if (input.files.length === 0) return;
    choose(input.dataset.file, input.files[0]);
    input.value = '';
    openAll();
  };
}

// Which of the three a dropped file is, by how it begins, or else by its name's end.
async function kindOf(file) {
  const begins = await file.slice(0, 5).text().catch(() => '');
  if (begins.startsWith('VTS') || file.name.endsWith('.vts')) return 'store';
  return begins === 'size ' || file.name.endsWith('.path') ? 'path' : 'journal';
}

addEventListener('dragover', (event) => event.preventDefault());
addEventListener('drop', async (event) => {
  event.preventDefault();
  for (const file of [...event.dataTransfer.files]) choose(await kindOf(file), file);
  openAll();
});

// ---- For tests: what is shown, and the file of its picture once it is drawn.

globalThis.player = {
  get shown() {
    return { pass, version, isDrawn: walk !== null && (pass === 0 || drawn !== null) && !isDue, isPlaying };
  },
  show: (number, at) => show(number, at),
  file: () => pictureFile(walk.store, walk.path, drawn.raster),
  walk: () => walk,
};

tell('');
for (const id of ['filter', 'view']) if ([...at(id).options].some(({ value }) => value === words.get(id))) at(id).value = words.get(id);
if (FILES.some((name) => files[name])) openAll();
