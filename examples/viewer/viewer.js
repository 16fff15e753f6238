// The page: opens the store that the address names, and shows it by the engine. `window.viewer` is the engine, for the console and for tests.
import { Engine } from './engine.js';
import { Failed, Trouble } from './errors.js';
import { addressOf, kindOf, LocalFile, sentenceOf, WebFile } from './source.js';
import { lookOf, optionsOf, wordsOfLook } from './address.js';
import { flightsOf, readPath } from './path.js';
import { notice } from './notices.js';
import { Panel } from './panel.js';
import { north, oneToOne, takeHands } from './hand.js';

const at = (name) => document.getElementById(name);
const words = new URLSearchParams(location.search), { options, flaws } = optionsOf(words), isBare = words.has('bare');

const PANEL_EVERY = 200, ADDRESS_AFTER = 300, BAR_PIXELS = 120, VALUE_AFTER = 120;

let engine = null, panel = null, opening = null, offered = null, address = null;

// ---- sentences

const trouble = (sentence, ...buttons) => notice(at('trouble'), sentence, buttons);
const passing = (sentence) => notice(at('passing'), sentence, [], false);
const note = (sentence) => notice(at('notes'), sentence, sentence ? [['Close', () => note('')]] : [], false);

const AGAIN = ['missing', 'refused', 'status', 'cors', 'headers', 'ranges', 'unreachable', 'timeout', 'busy', 'broken', 'memory'];

// The sentence of an error that ended the opening or the showing of a store, with what helps.
function explain(error, source) {
  const kind = kindOf(error), other = ['Other store', choose], again = () => begin(() => renewed(source));
  if (kind === 'file' || source instanceof LocalFile) trouble(sentenceOf(error), ['Choose a file', () => { choose(); at('local').click(); }]);
  else if (kind === 'replaced') trouble(sentenceOf(error), ['Load it anew', again]);
  else if (AGAIN.includes(kind)) trouble(sentenceOf(error), ['Try again', again], other);
  else trouble(sentenceOf(error), ...(kind === 'graphics' ? [] : [other]));
}

// The same file, to be read from its first byte again.
const renewed = (source) => (source instanceof LocalFile ? new LocalFile(source.file) : new WebFile(source.url));

// ---- opening

/** Opens a store, in place of the one that is shown. Resolves to its engine, or to null where the page has a sentence. */
function begin(sourceOf) {
  window.ready = open(sourceOf);
  return window.ready;
}

async function open(sourceOf) {
  let source = null, isRead = [];
  opening?.abort();
  opening = new AbortController();
  const mine = opening, { signal } = mine, look = engine?.look && engine.look;
  try {
    source = sourceOf();
    const isSame = engine !== null && engine.source.url === source.url;
    if (engine) engine.destroy();
    engine = window.viewer = panel = null;
    at('choose').hidden = true;
    trouble('');
    passing('');
    const made = await Engine.open(at('picture'), source, {
      ...options, signal, heard: (error) => passing(`${error.message} Trying again.`),
      look: (usual, store) => {
        if (isSame && look) return { ...look };
        const its = lookOf(location.hash, usual, store.depth);
        isRead = its.flaws;
        return its.look;
      },
    });
    if (signal.aborted) {
      made.destroy();
      return null;
    }
    show(made);
    note([...flaws, ...isRead].join(' '));
    if (words.has('path') && offered === null) await fetchPath(words.get('path'));
    return made;
  } catch (error) {
    if (mine !== opening || signal.aborted) return null;
    passing('');
    if (!source || source instanceof LocalFile) choose();
    explain(error, source);
    if (!(error instanceof Trouble || error instanceof Failed)) throw error;
    return null;
  }
}

// Binds the page to an engine that has opened.
function show(made) {
  engine = window.viewer = made;
  const { store, source } = engine;
  panel = new Panel(at('panel'), engine.session);
  passing('');
  engine.addEventListener('look', () => {
    noteAddress();
    showState();
  });
  engine.addEventListener('draw', () => {
    showPanel(true);
    showBar();
  });
  engine.addEventListener('sharp', () => showPanel());
  engine.addEventListener('problem', ({ detail }) => passing(detail ? `${detail.message} Trying again.` : ''));
  engine.addEventListener('error', ({ detail }) => explain(detail, source));
  document.title = `${source.name} – vtex`;
  at('heights').hidden = store.depth === 1;
  at('tools').hidden = at('read').hidden = isBare;
  if (!panel.wasShown && !isBare) togglePanel(innerWidth >= 700 && innerHeight >= 500);
  at('player').href = source instanceof LocalFile ? 'player.html' : `player.html?store=${encodeURIComponent(words.get('store') ?? source.url)}`;
  showState();
  if (document.activeElement === document.body || document.activeElement === null) at('picture').focus({ preventScroll: true });
}

// ---- paths

async function fetchPath(name) {
  try {
    const source = new WebFile(addressOf(name, location.href), { keep: false });
    offer(await source.whole());
  } catch (error) {
    note(`The path ${name} cannot be played. ${sentenceOf(error)}`);
  }
}

function offer(bytes) {
  const path = flightsOf(readPath(bytes));
  if (path.length === 0) throw new Trouble('It has no key, so there is nothing to play.', 'path');
  [offered, stopped] = [path, 0];
  showState();
}

let stopped = 0;                                           // the picture at which the path was stopped
function playOrStop() {
  if (!engine || !offered) return;
  if (engine.path) {
    stopped = engine.shown ?? 0;
    engine.path = null;
  } else {
    engine.play(offered, stopped);
    stopped = 0;
  }
  showState();
}

async function playFile(file) {
  try {
    offer(new Uint8Array(await file.arrayBuffer()));
    note('');
    engine?.play(offered);
    showState();
  } catch (error) {
    note(`The path ${file.name} cannot be played. ${sentenceOf(error)}`);
  }
}

// ---- what the page shows of the engine

function showState() {
  const { look, store } = engine, isMap = look.view.mode === 'map';
  at('mode').textContent = isMap ? 'Flight' : 'Map';
  at('north').hidden = !look.view.turn;
  at('filter').value = look.filter;
  at('rounding').value = look.rounding;
  at('tint').checked = look.showsLevels;
  at('colours').value = look.colours;
  at('hillshade').checked = look.hillshade;
  if (store.depth === 2) ['black', 'white'].forEach((name, i) => { if (document.activeElement !== at(name)) at(name).value = look.range[i]; });
  at('play').hidden = !offered;
  at('play').textContent = engine.path ? 'Stop' : 'Play';
  at('one').setAttribute('aria-pressed', isMap && look.view.scale === 1);
}

let paneled = 0;
function showPanel(isOften = false) {
  const now = performance.now();
  if (!engine?.look || at('panel').hidden || (isOften && now - paneled < PANEL_EVERY)) return;
  paneled = now;
  panel.show(engine.look.view.mode === 'map' && !engine.look.view.turn ? null : engine.times.feedback);
}

function togglePanel(isOpen = at('panel').hidden) {
  at('panel').hidden = !isOpen;
  at('more').setAttribute('aria-expanded', isOpen);
  showPanel();
}

// A bar of 1, 2 or 5 times a power of ten texels, for maps.
function showBar() {
  const texels = engine.texelsAPixel;
  at('bar').hidden = texels === null;
  if (texels === null) return;
  const most = texels * BAR_PIXELS, ten = 10 ** Math.floor(Math.log10(most)), length = [5, 2, 1].find((it) => it * ten <= most) * ten;
  at('bar').firstElementChild.style.width = `${length / texels}px`;
  const text = `${length >= 1 ? length.toLocaleString('en') : Number(length.toPrecision(1))} texel${length === 1 ? '' : 's'}`;
  if (at('length').textContent !== text) at('length').textContent = text;
}

let pointer = null, valuing = 0;
function showValue(event) {
  pointer = event && { x: event.offsetX, y: event.offsetY };
  const place = pointer && engine?.look && engine.texelAt(pointer.x, pointer.y);
  clearTimeout(valuing);
  at('value').textContent = place ? `texel ${Math.floor(place[0])}, ${Math.floor(place[1])}` : '';
  if (!place) return;
  const of = engine, its = pointer;
  valuing = setTimeout(async () => {
    const value = await of.valueAt(its.x, its.y).catch(() => null);
    if (value && of === engine && its === pointer) at('value').textContent = `texel ${value.u}, ${value.v} · level ${value.level}${value.level === value.wanted ? '' : ` (of ${value.wanted})`} · ${value.samples.join(' ')}`;
  }, VALUE_AFTER);
}

// The address has what is seen, once it stays for a moment.
let noting = 0;
function noteAddress() {
  clearTimeout(noting);
  const its = engine;
  noting = setTimeout(() => {
    if (its !== engine) return;
    address = '#' + wordsOfLook(engine.look, engine.usual);
    history.replaceState(null, '', address);
  }, ADDRESS_AFTER);
}

// ---- choosing

function choose() {
  at('choose').hidden = false;
  at('back').hidden = !engine?.look;
  listStores();
}

async function listStores() {
  const answer = await fetch('stores.json').catch(() => null);
  const list = answer?.ok && /json/.test(answer.headers.get('Content-Type') ?? '') ? (await answer.json().catch(() => ({}))).stores ?? [] : [];
  at('listed').hidden = list.length === 0;
  at('stores').replaceChildren(...list.map(({ name, address: its, width, height, depth }) => {
    const item = document.createElement('li'), link = document.createElement('a');
    link.href = `?store=${encodeURIComponent(its).replaceAll('%2F', '/')}`;
    link.textContent = name;
    item.append(link, ` ${width} × ${height}${depth === 2 ? ', two bytes a sample' : ''}`);
    return item;
  }));
}

// A file is a path by how it begins, else a store.
async function take(file) {
  const begins = await file.slice(0, 5).text().catch(() => '');
  if (begins === 'size ') await playFile(file);
  else await begin(() => new LocalFile(file));
}

function download(blob, name) {
  const link = document.createElement('a');
  link.href = URL.createObjectURL(blob);
  link.download = name;
  link.click();
  setTimeout(() => URL.revokeObjectURL(link.href), 10000);
}

async function save(make, ending) {
  try {
    const name = engine.source.name.replace(/\.vts$/, '');
    download(await make(), `${name}${ending}.png`);
    passing('');
  } catch (error) {
    note(sentenceOf(error));
  }
}

// ---- hands

takeHands(at('picture'), () => engine, { p: () => togglePanel(), ' ': playOrStop, '?': () => at('keys').showModal() });

const on = (name, kind, does) => at(name).addEventListener(kind, (event) => { if (engine?.look) does(event.target); });
on('fit', 'click', () => engine.fit());
on('one', 'click', () => oneToOne(engine));
on('mode', 'click', () => engine.changeMode());
on('north', 'click', () => north(engine));
on('filter', 'change', ({ value }) => engine.set({ filter: value }));
on('rounding', 'change', ({ value }) => engine.set({ rounding: value }));
on('tint', 'change', ({ checked }) => engine.set({ showsLevels: checked }));
on('colours', 'change', ({ value }) => engine.set({ colours: value }));
on('hillshade', 'change', ({ checked }) => engine.set({ hillshade: checked }));
on('auto', 'click', () => engine.set({ range: [...engine.usual.range] }));
for (const name of ['black', 'white']) {
  on(name, 'input', () => {
    const range = [at('black').valueAsNumber, at('white').valueAsNumber];
    if (range.every(Number.isInteger) && range[0] >= 0 && range[0] < range[1] && range[1] <= 65535) engine.set({ range });
  });
}
on('play', 'click', playOrStop);
on('more', 'click', () => togglePanel());
on('less', 'click', () => { togglePanel(false); at('more').focus(); });
on('save', 'click', () => save(() => engine.picture(), '-picture'));
on('save-region', 'click', () => save(() => engine.regionPicture(engine.region, (part) => passing(part < 1 ? `Reading the region: ${Math.round(100 * part)} %.` : '')), '-region'));
at('full').hidden = !document.fullscreenEnabled;
on('full', 'click', () => (document.fullscreenElement ? document.exitFullscreen() : document.documentElement.requestFullscreen()).catch(() => {}));
addEventListener('fullscreenchange', () => { at('full').textContent = document.fullscreenElement ? 'Leave full screen' : 'Full screen'; });
at('help').addEventListener('click', () => at('keys').showModal());
at('other').addEventListener('click', choose);
at('back').addEventListener('click', () => { at('choose').hidden = true; });
at('path').addEventListener('change', ({ target }) => { if (target.files[0]) playFile(target.files[0]); });
at('local').addEventListener('change', ({ target }) => {
  const [file] = target.files;
  target.value = '';
  if (file) take(file);
});
at('picture').addEventListener('pointermove', showValue);
at('picture').addEventListener('pointerleave', () => showValue(null));
at('theme').addEventListener('change', ({ target }) => setTheme(target.value));

function setTheme(name) {
  if (name) document.documentElement.dataset.theme = name;
  else delete document.documentElement.dataset.theme;
  try {
    localStorage.setItem('vtex-theme', name);
  } catch {
    // A page without storage has the theme until it is closed.
  }
}

let inside = 0;
addEventListener('dragenter', () => document.body.classList.toggle('dropping', ++inside > 0));
addEventListener('dragleave', () => document.body.classList.toggle('dropping', --inside > 0));
addEventListener('dragover', (event) => event.preventDefault());
addEventListener('drop', (event) => {
  event.preventDefault();
  document.body.classList.toggle('dropping', (inside = 0) > 0);
  const [file] = event.dataTransfer.files;
  if (file) take(file);
});
addEventListener('hashchange', () => {
  if (!engine?.look || location.hash === address) return;
  const { look, flaws: wrong } = lookOf(location.hash, { ...engine.usual, view: engine.look.view }, engine.store.depth);
  engine.set(look);
  note(wrong.join(' '));
});
// A graphics processor that comes back has lost all tiles: the store is opened again, also one of this computer.
at('picture').addEventListener('webglcontextrestored', () => { if (engine) begin(() => renewed(engine.source)); });

// ---- the start

at('early').remove();
try {
  at('theme').value = localStorage.getItem('vtex-theme') ?? '';
  if (at('theme').value) document.documentElement.dataset.theme = at('theme').value;
} catch {
  // Without storage the theme is the system's.
}
if (words.get('store')) begin(() => new WebFile(addressOf(words.get('store'), location.href)));
else choose();
