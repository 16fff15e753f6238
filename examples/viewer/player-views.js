// What the player draws: the time line of passes, the versions of a pass's rows, its picture, its events, and the residency.

import { eventLine, eventsOf } from './journal.js';
import { LOST, MAP, UNMAP } from './replay.js';

const COLOURS = { [MAP]: '#5aa9f0', [UNMAP]: '#eda73f', [LOST]: '#ff5470' };
const WORDS = { [MAP]: 'map', [UNMAP]: 'unmap', [LOST]: 'lost' };
const SAMPLERS = ['#7fd0ff', '#ffb454', '#8fe388', '#ff8fa3', '#c9a7ff', '#f2e36b', '#5fe0c8', '#d9d9d9'];
const COARSER = [[38, 43, 51], [250, 221, 110], [246, 165, 74], [232, 106, 66], [200, 53, 79], [150, 30, 100], [105, 25, 120]];
// A colour of an image as the word that its four bytes are; browsers run on processors whose lowest byte comes first.
const opaque = ([red, green, blue]) => (0xff000000 | (blue << 16) | (green << 8) | red) >>> 0;
const UNMAPPED = opaque([38, 42, 49]), MISSING = opaque([255, 84, 112]);

// A canvas's context in CSS pixels, cleared, at a size or at the one that its style gives.
function begin(canvas, width = canvas.clientWidth, height = canvas.clientHeight) {
  const ratio = window.devicePixelRatio, context = canvas.getContext('2d');
  canvas.width = Math.max(1, Math.round(width * ratio));
  canvas.height = Math.max(1, Math.round(height * ratio));
  context.scale(ratio, ratio);
  return { context, width, height };
}

function bar(context, colour, x, y, width, height) {
  context.fillStyle = colour;
  context.fillRect(x, y, width, height);
}

/** How many events of each kind each pass has, and how many pages are mapped at its end. */
export function countsOf(journal) {
  const passes = journal.last.length, counts = { [MAP]: new Int32Array(passes), [UNMAP]: new Int32Array(passes), [LOST]: new Int32Array(passes), mapped: new Int32Array(passes) };
  let mapped = 0;
  for (let pass = 0; pass < passes; pass++) {
    const [from, to] = eventsOf(journal, pass);
    for (let event = from; event < to; event++) counts[journal.events.kind[event]][pass]++;
    counts.mapped[pass] = mapped += counts[MAP][pass] - counts[UNMAP][pass];
  }
  return counts;
}

// ---- The time line: a column for each pass, or for several passes that share a pixel. The head is the first.

const LABELS = 15;

export function passAt(canvas, passes, x) {
  return Math.max(0, Math.min(passes, Math.floor((x / canvas.clientWidth) * (passes + 1))));
}

export function drawLine(canvas, journal, counts, pass) {
  const { context, width, height } = begin(canvas), columns = journal.passes + 1, side = width / columns;
  drawBands(context, journal, height, side);
  const greatest = (list, from, to) => { let most = 0; for (let i = from; i < to; i++) most = Math.max(most, list[i]); return most; };
  const ends = Math.max(1, greatest(counts[MAP], 1, columns), greatest(counts[UNMAP], 1, columns), greatest(counts[LOST], 1, columns));
  const middle = LABELS + (height - LABELS) * 0.6, above = middle - LABELS - 2, below = height - middle - 2, step = Math.max(1, side);
  for (let x = 0; x < width; x += step) {
    const from = Math.min(columns - 1, Math.floor(x / side + 1e-9)), to = Math.max(from + 1, Math.floor((x + step) / side - 1e-9)), wide = Math.max(1, step > 4 ? step - 1 : step);
    const high = (kind, room) => Math.min(room, Math.ceil((greatest(counts[kind], from, to) / ends) * room));
    bar(context, COLOURS[MAP], x, middle - high(MAP, above), wide, high(MAP, above));
    bar(context, COLOURS[UNMAP], x, middle + 1, wide, high(UNMAP, below));
    const lost = high(LOST, above);
    if (lost > 0) bar(context, COLOURS[LOST], x + wide / 4, middle - Math.max(lost, 3), Math.max(1, wide / 2), Math.max(lost, 3));
  }
  drawInUse(context, journal, counts, side, middle, above);
  context.strokeStyle = '#ffffff';
  context.strokeRect(pass * side + 0.5, LABELS - 1.5, Math.max(2, side - 1), height - LABELS + 1);
}

// The pictures' numbers over bands of their passes.
function drawBands(context, { passes, picture }, height, side) {
  const bands = [];
  for (let pass = 1, from = 1; pass <= passes; pass++) {
    if (pass < passes && picture[pass + 1] === picture[from]) continue;
    bands.push({ number: picture[from], x: from * side, wide: (pass + 1 - from) * side });
    from = pass + 1;
  }
  for (const { number, x, wide } of bands) if (number % 2 === 1 && wide >= 2) bar(context, '#272b33', x, 0, wide, height);
  context.font = '11px system-ui, sans-serif';
  context.fillStyle = '#a3abb8';
  let labelled = -Infinity;
  for (const { number, x } of bands) {
    if (x < labelled) continue;
    context.fillText(String(number), x + 2, 11);
    labelled = x + 9 + 7 * String(number).length;
  }
}

function drawInUse(context, { frames, passes }, { mapped }, side, middle, above) {
  context.strokeStyle = '#a3abb8';
  context.beginPath();
  for (let pass = 0; pass <= passes; pass++) context.lineTo((pass + 1) * side, middle - (mapped[pass] / frames) * above + 0.5);
  context.stroke();
}

// ---- The picture

// The colours of the mip levels, dark for coarse, or of how much coarser a level is than wanted.
function coloursOf({ levels }, view) {
  if (view === 'coarser') return COARSER;
  return levels.map((_, level) => new Array(3).fill(Math.round(240 - (220 * level) / Math.max(1, levels.length - 1))));
}

/** The pixels of a picture as it is shown: its samples (of two bytes the higher ones), the mip levels that show it, or how much coarser these are than
 *  wanted. */
export function imageOf({ width, height }, store, drawn, view) {
  const image = new ImageData(width, height), { raster, levels, rowLevels } = drawn, { depth } = store, to = new Uint32Array(image.data.buffer);
  const colours = Uint32Array.from(coloursOf(store, view), opaque), last = colours.length - 1;
  for (let i = 0, from = 0, y = 0; y < height; y++) {
    const wanted = view === 'coarser' ? rowLevels[y] : 0;
    for (let x = 0; x < width; x++, i++, from += 3 * depth) {
      if (view === 'picture') to[i] = 0xff000000 | (raster[from + 2 * depth] << 16) | (raster[from + depth] << 8) | raster[from];
      else to[i] = colours[Math.min(last, levels[i] - wanted)];
    }
  }
  return image;
}

/** What the colours of a view say. */
export function legendOf(store, view) {
  if (view === 'picture') return [];
  const said = (i) => (view === 'level' ? `${i}` : i === 0 ? 'as wanted' : `${i}${i === COARSER.length - 1 ? ' or more' : ''}`);
  return coloursOf(store, view).map((colour, i) => {
    const one = document.createElement('span'), box = document.createElement('i');
    box.style.background = `rgb(${colour})`;
    one.append(box, said(i));
    return one;
  });
}

/** How many pixels show a coarser level than their row wants. */
export function coarserThanWanted({ levels, rowLevels }) {
  const width = levels.length / rowLevels.length;
  let count = 0;
  for (let y = 0, i = 0; y < rowLevels.length; y++) for (const end = i + width; i < end; i++) count += levels[i] > rowLevels[y] ? 1 : 0;
  return count;
}

/** How many CSS pixels a pixel of the picture gets in this room. */
export function scaleOf({ width, height }, roomWide, roomHigh) {
  const scale = Math.min(roomWide / width, roomHigh / height, 64);
  return scale >= 1 ? Math.floor(scale) : scale;
}

// ---- The versions of a pass's rows, row for row beside its picture

const EDGE = 10;

export function versionAt(canvas, { start, last }, pass, x) {
  const share = (x - EDGE) / Math.max(1, canvas.clientWidth - 2 * EDGE);
  return Math.round(start[pass] + Math.max(0, Math.min(1, share)) * (last[pass] - start[pass]));
}

/** The row of a pass on which the pointer is, or -1. */
export function rowAt(canvas, { height }, y) {
  const row = Math.floor((y / canvas.clientHeight) * height);
  return row >= 0 && row < height ? row : -1;
}

export function drawRows(canvas, journal, pass, version, scale) {
  canvas.style.height = `${journal.height * scale}px`;
  const { context, width, height } = begin(canvas), { start, last, events, rows } = journal, from = start[pass], span = last[pass] - from;
  const xOf = (at) => EDGE + (span === 0 ? 0 : ((at - from) / span) * (width - 2 * EDGE));
  const [first, end] = eventsOf(journal, pass);
  context.globalAlpha = span > 100 ? 0.25 : 0.5;
  for (let event = first; event < end; event++) bar(context, COLOURS[events.kind[event]], xOf(events.version[event]) - 0.5, 0, 1, height);
  context.globalAlpha = 1;
  if (version >= from && version <= last[pass]) bar(context, '#ffffff', xOf(version) - 1, 0, 2, height);
  for (let y = 0, at = (pass - 1) * journal.height; pass > 0 && y < journal.height; y++, at++) {
    bar(context, SAMPLERS[rows.sampler[at] % SAMPLERS.length], xOf(rows.version[at]) - 4, y * scale, 8, Math.max(1, scale > 3 ? scale - 1 : scale));
  }
}

// ---- The events of a pass: a list of which only the lines in sight are there

const LINE = 19;

export class EventList {
  constructor(frame, all, choose) {
    Object.assign(this, { frame, all, choose, journal: null, range: [0, 0], version: 0 });
    frame.addEventListener('scroll', () => this.fill());
  }

  show(walk, pass, version, height) {
    const range = eventsOf(walk.journal, pass), isOther = this.walk !== walk || this.pass !== pass;
    Object.assign(this, { walk, pass, range, version });
    this.frame.style.height = `${height}px`;
    this.all.style.height = `${(range[1] - range[0]) * LINE}px`;
    if (isOther) this.frame.scrollTop = 0;
    this.bringInSight();
    this.fill();
  }

  // The last event that a version has seen.
  now() {
    const { version } = this.walk.journal.events;
    let at = this.range[1] - 1;
    while (at >= this.range[0] && version[at] > this.version) at--;
    return at;
  }

  bringInSight() {
    const top = (this.now() - this.range[0]) * LINE, { frame } = this;
    if (top < frame.scrollTop) frame.scrollTop = Math.max(0, top);
    else if (top + LINE > frame.scrollTop + frame.clientHeight) frame.scrollTop = top + LINE - frame.clientHeight;
  }

  fill() {
    if (!this.walk) return;
    const { store, journal } = this.walk, { events } = journal, [first, end] = this.range, now = this.now(), lines = [];
    const from = first + Math.max(0, Math.floor(this.frame.scrollTop / LINE) - 2), to = Math.min(end, from + Math.ceil(this.frame.clientHeight / LINE) + 4);
    for (let event = from; event < to; event++) {
      const line = document.createElement('div');
      line.className = `${WORDS[events.kind[event]]}${event === now ? ' now' : ''}${event > now ? ' later' : ''}`;
      line.style.top = `${(event - first) * LINE}px`;
      line.textContent = eventLine(store, events, event);
      line.onclick = () => this.choose(events.version[event]);
      lines.push(line);
    }
    this.all.replaceChildren(...lines);
  }
}

// ---- The residency: for each level a cell for each of its pages

const ROOM = 300;

/** The pictures of the levels. `shows(page)` is told which page the pointer is on, or -1. */
export class Residency {
  constructor(frame, store, shows) {
    this.store = store;
    this.levels = store.levels.map((level, k) => {
      const figure = document.createElement('figure'), canvas = document.createElement('canvas'), caption = document.createElement('figcaption');
      const cell = Math.max(1, Math.min(28, Math.floor(ROOM / Math.max(level.columns, level.rows))));
      const pageAt = ({ offsetX, offsetY }) => {
        const column = Math.floor(offsetX / cell), row = Math.floor(offsetY / cell);
        return column >= 0 && row >= 0 && column < level.columns && row < level.rows ? level.first + row * level.columns + column : -1;
      };
      canvas.onpointermove = (event) => shows(pageAt(event));
      canvas.onpointerleave = () => shows(-1);
      canvas.setAttribute('aria-label', `pages of level ${k}`);
      canvas.style.width = `${level.columns * cell}px`;
      canvas.style.height = `${level.rows * cell}px`;
      figure.append(canvas, caption);
      return { ...level, k, cell, canvas, caption, image: new ImageData(level.columns, level.rows) };
    });
    frame.replaceChildren(...this.levels.map(({ canvas }) => canvas.parentElement));
  }

  /** Shows a table: `frames` has each page's frame or -1, `counts` how many pixels want each page, and `isFresh(page)` tells whether its pass mapped it. */
  draw(frames, counts, isFresh) {
    for (const level of this.levels) this.drawLevel(level, frames, counts, isFresh);
  }

  drawLevel({ k, columns, rows, first, cell, canvas, caption, image }, frames, counts, isFresh) {
    const { context } = begin(canvas), pages = columns * rows, cells = new Uint32Array(image.data.buffer);
    let mapped = 0, missing = 0;
    for (let i = 0; i < pages; i++) {
      const frame = frames[first + i], isWanted = counts[first + i] > 0;
      mapped += frame >= 0 ? 1 : 0;
      missing += frame < 0 && isWanted ? 1 : 0;
      cells[i] = frame >= 0 ? colourOf(frame, isWanted) : isWanted && cell < 6 ? MISSING : UNMAPPED;
    }
    paint(context, image, columns * cell, rows * cell);
    if (cell >= 4) this.drawMarks(context, first, columns, pages, cell, frames, counts, isFresh);
    caption.textContent = `level ${k}: ${columns}x${rows}, ${mapped} mapped${missing ? `, ${missing} more wanted` : ''}`;
  }

  drawMarks(context, first, columns, pages, cell, frames, counts, isFresh) {
    context.font = `${cell >= 24 ? 11 : 9}px system-ui, sans-serif`;
    context.textAlign = 'center';
    context.textBaseline = 'middle';
    for (let i = 0; i < pages; i++) {
      const page = first + i, x = (i % columns) * cell, y = Math.floor(i / columns) * cell, frame = frames[page], wide = cell >= 10 ? 2 : 1;
      const edge = frame >= 0 ? isFresh(page) && '#ffffff' : counts[page] > 0 && cell >= 6 && '#ff5470';
      if (edge) {
        context.strokeStyle = edge;
        context.lineWidth = wide;
        context.strokeRect(x + wide / 2, y + wide / 2, cell - wide - 0.5, cell - wide - 0.5);
      }
      if (frame >= 0 && cell >= 18) {
        context.fillStyle = counts[page] > 0 ? '#000000' : '#ffffff';
        context.fillText(String(frame), x + cell / 2, y + cell / 2 + 0.5, cell - 3);
      }
    }
  }
}

// An image in cells of its own size.
function paint(context, image, width, height) {
  const whole = new OffscreenCanvas(image.width, image.height);
  whole.getContext('2d').putImageData(image, 0, 0);
  context.imageSmoothingEnabled = false;
  context.drawImage(whole, 0, 0, width, height);
}

// A frame's colour as a word: hues far from each other for frames near each other, none of them red.
function colourOf(frame, isWanted) {
  const hue = 45 + ((frame * 137.508) % 270), [saturation, light] = isWanted ? [0.55, 0.58] : [0.3, 0.34], most = saturation * Math.min(light, 1 - light);
  return opaque([0, 8, 4].map((n) => {
    const k = (n + hue / 30) % 12;
    return Math.round(255 * (light - most * Math.max(-1, Math.min(k - 3, 9 - k, 1))));
  }));
}
