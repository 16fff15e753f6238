// The engine: shows a store in a canvas, without a page around it. It reads by source.js and link.js, decides by session.js, and draws by screen.js.
//
//     const engine = await Engine.open(canvas, new WebFile(address), { filter: 'nearest' });
//     engine.addEventListener('sharp', () => console.log(engine.look.view));
//     engine.move({ mode: 'map', u: 512, v: 256, scale: 1 });
//     engine.destroy();
//
// Events: `move` (the view changed), `look` (anything of the look changed, also the view), `draw` (a picture was drawn), `sharp` (it is as sharp as it
// gets), `problem` (detail: a Failed that is tried again, or null once it has passed), `error` (detail: the error that ended the showing).
import { load, NO_PAGE, VtexError } from './vtex.js';
import { kindOf, sentenceOf, Trouble } from './errors.js';
import { LocalFile, tried } from './source.js';
import { Link } from './link.js';
import { mostOf } from './runs.js';
import { Session } from './session.js';
import { contextOf, mostFrames, Screen } from './screen.js';
import { bounded, byHand, countMap, fitted, flightOver, groundAt, isCounted, mapUnder, pictureAt, roundingOf } from './camera.js';

const FINER_NEEDS = 4.5;                                   // a level finer has up to four times the pages, and some more at the edges
const PICTURES_A_SECOND = 24, PINNED_BYTES = 300e3, SAVED_PIXELS = 64e6;

const libraries = new Map();

// One module for all engines of a page.
function libraryOf(is64) {
  if (!libraries.has(is64)) {
    const loading = load(import.meta.url, is64);
    loading.catch(() => libraries.delete(is64));
    libraries.set(is64, loading);
  }
  return libraries.get(is64);
}

const ratioOf = () => globalThis.devicePixelRatio || 1;

// The range that is black to white: of samples of two bytes what the pinned tiles have, since heights use a small part of it.
const usualRange = (depth, pinned) => (depth === 1 ? [0, 255] : pinned[0] < pinned[1] ? pinned : [0, 65535]);

/** The sides that a canvas has in pixels of the device. */
function sidesOf(canvas) {
  const ratio = ratioOf();
  return { width: Math.max(1, Math.round(canvas.clientWidth * ratio)), height: Math.max(1, Math.round(canvas.clientHeight * ratio)) };
}

// Frames for six times the tiles of a screen, since a flight needs finer levels and each page those above it; and as many levels pinned as a few hundred
// kilobytes hold. More levels than the store has are all of them.
function sizesOf(store, gl, options) {
  const ratio = ratioOf(), tiles = (pixels) => pixels * ratio / store.tile + 2, most = mostFrames(gl, store.tile);
  const across = Math.max(globalThis.screen?.width ?? 0, gl.canvas.clientWidth), down = Math.max(globalThis.screen?.height ?? 0, gl.canvas.clientHeight);
  const enough = 2 ** Math.ceil(Math.log2(6 * tiles(across) * tiles(down)));
  let levels = 1;
  while (levels < store.levels.length && store.pinned(levels + 1) * store.tileBytes <= PINNED_BYTES) levels++;
  levels = Math.min(options.pinned ?? levels, store.levels.length);
  while (levels > 1 && store.pinned(levels) > most) levels--;
  const frames = Math.min(options.frames ?? Math.min(Math.max(enough, 256), store.pages), most);
  return { frames: Math.max(frames, store.pinned(levels)), levels };
}

export class Engine extends EventTarget {
  /** Opens a store in a canvas, and shows it. Rejects with a Trouble or a Failed, whose message is a sentence, and then leaves nothing
   *  behind.
   *
   *  `source`: a WebFile or a LocalFile. Options: `frames` and `pinned` (levels) of the cache, `parallel` requests of at most `run` tiles, `view`, `filter`
   *  and other parts of the look, or `look`, a function of the usual look and the store that returns one; `heard`, called with each failure that is tried
   *  again; `signal`, which ends the opening; `is64`: false for the module with 32-bit memories. */
  static async open(canvas, source, options = {}) {
    const engine = new Engine(canvas, source, options);
    try {
      await engine.begin(options);
    } catch (error) {
      engine.destroy();
      throw error instanceof VtexError ? new Trouble(sentenceOf(error), kindOf(error)) : error;
    }
    return engine;
  }

  constructor(canvas, source, { block = 0, heard = () => {} } = {}) {
    super();
    Object.assign(this, { canvas, source, block, heardFailure: heard, store: null, session: null, screen: null, look: null });
    this.number = 0;                                       // counts the looks
    this.heard = -1;                                       // the look that `wanted` is of
    this.asked = null;                                     // the look and the phase that are read back
    this.phase = 0;                                        // the next one to be read
    this.pinned = [65535, 0];                              // the least and the greatest sample of the pinned tiles
    this.bias = 0;                                         // how many levels coarser than they should be, since frames are too few
    this.isChanged = true;                                 // a picture is to be drawn
    this.isScheduled = this.isAtWork = this.isDestroyed = this.wasSharp = false;
    this.trouble = null;                                   // what ended the showing
    this.waits = [];
    this.path = null;
    this.times = { opened: performance.now(), first: 0, changed: 0, feedback: 0, draws: 0, feedbacks: 0 };
    this.lost = (event) => {
      event.preventDefault();
      if (!this.isDestroyed) this.fail(new Trouble('The graphics processor was taken away. The picture comes back with it.', 'graphics'));
    };
    canvas.addEventListener('webglcontextlost', this.lost);
  }

  async begin(options) {
    const { canvas, source } = this, { signal, heard } = { heard: this.heardFailure, ...options }, gl = contextOf(canvas);
    const [library, head] = await Promise.all([libraryOf(options.is64), tried(() => source.open(signal), { heard, signal })]);
    signal?.throwIfAborted();
    this.store = library.open(head, source.length);
    const { store } = this, sizes = sizesOf(store, gl, options);
    const link = new Link(source, store, { parallel: options.parallel ?? 6, run: options.run ?? mostOf(store), heard: () => this.work() });
    this.screen = new Screen(gl, store, sizes.frames);
    const upload = (page, frame, isMap, bytes) => {
      if (this.look === null && isMap) this.widen(bytes);
      this.screen.upload(page, frame, isMap, bytes);
    };
    this.session = new Session(store, link, { ...sizes, upload });
    await tried(() => this.session.pin(), { heard, signal });
    signal?.throwIfAborted();
    Object.assign(canvas, sidesOf(canvas));
    this.usual = { view: fitted(store, canvas.width, canvas.height), filter: 'bilinear', rounding: 'round', range: usualRange(store.depth, this.pinned), colours: 'grey', hillshade: false, showsLevels: false };
    const { view = this.usual.view, filter = this.usual.filter, range = this.usual.range, colours = 'grey', hillshade = false, showsLevels = false } = options;
    this.look = options.look?.(this.usual, store) ?? { ...this.usual, view, filter, range, colours, hillshade, showsLevels, rounding: options.rounding ?? roundingOf(view) };
    this.look.view = bounded(this.look.view, store, canvas.width, canvas.height);
    this.resizing = new ResizeObserver(() => this.schedule());
    this.resizing.observe(canvas);
    this.schedule();
  }

  // Adds a pinned tile to the usual range, which is that of the samples of all pinned tiles.
  widen(bytes) {
    if (this.store.depth === 1) return;
    const { pinned } = this;
    for (let i = 0; i + 1 < bytes.length; i += 2) {
      const sample = 256 * bytes[i] + bytes[i + 1];
      if (sample < pinned[0]) pinned[0] = sample;
      if (sample > pinned[1]) pinned[1] = sample;
    }
  }

  // A feedback of a nearest picture has four pixels of a block, one of a bilinear picture the four texels of one.
  get blockSide() { return this.block || (this.look.filter === 'bilinear' ? 4 : 8); }

  get phases() { return this.screen.phases(this.look, this.blockSide); }

  /** Whether each pixel's page is mapped, or has nothing left to come. */
  get isSharp() {
    if (this.isDestroyed || !this.look) return false;
    const isHeard = isCounted(this.look.view) || this.phase >= this.phases && !this.asked;
    return this.session.isSettled && this.heard === this.number && isHeard && !this.isChanged;
  }

  /** Resolves once the picture is sharp, to true, or once the showing has ended, to false. */
  sharp() {
    this.schedule();
    return this.isDestroyed || this.trouble ? Promise.resolve(false) : new Promise((done) => { this.waits.push(done); });
  }

  /** Sets some of view, filter, rounding, showsLevels, range, colours, hillshade. */
  set(changes) {
    if (this.isDestroyed) return;
    const isOther = changes.view !== undefined;
    Object.assign(this.look, changes);
    this.look.view = bounded(this.look.view, this.store, this.canvas.width, this.canvas.height);
    if (isOther && this.bias > 0) this.mayFall = true;
    this.renew();
    if (isOther) this.tell('move', this.look.view);
    this.tell('look', this.look);
  }

  // The pixels may want other pages.
  renew() {
    this.look.bias = this.bias;
    this.number++;
    this.phase = 0;
    this.isChanged = true;
    this.wasSharp = false;
    this.schedule();
  }

  /** Shows another view; `isWalk`: a picture of a path, by the rows of `vtex walk`. */
  move(view, isWalk = false) {
    if (this.isDestroyed) return;
    const its = isWalk ? { ...view, isWalk } : { ...byHand(view, this.canvas.width, this.canvas.height), isWalk: false };
    const rounding = roundingOf(its);
    this.set({ view: its, ...(rounding === roundingOf(this.look.view) ? {} : { rounding }) });
  }

  /** Shows the whole texture. */
  fit() { this.move(fitted(this.store, this.canvas.width, this.canvas.height)); }

  /** Changes between a map and the flight over it. */
  changeMode() {
    const { canvas: { width, height }, look: { view } } = this;
    this.move(view.mode === 'map' ? flightOver(view, width, height) : mapUnder(view, this.store, width, height));
  }

  /** Plays a path, a list of flights of flightsOf (path.js), from its picture `from` on; null stops. */
  play(path, from = 0) {
    this.path = path?.length > 0 ? path : null;
    this.begun = null;
    this.from = this.path && from < path.length - 1 ? from : 0;
    this.schedule();
  }

  /** The place of the texture under a point of the canvas, in texels of level 0, or null. `x` and `y` are in CSS pixels from its upper left. */
  texelAt(x, y) {
    const ratio = ratioOf();
    return groundAt(this.look.view, this.store, this.canvas.width, this.canvas.height, x * ratio, y * ratio);
  }

  /** Where a place of the texture is in the canvas, in CSS pixels from its upper left, or null where it is behind the camera. */
  pointAt(u, v) {
    const ratio = ratioOf(), at = pictureAt(this.look.view, this.store, this.canvas.width, this.canvas.height, u, v);
    return at && at.map((it) => it / ratio);
  }

  /** How many texels of level 0 a CSS pixel has on a map; null in a flight. */
  get texelsAPixel() { return this.look.view.mode === 'map' ? this.look.view.scale * ratioOf() : null; }

  /** What a point of the canvas shows: { u, v, level, wanted, page, samples }: its texel of level 0, the level whose texel is shown, the level that the
   *  pixel has by its size, the page, and its three samples as the store has them once the tile is read; null beside the texture. */
  async valueAt(x, y) {
    const at = this.texelAt(x, y);
    if (!at) return null;
    const { store, session, canvas } = this, [u, v] = at.map(Math.floor), row = Math.min(Math.max(Math.floor(y * ratioOf()), 0), canvas.height - 1);
    const wanted = this.screen.levelOfRow(this.look, row);
    let level = wanted;
    for (; level < store.levels.length - 1; level++) if (session.mapped[store.pageOfTexel(level, u >> level, v >> level)]) break;
    const page = store.pageOfTexel(level, u >> level, v >> level), { start } = store.range(page), { tile, depth } = store;
    const first = start + 3 * depth * (((v >> level) % tile) * tile + ((u >> level) % tile)), bytes = new Uint8Array(3 * depth);
    if (this.lastTile?.page !== page) {
      const tileBytes = new Uint8Array(store.tileBytes);
      await this.source.read(start, tileBytes, () => {});
      this.lastTile = { page, bytes: tileBytes };
    }
    bytes.set(this.lastTile.bytes.subarray(first - start, first - start + bytes.length));
    const samples = [0, 1, 2].map((i) => (depth === 1 ? bytes[i] : 256 * bytes[2 * i] + bytes[2 * i + 1]));
    return { u, v, level, wanted, page, samples };
  }

  /** The part of the texture that the map shows: { x, y, width, height } in whole texels of level 0. In a flight, or on a turned map, all that a map of
   *  the place would show. */
  get region() {
    const { store, canvas: { width, height } } = this, view = this.look.view.mode === 'map' ? this.look.view : mapUnder(this.look.view, store, width, height);
    const corners = [[0, 0], [width, 0], [0, height], [width, height]].map(([x, y]) => {
      const { scale, turn = 0 } = view, [c, s] = [scale * Math.cos(turn), scale * Math.sin(turn)];
      return [view.u + (x - width / 2) * c + (y - height / 2) * s, view.v - (x - width / 2) * s + (y - height / 2) * c];
    });
    const [us, vs] = [0, 1].map((i) => corners.map((it) => it[i])), inside = (at, size) => Math.min(Math.max(at, 0), size);
    const x = inside(Math.floor(Math.min(...us)), store.width), y = inside(Math.floor(Math.min(...vs)), store.height);
    return { x, y, width: inside(Math.ceil(Math.max(...us)), store.width) - x, height: inside(Math.ceil(Math.max(...vs)), store.height) - y };
  }

  /** A PNG file of the picture as it is drawn now, as a Blob. */
  picture() {
    this.screen.draw(this.look);
    return new Promise((done, fail) => {
      this.canvas.toBlob((blob) => (blob ? done(blob) : fail(new Trouble('The browser made no PNG file of the picture.'))), 'image/png');
    });
  }

  /** A PNG file of a region at full size, a texel a pixel, read from the store by ranges: { x, y, width, height } in texels, by default the region that is
   *  shown. Samples of two bytes become one by the range of the look. `told` is called with the part that is read, from 0 to 1. At most 64 million
   *  texels. */
  async regionPicture(region = this.region, told = () => {}) {
    const { store, source, look } = this, { x, y, width, height } = region, { tile, depth } = store;
    if (![x, y, width, height].every(Number.isInteger) || x < 0 || y < 0 || width < 1 || height < 1 || x + width > store.width || y + height > store.height) {
      throw new RangeError(`A region of ${width} × ${height} texels at ${x}, ${y} is not inside the texture of ${store.width} × ${store.height}.`);
    }
    if (width * height > SAVED_PIXELS) throw new RangeError(`A region of ${width} × ${height} texels has more than ${SAVED_PIXELS / 1e6} million. Zoom in, and save a smaller one.`);
    const canvas = document.createElement('canvas'), context = Object.assign(canvas, { width, height }).getContext('2d');
    if (!context) throw new Trouble('The browser has no memory for a picture of this size.', 'memory');
    const [left, right] = [Math.floor(x / tile), Math.floor((x + width - 1) / tile)], [top, bottom] = [Math.floor(y / tile), Math.floor((y + height - 1) / tile)];
    for (let row = top; row <= bottom; row++) {
      const first = store.pageAt(0, left, row), bytes = new Uint8Array((right - left + 1) * store.tileBytes);
      await tried(() => source.read(store.range(first).start, bytes, () => {}), { heard: this.heardFailure });
      for (let column = left; column <= right; column++) {
        const image = imageOf(bytes.subarray((column - left) * store.tileBytes, (column - left + 1) * store.tileBytes), tile, depth, look.range);
        context.putImageData(image, column * tile - x, row * tile - y);
      }
      told((row - top + 1) / (bottom - top + 1));
    }
    return new Promise((done, fail) => {
      canvas.toBlob((blob) => (blob ? done(blob) : fail(new Trouble('The browser made no PNG file of this size.', 'memory'))), 'image/png');
    });
  }

  tell(name, detail = null) {
    if (!this.isDestroyed) this.dispatchEvent(new CustomEvent(name, { detail }));
  }

  fail(error) {
    if (this.trouble) return;
    this.trouble = error;
    this.waits.splice(0).forEach((done) => done(false));
    this.tell('error', error);
  }

  schedule() {
    if (this.isScheduled || this.isDestroyed || !this.look) return;
    this.isScheduled = true;
    this.frame = requestAnimationFrame((now) => {
      this.isScheduled = false;
      this.guarded(() => this.tick(now));
    });
  }

  // An error of a picture ends the showing; it is no exception of the page.
  guarded(act) {
    if (this.isDestroyed || this.screen.gl.isContextLost()) return;
    try {
      act();
    } catch (error) {
      this.fail(error);
    }
  }

  tick(now) {
    this.resize();
    this.follow(now);
    if (this.hear()) this.step(true);
    if (this.isChanged) this.draw();
    this.ask();
    this.after();
  }

  // Something came or may be sent: the link does not wait for the next picture. What comes together is one step.
  work() {
    if (this.isAtWork || !this.look) return;
    this.isAtWork = true;
    setTimeout(() => {
      this.isAtWork = false;
      this.guarded(() => {
        if (this.session.link.hasNews && this.heard >= 0) this.step();
        this.schedule();
      });
    }, 0);
  }

  step(isNew = false) {
    if (this.session.step(isNew)) this.isChanged = true;
  }

  resize() {
    const { canvas } = this, { width, height } = sidesOf(canvas);
    if (canvas.width === width && canvas.height === height) return;
    Object.assign(canvas, { width, height });
    this.set({ view: this.look.view });
  }

  follow(now) {
    if (!this.path) return;
    this.begun ??= now;
    const i = Math.min(this.from + Math.floor((now - this.begun) * PICTURES_A_SECOND / 1000), this.path.length - 1);
    if (i !== this.shown) this.move(this.path[i], true);
    this.shown = i;
    if (i === this.path.length - 1) {
      this.path = this.shown = null;
      this.tell('look', this.look);
    }
  }

  // Takes what the pixels want, and returns whether that is news: of a map at once, of another view as the feedback is read back, part by part.
  hear() {
    const { wanted } = this.session;
    if (isCounted(this.look.view)) {
      if (this.heard === this.number) return false;
      wanted.clear();
      countMap(this.look, this.store, this.canvas.width, this.canvas.height, (page, pixels) => wanted.add(page, pixels));
      this.heard = this.number;
      return true;
    }
    const ids = this.asked && this.screen.seen(), { asked } = this;
    if (!ids) return false;
    if (asked.number !== this.heard) wanted.clear();
    for (const page of ids) if (page !== NO_PAGE) wanted.add(page);
    this.heard = asked.number;
    this.times.feedback = performance.now() - asked.begun;
    this.times.feedbacks++;
    this.asked = null;
    return true;
  }

  // Where frames are too few for all pixels, each pixel goes to a coarser level, so that none stays much coarser than its neighbours. Goes back, once for
  // each move, where a finer level fits again.
  rebias() {
    const { session, look: { view } } = this, isWhole = this.heard === this.number && this.phase >= this.phases && !this.asked;
    if (isCounted(view) || view.isWalk || !isWhole || !session.isSettled) return;
    const most = this.store.levels.length - 1;
    if (!session.fits() && this.bias < most) this.bias++;
    else if (this.mayFall && this.bias > 0 && FINER_NEEDS * session.needed.pages.length < session.frames) this.bias--;
    else return;
    this.mayFall = false;
    this.renew();
  }

  ask() {
    if (isCounted(this.look.view) || this.asked || this.phase >= this.phases) return;
    this.asked = { number: this.number, begun: performance.now() };
    this.screen.want(this.look, this.blockSide, this.phase++);
  }

  draw() {
    this.screen.draw(this.look);
    this.isChanged = false;
    this.times.draws++;
    this.times.changed = performance.now();
    this.times.first ||= this.times.changed;
    this.tell('draw');
  }

  after() {
    const { link } = this.session, problem = link.problem && link.pause > 1000 ? link.problem : null;
    if (problem !== (this.problem ?? null)) {
      this.problem = problem;
      this.tell('problem', problem);
    }
    if (link.trouble) {
      this.fail(link.trouble);
      return;
    }
    this.rebias();
    if (this.isSharp) {
      this.waits.splice(0).forEach((done) => done(true));
      if (!this.wasSharp) {
        this.wasSharp = true;
        this.tell('sharp');
      }
      if (!this.path) return;
    }
    this.schedule();
  }

  /** Ends the showing: aborts what is on its way, and gives the memory of the cache and of the graphics processor back. The canvas can be used again. */
  destroy() {
    if (this.isDestroyed) return;
    this.isDestroyed = true;
    cancelAnimationFrame(this.frame);
    this.resizing?.disconnect();
    this.canvas.removeEventListener('webglcontextlost', this.lost);
    this.session?.close();
    this.store?.close();
    if (this.screen && !this.screen.gl.isContextLost()) this.screen.close();
    this.waits.splice(0).forEach((done) => done(false));
  }

  /** Whether the store is a file of this computer, which a page loaded anew would not have. */
  get isLocal() { return this.source instanceof LocalFile; }
}

// A tile as a picture.
function imageOf(bytes, tile, depth, [least, most]) {
  const image = new ImageData(tile, tile), { data } = image;
  for (let i = 0; i < tile * tile; i++) {
    for (let c = 0; c < 3; c++) {
      const at = depth * (3 * i + c), sample = depth === 1 ? bytes[at] : 256 * bytes[at] + bytes[at + 1];
      data[4 * i + c] = Math.round(255 * (sample - least) / (most - least));
    }
    data[4 * i + 3] = 255;
  }
  return image;
}
