// <vtex-view src="stores/photo.vts">: a tile store in any page, as a map or a flight. docs/EMBEDDING.md has its attributes, methods and events, and
// vtex-view.d.ts their types. It is a user of engine.js, which does without an element.
import { Engine } from './engine.js';
import { addressOf, kindOf, LocalFile, sentenceOf, WebFile } from './source.js';
import { lookOf, optionsOf, wordsOf, wordsOfLook } from './address.js';
import { north, takeHands } from './hand.js';
import { notice } from './notices.js';

export { Engine } from './engine.js';
export { Failed, kindOf, LocalFile, sentenceOf, Trouble, WebFile } from './source.js';
export { flightsOf, readPath } from './path.js';

const STYLE = `
:host { display: block; position: relative; overflow: hidden; min-width: 1px; min-height: 1px; contain: content; }
:host([hidden]) { display: none; }
canvas { display: block; width: 100%; height: 100%; touch-action: none; cursor: grab; outline: none; }
canvas:focus-visible { outline: 2px solid #3a94dd; outline-offset: -2px; }
.over { position: absolute; inset: 0; overflow: hidden; pointer-events: none; }
::slotted(*) { pointer-events: auto; }
::slotted([data-u]) { position: absolute; left: 0; top: 0; }
.notice { position: absolute; left: 8px; right: 8px; top: 8px; padding: 6px 10px; font: 13px/1.45 system-ui, sans-serif; color: #e4e7ec; background: #4a3d17; border-radius: 5px; }
.notice.bad { background: #5a2323; }
.notice p { margin: 0; }
.notice button { font: inherit; min-height: 30px; }
[hidden] { display: none; }`;

const PLACED = ['data-u', 'data-v', 'data-width', 'data-height'];
const ENGINE_EVENTS = ['move', 'look', 'draw', 'sharp', 'problem', 'error'];

/** The element. Its `engine` is null before `open`, and after `destroy`. */
export class VtexView extends HTMLElement {
  static observedAttributes = ['src', 'view', 'label'];

  constructor() {
    super();
    const root = this.attachShadow({ mode: 'open' }), style = document.createElement('style');
    style.textContent = STYLE;
    this.over = document.createElement('div');
    this.over.className = 'over';
    this.over.append(document.createElement('slot'));
    this.sentence = document.createElement('div');
    this.sentence.setAttribute('role', 'alert');
    this.sentence.setAttribute('part', 'message');
    this.sentence.hidden = true;
    root.append(style, this.over, this.sentence);
    Object.assign(this, { engine: null, canvas: null, source: null, kept: null, opening: null, endHands: null });
    new MutationObserver(() => this.place()).observe(this, { childList: true, attributes: true, subtree: true, attributeFilter: PLACED });
  }

  get src() { return this.getAttribute('src') ?? ''; }

  set src(address) { this.setAttribute('src', address); }

  /** The store's shape: sides, tile side, depth, levels, pages; null before `open`. */
  get store() { return this.engine?.store ?? null; }

  /** What is seen; null before `open`. */
  get look() { return this.engine?.look ?? null; }

  /** What is seen, as words of an address, which the attribute `view` takes. */
  get words() { return this.engine?.look ? wordsOfLook(this.engine.look, this.engine.usual) : ''; }

  connectedCallback() {
    if (this.source === null && this.src) this.openSrc();
    else if (this.source !== null && this.engine === null && this.opening === null) this.open(this.source).catch(() => {});
  }

  // An element that is moved in the page is removed and put back at once, and goes on.
  disconnectedCallback() {
    queueMicrotask(() => { if (!this.isConnected) this.close(); });
  }

  attributeChangedCallback(name, before, value) {
    if (before === value) return;
    if (name === 'src' && !this.isConnected) this.source = null;
    else if (name === 'src') this.openSrc();
    else if (name === 'label') this.canvas?.setAttribute('aria-label', this.label);
    else if (name === 'view' && this.engine?.look) this.engine.set(lookOf(value ?? '', this.engine.usual, this.store.depth).look);
  }

  get label() { return this.getAttribute('label') ?? 'A texture. Arrows move, plus and minus zoom, F fits, M changes between map and flight.'; }

  openSrc() {
    if (this.src) this.open(this.src).catch(() => {});
    else this.close();
  }

  /** Opens a store by its address or as a File of this computer, in place of the one that is shown. Resolves once its first picture can be drawn; rejects
   *  with the error that the `error` event has. */
  async open(file) {
    this.close();
    this.kept = null;
    return this.begin(() => (typeof file === 'string' ? new WebFile(addressOf(file, document.baseURI)) : file instanceof Blob ? new LocalFile(file) : file));
  }

  async begin(sourceOf) {
    const mine = this.opening = new AbortController(), { signal } = mine, look = this.kept;
    try {
      this.source = sourceOf();
      notice(this.sentence, '');
      this.makeCanvas();
      const words = new URLSearchParams(['frames', 'pinned', 'parallel', 'run'].flatMap((name) => (this.hasAttribute(name) ? [[name, this.getAttribute(name)]] : []))), { options, flaws } = optionsOf(words);
      const engine = await Engine.open(this.canvas, this.source, {
        ...options, signal, heard: (error) => this.tell('problem', error),
        look: (usual, store) => {
          if (look) return { ...look };
          const its = lookOf(this.getAttribute('view') ?? '', usual, store.depth);
          flaws.push(...its.flaws);
          return its.look;
        },
      });
      if (signal.aborted) {
        engine.destroy();
        throw signal.reason;
      }
      this.engine = engine;
      this.opening = null;
      this.take(engine);
      if (flaws.length > 0) console.warn(flaws.join('\n'));
      this.tell('open', engine.store);
      return engine;
    } catch (error) {
      if (signal.aborted) throw error;
      this.opening = null;
      this.showError(error);
      throw error;
    }
  }

  makeCanvas() {
    this.canvas = document.createElement('canvas');
    this.canvas.tabIndex = this.hasAttribute('no-hands') ? -1 : 0;
    this.canvas.setAttribute('role', this.hasAttribute('no-hands') ? 'img' : 'application');
    this.canvas.setAttribute('aria-label', this.label);
    this.canvas.setAttribute('part', 'picture');
    this.canvas.addEventListener('webglcontextrestored', () => this.again());
    this.shadowRoot.insertBefore(this.canvas, this.over);
  }

  take(engine) {
    for (const name of ENGINE_EVENTS) {
      engine.addEventListener(name, ({ detail }) => {
        if (name === 'error') this.showError(detail);
        else this.tell(name, detail);
        if (name === 'draw') this.place();
      });
    }
    if (!this.hasAttribute('no-hands')) this.endHands = takeHands(this.canvas, () => this.engine);
  }

  // Puts each child that names a texel by data-u and data-v with its upper left corner there; of one with data-width or data-height these are texels too.
  place() {
    const { engine } = this;
    if (!engine?.look) return;
    for (const child of this.children) {
      const { u, v, width, height } = child.dataset;
      if (u === undefined || v === undefined) continue;
      const at = engine.pointAt(Number(u), Number(v));
      child.style.visibility = at ? '' : 'hidden';
      if (!at) continue;
      child.style.translate = `${at[0]}px ${at[1]}px`;
      const texels = engine.texelsAPixel;
      if (texels === null) continue;
      if (width !== undefined) child.style.width = `${Number(width) / texels}px`;
      if (height !== undefined) child.style.height = `${Number(height) / texels}px`;
      if (width !== undefined || height !== undefined) {
        child.style.transformOrigin = '0 0';
        child.style.rotate = engine.look.view.turn ? `${engine.look.view.turn}rad` : '';
      }
    }
  }

  // The `error` event; its default action is a sentence over the picture, with a button.
  showError(error) {
    const event = new CustomEvent('error', { detail: error, cancelable: true }), kind = kindOf(error);
    if (!this.dispatchEvent(event)) return;
    const buttons = ['not-store', 'address', 'graphics'].includes(kind) || !this.source ? [] : [[kind === 'replaced' ? 'Load it anew' : 'Try again', () => this.again()]];
    notice(this.sentence, sentenceOf(error), buttons);
  }

  /** Opens the same store from its first byte again, with the same look: after it was replaced, or after an error. */
  again() {
    const { source } = this, look = this.engine?.look ?? this.kept;
    this.close();
    this.kept = look;
    return this.begin(() => (source instanceof LocalFile ? new LocalFile(source.file) : new WebFile(source.url))).catch(() => null);
  }

  tell(name, detail) { this.dispatchEvent(new CustomEvent(name, { detail })); }

  // The engine, or an error where nothing is open.
  get shown() {
    if (!this.engine) throw new Error('vtex-view: no store is open.');
    return this.engine;
  }

  /** Shows another view. */
  move(view) { this.shown.move(view); }

  /** Sets some of view, filter, rounding, range, colours, hillshade, showsLevels. */
  set(changes) { this.shown.set(changes); }

  fit() { this.shown.fit(); }

  north() { north(this.shown); }

  changeMode() { this.shown.changeMode(); }

  /** Plays a path, the flights of flightsOf(readPath(bytes)); null stops. */
  play(path) { this.shown.play(path); }

  /** Resolves to true once the picture is as sharp as it gets, or to false where the showing ends before. */
  sharp() { return this.shown.sharp(); }

  texelAt(x, y) { return this.shown.texelAt(x, y); }

  pointAt(u, v) { return this.shown.pointAt(u, v); }

  valueAt(x, y) { return this.shown.valueAt(x, y); }

  picture() { return this.shown.picture(); }

  regionPicture(region, told) { return this.shown.regionPicture(region, told); }

  // Ends what is shown; the source and the look stay, for an element that is put into a page again.
  close() {
    this.opening?.abort();
    this.opening = null;
    this.endHands?.();
    this.endHands = null;
    this.kept = this.engine?.look ?? this.kept;
    this.engine?.destroy();
    this.engine = null;
    notice(this.sentence, '');
    this.canvas?.getContext('webgl2')?.getExtension('WEBGL_lose_context')?.loseContext();
    this.canvas?.remove();
    this.canvas = null;
  }

  /** Ends what is shown, aborts its requests and gives its memory back. `open` or another `src` begins anew. */
  destroy() {
    this.close();
    this.source = this.kept = null;
  }
}

customElements.define('vtex-view', VtexView);

/** A view as the words of the attribute `view`. */
export { wordsOf };
