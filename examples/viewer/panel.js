// The panel: figures, and the residency of each level as a small picture.

const WIDEST = 140;
const CLEAR = [58, 64, 74], MAPPED = [64, 132, 196], SHOWN = [120, 200, 255], WANTED = [226, 156, 40], UNDER_WAY = [255, 255, 255];

const megabytes = (bytes) => (bytes < 1e6 ? `${Math.round(bytes / 1e3)} kB` : `${(bytes / 1e6).toFixed(bytes < 1e8 ? 1 : 0)} MB`);

export class Panel {
  constructor(place, session) {
    const { store } = session;
    Object.assign(this, { place, session });
    place.querySelector('#shape').textContent = `${store.width} × ${store.height} texels, ${8 * store.depth} bits a sample, tiles of ${store.tile}, ${store.pages} pages in ${store.levels.length} levels`;
    const scale = Math.min(4, WIDEST / store.levels[0].columns);
    this.pictures = store.levels.map((level, k) => pictureOf(place.querySelector('#levels'), level, k, scale));
  }

  /** Shows the state of the session. `behind`: how many milliseconds the last feedback took to come, or null where pages are counted. */
  show(behind) {
    const { session } = this, { link, cache, store } = session, info = cache.info();
    const whole = link.source.length, part = 100 * link.bytes / whole;
    this.set('frames', `${session.frames - info.free} of ${session.frames}`);
    this.set('loads', `${info.loads} in ${link.flights.size} request${link.flights.size === 1 ? '' : 's'}`);
    this.set('fetched', `${megabytes(link.bytes)} of ${megabytes(whole)} (${part < 10 ? part.toFixed(2) : part.toFixed(0)} %), ${link.requests} requests`);
    this.set('pass', `${session.lastPass < 0.1 ? 'under 0.1' : session.lastPass.toFixed(1)} ms, ${session.wanted.pages.length} pages wanted`);
    this.set('feedback', behind === null ? 'none: a map is counted' : `${behind.toFixed(0)} ms behind`);
    this.set('lost', `${link.failures} failed, ${link.aborted} given up`);
    store.levels.forEach((_, k) => this.showLevel(k));
  }

  set(name, text) {
    const at = this.place.querySelector(`#${name}`);
    if (at.textContent !== text) at.textContent = text;
  }

  showLevel(k) {
    const { session: { cache, wanted, store }, pictures } = this, { first } = store.levels[k], { image, context } = pictures[k];
    const entries = cache.table(k), loads = cache.loads(), { data } = image, put = (at, colour) => data.set(colour, 4 * at);
    entries.forEach((entry, i) => put(i, entry === 0 ? CLEAR : MAPPED));
    for (const page of wanted.pages) {
      const at = page - first;
      if (at >= 0 && at < entries.length) put(at, entries[at] === 0 ? WANTED : SHOWN);
    }
    for (let i = 0; i < loads.length; i += 3) {
      const at = loads[i] - first;
      if (at >= 0 && at < entries.length) put(at, UNDER_WAY);
    }
    context.putImageData(image, 0, 0);
  }
}

function pictureOf(place, { columns, rows }, k, scale) {
  const canvas = document.createElement('canvas'), figure = document.createElement('figure'), caption = document.createElement('figcaption');
  Object.assign(canvas, { width: columns, height: rows });
  canvas.style.width = `${Math.max(scale * columns, 6)}px`;
  caption.textContent = `${k}`;
  figure.title = `level ${k}: ${columns} × ${rows} pages`;
  figure.append(canvas, caption);
  place.append(figure);
  const context = canvas.getContext('2d'), image = context.createImageData(columns, rows);
  for (let i = 3; i < image.data.length; i += 4) image.data[i] = 255;
  return { context, image };
}
