// Keeps what was read of stores in the browser, so that a second visit asks the server for a store's head alone.
//
// Pieces of files stand in IndexedDB, each by the name of its file (address, validator and length), its first byte and the one after its last. Where a
// validator or a length changes, all that was kept of the address is given up. At most MOST bytes are kept, of all stores of this page's origin together;
// what was used longest ago goes first. Where the browser refuses storage, as in some private windows, nothing is kept and all else goes on.

const NAME = 'vtex', MOST = 256e6, ENOUGH = 0.75, OPEN_LIMIT = 2000;
const PIECES = 'pieces', USES = 'uses', NOTED_AFTER = 1000;

let database = null, total = 0;
// When pieces were used, by their keys, that was not written down yet: it is written together, since a reading waits for no other, but for a writing.
let used = new Map(), noting = null;

const resultOf = (request) => new Promise((done, fail) => {
  request.onsuccess = () => done(request.result);
  request.onerror = () => fail(request.error);
});

const endOf = (transaction) => new Promise((done, fail) => {
  transaction.oncomplete = done;
  transaction.onerror = transaction.onabort = () => fail(transaction.error);
});

// The database, or null where it is refused or does not open in time.
function opened() {
  database ??= new Promise((done) => {
    setTimeout(() => done(null), OPEN_LIMIT);
    try {
      const request = indexedDB.open(NAME, 1);
      request.onupgradeneeded = () => {
        request.result.createObjectStore(PIECES);
        request.result.createObjectStore(USES).createIndex('used', 'used');
      };
      request.onsuccess = () => {
        request.result.onversionchange = () => request.result.close();
        done(request.result);
      };
      request.onerror = request.onblocked = () => done(null);
    } catch {
      done(null);
    }
  });
  return database;
}

// Notes that pieces were used now.
function use(known, keys) {
  for (const key of keys) used.set(key.join('\n'), [key, Date.now()]);
  noting ??= setTimeout(() => noteUses(known).catch(() => {}), NOTED_AFTER);
}

async function noteUses(known) {
  clearTimeout(noting);
  const uses = [...used.values()];
  [used, noting] = [new Map(), null];
  if (uses.length === 0) return;
  const transaction = known.transaction(USES, 'readwrite', { durability: 'relaxed' });
  for (const [key, time] of uses) transaction.objectStore(USES).put({ used: time }, key);
  await endOf(transaction);
}

export class Kept {
  /** What is kept of a file by its address, its validator (an ETag or a date, or null) and its length in bytes. Resolves to null where nothing can be
   *  kept: without storage, or without a validator. */
  static async open(url, tag, length, most = MOST) {
    const known = tag === null || typeof indexedDB === 'undefined' ? null : await opened();
    if (known === null) return null;
    const kept = new Kept(known, `${url}\n${tag}\n${length}`, most);
    return kept.begin(url).then(() => kept, () => null);
  }

  constructor(known, name, most) {
    Object.assign(this, { known, name, most, pieces: [], isRefused: false });
  }

  // Finds what is kept of this file, and gives up what is kept of another one at its address.
  async begin(url) {
    const keys = await resultOf(this.known.transaction(USES).objectStore(USES).getAllKeys()), stale = [];
    total = 0;
    for (const key of keys) {
      const [name, start, end] = key;
      if (name !== this.name && name.startsWith(`${url}\n`)) stale.push(key);
      else total += end - start;
      if (name === this.name) this.pieces.push([start, end]);
    }
    if (stale.length > 0) await this.remove(stale);
  }

  remove(keys) {
    const transaction = this.known.transaction([PIECES, USES], 'readwrite', { durability: 'relaxed' });
    for (const key of keys) for (const name of [PIECES, USES]) transaction.objectStore(name).delete(key);
    return endOf(transaction);
  }

  // The place of the last piece that begins at a byte or before it, or -1.
  placeOf(at) {
    let least = -1;
    for (let most = this.pieces.length - 1; least < most;) {
      const middle = (least + most + 1) >> 1;
      if (this.pieces[middle][0] <= at) least = middle;
      else most = middle - 1;
    }
    return least;
  }

  // The pieces that have the bytes from `start` up to `end`, or null where some are not kept.
  piecesOf(start, end) {
    const found = [];
    for (let at = start; at < end;) {
      const piece = this.pieces[this.placeOf(at)];
      if (!piece || piece[1] <= at) return null;
      found.push(piece);
      at = piece[1];
    }
    return found;
  }

  /** Whether the bytes from `start` up to `end` are kept. */
  covers(start, end) { return this.piecesOf(start, end) !== null; }

  /** Reads kept bytes from `start` on into `bytes`. Resolves to whether they were still there. */
  async read(start, bytes) {
    const end = start + bytes.length, pieces = this.piecesOf(start, end);
    if (pieces === null) return false;
    const keys = pieces.map(([from, to]) => [this.name, from, to]);
    try {
      const store = this.known.transaction(PIECES).objectStore(PIECES), found = await Promise.all(keys.map((key) => resultOf(store.get(key))));
      const gone = pieces.filter(([from, to], i) => found[i]?.length !== to - from);
      if (gone.length > 0) {
        this.pieces = this.pieces.filter((piece) => !gone.includes(piece));
        await this.remove(keys.filter((_, i) => gone.includes(pieces[i])));
        return false;
      }
      pieces.forEach(([from, to], i) => {
        const first = Math.max(from, start), last = Math.min(to, end);
        bytes.set(found[i].subarray(first - from, last - from), first - start);
      });
      use(this.known, keys);
      return true;
    } catch {
      return false;
    }
  }

  /** Keeps bytes that begin at `start`. Resolves when it is done, or has failed; the caller need not wait. */
  async write(start, bytes) {
    const end = start + bytes.length, key = [this.name, start, end];
    if (this.isRefused || bytes.length > this.most / 4 || this.covers(start, end)) return;
    try {
      await this.put(key, bytes);
    } catch {
      // The disk or the browser's quota is full: half of what is kept goes, and where that does not help nothing more is kept.
      await this.trim(total / 2).then(() => this.put(key, bytes)).catch(() => { this.isRefused = true; });
    }
    if (total > this.most) await this.trim(this.most * ENOUGH).catch(() => { this.isRefused = true; });
  }

  async put(key, bytes) {
    const transaction = this.known.transaction([PIECES, USES], 'readwrite', { durability: 'relaxed' });
    transaction.objectStore(PIECES).put(bytes, key);
    transaction.objectStore(USES).put({ used: Date.now() }, key);
    await endOf(transaction);
    this.pieces.splice(this.placeOf(key[1]) + 1, 0, [key[1], key[2]]);
    total += bytes.length;
  }

  // Gives up what was used longest ago until no more than so many bytes are kept.
  async trim(bytes) {
    await noteUses(this.known);
    const transaction = this.known.transaction([PIECES, USES], 'readwrite', { durability: 'relaxed' }), gone = new Set();
    const request = transaction.objectStore(USES).index('used').openKeyCursor();
    request.onsuccess = () => {
      const cursor = request.result;
      if (!cursor || total <= bytes) return;
      const [name, start, end] = cursor.primaryKey;
      for (const store of [PIECES, USES]) transaction.objectStore(store).delete(cursor.primaryKey);
      if (name === this.name) gone.add(`${start} ${end}`);
      total -= end - start;
      cursor.continue();
    };
    await endOf(transaction);
    this.pieces = this.pieces.filter(([start, end]) => !gone.has(`${start} ${end}`));
  }
}
