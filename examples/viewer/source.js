// Where a store's bytes come from: a file on a web server, by ranges, or a file that was chosen in the page. Both have the same methods.
import { Failed, Trouble } from './errors.js';
import { Kept } from './kept.js';

export { Failed, kindOf, sentenceOf, Trouble } from './errors.js';

/** How many bytes a store's head has. */
export const HEAD_BYTES = 16;

const LIMIT = 30000, FIRST_PAUSE = 250, LONGEST_PAUSE = 8000, ROUNDS = 8;
const REPLACED = 'The store was replaced or changed while it was shown. Load it anew.';

const replaced = () => new Trouble(REPLACED, 'replaced');

/** The whole address that a text names, beside another one. A `%` that begins no code stands for itself. */
export function addressOf(text, base) {
  let url = null;
  try {
    url = new URL(text.trim().replace(/%(?![0-9a-f]{2})/gi, '%25'), base);
  } catch {
    // It is no address; the sentence below says so.
  }
  if (url?.protocol !== 'http:' && url?.protocol !== 'https:') throw new Trouble(`'${text}' is no address of a file: it has to begin with http:// or https://, or name a file beside this page.`, 'address');
  return url.href;
}

/** Calls again, after a pause, what fails and may pass, at most `most` times; each failure goes to `heard` before. */
export async function tried(call, { heard = () => {}, signal, most = ROUNDS } = {}) {
  for (let round = 0, pause = FIRST_PAUSE; ; round++, pause = Math.min(2 * pause, LONGEST_PAUSE)) {
    try {
      return await call();
    } catch (error) {
      if (!(error instanceof Failed) || round === most) throw error;
      heard(error);
      await new Promise((done) => { setTimeout(done, pause); });
      signal?.throwIfAborted();
    }
  }
}

// Ends a request after so many milliseconds without a byte, or where its caller's signal does.
class Limit {
  constructor(milliseconds, signal) {
    Object.assign(this, { milliseconds, outer: signal, stop: new AbortController(), isOver: false });
    this.abort = () => this.stop.abort(signal.reason);
    signal?.addEventListener('abort', this.abort);
    if (signal?.aborted) this.abort();
    this.heard();
  }

  get signal() { return this.stop.signal; }

  heard() {
    clearTimeout(this.timer);
    this.timer = setTimeout(() => {
      this.isOver = true;
      this.stop.abort();
    }, this.milliseconds);
  }

  end() {
    clearTimeout(this.timer);
    this.outer?.removeEventListener('abort', this.abort);
  }

  /** What a failed request is to its caller. */
  failure(error, or) {
    if (this.outer?.aborted) return error;
    if (this.isOver) return new Failed(`The server of this file sent nothing for ${this.milliseconds / 1000} seconds.`, 'timeout');
    return error instanceof Failed || error instanceof Trouble ? error : or;
  }
}

/** A file on a web server. Every answer is held to the length and the validator of the first, so bytes of two files are never mixed; what was read is
 *  kept in the browser.
 *
 *  `limit`: how many milliseconds may go by without a byte. `keep`: whether what was read is kept. `mostWhole`: a server without ranges may send the whole
 *  file, of at most so many bytes. */
export class WebFile {
  constructor(url, { limit = LIMIT, keep = true, mostWhole = 0 } = {}) {
    Object.assign(this, { url, limit, keep, mostWhole, length: null, tag: null, kept: null, held: null });
  }

  /** The file's name, for people. */
  get name() { return nameOf(this.url.split(/[?#]/)[0]); }

  /** The first 16 bytes, or all where there are fewer. Sets `length`. */
  async open(signal) {
    const { answer, limit } = await this.ask({ Range: `bytes=0-${HEAD_BYTES - 1}` }, signal);
    if (answer.status === 200) return this.openWhole(answer, limit);
    if (answer.status === 416) return this.openEmpty(answer, limit);
    const { total, end } = judged(answer, limit, () => rangeOf(answer, 0)), head = await bytesOf(answer, limit, end);
    [this.length, this.tag] = [total, tagOf(answer)];
    if (this.keep) this.kept = await Kept.open(this.url, this.tag, this.length);
    return head;
  }

  // A file without bytes has no range.
  openEmpty(answer, limit) {
    limit.end();
    answer.body?.cancel();
    this.length = 0;
    return new Uint8Array(0);
  }

  // A server without ranges: its one answer is the whole file.
  async openWhole(answer, limit) {
    const length = Number(answer.headers.get('Content-Length') ?? NaN);
    judged(answer, limit, () => {
      if (!(length <= this.mostWhole)) throw new Trouble('The web server of this file serves no byte ranges (status 200 in place of 206). Use one that does, as nginx, or serve.py beside this page.', 'ranges');
    });
    this.held = await bytesOf(answer, limit, length);
    [this.length, this.tag] = [length, tagOf(answer)];
    return this.held.subarray(0, HEAD_BYTES);
  }

  /** Whether the bytes from `start` up to `end` can be read without the server. */
  isKept(start, end) { return this.held !== null || this.kept !== null && this.kept.covers(start, end); }

  /** Reads a run of bytes into `bytes`. Calls `came` each time that more came, with how many are there, how many of them are new, and whether they were
   *  kept. Rejects with a Failed or a Trouble, or as its signal does. */
  async read(start, bytes, came, signal) {
    const end = start + bytes.length;
    if (bytes.length === 0) return;
    if (this.held !== null) bytes.set(this.held.subarray(start, end));
    if (this.held !== null || this.isKept(start, end) && await this.kept.read(start, bytes)) {
      signal?.throwIfAborted();
      came(bytes.length, bytes.length, true);
      return;
    }
    const { answer, limit } = await this.ask({ Range: `bytes=${start}-${end - 1}` }, signal);
    judged(answer, limit, () => this.judge(answer, start, end));
    await pour(answer, limit, bytes, came);
    this.kept?.write(start, bytes);
  }

  /** All bytes of the file, by one request without a range. Sets `length`. */
  async whole(signal) {
    const { answer, limit } = await this.ask({}, signal), bytes = await bytesOf(answer, limit);
    this.length = bytes.length;
    return bytes;
  }

  // Refuses an answer that is of another file than the first one was, or of another range than was asked for.
  judge(answer, start, end) {
    if (answer.status === 200) throw tagOf(answer) === this.tag ? new Failed('The server sent the whole file in place of a range.') : replaced();
    const range = rangeOf(answer, start);
    if (range.total !== this.length || tagOf(answer) !== this.tag) throw replaced();
    if (range.end !== end) throw new Failed('The server sent another range than was asked for.');
  }

  // Asks the server. The browser's own cache is passed over: it lets one request of a file through at a time, and merges ranges of different files.
  async ask(headers, signal) {
    const limit = new Limit(this.limit, signal);
    try {
      const answer = await fetch(this.url, { headers, signal: limit.signal, cache: 'no-store' });
      limit.heard();
      if (answer.status === 206 || answer.status === 200 || (answer.status === 416 && this.length === null)) return { answer, limit };
      answer.body?.cancel();
      throw this.refusal(answer.status);
    } catch (error) {
      limit.end();
      const failure = limit.failure(error, null);
      throw failure ?? await this.unreached(signal);
    }
  }

  refusal(status) {
    if (status === 429 || status >= 500) return new Failed(`The server of this file is busy (status ${status}).`, 'busy');
    if (this.length !== null && [404, 410, 412, 416].includes(status)) return replaced();
    if (status === 404 || status === 410) return new Trouble(`There is no file at ${this.url} (status ${status}).`, 'missing');
    if (status === 401 || status === 403) return new Trouble(`The server refuses to send ${this.url} (status ${status}).`, 'refused');
    return new Trouble(`The server does not send ${this.url} (status ${status}).`, 'status');
  }

  // What a request without an answer failed by. A server of another origin that does answer, but not for this page, lacks a header.
  async unreached(signal) {
    const { origin, hostname } = new URL(this.url), failed = new Failed(`The server ${hostname} cannot be reached.`, 'unreachable');
    if (this.length !== null || signal?.aborted || !globalThis.location || origin === location.origin) return failed;
    try {
      const limit = new Limit(this.limit, signal);
      await fetch(this.url, { method: 'HEAD', mode: 'no-cors', cache: 'no-store', signal: limit.signal }).finally(() => limit.end());
    } catch {
      return failed;
    }
    return new Trouble(`The server ${origin} does not let this page read ${this.url}: it has to send the header Access-Control-Allow-Origin, and Access-Control-Expose-Headers: Content-Range, ETag.`, 'cors');
  }
}

// A weak tag and a strong one of the same letters are told apart by their letters.
const tagOf = (answer) => answer.headers.get('ETag') ?? answer.headers.get('Last-Modified');

// What a test of an answer gives; one that the test refuses is let go.
function judged(answer, limit, test) {
  try {
    return test();
  } catch (error) {
    limit.end();
    answer.body?.cancel();
    throw error;
  }
}

function rangeOf(answer, start) {
  const found = /^bytes (\d+)-(\d+)\/(\d+)$/.exec(answer.headers.get('Content-Range') ?? '');
  if (!found) throw new Trouble('The server of this file does not let this page read Content-Range: it has to send the header Access-Control-Expose-Headers: Content-Range, ETag.', 'headers');
  if (Number(found[1]) !== start) throw new Failed('The server sent another range than was asked for.');
  return { total: Number(found[3]), end: Number(found[2]) + 1 };
}

// Takes an answer's body piece by piece, as it comes.
async function taken(answer, limit, take) {
  const reader = answer.body.getReader();
  try {
    for (;;) {
      const { value, done } = await reader.read();
      limit.heard();
      if (done) return;
      take(value);
    }
  } catch (error) {
    reader.cancel().catch(() => {});
    throw limit.failure(error, new Failed('The connection to the server broke off.'));
  } finally {
    limit.end();
  }
}

// Writes an answer's body, which has to be as long as `bytes`, into it.
async function pour(answer, limit, bytes, came) {
  let have = 0;
  await taken(answer, limit, (piece) => {
    if (have + piece.length > bytes.length) throw new Failed('The server sent more bytes than were asked for.');
    bytes.set(piece, have);
    have += piece.length;
    came(have, piece.length, false);
  });
  if (have !== bytes.length) throw new Failed(`The server sent ${have} bytes, and ${bytes.length} were asked for.`);
}

// An answer's body, of `length` bytes where that is given.
async function bytesOf(answer, limit, length = null) {
  const pieces = [];
  let have = 0;
  await taken(answer, limit, (piece) => {
    pieces.push(piece);
    have += piece.length;
  });
  if (length !== null && have !== length) throw new Failed(`The server sent ${have} bytes, and ${length} were asked for.`);
  const bytes = new Uint8Array(have);
  pieces.reduce((at, piece) => {
    bytes.set(piece, at);
    return at + piece.length;
  }, 0);
  return bytes;
}

// The last part of an address as people read it.
function nameOf(address) {
  const last = address.split('/').at(-1);
  try {
    return decodeURIComponent(last);
  } catch {
    return last;
  }
}

/** A file of this computer, which the reader of the page chose. */
export class LocalFile {
  constructor(file) {
    Object.assign(this, { file, length: file.size, url: file.name, name: file.name, tag: null });
  }

  /** The first 16 bytes, or all where there are fewer. */
  open() { return this.part(0, Math.min(HEAD_BYTES, this.length)); }

  isKept() { return true; }

  async read(start, bytes, came) {
    bytes.set(await this.part(start, start + bytes.length));
    came(bytes.length, bytes.length, true);
  }

  whole() { return this.part(0, this.length); }

  async part(start, end) {
    try {
      return new Uint8Array(await this.file.slice(start, end).arrayBuffer());
    } catch {
      throw new Trouble('The file cannot be read. If it was changed or moved, choose it again.', 'file');
    }
  }
}

/** The source that a name stands for: a File of the page, or the address of a file on a server. */
export const sourceOf = (file, options) => (typeof file === 'string' ? new WebFile(file, options) : new LocalFile(file));
