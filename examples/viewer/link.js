// The requests for tiles: a few at a time, each for tiles that stand one after the other in the file. What the browser kept is read beside them.
import { Failed, Trouble } from './errors.js';
import { mostOf, runsOf } from './runs.js';

const LEAST_PAUSE = 250, LONGEST_PAUSE = 8000, KEPT_AT_A_TIME = 16;

export class Link {
  /** `parallel`: the most requests at a time; `run`: the most tiles of one; `heard`: called when something came, failed, or may be sent again. */
  constructor(source, store, { parallel = 6, run = mostOf(store), heard = () => {} } = {}) {
    Object.assign(this, { source, store, parallel, run, heard });
    this.flights = new Set();                              // the requests on their way
    this.readings = new Set();                             // the runs that are read from what was kept
    this.pages = new Set();                                // the pages of both that did not come yet
    this.came = new Map();                                 // the tiles that came and were not taken yet, by page
    this.gone = new Set();                                 // pages whose request failed or was aborted, not taken yet
    this.pause = 0;                                        // how long the last pause was, in milliseconds
    this.isPaused = this.isClosed = false;
    this.trouble = null;                                   // what ended the reading
    this.problem = null;                                   // the failure since which nothing came
    this.hasNews = false;                                  // something came, failed, or may be sent, since `take`
    this.isFreed = false;                                  // a request was freed since `send`
    Object.assign(this, { requests: 0, bytes: 0, keptBytes: 0, failures: 0, aborted: 0 });
  }

  /** How many requests may be sent now. */
  get free() { return this.isPaused || this.trouble || this.isClosed ? 0 : this.parallel - this.flights.size; }

  /** Reads a run of pages, whatever is on its way: the pinned pages, before anything is shown. */
  async readRun(first, count) {
    const bytes = new Uint8Array(count * this.store.tileBytes), { start } = this.store.range(first);
    this.requests += this.source.isKept(start, start + bytes.length) ? 0 : 1;
    await this.source.read(start, bytes, (_, more, isKept) => this.count(more, isKept));
    return bytes;
  }

  count(more, isKept) { this[isKept ? 'keptBytes' : 'bytes'] += more; }

  /** Whether a page is on its way. */
  isUnderWay(page) { return this.pages.has(page); }

  /** Sends requests for pages that are not on their way, as far as requests are free: the coarser levels first, in a level the longest run. What was kept
   *  is read first. */
  send(pages) {
    const { store, source } = this, kinds = new Map();
    this.isFreed = false;
    const isKept = (page) => {
      const { start, length } = store.range(page);
      return source.isKept(start, start + length);
    };
    const runs = runsOf([...pages].sort((a, b) => a - b), this.run, (page) => {
      const kept = isKept(page);
      kinds.set(page, kept);
      return kept;
    });
    const level = (page) => store.levels.findLastIndex(({ first }) => first <= page);
    runs.sort((a, b) => level(b[0]) - level(a[0]) || b[1] - a[1]);
    for (const [first, count] of runs) {
      const kept = kinds.get(first), flights = kept ? this.readings : this.flights;
      if (kept ? this.readings.size < KEPT_AT_A_TIME && !this.isClosed : this.free > 0) this.fly(first, count, flights);
    }
  }

  async fly(first, count, flights) {
    const size = this.store.tileBytes, bytes = new Uint8Array(count * size), stop = new AbortController();
    const flight = { first, count, stop, whole: 0, flights };
    flights.add(flight);
    for (let page = first; page < first + count; page++) this.pages.add(page);
    this.requests += flights === this.flights ? 1 : 0;
    const came = (have, more, isKept) => {
      this.count(more, isKept);
      for (; flight.whole < Math.floor(have / size) && !stop.signal.aborted; flight.whole++) {
        this.came.set(first + flight.whole, bytes.subarray(flight.whole * size, (flight.whole + 1) * size));
        this.pages.delete(first + flight.whole);
      }
      this.problem = null;
      this.tell();
    };
    try {
      await this.source.read(this.store.range(first).start, bytes, came, stop.signal);
      this.pause = 0;
    } catch (error) {
      if (!stop.signal.aborted) this.fail(flight, error);
    }
    flights.delete(flight);
    this.isFreed = true;
    this.tell();
  }

  fail(flight, error) {
    this.failures++;
    this.lose(flight);
    if (!(error instanceof Failed)) this.trouble = error instanceof Trouble ? error : new Trouble(String(error));
    else {
      this.problem = error;
      if (!this.isPaused) this.rest();
    }
  }

  // The pages of a request that did not come are not to come any more.
  lose({ first, count, whole }) {
    for (let page = first + whole; page < first + count; page++) {
      this.gone.add(page);
      this.pages.delete(page);
    }
  }

  // After a failure nothing is sent for a while, each time twice as long, until something comes.
  rest() {
    this.isPaused = true;
    this.pause = Math.min(Math.max(2 * this.pause, LEAST_PAUSE), LONGEST_PAUSE);
    setTimeout(() => {
      this.isPaused = false;
      this.isFreed = true;
      this.tell();
    }, this.pause);
  }

  /** Aborts each request all of whose tiles that did not come yet are needless. */
  abort(isNeedless) {
    for (const flight of [...this.flights, ...this.readings]) {
      let i = flight.whole;
      while (i < flight.count && isNeedless(flight.first + i)) i++;
      if (i < flight.count || flight.whole === flight.count) continue;
      this.lose(flight);
      flight.stop.abort();
      flight.flights.delete(flight);
      this.aborted += flight.flights === this.flights ? 1 : 0;
      this.isFreed = true;
    }
  }

  tell() {
    if (this.isClosed) return;
    this.hasNews = true;
    this.heard();
  }

  /** The tiles that came since the last call, by page, and the pages that were lost. */
  take() {
    const { came, gone } = this;
    [this.came, this.gone, this.hasNews] = [new Map(), new Set(), false];
    return { came, gone };
  }

  /** Aborts all requests; nothing is sent any more. */
  close() {
    this.isClosed = true;
    this.abort(() => true);
  }
}
