// Reads the journals of vtex by docs/FORMATS.md, and refuses what is none with the first line that may not be where it is.

import { Flaw, shortened } from './errors.js';
import { indexOf, nameOf } from './geometry.js';
import { LOST, MAP, UNMAP } from './replay.js';

const FRAMES = 65535, SAMPLERS = 64, LINE_FEED = 10, ZERO = 48;
// What stands around the numbers of each line; most lines are rows.
const FORMS = {
  row: ['row ', ' ', ' ', '\n'],
  map: ['map ', ' ', ' ', ' ', ' ', '\n'],
  unmap: ['unmap ', ' ', ' ', ' ', ' ', '\n'],
  lost: ['lost ', ' ', ' ', '\n'],
  pass: ['pass ', ' picture ', ' start ', '\n'],
};

// A list of numbers below 2^31 that grows.
class Numbers {
  constructor() {
    this.held = new Int32Array(1024);
    this.length = 0;
  }

  push(number) {
    if (this.length === this.held.length) {
      const longer = new Int32Array(2 * this.length);
      longer.set(this.held);
      this.held = longer;
    }
    this.held[this.length++] = number;
  }

  last() {
    return this.held[this.length - 1];
  }

  taken() {
    return this.held.slice(0, this.length);
  }
}

// The bytes of a text, line by line, each by the form of its word.
class Lines {
  constructor(bytes) {
    Object.assign(this, { bytes, at: 0, numbers: [] });
  }

  // The word of the next line, whose numbers are in `numbers` then; null where it has none of the forms.
  next() {
    const begin = this.at;
    for (const word in FORMS) {
      this.at = begin;
      if (this.matches(FORMS[word])) return word;
    }
    return null;
  }

  matches([first, ...others]) {
    if (!this.skips(first)) return false;
    for (let i = 0; i < others.length; i++) {
      this.numbers[i] = this.number();
      if (this.numbers[i] < 0 || !this.skips(others[i])) return false;
    }
    return true;
  }

  skips(text) {
    for (let i = 0; i < text.length; i++) if (this.bytes[this.at + i] !== text.charCodeAt(i)) return false;
    this.at += text.length;
    return true;
  }

  // A number without leading zeros, or -1 where there is none. One that is too large to be exact is larger than any that a rule asks for.
  number() {
    const digitAt = () => this.bytes[this.at] - ZERO;
    let number = digitAt();
    if (!(number >= 0 && number <= 9)) return -1;
    this.at++;
    for (let digit; number > 0 && (digit = digitAt()) >= 0 && digit <= 9; this.at++) number = 10 * number + digit;
    return number;
  }
}

/** What a journal tells of pages of this geometry and pictures of this height, of which a path has so many.
 *
 *  Events are map, unmap and lost lines: their `kind`, `page`, `frame` (-1 of a lost page) and the `version` after them. `changes` has for each version
 *  but 0 the event that made it. The head counts as pass 0. Of each pass there are its picture, its first and last version and its first event, and for
 *  row y of pass n at (n-1)*height+y of `rows` its sampler and version. */
export function readJournal(bytes, geometry, height, pictures) {
  const reader = new Reader(geometry, height, pictures), lines = new Lines(bytes);
  for (let line = 1; lines.at < bytes.length; line++) {
    const begin = lines.at, word = lines.next(), why = word === null ? 'it has none of the five forms' : reader[word](...lines.numbers);
    if (why) throw new Flaw(`bad line ${line}`, `${why}: ${textOf(bytes, begin)}`);
    reader.lines = line;
  }
  const missing = reader.missing();
  if (missing) throw new Flaw(`bad line ${reader.lines + 1}`, `the text ends there, and ${missing}`);
  return reader.told();
}

function textOf(bytes, begin) {
  const end = bytes.indexOf(LINE_FEED, begin), text = new TextDecoder('latin1').decode(bytes.subarray(begin, end < 0 ? bytes.length : end));
  return `'${shortened(text)}'${end < 0 ? ' without a line feed' : ''}`;
}

// Takes in line after line. Each of the methods named for a word answers why its line may not come next, or nothing.
class Reader {
  constructor(geometry, height, pictures) {
    Object.assign(this, { geometry, height, pictures, lines: 0, version: 0, frames: new Int32Array(geometry.pages).fill(-1), used: new Uint8Array(FRAMES) });
    this.events = { kind: new Numbers(), page: new Numbers(), frame: new Numbers(), version: new Numbers() };
    this.rows = { sampler: new Numbers(), version: new Numbers() };
    this.passes = { picture: new Numbers(), start: new Numbers(), last: new Numbers(), firstEvent: new Numbers() };
    this.changes = new Numbers();
    this.floors = new Float64Array(SAMPLERS);
    this.rowsLeft = this.mostFrames = 0;
    this.begin(-1);
  }

  begin(picture) {
    const { passes } = this;
    passes.picture.push(picture);
    passes.start.push(this.version);
    passes.last.push(this.version);
    passes.firstEvent.push(this.events.kind.length);
    this.floors.fill(this.version);
  }

  get passNumber() {
    return this.passes.picture.length - 1;
  }

  get isHead() {
    return this.passNumber === 0;
  }

  // The rows of this pass have begun.
  hasRows() {
    return !this.isHead && this.rowsLeft < this.height;
  }

  add(kind, page, frame) {
    const { events, passes } = this;
    if (kind !== LOST) {
      this.version++;
      this.changes.push(events.kind.length);
      this.frames[page] = kind === MAP ? frame : -1;
      this.used[frame] = kind === MAP ? 1 : 0;
      this.mostFrames = Math.max(this.mostFrames, frame + 1);
      passes.last.held[this.passNumber] = this.version;
    }
    events.kind.push(kind);
    events.page.push(page);
    events.frame.push(frame);
    events.version.push(this.version);
  }

  map(version, level, column, row, frame) {
    const page = indexOf(this.geometry, level, column, row), why = this.flawOfChange(version, page, frame);
    if (why) return why;
    if (this.frames[page] >= 0) return `the page is mapped to frame ${this.frames[page]}`;
    if (this.used[frame]) return `frame ${frame} is in use`;
    if (this.isHead && frame !== this.version) return `frame ${this.version} is due in the head`;
    if (this.isHead && this.version > 0 && page !== this.events.page.last() + 1) return 'another page is due in the head';
    return this.add(MAP, page, frame);
  }

  unmap(version, level, column, row, frame) {
    const page = indexOf(this.geometry, level, column, row), why = this.flawOfChange(version, page, frame);
    if (why) return why;
    if (this.isHead) return 'the head has map lines only';
    if (this.frames[page] !== frame) return this.frames[page] < 0 ? 'the page is not mapped' : `the page is mapped to frame ${this.frames[page]}`;
    if (page >= this.events.page.held[0]) return 'the page is one of the head';
    return this.add(UNMAP, page, frame);
  }

  flawOfChange(version, page, frame) {
    if (page < 0) return 'the store has no such page';
    if (frame >= FRAMES) return `a frame is at most ${FRAMES - 1}`;
    if (version !== this.version + 1) return `version ${this.version + 1} is due`;
    return this.hasRows() ? 'it follows a row of its pass' : null;
  }

  lost(level, column, row) {
    const page = indexOf(this.geometry, level, column, row);
    if (page < 0) return 'the store has no such page';
    if (this.isHead) return 'the head has map lines only';
    if (this.hasRows()) return 'it follows a row of its pass';
    return this.frames[page] >= 0 ? `the page is mapped to frame ${this.frames[page]}` : this.add(LOST, page, -1);
  }

  pass(number, picture, start) {
    const last = this.passes.picture.last(), missing = this.missing();
    if (missing) return missing;
    if (number !== this.passNumber + 1) return `pass ${this.passNumber + 1} is due`;
    if (picture !== last + 1 && (this.isHead || picture !== last)) return `picture ${this.isHead ? 0 : `${last} or ${last + 1}`} is due`;
    if (start !== this.version) return `the newest version is ${this.version}`;
    if (picture >= this.pictures) return `the path has ${this.pictures} pictures`;
    this.rowsLeft = this.height;
    return this.begin(picture);
  }

  row(y, sampler, version) {
    if (this.isHead) return 'the head has map lines only';
    if (this.rowsLeft === 0) return 'the pass has all its rows';
    if (y !== this.height - this.rowsLeft) return `row ${this.height - this.rowsLeft} is due`;
    if (sampler >= SAMPLERS) return `a sampler is at most ${SAMPLERS - 1}`;
    if (version < this.floors[sampler]) return `version ${this.floors[sampler]} or a later one is due of sampler ${sampler}`;
    if (version > this.version) return `the newest version is ${this.version}`;
    this.floors[sampler] = version;
    this.rows.sampler.push(sampler);
    this.rows.version.push(version);
    this.rowsLeft--;
    return null;
  }

  // What is missing where the head or a pass ends here, or nothing.
  missing() {
    if (!this.isHead) return this.rowsLeft > 0 ? `row ${this.height - this.rowsLeft} of the pass is missing` : null;
    const root = this.geometry.pages - 1;
    return this.frames[root] < 0 ? `page ${nameOf(this.geometry, root).join(' ')}, the root, is not mapped by the head` : null;
  }

  told() {
    const taken = (lists) => Object.fromEntries(Object.entries(lists).map(([name, list]) => [name, list.taken()]));
    return { ...taken(this.passes), events: taken(this.events), rows: taken(this.rows), changes: this.changes.taken(),
      passes: this.passNumber, versions: this.version, frames: this.mostFrames, height: this.height, pinned: this.passes.last.held[0] };
  }
}

/** The passes whose pictures a replay writes: the last one of each picture, in their order. */
export function lastPasses({ passes, picture }) {
  return Array.from({ length: passes }, (_, i) => i + 1).filter((n) => n === passes || picture[n + 1] !== picture[n]);
}

/** The events of a pass as a range of their numbers. */
export function eventsOf({ firstEvent, events }, pass) {
  return [firstEvent[pass], pass + 1 < firstEvent.length ? firstEvent[pass + 1] : events.kind.length];
}

/** The pass in which a version was made: of those before it the first that reached it. */
export function passOfVersion({ last }, version) {
  let least = 0;
  for (let most = last.length - 1; least < most;) {
    const middle = (least + most) >> 1;
    if (last[middle] >= version) most = middle;
    else least = middle + 1;
  }
  return least;
}

/** The line of the text, counted from 1, that tells of a pass's beginning; of the head its first. */
export function lineOfPass({ firstEvent, height }, pass) {
  return pass === 0 ? 1 : 1 + firstEvent[pass] + (pass - 1) * (1 + height);
}

/** An event as its line in the journal says it. */
export function eventLine(geometry, { kind, page, frame, version }, event) {
  const name = nameOf(geometry, page[event]).join(' ');
  return kind[event] === LOST ? `lost ${name}` : `${kind[event] === MAP ? 'map' : 'unmap'} ${version[event]} ${name} ${frame[event]}`;
}
