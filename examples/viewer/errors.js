// The errors of the pages. Each has a whole sentence as its message, and a kind, by which a page chooses what it offers.

/** What ends the showing of a store. Its `kind` is `address`, `missing`, `refused`, `status`, `cors`, `headers`, `ranges`, `not-store`, `replaced`,
 *  `file`, `path` or `other`. */
export class Trouble extends Error {
  constructor(message, kind = 'other') {
    super(message);
    this.kind = kind;
  }
}

/** A failure that may pass, so that it is tried again. Its `kind` is `unreachable`, `timeout`, `busy` or `broken`. */
export class Failed extends Error {
  constructor(message, kind = 'broken') {
    super(message);
    this.kind = kind;
  }
}

/** Bytes are outside their format. The message is what the program prints of them; `why` says more, for people. */
export class Flaw extends Error {
  constructor(line, why) {
    super(line);
    this.why = why;
  }
}

/** As much of a text as is worth showing. */
export function shortened(text) {
  return text.length > 80 ? `${text.slice(0, 80)}..` : text;
}

const NOT_STORE = 'This file is no store: its first 16 bytes or its length are not those of one.';
const STATUSES = {
  VTEX_BAD_STORE: ['not-store', NOT_STORE],
  VTEX_BAD_SHAPE: ['not-store', NOT_STORE],
  VTEX_NO_MEMORY: ['memory', 'There is not enough memory for this store and its frames.'],
};

/** The kind of any error: its own, `not-store` or `memory` for what the module refuses, else `other`. */
export const kindOf = (error) => error.kind ?? STATUSES[error.name]?.[0] ?? 'other';

/** The sentence of any error, for the page. */
export const sentenceOf = (error) => STATUSES[error.name]?.[1] ?? (error instanceof Flaw ? `The file is refused: ${error.message} (${error.why}).` : error.message);
