// The games of a text, also as its bytes come. Where a game ends, what is wrong with one, and where reading goes on after it, the module says.
import { bytesOf, decode, encode, fromBytes, isBytes } from './bytes.js';
import { faultOf, placeIn, readers, theMemory } from './boards.js';
import { noMemory, strange } from './errors.js';
import { headOf, tagsOf, treeIn, treeOf } from './export.js';
import { MARKERS, MORE, NO_GAME, NO_MEMORY, OK, OUTCOMES, PGN_TOKEN, REPAIRS } from './made.js';

const FIRST = 1 << 19;
const MOST = 1 << 30;
// This number of bytes decides what a game is repaired to.
const DECIDED = 1_179_648;
// What ends a file after its last game has no more bytes.
const MOST_AT_END = 1 << 20;
const [LINE_FEED, RETURN, SPACE, BRACKET] = [10, 13, 32, 91];
// A word or two after an empty line have this number of bytes, with those of both line ends, and what follows them up to whitespace.
const FIRST_WORDS = 7;

const SIDES = [null, 'w', 'b'];

/** What `action` answers of the session for games, with more memory where it wants some. */
export const read = (action) => {
  let session = readers();
  for (;;) {
    const answer = action(session);
    if (answer.status !== NO_MEMORY) return answer;
    if (session.heap >= MOST) throw noMemory();
    session = readers(4 * session.heap);
  }
};

const reported = ({ numbers, agrees, fen }) => {
  const [plies, marker, ends, winner, over, why, threefold, fifty, repetitions, quiet] = numbers;
  return {
    plies, result: MARKERS[marker], status: OUTCOMES[ends], winner: SIDES[winner], over, why: over === null ? null : OUTCOMES[why],
    threefold, fifty, repetitions, quiet, agrees, fen,
  };
};

/** What the Laws say of the main line of the game at the start of a text. */
export const reportOf = (bytes) => {
  const [at, length] = theMemory().put(bytes).map(Number);
  const found = read((session) => session.report(at, length));
  if (found.status !== OK) throw faultOf(found.status, placeIn(bytes, found.used));
  return reported(found);
};

// The game at the start of a text in the memory, saved where it can be: `{bytes, used, repairs}`; `{end: true}` where none comes any more, null where it can't.
const savedAt = (at, length) => {
  const { status, used, repairs } = read((session) => session.salvage(at, length));
  if (status === NO_GAME) return { end: true };
  if (status >= PGN_TOKEN) return null;
  if (status !== OK) throw strange('jatshegi_game_salvage', status);
  return { bytes: theMemory().handed().slice(), used, repairs: repairs.map(({ kind, ...more }) => ({ name: REPAIRS[kind], ...more })) };
};

/** The game at the start of a text, saved where it can be: `{bytes, used, repairs}`, its export form with what was repaired; null where there is none. */
export const salvaged = (bytes) => {
  const saved = savedAt(...theMemory().put(bytes).map(Number));
  return saved?.end ? null : saved;
};

/** A game that was read. */
export class Game {
  constructor(bytes, index, place, length) {
    this._tree = null;
    this.bytes = bytes;
    this.index = index;
    this.place = place;
    this.length = length;
  }

  /** The export form. */
  pgn() {
    return decode(this.bytes);
  }

  /** The tags in the order of the text, `[name, value]`. */
  tags() {
    return tagsOf(fromBytes(headOf(this.bytes))).tags;
  }

  getHeaders() {
    return Object.fromEntries(this.tags());
  }

  /** The root of its tree. */
  root() {
    return (this._tree ??= treeOf(fromBytes(this.bytes)));
  }

  /** The texts of the main line's moves. */
  moves() {
    return this.root().mainline().map(({ san }) => san);
  }

  /** What the Laws say of the main line. */
  report() {
    return reportOf(this.bytes);
  }
}

// How many bytes of a game's text its tags and a word or two seem to be: up to an empty line after the first bracket, and a little more.
const beginningOf = (bytes) => {
  let at = bytes.indexOf(LINE_FEED, bytes.indexOf(BRACKET));
  while (at >= 0 && bytes[at + 1] !== LINE_FEED && bytes[at + 1] !== RETURN) at = bytes.indexOf(LINE_FEED, at + 1);
  if (at < 0) return bytes.length;
  at += FIRST_WORDS;
  while (at < bytes.length && bytes[at] > SPACE) at++;
  return Math.min(at, bytes.length);
};

// The tags of a game, as `Game.tags`, which has `length` bytes at an address and ended with `result`. No tag comes after a move: where the module
// reads a game of some first bytes and finds a move in it, its tags are those of the whole, but for the result; else the whole is read.
const tagsAt = (at, length, result) => {
  const { bytes } = theMemory();
  for (const many of [beginningOf(bytes.subarray(at, at + length)), length]) {
    const { status } = read((session) => session.game(at, many));
    if (status !== OK) continue;
    const text = fromBytes(theMemory().handed());
    const { tags, end } = tagsOf(text);
    if (many === length || treeIn(text.slice(end)).children.length > 0) return tags.map(([name, value]) => [name, name === 'Result' ? result : value]);
  }
  throw strange('jatshegi_game_read', NO_GAME);
};

// What a call answers of the last bytes of a text, where at a fault there is to be said how many bytes to pass over.
const ofLast = (session, at, length, found) => (found.status >= PGN_TOKEN ? session.next(at, length, true) : found);

// How what is next in a text is read: `{status, used}` with how many bytes to pass over to what follows, and what is kept of a game. Its export form:
const TEXTS = {
  asks(session, at, length, isLast) {
    if (isLast) return ofLast(session, at, length, session.game(at, length));
    const { status, used } = session.loadNext(at, length, false);
    return { status: status === OK ? session.call('jatshegi_board_pgn') : status, used };
  },
  keeps: ({ used }, at, place, index) => new Game(theMemory().handed().slice(), index, place, used),
};

// Or what a list of games says of it, in which what ends a file (NUL, `^Z`) is no game:
const LISTED = {
  hasNoEnd: true,
  asks(session, at, length, isLast) {
    if (isLast) return ofLast(session, at, length, session.report(at, length));
    const next = session.next(at, length, false);
    return next.status === OK ? session.report(at, next.used) : next;
  },
  keeps(found, at, place, index) {
    const report = reported(found);
    return { index, place, length: found.used, tags: tagsAt(at, found.used, report.result), report };
  },
};

// Bytes in the module's memory, some of which were read.
class Reader {
  constructor(saves = false, form = TEXTS) {
    this.saves = saves;
    this.form = form;
    this.area = theMemory().area(FIRST);
    this.from = 0;
    this.to = 0;
    this.tries = 0;
    this.count = 0;
    this.passed = { byte: 0, line: 1 };
    this.isEnded = false;
  }

  push(bytes) {
    const memory = theMemory();
    const rest = this.to - this.from;
    if (this.to + bytes.length > this.area.size) {
      const { area } = this;
      if (rest + bytes.length > area.size) this.area = memory.area(rest + bytes.length);
      memory.bytes.copyWithin(this.area.at, area.at + this.from, area.at + this.to);
      if (area !== this.area) memory.give(area);
      this.from = 0;
      this.to = rest;
    }
    memory.bytes.set(bytes, this.area.at + this.to);
    this.to += bytes.length;
  }

  end() {
    this.isEnded = true;
  }

  close() {
    theMemory().give(this.area);
  }

  #pass(length) {
    const { bytes } = theMemory();
    const at = this.area.at + this.from;
    for (let i = at; i < at + length; i++) if (bytes[i] === LINE_FEED) this.passed.line++;
    this.passed.byte += length;
    this.from += length;
    this.tries = 0;
  }

  // What was read there becomes the next game, with its repairs.
  #game(game, repairs = []) {
    const { byte } = this.passed;
    this.count++;
    this.#pass(game.length);
    return { game, repairs: repairs.map((it) => ({ ...it, place: byte + it.place })) };
  }

  /** The next game, `{game, repairs}` or `{fault}`; `{end: true}` after the last, null where more bytes are wanted. */
  next() {
    const at = this.area.at + this.from;
    const length = this.to - this.from;
    // (what was tried in vain is tried again with half as many bytes more, so that a long game takes no longer than its length)
    if (!this.isEnded && (length === 0 || length < 1.5 * this.tries)) return null;
    const found = read((session) => this.form.asks(session, at, length, this.isEnded));
    const { byte } = this.passed;
    if (found.status === OK) return this.#game(this.form.keeps(found, at, byte, this.count));
    if (found.status === MORE || (found.status >= PGN_TOKEN && this.saves && !this.isEnded && length < DECIDED)) {
      this.tries = length;
      return null;
    }
    if (found.status === NO_GAME) {
      this.#pass(length);
      return { end: true };
    }
    if (found.status < PGN_TOKEN) throw strange('a game', found.status);
    const saved = this.saves || (this.form.hasNoEnd && this.isEnded && length <= MOST_AT_END) ? savedAt(at, length) : null;
    if (saved?.end) {
      this.#pass(length);
      return saved;
    }
    if (saved && this.saves) return this.#game(new Game(saved.bytes, this.count, byte, saved.used), saved.repairs);
    const { used } = read((session) => session.game(at, length));
    const fault = faultOf(found.status, placeIn(theMemory().bytes.subarray(at, at + length), used, this.passed));
    Object.assign(fault, { index: this.count++, from: byte });
    this.#pass(found.used);
    return { fault };
  }
}

// A text of no more bytes is at hand as a whole.
const PIECE = 1 << 26;

// Those that can be read now, one after another.
function* ready(reader) {
  for (let it = reader.next(); it && !it.end; it = reader.next()) yield it;
}

// The games among them; a fault is reported, or thrown where nobody asks for faults.
function* good(all, { onFault, onRepair }) {
  for (const { game, repairs, fault } of all) {
    if (game) {
      if (repairs.length > 0) onRepair(repairs, game);
      yield game;
    } else if (onFault) onFault(fault);
    else throw fault;
  }
}

// What is in a whole text, one after another, by a reader of its own.
function* found(source, saves, form) {
  const all = bytesOf(source);
  const reader = new Reader(saves, form);
  try {
    for (let from = 0; from < all.length; from += PIECE) {
      reader.push(all.subarray(from, from + PIECE));
      if (from + PIECE >= all.length) reader.end();
      yield* ready(reader);
    }
  } finally {
    reader.close();
  }
}

/** What is in a whole text, one after another: `{game, repairs}`, or `{fault}` where a game can't be read, or be saved where it `saves`. */
export const entries = (source, saves = false) => found(source, saves, TEXTS);

/** The same, without the games' texts: a game is `{index, place, length, tags, report}`. */
export const listed = (source) => found(source, false, LISTED);

/** The games of a whole text, one after another; with `onRepair` those that can't be read are saved where they can be, and it has what was repaired in each. */
export function* games(source, { onFault = null, onRepair = null } = {}) {
  yield* good(entries(source, onRepair !== null), { onFault, onRepair });
}

// The pieces of what a caller has: a stream of the web, an iterator of pieces, a Blob, a Response, or a whole text.
async function* pieces(source) {
  const stream = source?.body ?? (typeof source?.stream === 'function' ? source.stream() : source);
  if (typeof stream === 'string' || isBytes(stream)) yield stream;
  else if (stream?.[Symbol.asyncIterator] || stream?.[Symbol.iterator]) yield* stream;
  else if (typeof stream?.getReader === 'function') {
    const taker = stream.getReader();
    try {
      for (let { done, value } = await taker.read(); !done; { done, value } = await taker.read()) yield value;
    } finally {
      await taker.cancel();
    }
  } else throw new TypeError('a stream, an iterator of pieces, a Blob, a Response, bytes or a string is wanted');
}

/** The games of a stream, as its bytes come. */
export async function* readGames(source, { onFault = null, onRepair = null } = {}) {
  const reader = new Reader(onRepair !== null);
  // (half of a surrogate pair may end a piece that is a string)
  let half = '';
  try {
    for await (let piece of pieces(source)) {
      if (typeof piece === 'string') {
        piece = half + piece;
        half = /[\ud800-\udbff]$/.test(piece) ? piece.slice(-1) : '';
        if (half) piece = piece.slice(0, -1);
      } else if (half) encode(half);
      reader.push(bytesOf(piece));
      yield* good(ready(reader), { onFault, onRepair });
    }
    if (half) reader.push(encode(half));
    reader.end();
    yield* good(ready(reader), { onFault, onRepair });
  } finally {
    reader.close();
  }
}
