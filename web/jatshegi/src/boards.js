// Many boards in one module. A board has a session of its own while it is used; where there are many, those that weren't used for longest are kept as their texts,
// which the module wrote and reads again as the same games.
import { Memory, Session } from './memory.js';
import { NAMES, NO_GAME, NO_MEMORY, OK, PGN_TOKEN } from './made.js';
import { ChessError, SAYS, noMemory, strange } from './errors.js';
import { decode, encode, isCompiled } from './bytes.js';

// The sizes of what a session is lent. A board goes into the next before it may need more: a text of it is written from its session, and that takes memory, too.
const HEAPS = [256 << 10, 2 << 20, 16 << 20, 128 << 20, 512 << 20];
const FIRST = 96 << 10;
// Measured bounds of what is kept, in bytes: of a move, of a byte of a comment or a tag, of a byte of a game's text.
const A_MOVE = 512;
const A_BYTE = 12;
const A_BYTE_OF_TEXT = 100;

/** What a line may add to a board. */
export const costOf = (text) => A_MOVE + A_BYTE * text.length;
const holds = (place, weight) => place + 1 === HEAPS.length || weight <= HEAPS[place] - FIRST;

const READER = 64 << 20;
const ENGINE = 16 << 20;

/** How many boards have sessions at once. */
export const MOST_LIVE = 128;

/** The text of a game that has just begun. */
export const FRESH = encode('*');

let memory = null;
let scratch = null;
let reader = null;
const idle = new Map();
const live = new Set();
const gone = new FinalizationRegistry((kept) => release(kept));

/** Begins with the module: its bytes, or what WebAssembly compiled of them. */
export const start = (source) => {
  if (memory) return;
  memory = new Memory(isCompiled(source) ? source : new WebAssembly.Module(source));
};

export const theMemory = () => {
  if (!memory) throw new ChessError('Module', 'the module has not been begun: call start(bytes) first');
  return memory;
};

const taken = (heap) => idle.get(heap)?.pop() ?? new Session(theMemory(), heap);
const giveBack = (session) => {
  session.begin();
  if (!idle.has(session.heap)) idle.set(session.heap, []);
  idle.get(session.heap).push(session);
};

/** A board beside, for questions about positions. */
export const beside = () => (scratch ??= new Session(theMemory(), HEAPS[1]));

/** A session whose memory games are read in, or one with more. */
export const readers = (least = READER) => {
  if (!reader || reader.heap < least) {
    const next = taken(least);
    if (reader) giveBack(reader);
    reader = next;
  }
  return reader;
};

export const engines = { take: () => taken(ENGINE), give: giveBack };

const release = (kept) => {
  const { session } = kept;
  live.delete(kept);
  Object.assign(kept, { session: null, spelt: null });
  if (session) giveBack(session);
};

const writtenBy = (session) => {
  try {
    return session.pgnBytes();
  } catch (error) {
    if (error.code !== 'Memory') throw error;
    return null;
  }
};

// What there is of a board as a text and a place in it; null where it can't be written, or the text not read again as the same game (it is too long, or too deep).
const textOf = ({ session }) => {
  const text = writtenBy(session);
  if (!text) return null;
  const path = session.line('path');
  const [at, length] = memory.put(text);
  const { status } = readers().game(Number(at), Number(length));
  if (status !== OK) return null;
  const again = memory.handed();
  return again.length === text.length && again.every((it, i) => it === text[i]) ? { text, path } : null;
};

// Puts the board away that wasn't used for longest, if any can be; whether one was.
const makeRoom = () => {
  for (const kept of live) {
    if (kept.stays) continue;
    kept.away = textOf(kept);
    if (kept.away) {
      release(kept);
      return true;
    }
    kept.stays = true;
  }
  return false;
};

// A session with so much memory, that of another board where the module has no more.
const acquire = (heap) => {
  if (live.size >= MOST_LIVE) makeRoom();
  try {
    return taken(heap);
  } catch (error) {
    if (error.code !== 'Memory') throw error;
    while (makeRoom()) if (idle.get(heap)?.length) return taken(heap);
    throw error;
  }
};

/**
 * A new board, which goes with its owner; what a caller knows of its position, `spelt`, is null once that may be another. `least` is how much memory it has at least, by its place among the sizes: where there are few boards, they may begin
 * with much, and seldom go into more.
 */
export const keep = (owner, least = 0) => {
  const kept = { session: null, away: { text: FRESH, path: '-' }, least, heap: least, weight: 0, stays: false, version: 0, spelt: null };
  gone.register(owner, kept);
  return kept;
};

// Has the session read a text's game, and go to a path of it: as `load` answers. A path that can't be gone to wants memory.
const loaded = (session, text, path) => {
  try {
    const found = session.load(text);
    const isThere = found.status === OK && (path === '-' || session.line(`goto ${path}`) === 'ok');
    if (isThere) return found;
    giveBack(session);
    return found.status === OK ? { ...found, status: NO_MEMORY } : found;
  } catch (error) {
    giveBack(session);
    throw error;
  }
};

// The board gets a session that has the game of a text, the cursor at that path; till then it keeps what it has, and so it does where the text is no game. What
// `load` answers.
const settle = (kept, { text, path }, least = 0) => {
  const weight = A_BYTE_OF_TEXT * text.length;
  for (let place = Math.max(least, kept.least); ; place++) {
    if (!holds(place, weight)) continue;
    const session = acquire(HEAPS[place]);
    const found = loaded(session, text, path);
    if (found.status === OK) {
      release(kept);
      Object.assign(kept, { session, away: null, heap: place, weight, stays: false });
      live.add(kept);
    }
    if (found.status !== NO_MEMORY) return found;
    if (place + 1 === HEAPS.length) throw noMemory();
  }
};

// The same of a text that the module wrote.
const resettle = (kept, text, least) => {
  const { status } = settle(kept, text, least);
  if (status !== OK) throw strange('jatshegi_board_load', status);
};

const sessionOf = (kept) => {
  if (kept.session) {
    live.delete(kept);
    live.add(kept);
  } else resettle(kept, kept.away, kept.heap);
  return kept.session;
};

// Puts a board into more memory; whether it could be.
const enlarge = (kept) => {
  if (kept.heap + 1 === HEAPS.length) return false;
  const away = textOf(kept);
  if (!away) return false;
  resettle(kept, away, kept.heap + 1);
  return true;
};

// Where a board may need more than it has: what was taken out of it isn't counted any more, and if that isn't half of it, it goes into more memory.
const refit = (kept, cost) => {
  const away = textOf(kept);
  if (!away) return;
  const weight = A_BYTE_OF_TEXT * away.text.length + cost;
  if (holds(kept.heap, 2 * weight)) kept.weight = weight;
  else resettle(kept, away, kept.heap + 1);
};

/** The board has the game at the start of a text: `{status, used}`. Where the status is a fault's, or there is none, it is as it was; want of memory is thrown. */
export const begin = (kept, text) => {
  const found = settle(kept, { text, path: '-' });
  if (found.status === OK) Object.assign(kept, { version: kept.version + 1, spelt: null });
  return found;
};

/** The board has the game of a text that the module can read, with the cursor at its root; it is read at the first use. */
export const lay = (kept, text) => {
  release(kept);
  Object.assign(kept, { away: { text, path: '-' }, heap: kept.least, weight: 0, stays: false, version: kept.version + 1 });
};

/** What `action` answers of the board's session, to which it adds no more than `cost`. Where there is no memory for it nothing has happened, and it is done again with more. */
export const on = (kept, action, cost = 0) => {
  for (;;) {
    sessionOf(kept);
    if (cost && !holds(kept.heap, kept.weight + cost)) refit(kept, cost);
    const { session } = kept;
    try {
      const answer = action(session);
      kept.weight += cost;
      return answer;
    } catch (error) {
      if (error.code !== 'Memory' || !enlarge(kept)) throw error;
    }
  }
};

// The lines that only ask; any other may be about another position then.
const ASKS = /^(fen|path|best \d+)$/;

/** The board's answer to a line; a refusal for want of memory is thrown. */
export const line = (kept, text, cost = 0) => {
  if (!ASKS.test(text)) kept.spelt = null;
  return on(kept, (session) => {
    const answer = session.line(text);
    if (answer === 'refused 5 Memory') throw noMemory();
    return answer;
  }, cost);
};

/** Where in a text a byte is: its line and column from 1, and how many bytes are before it. */
export const placeIn = (bytes, at, first = { line: 1, byte: 0 }) => {
  let row = first.line;
  let begin = 0;
  for (let i = 0; i < at; i++) {
    if (bytes[i] !== 10) continue;
    row++;
    begin = i + 1;
  }
  // (a column is a character, of UTF-8 or, where the bytes aren't that, of ISO 8859-1)
  return { byte: first.byte + at, line: row, column: [...decode(bytes.subarray(begin, at))].length + 1 };
};

/** The error of a text at whose start no game is, by the status of the call. */
export const faultOf = (status, place) => {
  if (status === NO_GAME) return new ChessError('NoGame', 'no game: the text is white');
  if (status < PGN_TOKEN) return strange('a text', status);
  const code = NAMES[status];
  return new ChessError(code, `line ${place.line}, column ${place.column}: ${SAYS[code]}`, { number: status - PGN_TOKEN + 1, place });
};
