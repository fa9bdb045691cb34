// Keeps the board in a worker, over the package (jatshegi/src): answers lines, and reads the games of a text.
import { position } from './epd.js';
import { begin, beside, costOf, keep, line, on, placeIn, start, theMemory } from './jatshegi/src/boards.js';
import { decode, fromBytes, toBytes } from './jatshegi/src/bytes.js';
import { tagsOf, treeOf } from './jatshegi/src/export.js';
import { entries, listed, read, salvaged } from './jatshegi/src/games.js';
import { NO_GAME, NO_MEMORY, OK, PGN_TOKEN, TAG_OWN } from './jatshegi/src/made.js';
import { typed } from './pgn.js';
import { spellings, squares } from './jatshegi/src/spellings.js';
import { RESULTS, SHOWN } from './words.js';

// The one board begins with 16 MiB, which a game of 160 KB has enough of.
const board = keep(globalThis, 2);

// What an action answers, or what is said where there is no memory for it: then nothing has happened.
const orMemory = (action, said) => {
  try {
    return action();
  } catch (error) {
    if (error.code !== 'Memory') throw error;
    return said;
  }
};
const REFUSED = 'refused 5 Memory';

// The lines that go to another node and leave the tree as it is, answered or refused.
const STEPS = /^[ \t]*(back|step|start|end|goto)([ \t]|$)/;

// The board's answer to a line; both are byte strings.
const answer = (text) => orMemory(() => line(board, toBytes(text), STEPS.test(text) ? 0 : costOf(text)), REFUSED);

// ---- The game's text, which is asked for only where it may be another.

// The text that the board wrote last, with a number of its own, and the FEN of its root once it is wanted. `isOld` is whether the game may have changed since.
let written = { pgn: null, number: 0, start: '', isOld: true };
const changed = () => { written.isOld = true; };

const writtenNow = () => {
  if (written.isOld) {
    const pgn = orMemory(() => on(board, (session) => session.pgn()), REFUSED);
    written = pgn === written.pgn ? { ...written, isOld: false } : { pgn, number: written.number + 1, start: '', isOld: false };
  }
  return written;
};

// ---- The state of the board.

const MOST_WITH = 5;

// What may be claimed with a move that is then made, `[the move's text, claims]`.
const withMoves = (session, moves) => {
  const found = [];
  for (const lan of moves) {
    const claims = session.claims(lan);
    if (claims.length > 0 && found.push([session.san(lan), claims]) === MOST_WITH) break;
  }
  return found;
};

const castlings = (session) => session.castlings().map(({ lan, rook }) => ({ king: lan.slice(0, 2), rook, move: lan }));

// All that the page draws of the position at the cursor, each by the module's call for it. Where the cursor is, only a line says.
const standing = (session) => {
  const moves = session.moves();
  return {
    path: session.line('path'),
    fen: session.fen(),
    moves,
    status: session.status(),
    claims: session.claims(),
    checks: session.checks(),
    count: session.repetitions(),
    counts: session.counts(),
    tags: Object.fromEntries(SHOWN.map((name) => [name, session.tag(name) ?? ''])),
    result: session.result(),
    last: session.last() ?? '',
    castlings: castlings(session),
    with: withMoves(session, moves),
  };
};

// The same with the game's text, which is left out where it is the one with the number that the page `has`.
const state = (has) => {
  const told = on(board, standing);
  const { pgn, number } = writtenNow();
  return number === has ? { ...told, number } : { ...told, number, pgn };
};

// ---- Reading.

// The game at the start of a text, in export form: `{status, used, text}`.
const first = (bytes) => {
  const { status, used } = orMemory(() => {
    const [at, length] = theMemory().put(bytes).map(Number);
    return read((session) => session.game(at, length));
  }, { status: NO_MEMORY, used: 0 });
  return { status, used, text: status === OK ? fromBytes(theMemory().handed()) : '' };
};

// Where a game begins after what comes before it: that is as much as the module finds no game in, if it reads the same game from there.
const begins = (bytes, { place, length, bytes: text }) => {
  const at = Number(theMemory().put(bytes.subarray(place, place + length))[0]);
  const isWhite = (many) => read((session) => session.game(at, many)).status === NO_GAME;
  let white = 0;
  for (let dark = length; dark - white > 1;) {
    const middle = (white + dark) >> 1;
    if (isWhite(middle)) white = middle;
    else dark = middle;
  }
  const game = first(bytes.subarray(place + white));
  return game.status === OK && game.text === fromBytes(text) && white + game.used === length ? place + white : place;
};

// ---- Where a game can't be read.

const MOST_QUOTED = 24;
const MARK = 'THE PLACE OF THE FAULT';
// What the module repairs where a text before a fault ends: what is open there gets its end.
const OPEN = ['Comment', 'Unclosed'];

// Where the module hangs a comment that is at the end of a text: the `node`, in the `game` that it saves of the text, and whether something `isOpen` there.
// Null where more than that is to be repaired.
const hung = (text) => {
  let mark = MARK;
  while (text.includes(mark)) mark += '.';
  const saved = salvaged(toBytes(`${text}\n{${mark}}`));
  if (!saved?.repairs.every(({ name }) => OPEN.includes(name))) return null;
  const root = treeOf(fromBytes(saved.bytes));
  const node = [root, ...root].find((it) => it.comment.endsWith(mark));
  return node ? { node, game: saved.bytes, isOpen: saved.repairs.length > 0 } : null;
};

// The node below which the module would hang a move at the end of a text: that of a comment there, the last move; or where a variation has just been opened the one
// before it: then the last move's text is read as a move there, beside it.
const awaits = (text) => {
  const last = hung(text);
  if (!last?.isOpen || last.node.isRoot) return last;
  const isLast = (it) => it?.node.path === last.node.path;
  let next = hung(`${text}\n${last.node.san}`);
  // (in a comment that is open it is none)
  if (isLast(next)) next = hung(`${text}\n}${last.node.san}`);
  return next && !isLast(next) ? { ...next, node: next.node.parent } : last;
};

// The FEN at a path of a game, by a board for it.
const fenIn = (game, path) => read((session) => {
  const { status } = session.load(game);
  if (status !== OK) return { status, fen: null };
  try {
    return { status, fen: path === '-' || session.line(`goto ${path}`) === 'ok' ? session.fen() : null };
  } finally {
    session.begin();
  }
}).fen;

// Which move is to come at that place of a game, as `[number, side]`; null where the module doesn't say.
const moveAt = (bytes, at, place) => {
  const found = awaits(fromBytes(bytes.subarray(at, place)));
  const fields = found && fenIn(found.game, found.node.path)?.split(' ');
  return fields ? [fields[5], fields[1]] : null;
};

// The faults of tags: a malformed one, and a FEN that spells no position.
const TAG_FAULTS = [2, 7];

// Where a fault is, by its number and its place, of a game that begins there in a text: its line and column from 1, the move that was to come there or null, and the
// text there.
const faultAt = (bytes, from, fault, { byte, line: row, column }) => {
  const word = /^([^\s(){};]+|\S?)/.exec(decode(bytes.subarray(byte, byte + 4 * MOST_QUOTED)))[0];
  return {
    line: row,
    column,
    move: TAG_FAULTS.includes(fault) ? null : moveAt(bytes, from, byte),
    text: word.length > MOST_QUOTED ? `${word.slice(0, MOST_QUOTED)}\u2026` : word,
  };
};

// ---- What is found in a text, some at a time.

const ENDS = { mate: 'mate', stalemate: 'stalemate', dead: 'a dead position', fivefold: 'the fifth repetition', seventyfive: '75 moves without a capture or a pawn\u2019s move' };
const WINS = { w: '1-0', b: '0-1' };

// What is wrong with a game by the Laws: moves follow after it was over, or its marker disagrees with the board. Empty where nothing is.
const finding = ({ plies, winner, over, why, agrees }) => (
  [over !== null && over < plies ? `played on after ${ENDS[why]}` : '', agrees ? '' : `the board says ${WINS[winner] ?? '1/2-1/2'}`].filter(Boolean).join(', ')
);

// A part of what is found goes to the page each 100 milliseconds, and other jobs come between.
class Parts {
  constructor(id) {
    this.id = id;
    this.found = [];
    this.last = performance.now();
  }

  async pause() {
    if (performance.now() - this.last < 100) return;
    postMessage({ id: this.id, part: this.found });
    this.found = [];
    await new Promise((done) => { setTimeout(done); });
    this.last = performance.now();
  }
}

// Whether a game's text says no more than how the game ended: its tags but that one are those of a game of which nothing is known, and it has no move and no comment.
const saysNothing = (bytes) => {
  const told = (text) => JSON.stringify([tagsOf(text).tags.filter(([name]) => name !== 'Result'), treeOf(text)]);
  return told(first(bytes).text) === told(first(toBytes('*')).text);
};

const entry = (bytes, { game, fault }) => {
  if (fault) return { number: fault.index + 1, at: fault.from, fault: fault.number, where: faultAt(bytes, fault.from, fault.number, fault.place) };
  const { index, place, length, tags, report } = game;
  return { number: index + 1, at: place, used: length, tags, finding: finding(report) };
};

// The moves of a position as they are written (SAN), by a board beside.
const words = (fen, moves) => {
  const other = beside();
  other.set(fen);
  return moves.map((lan) => other.san(lan));
};

// ---- What a text as people type it means.

// The refusals of a move's text, from the one that says least of it on.
const SAYS = ['Form', 'Illegal', 'Ambiguous'];
const says = (why) => SAYS.indexOf(why.split(' ')[2]);

// First it is read as it is, then in other spellings, each asked of the module. `{move}` is the one that they name; `{among}` are those, as they are written, where
// they name several; else `{why}` is the refusal of a spelling that says most.
const meant = (text) => {
  const asked = (it) => on(board, (session) => ({ move: session.read(toBytes(typed(it))), why: session.why }));
  const { move: own, why: ownWhy } = asked(text);
  if (own) return { move: own };
  let why = ownWhy;
  const isSaid = () => says(why) === SAYS.length - 1;
  if (isSaid()) return { why };
  const pair = squares(text);
  const found = new Set(on(board, castlings).filter((it) => it.king === pair?.[0] && it.rook === pair[1]).map((it) => it.move));
  for (const it of spellings(text)) {
    const other = asked(it);
    if (other.move) found.add(other.move);
    else if (says(other.why) > says(why)) why = other.why;
  }
  if (found.size > 1) return { among: on(board, (session) => [...found].map((lan) => session.san(lan))) };
  if (found.size === 0 || isSaid()) return { why };
  return { move: [...found][0] };
};

// The FEN of the root, to which the board goes and back.
const startFen = () => on(board, (session) => {
  const path = session.line('path');
  const go = (text) => {
    if (session.line(text) !== 'ok') throw new Error(`the board does not go ${text}`);
  };
  go('start');
  const fen = session.fen();
  if (path !== '-') go(`goto ${path}`);
  return fen;
});

// A game's text with other tags and another result, by a board for it: `{status, text}`. What says how the game begins or ended is no tag of it.
const older = (session, tags, result, pgn) => {
  let { status } = session.load(toBytes(pgn));
  try {
    for (const [name, value] of tags) {
      if (status !== OK) break;
      status = session.setTag(toBytes(name), toBytes(value));
      if (status === TAG_OWN) status = OK;
    }
    if (status === OK) status = session.setResult(RESULTS.indexOf(result));
    return { status, text: status === OK ? session.pgn() : '' };
  } finally {
    session.begin();
  }
};

// A change of the game's heading or of a move, by its status.
const change = (action, has, cost = 0) => {
  changed();
  const status = orMemory(() => on(board, action, cost), NO_MEMORY);
  return { status, state: state(has) };
};

const jobs = {
  start({ module }) {
    start(module);
    return orMemory(() => ({ status: OK, state: state() }), { status: NO_MEMORY, state: null });
  },

  // The answers to lines, one after another up to one that is refused, and how the board then is.
  lines({ lines, has }) {
    const answers = [];
    for (const text of lines) {
      if (!STEPS.test(text)) changed();
      answers.push(answer(text));
      if (answers.at(-1).startsWith('refused')) break;
    }
    return { answers, state: state(has) };
  },

  // The move that a typed text means, or why it means none.
  meant({ text }) {
    return meant(text);
  },

  // A game begins by a line, `new` or `set FEN`, with no tags and no result: a board beside has one, and the module puts it on the board, or leaves that as it is.
  begin({ lines: [text], has }) {
    changed();
    let said = beside().line(toBytes(text));
    if (said === 'ok') said = orMemory(() => (begin(board, beside().pgnBytes()).status === OK ? said : REFUSED), REFUSED);
    return { answers: [said], state: state(has) };
  },

  // A tag gets a value, or where that is empty is taken out.
  tag({ name, value, has }) {
    const [first, second] = [name, value].map(toBytes);
    return change((session) => (value === '' ? session.clearTag(first) : session.setTag(first, second)), has, costOf(name + value));
  },

  // The marks of the move at the cursor are taken out.
  unmark({ has }) {
    return change((session) => session.clearNags(), has);
  },

  // How the game ended, by its number.
  result({ value, has }) {
    return change((session) => session.setResult(value), has);
  },

  words({ fen, moves }) {
    return words(fen, moves);
  },

  // The line of moves to the cursor, as the engine reads it.
  position() {
    const game = writtenNow();
    game.start ||= startFen();
    const moves = on(board, (session) => session.lineToHere());
    return ['position fen', game.start, ...(moves.length ? ['moves', ...moves] : [])].join(' ');
  },

  // The positions of the main line, from its start on: the FEN of each, the move that led there, and its status. The board stays where it is.
  mainline() {
    const { pgn } = writtenNow();
    const found = orMemory(() => read((session) => {
      const { status } = session.load(toBytes(pgn));
      const positions = [];
      try {
        for (let is = status === OK; is; is = session.line('step 0') === 'ok') positions.push({ fen: session.fen(), last: session.last() ?? '', status: session.status() });
      } finally {
        session.begin();
      }
      return { status, positions };
    }), { positions: [] });
    return found.positions;
  },

  // The FENs of the nodes at some paths. The board stays where it is.
  fens({ paths }) {
    const { pgn } = writtenNow();
    return orMemory(() => read((session) => {
      const { status } = session.load(toBytes(pgn));
      try {
        return { status, fens: paths.map((path) => (status === OK && session.line(path === '-' ? 'start' : `goto ${path}`) === 'ok' ? session.fen() : null)) };
      } finally {
        session.begin();
      }
    }), { fens: [] }).fens;
  },

  // The export form of a text's first game.
  export({ bytes }) {
    return first(bytes);
  },

  // The text of a game of which an earlier page kept the tags and the result beside the moves that the board wrote: `{status, text}`.
  older({ tags, result, pgn }) {
    return orMemory(() => read((session) => older(session, tags, result, pgn)), { status: NO_MEMORY, text: '' });
  },

  // The text's first game comes on the board, the cursor at the node with that path.
  load({ bytes, path = '-', has }) {
    const game = first(bytes);
    if (game.status === OK) return jobs.restore({ bytes: bytes.subarray(0, game.used), path, has });
    return { ...game, where: game.status >= PGN_TOKEN ? faultAt(bytes, 0, game.status - PGN_TOKEN + 1, placeIn(bytes, game.used)) : null };
  },

  // The first game of a text that can't be read, as far as the module saves it: its export form, the names of its repairs, and whether a move is left; null where nothing is.
  salvage({ bytes }) {
    const saved = orMemory(() => salvaged(bytes), null);
    return saved && { bytes: saved.bytes, repairs: saved.repairs.map(({ name }) => name), hasMoves: treeOf(fromBytes(saved.bytes)).children.length > 0 };
  },

  // The game of a text which the board wrote comes on the board, the cursor at that path.
  restore({ bytes, path, has }) {
    changed();
    const found = orMemory(() => begin(board, bytes), { status: NO_MEMORY, used: 0 });
    if (found.status !== OK) return found;
    if (path !== '-') answer(`goto ${path}`);
    return { ...found, state: state(has) };
  },

  // Where the game with that number among those of the text begins and ends; null where there is none.
  place({ bytes, number }) {
    for (const { game } of entries(bytes)) if (game && game.index + 1 === number) return { from: begins(bytes, game), end: game.place + game.length };
    return null;
  },

  // What a board beside answers to `new` or `set FEN`, and the FEN that it then has.
  tried({ text }) {
    const said = beside().line(toBytes(text));
    return { answer: said, fen: said === 'ok' ? beside().fen() : '' };
  },

  // The positions of a text, line after line, each with what is said of it, or why a line is none, some at a time.
  async positions({ bytes, id }) {
    const parts = new Parts(id);
    for (const [i, text] of fromBytes(bytes).split('\n').entries()) {
      if (!text.trim()) continue;
      const { fen, said } = position(text);
      const { answer: answered, fen: as } = jobs.tried({ text: `set ${fen}` });
      parts.found.push(answered === 'ok' ? { number: i + 1, fen: as, said } : { number: i + 1, refused: answered, text: text.trim().slice(0, 80) });
      await parts.pause();
    }
    return { found: parts.found };
  },

  // The games of a text, each with what the Laws say against it, or the faults of those that can't be read, some at a time. What a person pasted may be anything: where
  // it says nothing it is no game.
  async games({ bytes, id, isPasted }) {
    const parts = new Parts(id);
    let count = 0;
    for (const it of listed(bytes)) {
      const { game } = it;
      if (isPasted && game?.report.plies === 0 && saysNothing(bytes.subarray(game.place, game.place + game.length))) continue;
      count++;
      parts.found.push(entry(bytes, it));
      await parts.pause();
    }
    return { found: parts.found, number: count };
  },
};

onmessage = async ({ data }) => {
  try {
    postMessage({ id: data.id, result: await jobs[data.job](data) });
  } catch (error) {
    postMessage({ id: data.id, error: String(error) });
  }
};
