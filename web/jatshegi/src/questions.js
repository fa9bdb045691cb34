// Questions about a position, put to a board beside the one that has it: each answer is the module's.
import { beside } from './boards.js';
import { ChessError } from './errors.js';
import { Move } from './move.js';
import { spellings } from './spellings.js';

/** The names of the squares, a1, b1 to h1, a2 to h8, as the board has them. */
export const NAMES = [1, 2, 3, 4, 5, 6, 7, 8].flatMap((rank) => [...'abcdefgh'].map((file) => file + rank));

export const isSquare = (square) => {
  if (typeof square !== 'string' || square.length !== 2) return false;
  const [file, rank] = [square.charCodeAt(0) - 97, square.charCodeAt(1) - 49];
  return file >= 0 && file < 8 && rank >= 0 && rank < 8;
};

export const squareOf = (square) => {
  if (!isSquare(square)) throw new ChessError('Square', `no square: ${String(square)}`);
  return square;
};

export const colorOf = (color) => {
  if (color !== 'w' && color !== 'b') throw new ChessError('Color', `no colour: ${String(color)}`);
  return color;
};

// Six fields with a space between them.
const PLAIN = /^\S+ \S \S+ \S+ \d{1,5} \d{1,5}$/;

/** What the board says of a FEN: `{ok, fen}` with the position's one FEN, or `{ok, answer}` with the refusal. */
export const tried = (fen) => {
  // (the call is quicker than the line, which says why it refuses)
  if (PLAIN.test(fen) && beside().sets(fen)) return { ok: true, fen: beside().fen() };
  const answer = beside().line(`set ${fen}`);
  return answer === 'ok' ? { ok: true, fen: beside().fen() } : { ok: false, answer };
};

// The refusals of a move's text, from the one that says least of it on.
const REFUSALS = ['Form', 'Illegal', 'Ambiguous'];
const says = (why) => REFUSALS.indexOf(why.split(' ')[2]);

/** The legal move that a text names on a board, as it is or in another spelling: `{lan}`; or `{why}`, the refusal that says most. */
export const meant = (session, text) => {
  const own = session.read(text);
  if (own !== null) return { lan: own };
  let { why } = session;
  if (why.endsWith('Ambiguous')) return { why };
  const found = new Set();
  for (const it of spellings(text)) {
    const lan = session.read(it);
    if (lan !== null) found.add(lan);
    else if (says(session.why) > says(why)) why = session.why;
  }
  if (found.size > 1 || why.endsWith('Ambiguous')) return { why: 'refused 3 Ambiguous' };
  return found.size ? { lan: [...found][0] } : { why };
};

// Without the signs after a move: a check, a mate, and what is said of it.
const unsigned = (text) => text.replace(/[+#]?[!?]*$/, '');

/** The legal move whose standard text this is, up to those signs: `{lan}`; or `{why}`. */
export const meantStrictly = (session, text) => {
  const lan = session.read(unsigned(text));
  if (lan === null) return { why: session.why };
  return unsigned(session.san(lan)) === unsigned(text) ? { lan } : { why: 'refused 1 Form' };
};

/** Legal moves of a position, each with its text and the position after it. */
export const movesOf = (fen, lans) => {
  if (lans.length === 0) return [];
  const board = beside();
  board.set(fen);
  return lans.map((lan) => new Move(lan, board.san(lan), board.kinds(lan), fen, board.after(lan)));
};

/** The moves of a line with these texts, from a position on. */
export const lineOf = (fen, sans) => {
  const board = beside();
  let before = fen;
  return sans.map((san, i) => {
    // (a new line now and then, so that a long one needs no more memory)
    if (i % 500 === 0) board.set(before);
    const lan = board.read(san);
    const kinds = board.kinds(lan);
    board.play(lan);
    const move = new Move(lan, san, kinds, before, board.fen());
    before = move.after;
    return move;
  });
};
