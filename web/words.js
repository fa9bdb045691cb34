import { SENTENCES } from './jatshegi/src/made.js';

// The answers of the module in words, each with its article of the FIDE Laws of Chess.
export const ROSTER = ['Event', 'Site', 'Date', 'Round', 'White', 'Black'];
/** The tags that the page shows. */
export const SHOWN = [...ROSTER, 'WhiteElo', 'BlackElo', 'WhiteTitle', 'BlackTitle'];
/** How a game ended, by its number in the module. */
export const RESULTS = ['*', '1-0', '0-1', '1/2-1/2'];

export const MARKS = {
  1: '!', 2: '?', 3: '!!', 4: '??', 5: '!?', 6: '?!', 10: '=', 13: '\u221e', 14: '\u2a72', 15: '\u2a71', 16: '\u00b1', 17: '\u2213', 18: '+\u2212', 19: '\u2212+',
};

export const STATUS = {
  mate: 'Checkmate: the game is over (Article 5.1.1)',
  stalemate: 'Stalemate: a draw (Article 5.2.1)',
  dead: 'Dead position: a draw (Article 5.2.2)',
  fivefold: 'The position has come up five times: a draw (Article 9.6.1)',
  seventyfive: '75 moves by each side without a capture or a pawn\u2019s move: a draw (Article 9.6.2)',
};

export const CLAIMS_WITH = { threefold: 'a draw by threefold repetition (Article 9.2.1)', fifty: 'a draw by the 50 moves (Article 9.3.1)' };
export const CLAIMS = { threefold: 'a draw by threefold repetition (Article 9.2.2)', fifty: 'a draw by the 50 moves (Article 9.3.2)' };

// The faults of a FEN have the sentences of the library for C.
const FENS = ['Fields', 'Placement', 'Kings', 'PawnRank', 'TooManyMen', 'Side', 'Castling', 'Target', 'Counter', 'InCheck'];
const sentence = (text) => `${text[0].toUpperCase()}${text.slice(1).replaceAll("'", '\u2019')}.`;

export const REFUSED = {
  Form: 'That isn\u2019t written as a move.', Illegal: 'That move isn\u2019t legal here.', Ambiguous: 'More than one man can make that move: say which.',
  TooLong: 'The line has 20,000 moves.', Full: 'The tree has a million moves.', NoSuch: 'There is no such move.', AtRoot: 'There is no move here to change.',
  BadComment: 'A comment can\u2019t have a closing brace: change it, or give it up by Escape.', Memory: 'There is no memory left.', Argument: 'That number is out of range.', LongLine: 'That is too long.',
  ...Object.fromEntries(FENS.map((name) => [name, sentence(SENTENCES[name])])),
};

export const FAULTS = [
  '', 'a byte that begins no token', 'a malformed tag', 'a word that names no legal move', 'a misplaced variation', 'more than 128 open variations',
  'the text ends too soon', 'a FEN that spells no position', 'no memory', 'a game that is too large',
];

const REPAIRS = {
  TagQuotes: 'quotation marks of a tag', TagBracket: 'a tag without its bracket', TagName: 'the name of a tag', Fen: 'a FEN', Castling: 'a castling', Squares: 'a castling', Hyphen: 'a hyphen in a move',
  Colon: 'a colon in a move', Pawn: 'the letter of a pawn', Small: 'a small letter', Large: 'a large letter', Promotion: 'a promotion', Sign: 'a figurine or another sign in a move', Said: 'a word after a move',
  Value: 'a sign for who stands better', Glyphs: 'too many marks', Number: 'an annotation number', Result: 'the result', Dots: 'an ellipsis', Space: 'a space', Control: 'a control character', Stray: 'a stray sign',
  Offer: 'an offer of a draw', Angles: 'text in angles', Bracket: 'text in brackets', Symbol: 'an unknown sign', Marker: 'a result in a variation', Nested: 'a comment in a comment', Comment: 'an unclosed comment',
  Unclosed: 'an unclosed variation', Prose: 'text that belongs to no game', Null: 'a null move, from which on the line is a comment', Illegal: 'a move that isn\u2019t legal, from which on the line is a comment',
  Unreadable: 'a word that is no move, from which on the line is a comment', Variation: 'a misplaced variation, which is a comment',
};

/** What was repaired in a game, by the names of the repairs. */
export const repaired = (names) => {
  const many = new Map();
  for (const it of names) many.set(REPAIRS[it] ?? it, (many.get(REPAIRS[it] ?? it) ?? 0) + 1);
  return [...many].map(([it, count]) => (count > 1 ? `${it} (${count} times)` : it)).join('; ');
};

/** A refusal of the board, `refused NUMBER NAME`, as a sentence. */
export const refusal = (answer) => {
  const name = answer.trim().split(' ')[2];
  return REFUSED[name] ?? answer;
};

// Statuses of calls that aren't faults of a text.
const STATUSES = { 2: 'There is no memory for it.', 9: 'There is no such result.', 18: 'No tag has that name.', 19: 'The game itself says that.', 20: 'It has more than one line.' };

/** A fault of a text by its number, with where it is: line, column, the move that was to come there, and the text there. */
export const faultWords = (fault, where) => {
  if (!where) return FAULTS[fault] ?? FAULTS[8];
  const move = where.move ? `, move ${where.move[0]} of ${where.move[1] === 'w' ? 'White' : 'Black'}` : '';
  return `${FAULTS[fault] ?? 'a fault'}, at line ${where.line}, column ${where.column}${move}${where.text ? `: \u201c${where.text}\u201d` : ''}`;
};

/** Why something isn't done: the status of the call, and of a text where its fault is. */
export const faultText = (status, where = null) => STATUSES[status] ?? faultWords(status - 40, where);
