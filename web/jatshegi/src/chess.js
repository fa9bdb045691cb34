// A board with its game: a tree of moves with a cursor. Each answer is the module's, a line to its board or a call.
import { bytesOf, checkText, decode, encode, shown } from './bytes.js';
import { ChessError, noMemory, refusal, strange } from './errors.js';
import { FRESH, begin, beside, costOf, faultOf, keep, lay, line, on, placeIn, readers, theMemory } from './boards.js';
import { laidOut, tagsOf, treeOf, Node } from './export.js';
import { entries } from './games.js';
import { ARGUMENT, AT_ROOT, MARKERS, NAMES as FAULTS, NO_GAME, NO_MEMORY, OK, SENTENCES, TAG_NAME, TAG_OWN, TAG_VALUE } from './made.js';
import { menOf, pieceOf, placedOf } from './move.js';
import { NAMES, colorOf, lineOf, meant, meantStrictly, movesOf, squareOf, tried } from './questions.js';
import { search } from './search.js';

export const DEFAULT_POSITION = 'rnbqkbnr/pppppppp/8/8/8/8/PPPPPPPP/RNBQKBNR w KQkq - 0 1';
const EMPTY = '8/8/8/8/8/8/8/8 w - - 0 1';
const MOST_DEEP = 16;
// The signs after a move, by their annotation numbers from 1 on.
const SUFFIXES = ['!', '?', '!!', '??', '!?', '?!'];
const isSuffix = (nag) => nag >= 1 && nag <= SUFFIXES.length;
const suffixOf = ({ nags }) => SUFFIXES[nags.find(isSuffix) - 1];
// How programs write that nobody moves.
const NULL_MOVES = [null, '--', '0000', '@@@@', 'Z0'];

export const SUFFIX_LIST = ['!', '?', '!!', '!?', '?!', '??'];

const only = (options, ...names) => {
  for (const name of Object.keys(options ?? {})) {
    if (options[name] !== undefined && options[name] !== false && !names.includes(name)) throw new ChessError('Option', `no such option here: ${name}`);
  }
  return options ?? {};
};

/** Whether a FEN spells a position: `{ok: true}` or `{ok: false, code, error}`. */
export const validateFen = (fen) => {
  encode(fen);
  const { ok, answer } = tried(fen);
  if (ok) return { ok };
  const error = refusal(answer, fen);
  return { ok, code: error.code, error: error.message };
};

// The six fields of a FEN that is only well formed; null where it isn't.
const formed = (fen) => {
  const fields = fen.trim().split(/\s+/);
  const [placed, turn, rights, target, ...counters] = fields.length === 4 ? [...fields, '0', '1'] : fields;
  const isPlaced = /^[1-8pnbrqk]+(\/[1-8pnbrqk]+){7}$/i.test(placed) && placed.split('/').every((row) => [...row].reduce((all, it) => all + (Number(it) || 1), 0) === 8);
  const isFormed = isPlaced && /^[wb]$/.test(turn) && /^(-|K?Q?k?q?)$/.test(rights) && /^(-|[a-h][36])$/.test(target) && counters.length === 2 && counters.every((it) => /^\d{1,5}$/.test(it));
  return isFormed ? [placed, turn, rights, target, ...counters].join(' ') : null;
};

// What a FEN says: its fields, the letters of the men by their squares, and the men as they are answered, each once it is asked for.
class Spelt {
  constructor(fen) {
    Object.assign(this, { fen, kept: null, letters: null, pieces: null, checks: null });
  }

  get fields() {
    return (this.kept ??= this.fen.split(' '));
  }

  get men() {
    return (this.letters ??= menOf(this.fields[0]));
  }

  // The men in a list, that of a1 first.
  get list() {
    return (this.pieces ??= NAMES.map((name) => pieceOf(this.men.get(name))));
  }
}

// Refuses what isn't one game that can be read.
const checkOne = (bytes) => {
  const [at, length] = theMemory().put(bytes).map(Number);
  const reader = readers();
  const one = reader.game(at, length);
  if (one.status === NO_MEMORY) throw noMemory();
  if (one.status !== OK) throw faultOf(one.status, placeIn(bytes, one.used));
  const next = reader.game(at + one.used, length - one.used);
  if (next.status === NO_MEMORY) throw noMemory();
  if (next.status === OK) throw new ChessError('Many', 'more than one game: read them by games() or readGames()', { place: placeIn(bytes, one.used) });
  if (next.status !== NO_GAME) throw faultOf(next.status, placeIn(bytes, one.used + next.used));
};

// The export form of the one game of a text, which is saved if it has to be.
const saved = (bytes, onRepair) => {
  const all = entries(bytes, true);
  const { value: first } = all.next();
  const { value: second } = all.next();
  all.return();
  if (!first) throw faultOf(NO_GAME);
  if (first.fault) throw first.fault;
  if (second) throw new ChessError('Many', 'more than one game: read them by games() or readGames()', { place: placeIn(bytes, first.game.length) });
  if (first.repairs.length) onRepair(first.repairs);
  return first.game.bytes;
};

// A text whose lines are ended otherwise, with line feeds.
const withLines = (text, newlineChar) => {
  encode(text);
  try {
    return text.replace(new RegExp(newlineChar, 'g'), '\n');
  } catch (error) {
    if (!(error instanceof SyntaxError)) throw error;
    throw new ChessError('Option', `no regular expression: ${newlineChar}`);
  }
};

export class Chess {
  // (no private fields: what wraps objects in proxies, as frameworks for pages do, can't call methods that read those)
  constructor(fen = DEFAULT_POSITION, options = {}) {
    const { skipValidation } = only(options, 'skipValidation');
    let kept = null;
    // A function, since such proxies leave functions as they are. It owns the board, which goes once no object has it.
    this._own = () => kept;
    kept = keep(this._own);
    // A placement that is no position yet, as `clear` and `put` leave it: `{fen, error}`.
    this._draft = null;
    this._tree = { version: -1 };
    if (fen !== DEFAULT_POSITION) this.load(fen, { skipValidation });
  }

  // ---- Lines of the board.

  _position() {
    if (this._draft) throw this._draft.error;
    return this._own();
  }

  // The board's answer, which may be none of the refusals.
  _ask(text, cost) {
    const answer = line(this._position(), text, cost);
    if (answer.startsWith('refused ')) throw refusal(answer, text);
    return answer;
  }

  _change(text) {
    this._ask(text, costOf(text));
    this._own().version++;
  }

  /** The board's answer to a line as `chess board` writes it, without its line feed; refusals are answers here. */
  line(text) {
    encode(text);
    if (text.includes('\n')) throw new ChessError('Text', 'more than one line');
    const kept = this._position();
    kept.version++;
    try {
      return shown(line(kept, text, costOf(text)));
    } catch (error) {
      if (error.code !== 'Memory') throw error;
      return 'refused 5 Memory';
    }
  }

  // ---- Positions.

  /** The position's FEN. With `target: 'legal'`, or `forceEnpassantSquare: false`, it has an en passant target only where a legal move captures there. */
  fen(options = {}) {
    const { target, forceEnpassantSquare } = only(options, 'target', 'forceEnpassantSquare');
    if (![undefined, 'always', 'legal'].includes(target)) throw new ChessError('Option', `no such target: ${String(target)}`);
    const now = this._spelt();
    if (this._draft || !(target === 'legal' || (target === undefined && forceEnpassantSquare === false))) return now.fen;
    return [on(this._position(), (session) => session.epd()), ...now.fields.slice(4)].join(' ');
  }

  // The position's FEN with its fields and men, `{fen, fields, men}`, which stays until the position is another.
  _spelt() {
    if (this._draft) return new Spelt(this._draft.fen);
    return (this._own().spelt ??= new Spelt(this._ask('fen')));
  }

  // The board has the game of a text; where that is none, nothing has changed.
  _take(text) {
    const { status, used } = begin(this._own(), text);
    if (status !== OK) throw faultOf(status, placeIn(text, used));
  }

  _begin(fen, keepsHeaders, takesDrafts = false) {
    const { ok, answer, fen: own } = tried(fen);
    if (!ok) {
      const draft = takesDrafts ? formed(fen) : null;
      if (!draft) throw refusal(answer, fen);
      this.reset({ preserveHeaders: keepsHeaders });
      this._draft = { fen: draft, error: refusal(answer, fen) };
      return;
    }
    if (keepsHeaders) {
      line(this._own(), `set ${fen}`);
      this._own().version++;
    } else {
      lay(this._own(), own === DEFAULT_POSITION ? FRESH : `[SetUp "1"]\n[FEN "${own}"]\n\n*`);
      this._own().spelt = new Spelt(own);
    }
    this._draft = null;
  }

  /** Begins a new game with the position of a FEN; where it is none, nothing has changed. With `skipValidation` one that is only well formed is a draft. */
  load(fen, options = {}) {
    const { preserveHeaders, skipValidation } = only(options, 'preserveHeaders', 'skipValidation');
    checkText(fen);
    this._begin(fen, preserveHeaders, Boolean(skipValidation));
  }

  reset(options = {}) {
    this.load(DEFAULT_POSITION, options);
  }

  /** The position's key in Polyglot's opening books, 16 hexadecimal digits. */
  hash() {
    return on(this._position(), (session) => session.key()).toString(16).padStart(16, '0');
  }

  turn() {
    return this._spelt().fields[1];
  }

  moveNumber() {
    return Number(this._spelt().fields[5]);
  }

  get(square) {
    squareOf(square);
    const there = this._spelt().list[8 * (square.charCodeAt(1) - 49) + square.charCodeAt(0) - 97];
    return there && { type: there.type, color: there.color };
  }

  /** Ranks 8 to 1, in each files a to h: `{square, type, color}` or null. */
  board() {
    const men = this._spelt().men;
    return [8, 7, 6, 5, 4, 3, 2, 1].map((rank) => [...'abcdefgh'].map((file) => {
      const square = file + rank;
      return men.has(square) ? { square, ...pieceOf(men.get(square)) } : null;
    }));
  }

  ascii() {
    const edge = '   +------------------------+\n';
    const rows = this.board().map((row, down) => ` ${8 - down} |${row.map((it) => ` ${it ? (it.color === 'w' ? it.type.toUpperCase() : it.type) : '.'} `).join('')}|\n`);
    return `${edge}${rows.join('')}${edge}     a  b  c  d  e  f  g  h`;
  }

  findPiece({ type, color }) {
    const letter = color === 'w' ? type.toUpperCase() : type;
    const men = this._spelt().men;
    return NAMES.filter((it) => men.get(it) === letter);
  }

  squareColor(square) {
    return NAMES.indexOf(squareOf(square)) % 2 === (square[1] % 2 ? 1 : 0) ? 'light' : 'dark';
  }

  getCastlingRights(color) {
    const rights = this._spelt().fields[2];
    const spelt = colorOf(color) === 'w' ? 'KQ' : 'kq';
    return { k: rights.includes(spelt[0]), q: rights.includes(spelt[1]) };
  }

  // ---- Placing men: a new game begins with the changed position. What is no position yet is a draft: each call that needs a position throws why it is none.

  _edit(change) {
    const now = this._spelt();
    const [fields, men] = [[...now.fields], new Map(now.men)];
    change(men, fields);
    const fen = [placedOf(men), fields[1], fields[2], '-', fields[4], fields[5]].join(' ');
    const { ok, answer } = tried(fen);
    if (ok) this._begin(fen, true);
    else this._draft = { fen, error: refusal(answer, fen) };
  }

  clear(options = {}) {
    const { preserveHeaders } = only(options, 'preserveHeaders');
    this.reset({ preserveHeaders });
    this._draft = { fen: EMPTY, error: refusal('refused 3 Kings', EMPTY) };
  }

  /** Whether the piece was put there: a second king of a colour isn't. */
  put({ type, color }, square) {
    squareOf(square);
    if (typeof type !== 'string' || !/^[pnbrqkPNBRQK]$/.test(type)) throw new ChessError('Piece', `no piece: ${String(type)}`);
    const letter = colorOf(color) === 'w' ? type.toUpperCase() : type.toLowerCase();
    if (/k/i.test(letter) && [...this._spelt().men].some(([at, it]) => it === letter && at !== square)) return false;
    this._edit((men) => men.set(square, letter));
    return true;
  }

  remove(square) {
    const there = this.get(square);
    if (there) this._edit((men) => men.delete(square));
    return there;
  }

  setTurn(color) {
    colorOf(color);
    if (this.turn() === color) return false;
    this._edit((men, fields) => {
      fields[1] = color;
    });
    return true;
  }

  /** Whether the rights then are those. The module drops one whose king or rook isn't at home. */
  setCastlingRights(color, rights) {
    const all = { ...this.getCastlingRights(color), ...rights };
    this._edit((men, fields) => {
      const own = color === 'w' ? 'KQ' : 'kq';
      const rest = [...fields[2]].filter((it) => it !== '-' && !own.includes(it));
      const held = [...rest, ...(all.k ? [own[0]] : []), ...(all.q ? [own[1]] : [])];
      fields[2] = [...'KQkq'].filter((it) => held.includes(it)).join('') || '-';
    });
    const now = this.getCastlingRights(color);
    return now.k === all.k && now.q === all.q;
  }

  // ---- Moves.

  moves({ verbose = false, square, piece } = {}) {
    if (square !== undefined) squareOf(square);
    const men = piece === undefined ? null : this._spelt().men;
    const wants = (lan) => (square === undefined || lan.startsWith(square)) && (!men || men.get(lan.slice(0, 2)).toLowerCase() === piece);
    return verbose ? movesOf(this.fen(), this.lans().filter(wants)) : on(this._position(), (session) => session.sans(wants));
  }

  /** The legal moves in long algebraic notation, by squares. */
  lans() {
    return on(this._position(), (session) => session.moves());
  }

  /** The number of the series of `depth` legal moves, 0 to 16. */
  perft(depth) {
    if (!Number.isInteger(depth) || depth < 0 || depth > MOST_DEEP) throw new ChessError('Argument', `no depth: ${String(depth)}`);
    const fen = (this._position(), this.fen());
    beside().set(fen);
    return beside().perft(depth);
  }

  // The legal move that a text or an object names, in long algebraic notation; else why it names none.
  _named(move, strict = false) {
    if (NULL_MOVES.includes(move)) throw new ChessError('NullMove', 'a side has to move');
    let texts = [move];
    if (typeof move === 'object' && move) {
      const pair = `${squareOf(move.from)}${squareOf(move.to)}`;
      // (a promotion that no move has is passed over, as chess.js does)
      texts = move.promotion === undefined ? [pair] : [pair + move.promotion, pair];
    }
    const means = strict && texts[0] === move ? meantStrictly : meant;
    // (of two spellings the first says why)
    let why = '';
    for (const text of texts) {
      encode(text);
      const found = on(this._position(), (session) => means(session, text));
      if (found.lan) return found.lan;
      why ||= found.why;
    }
    throw refusal(why, `${texts[0]} in ${this.fen()}`);
  }

  /** Makes the move: along a node that has it, else as a further variation. A text that names no move may be another spelling of one, but with `strict`. */
  move(move, options = {}) {
    const { strict } = only(options, 'strict');
    const lan = this._named(move, Boolean(strict));
    const [made] = movesOf(this.fen(), [lan]);
    this._change(`play ${lan}`);
    return made;
  }

  /** Whether a text or an object names a legal move, as `move` reads it. */
  isLegal(move, options = {}) {
    const { strict } = only(options, 'strict');
    try {
      return Boolean(this._named(move, Boolean(strict)));
    } catch (error) {
      if (error instanceof ChessError && ['Form', 'Illegal', 'Ambiguous', 'Square', 'NullMove'].includes(error.code)) return false;
      throw error;
    }
  }

  /** Takes the last move out of the game, with what follows it; null at the start. */
  undo() {
    const node = this.node();
    if (node.isRoot) return null;
    const [undone] = lineOf(this.fenAt(node.parent), [node.san]);
    this._change('delete');
    return undone;
  }

  history({ verbose = false } = {}) {
    const sans = this.node().line().map(({ san }) => san);
    return verbose ? lineOf(this._startFen(), sans) : sans;
  }

  // The FEN of the root.
  _startFen() {
    return this._at('-', () => this._ask('fen'));
  }

  // What is asked at another node, `path` if it isn't gone to.
  _at(path, asks) {
    const here = this._ask('path');
    try {
      this._go(path);
      return asks();
    } finally {
      this._go(here);
    }
  }

  _go(path) {
    this._ask(path === '-' ? 'start' : `goto ${path}`);
  }

  // ---- The game's status.

  /** `mate`, `stalemate`, `dead`, `fivefold`, `seventyfive` or `play`. */
  status() {
    return on(this._position(), (session) => session.status());
  }

  /** The draws that may be claimed, `threefold` and `fifty`; with a move, those that may be claimed with it. */
  claims(move) {
    const lan = move === undefined ? undefined : this._named(move);
    return on(this._position(), (session) => session.claims(lan));
  }

  /** How often the position has come up. */
  repetitions() {
    return on(this._position(), (session) => session.repetitions());
  }

  // The squares of the men that give check, which stay until the position is another.
  _checks() {
    const kept = this._position();
    return (this._spelt().checks ??= on(kept, (session) => session.checks()));
  }

  /** The squares of the men that give check. */
  checks() {
    return [...this._checks()];
  }

  isCheck() {
    return this._checks().length > 0;
  }

  inCheck() {
    return this.isCheck();
  }

  isCheckmate() {
    return this.status() === 'mate';
  }

  /** The side that has mated, or null. */
  winner() {
    return this.isCheckmate() ? (this.turn() === 'w' ? 'b' : 'w') : null;
  }

  isStalemate() {
    return this.status() === 'stalemate';
  }

  isInsufficientMaterial() {
    return this.status() === 'dead';
  }

  isThreefoldRepetition() {
    return this.claims().includes('threefold');
  }

  isDrawByFiftyMoves() {
    return this.claims().includes('fifty');
  }

  isDraw() {
    const status = this.status();
    return status === 'play' ? this.claims().length > 0 : status !== 'mate';
  }

  isGameOver() {
    return this.status() !== 'play' || this.isDraw();
  }

  // ---- Attacks, evaluation, search.

  /** How many men of a colour attack each square, by its name. */
  counts(color) {
    const place = 'wb'.indexOf(colorOf(color));
    const counts = on(this._position(), (session) => session.counts())[place];
    return Object.fromEntries(NAMES.map((name, i) => [name, counts[i]]));
  }

  isAttacked(square, color) {
    return this.counts(color)[squareOf(square)] > 0;
  }

  attackers(square, color = this.turn()) {
    squareOf(square);
    colorOf(color);
    return on(this._position(), (session) => session.attackers('wb'.indexOf(color), square));
  }

  /** Centipawns, for White. */
  evaluate() {
    return on(this._position(), (session) => session.evaluation());
  }

  /** The first move of greatest minimax value, 1 to 16 plies deep: `{move, score: {cp} or {mate}}`; null where no move is legal. */
  best(depth) {
    const answer = this._ask(`best ${depth}`);
    if (answer === 'none') return null;
    const [lan, unit, value] = answer.split(' ');
    return { move: movesOf(this.fen(), [lan])[0], score: { [unit]: Number(value) } };
  }

  /** The same depth after depth, while other things go on: an async iterator of `{depth, move, score}`. `signal` ends it. */
  search(depth, { signal } = {}) {
    const lans = on(this._position(), (session) => session.lineToHere());
    return search({ start: this._startFen(), lans, fen: this.fen(), depth, signal });
  }

  // ---- The tree.

  /** The root of the game's tree as it now is. */
  root() {
    const kept = this._position();
    if (this._tree.version !== kept.version) this._tree = { version: kept.version, root: treeOf(on(kept, (session) => session.pgn())) };
    return this._tree.root;
  }

  /** The node at the cursor. */
  node() {
    const path = this._ask('path');
    return path === '-' ? this.root() : path.split('.').reduce((node, i) => node.children[i], this.root());
  }

  /** To a node, or to a path as `node.path` has it. */
  goto(node) {
    if (!(node instanceof Node)) {
      this._go(node);
      return;
    }
    const sans = node.line().map(({ san }) => san);
    let it = this.root();
    const found = node.path === '-' || node.path.split('.').every((i, at) => {
      it = it.children[i];
      return it?.san === sans[at];
    });
    if (!found) throw new ChessError('NoSuch', `the game has no such node any more: ${sans.join(' ')}`);
    this._go(node.path);
  }

  /** The FEN at a node. */
  fenAt(node) {
    return this._at(this._ask('path'), () => {
      this.goto(node);
      return this.fen();
    });
  }

  /** Steps back; whether it did. The move stays in the game. */
  back() {
    if (this._ask('path') === '-') return false;
    this._ask('back');
    return true;
  }

  /** Steps to a child, from 0; whether there is one. */
  forward(child = 0) {
    const answer = line(this._position(), `step ${child}`);
    if (answer === 'refused 1 NoSuch') return false;
    if (answer !== 'ok') throw refusal(answer, `step ${child}`);
    return true;
  }

  toStart() {
    this._ask('start');
  }

  toEnd() {
    this._ask('end');
  }

  /** The node at the cursor becomes the first of those beside it. */
  promoteVariation() {
    this._change('promote');
  }

  /** Takes out the node at the cursor and all below it. */
  deleteVariation() {
    this._change('delete');
  }

  addNag(nag) {
    this._change(`nag ${nag}`);
  }

  /** Takes the annotation numbers of the move at the cursor out. */
  clearNags() {
    const status = on(this._own(), (session) => session.clearNags());
    if (status === AT_ROOT) throw refusal('refused 2 AtRoot', 'clearNags');
    this._own().version++;
  }

  getNags() {
    return [...this.node().nags];
  }

  getComment() {
    return this.node().comment || undefined;
  }

  setComment(text) {
    encode(text);
    this._change(`comment ${text}`);
  }

  removeComment() {
    const comment = this.getComment();
    this.setComment('');
    return comment;
  }

  deleteComment() {
    return this.removeComment();
  }

  /** The comments and signs of the line to the cursor, `{fen, comment, suffixAnnotation}`, each where it is. */
  getComments() {
    const nodes = [this.root(), ...this.node().line()];
    return nodes.filter((it) => it.comment || suffixOf(it)).map((it) => ({
      fen: this.fenAt(it), ...(it.comment && { comment: it.comment }), ...(suffixOf(it) && { suffixAnnotation: suffixOf(it) }),
    }));
  }

  removeComments() {
    const all = this.getComments().filter(({ comment }) => comment).map(({ fen, comment }) => ({ fen, comment }));
    const here = this.node();
    for (const it of [this.root(), ...here.line()].filter(({ comment }) => comment)) this._at(it.path, () => this._change('comment'));
    return all;
  }

  deleteComments() {
    return this.removeComments();
  }

  // The node of the line to the cursor whose position has a FEN, with or without its en passant target; the last such. Without a FEN the cursor's.
  _nodeOf(fen) {
    if (fen === undefined) return this.node();
    encode(fen);
    const plain = (it) => it.split(' ').map((field, i) => (i === 3 ? '-' : field)).join(' ');
    const isHere = (it) => it === fen || plain(it) === fen;
    const line = this.node().line();
    const afters = this.history({ verbose: true }).map(({ after }) => after);
    const at = afters.findLastIndex(isHere);
    if (at >= 0) return line[at];
    if (isHere(this._startFen())) return this.root();
    throw new ChessError('NoSuch', `the line to the cursor has no such position: ${fen}`);
  }

  // Gives a node these annotation numbers for those it has.
  _mark({ path }, nags) {
    this._at(path, () => {
      this.clearNags();
      for (const it of nags) this.addNag(it);
    });
  }

  /** The sign after a move, one of `SUFFIX_LIST`: of the cursor's, or of the position with a FEN in the line to it. */
  getSuffixAnnotation(fen) {
    return suffixOf(this._nodeOf(fen));
  }

  /** Sets the sign after a move, in the place of another; other annotation numbers stay. */
  setSuffixAnnotation(suffix, fen) {
    if (!SUFFIXES.includes(suffix)) throw new ChessError('Suffix', `no sign after a move: ${String(suffix)}`);
    const node = this._nodeOf(fen);
    this._mark(node, [SUFFIXES.indexOf(suffix) + 1, ...node.nags.filter((it) => !isSuffix(it))]);
  }

  /** Takes the sign out, and answers it. */
  removeSuffixAnnotation(fen) {
    const node = this._nodeOf(fen);
    const suffix = suffixOf(node);
    if (suffix) this._mark(node, node.nags.filter((it) => !isSuffix(it)));
    return suffix;
  }

  // ---- The game as a text.

  /** The whole game in export form, with its variations; with `maxWidth` its moves are in lines of so many characters where words allow, 0 is one line. */
  pgn(options = {}) {
    const { newline = '\n', maxWidth } = only(options, 'newline', 'maxWidth');
    if (maxWidth !== undefined && !(Number.isInteger(maxWidth) && maxWidth >= 0)) throw new ChessError('Option', `no width: ${String(maxWidth)}`);
    const whole = decode(this.pgnBytes());
    const text = maxWidth === undefined ? whole : laidOut(whole, maxWidth);
    return newline === '\n' ? text : text.replaceAll('\n', newline);
  }

  /** Its bytes, as `chess pgn` writes them. */
  pgnBytes() {
    return on(this._position(), (session) => session.pgnBytes());
  }

  /**
   * The game of a text comes on the board, the cursor at the end of its main line. Where the text isn't one game, nothing has changed. With `onRepair` a game that
   * can't be read is saved where it can be, and it has the repairs before the board has the game. `newlineChar` is a regular expression of what ends a line.
   */
  loadPgn(text, options = {}) {
    const { onRepair, strict, newlineChar } = only(options, 'onRepair', 'strict', 'newlineChar');
    if (onRepair && strict) throw new ChessError('Option', 'a text that is repaired is not read strictly');
    const bytes = bytesOf(newlineChar === undefined ? text : withLines(text, newlineChar));
    this._take(onRepair ? saved(bytes, onRepair) : (checkOne(bytes), bytes));
    this._draft = null;
    this.toEnd();
  }

  /** A board with the same game and cursor. */
  clone() {
    const other = new Chess();
    other.loadPgn(this.pgnBytes());
    other.goto(this._ask('path'));
    return other;
  }

  /** The tags of the game, in the order of its text. */
  getHeaders() {
    return Object.fromEntries(tagsOf(on(this._own(), (session) => session.pgn())).tags);
  }

  _heading(name, action, cost = 0) {
    const status = on(this._own(), action, cost);
    this._own().version++;
    if (status === OK) return;
    this._own().version--;
    if (status === ARGUMENT) throw new ChessError('Result', `the result is none of ${MARKERS.join(', ')}: ${name}`);
    if (![TAG_NAME, TAG_OWN, TAG_VALUE].includes(status)) throw strange('a tag', status);
    throw new ChessError(FAULTS[status], `${SENTENCES[FAULTS[status]]}: ${name}`);
  }

  setHeader(name, value) {
    const [first, second] = [encode(name), encode(value)];
    if (name === 'Result') this._heading(value, (session) => session.setResult(MARKERS.includes(value) ? MARKERS.indexOf(value) : MARKERS.length));
    else this._heading(name, (session) => session.setTag(first, second), costOf(name + value));
    return this.getHeaders();
  }

  /** Whether there was such a tag. One of the seven that each game has then says that nothing is known. */
  removeHeader(name) {
    const before = this.getHeaders()[name];
    const bytes = encode(name);
    this._heading(name, (session) => (name === 'Result' ? session.setResult(0) : session.clearTag(bytes)));
    return this.getHeaders()[name] !== before;
  }

  header(...pairs) {
    if (pairs.length % 2) throw new ChessError('Argument', 'names and values in pairs are wanted');
    for (let i = 0; i < pairs.length; i += 2) this.setHeader(pairs[i], pairs[i + 1]);
    return this.getHeaders();
  }
}
