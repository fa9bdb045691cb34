// The module in WebAssembly, whose functions are those of include/jatshegi.h: its memory, and boards in it. Nothing here knows chess; each status is looked at.
import { encode, fromBytes } from './bytes.js';
import { noMemory, refusal, strange } from './errors.js';
import { AMBIGUOUS, ARGUMENT, AT_ROOT, CLAIMS, FORM, ILLEGAL, KINDS, MORE, MOST_MOVES, NEVER, NO_GAME, NO_MEMORY, NO_ROOM, NO_SUCH, OK, OUTCOMES, PGN_TOKEN, TAG_NAME, TAG_OWN, TAG_VALUE } from './made.js';

const UNIT = 65536;
const HOME = 4096;
// The bytes of a board's slot, of the keys, and of what lies first in them: who lends the memory.
const SLOT = 16;
const KEYS = 6160;
const LENDER = 16;
// Where the calls read and write numbers.
const COUNT = 0;
const USED = 8;
const FLAG = 16;
const MOVE = 24;
const LENT = 32;
const REPORT = 64;
const LENDS = 112;
const CELLS = 128;
const REPAIR = 32;
// The bytes of a move, and how many moves there are at most in a line.
const A_MOVE = 3;
const MOST_PLIES = 20_000;

const SQUARES = [1, 2, 3, 4, 5, 6, 7, 8].flatMap((rank) => [...'abcdefgh'].map((file) => file + rank));
const PROMOTIONS = ['', 'n', 'b', 'r', 'q'];

// Why a text names no legal move, as the board's lines say it.
const NAMES_NONE = new Map([[FORM, 'refused 1 Form'], [ILLEGAL, 'refused 2 Illegal'], [AMBIGUOUS, 'refused 3 Ambiguous']]);

const namesOf = (bits, names) => names.filter((_, i) => (bits >> i) & 1);

export class Memory {
  constructor(module) {
    this.exports = new WebAssembly.Instance(module, {}).exports;
    this.free = new Map();
    this.top = Math.ceil(Number(this.exports.__heap_base.value) / 16) * 16;
    this.look();
    this.cells = this.area(CELLS).at;
    this.answers = this.area(UNIT);
    this.repairs = this.area(64 * REPAIR);
    this.moves = this.area(A_MOVE * MOST_MOVES);
    this.text = this.area(UNIT);
  }

  // Views of the memory, made anew once it has grown.
  look() {
    const { buffer } = this.exports.memory;
    if (this.bytes?.buffer === buffer) return;
    this.bytes = new Uint8Array(buffer);
    this.view = new DataView(buffer);
  }

  /** Some memory of at least that size, `{at, size}`, which `give` gives back. The size is rounded up to a power of two. */
  area(least) {
    const size = 2 ** Math.ceil(Math.log2(least));
    const kept = this.free.get(size)?.pop();
    if (kept) return kept;
    const lacks = this.top + size - this.exports.memory.buffer.byteLength;
    try {
      if (lacks > 0) this.exports.memory.grow(Math.ceil(lacks / UNIT));
    } catch {
      throw noMemory();
    }
    this.look();
    const at = this.top;
    this.top += size;
    return { at, size };
  }

  give(area) {
    if (!this.free.has(area.size)) this.free.set(area.size, []);
    this.free.get(area.size).push(area);
  }

  // Another area in the place of one that is too small.
  larger(name, least) {
    const area = this.area(least);
    this.give(this[name]);
    this[name] = area;
  }

  /** Puts a text, or bytes, where the module reads it: its address and length. */
  put(text) {
    const { length } = text;
    if (typeof text === 'string') {
      if (length > this.text.size) this.larger('text', length);
      let i = 0;
      for (; i < length; i++) {
        const code = text.charCodeAt(i);
        if (code > 127) return this.put(encode(text));
        this.bytes[this.text.at + i] = code;
      }
      return [BigInt(this.text.at), BigInt(length)];
    }
    if (length > this.text.size) this.larger('text', length);
    this.bytes.set(text, this.text.at);
    return [BigInt(this.text.at), BigInt(length)];
  }

  number(place) {
    return Number(this.view.getBigUint64(this.cells + place, true));
  }

  cell(place) {
    return BigInt(this.cells + place);
  }

  /** The bytes that the last call wrote; they are there until the next. */
  handed() {
    return this.bytes.subarray(this.answers.at, this.answers.at + this.number(COUNT));
  }

  // A repair as the module writes it.
  repair(at) {
    const [place, length, written] = [0, 8, 16].map((part) => Number(this.view.getBigUint64(at + part, true)));
    return { place, length, written, kind: this.view.getUint32(at + 24, true) };
  }

  // The move at an address, in long algebraic notation.
  lanAt(at) {
    const { bytes } = this;
    return SQUARES[bytes[at]] + SQUARES[bytes[at + 1]] + PROMOTIONS[bytes[at + 2]];
  }

  // Puts a move in long algebraic notation where a call reads it: its address.
  move(lan) {
    const place = this.cells + MOVE;
    this.bytes[place] = SQUARES.indexOf(lan.slice(0, 2));
    this.bytes[place + 1] = SQUARES.indexOf(lan.slice(2, 4));
    this.bytes[place + 2] = PROMOTIONS.indexOf(lan.slice(4));
    return this.cell(MOVE);
  }
}

/** A board, and an engine, over memory of its own in the module's. */
export class Session {
  constructor(memory, heap) {
    this.memory = memory;
    this.heap = heap;
    this.why = '';
    const areas = [];
    try {
      for (const size of [heap, 2 * HOME + KEYS + SLOT]) areas.push(memory.area(size));
      this.#lend(...areas);
    } catch (error) {
      // (nobody has what was lent: without a board it is free again)
      areas.forEach((it) => memory.give(it));
      throw error;
    }
  }

  #lend(own, head) {
    const { memory } = this;
    this.keys = head.at + HOME;
    this.slot = BigInt(this.keys + KEYS);
    memory.bytes.fill(0, this.keys, this.keys + KEYS + SLOT);
    [head.at, HOME, own.at, own.size].forEach((it, i) => memory.view.setBigUint64(memory.cells + LENT + 8 * i, BigInt(it), true));
    this.#done('jatshegi_keys_fill', memory.exports.jatshegi_keys_fill(memory.cell(LENT), BigInt(this.keys)));
    this.#done('jatshegi_board_new', this.#new());
  }

  // Want of memory is thrown, and each status but those that a call here can have.
  #done(name, status, others = []) {
    if (status === NO_MEMORY) throw noMemory();
    if (status !== OK && !others.includes(status)) throw strange(name, status);
    return status;
  }

  // Who lends the memory, as a call that takes some without a board has it: the first part of the keys, copied.
  #lender() {
    const { memory } = this;
    memory.bytes.copyWithin(memory.cells + LENDS, this.keys, this.keys + LENDER);
    return memory.cell(LENDS);
  }

  #new() {
    return this.memory.exports.jatshegi_board_new(this.#lender(), BigInt(this.keys), this.slot);
  }

  /** The board is as a game begins, and so is the engine: what they had is free again. */
  begin() {
    if (this.#new() === OK) return;
    // (a new board is made before the old one goes, and then there wasn't memory for both: one without moves leaves more, and its block is used again)
    this.line('new');
    this.#done('jatshegi_board_new', this.#new());
  }

  // A call whose last parameters are the room for its answer and the length, with more room where the answer is longer than the room.
  call(name, ...words) {
    const { memory } = this;
    for (;;) {
      const { at, size } = memory.answers;
      const status = memory.exports[name](this.slot, ...words, BigInt(at), BigInt(size), memory.cell(COUNT));
      if (status !== NO_ROOM) return status;
      memory.larger('answers', 2 * Math.max(size, memory.number(COUNT)));
    }
  }

  // The answer as a byte string; null at a status among `others`.
  asked(name, words, others = []) {
    return this.#done(name, this.call(name, ...words), others) === OK ? fromBytes(this.memory.handed()) : null;
  }

  /** The board's answer to a line, without its line feed; empty to a line without words. */
  line(text) {
    const answer = this.asked('jatshegi_board_answer', this.memory.put(text));
    return answer.endsWith('\n') ? answer.slice(0, -1) : answer;
  }

  // What a call writes that answers with a number.
  #number(name, ...words) {
    const { memory } = this;
    this.#done(name, memory.exports[name](this.slot, ...words, memory.cell(FLAG)));
    return memory.view.getInt32(memory.cells + FLAG, true);
  }

  // The moves at an address, as many as the last call counted, in long algebraic notation.
  #lans(at) {
    const { memory } = this;
    return Array.from({ length: memory.number(COUNT) }, (_, i) => memory.lanAt(at + A_MOVE * i));
  }

  /** The whole game on the board in export form, a byte string, or bytes. */
  pgn() {
    return this.asked('jatshegi_board_pgn', []);
  }

  pgnBytes() {
    this.#done('jatshegi_board_pgn', this.call('jatshegi_board_pgn'));
    return this.memory.handed().slice();
  }

  /** The game's status, by its name. */
  status() {
    return OUTCOMES[this.#number('jatshegi_board_outcome')];
  }

  /** The draws that may be claimed, by their names; with a legal move, those that may be claimed with it. */
  claims(lan) {
    return namesOf(lan === undefined ? this.#number('jatshegi_board_claims') : this.#number('jatshegi_board_claims_with', this.memory.move(lan)), CLAIMS);
  }

  /** How often the position has come up. */
  repetitions() {
    return this.#number('jatshegi_board_repetitions');
  }

  /** Centipawns, for White. */
  evaluation() {
    return this.#number('jatshegi_board_evaluation');
  }

  /** The squares of the men that give check. */
  checks() {
    const { memory } = this;
    const { at } = memory.answers;
    this.#done('jatshegi_board_checks', memory.exports.jatshegi_board_checks(this.slot, BigInt(at)));
    return SQUARES.filter((_, i) => memory.bytes[at + i]);
  }

  /** How many men of White and of Black attack each square, a1 first. */
  counts() {
    const { memory } = this;
    const [white, black] = [0, SQUARES.length].map((it) => memory.answers.at + it);
    this.#done('jatshegi_board_counts', memory.exports.jatshegi_board_counts(this.slot, BigInt(white), BigInt(black)));
    return [white, black].map((at) => [...memory.bytes.subarray(at, at + SQUARES.length)]);
  }

  /** The legal castlings, each with the square of its rook: `{lan, rook}`. */
  castlings() {
    const found = [];
    for (const text of ['O-O', 'O-O-O']) {
      const lan = this.read(text);
      const kinds = lan === null ? [] : this.kinds(lan);
      if (kinds.includes('kingSide') || kinds.includes('queenSide')) found.push({ lan, rook: (kinds.includes('kingSide') ? 'h' : 'a') + lan[1] });
    }
    return found;
  }

  /** What sort of move a legal one is, by names: `capture`, `enPassant`, `kingSide`, `queenSide`, `pawn`. */
  kinds(lan) {
    return namesOf(this.#number('jatshegi_board_kinds', this.memory.move(lan)), KINDS);
  }

  /** The move that led to the cursor, in long algebraic notation; null at the root. */
  last() {
    const { memory } = this;
    const status = memory.exports.jatshegi_board_move(this.slot, memory.cell(MOVE));
    return this.#done('jatshegi_board_move', status, [AT_ROOT]) === OK ? memory.lanAt(memory.cells + MOVE) : null;
  }

  /** The moves from the root to the cursor, in long algebraic notation. */
  lineToHere() {
    const { memory } = this;
    const area = memory.area(A_MOVE * MOST_PLIES);
    try {
      this.#done('jatshegi_board_line', memory.exports.jatshegi_board_line(this.slot, BigInt(area.at), BigInt(MOST_PLIES), memory.cell(COUNT)));
      return this.#lans(area.at);
    } finally {
      memory.give(area);
    }
  }

  /** The legal move that a text names, in long algebraic notation; null where it names none, and then `why` has what the board says of it. */
  read(text) {
    const { memory } = this;
    const status = memory.exports.jatshegi_board_read(this.slot, ...memory.put(text), memory.cell(MOVE));
    this.#done('jatshegi_board_read', status, [...NAMES_NONE.keys()]);
    this.why = NAMES_NONE.get(status) ?? '';
    return status === OK ? memory.lanAt(memory.cells + MOVE) : null;
  }

  /** The legal moves, in long algebraic notation. */
  moves() {
    const { memory } = this;
    const { at } = memory.moves;
    this.#done('jatshegi_board_moves', memory.exports.jatshegi_board_moves(this.slot, BigInt(at), BigInt(MOST_MOVES), memory.cell(COUNT)));
    return this.#lans(at);
  }

  /** The texts of the legal moves of which `wants` holds. */
  sans(wants) {
    const { at } = this.memory.moves;
    const sans = [];
    this.moves().forEach((lan, i) => {
      if (wants(lan)) sans.push(this.asked('jatshegi_board_write', [BigInt(at + A_MOVE * i)]));
    });
    return sans;
  }

  /** The text of a legal move. */
  san(lan) {
    return this.asked('jatshegi_board_write', [this.memory.move(lan)]);
  }

  /** Begins with the position of a FEN; whether it spells one. */
  sets(fen) {
    const status = this.memory.exports.jatshegi_board_set(this.slot, ...this.memory.put(fen));
    if (status === NO_MEMORY) throw noMemory();
    return status === OK;
  }

  /** Begins with the position of a FEN; one that is refused (a counter past the last) is refused as by the board's line. */
  set(fen) {
    const status = this.memory.exports.jatshegi_board_set(this.slot, ...this.memory.put(fen));
    if (status !== OK && status !== NO_MEMORY) throw refusal(this.line(`set ${fen}`), `set ${fen}`);
    this.#done('jatshegi_board_set', status);
  }

  fen() {
    return this.asked('jatshegi_board_fen', []);
  }

  /** Makes a legal move. */
  play(lan) {
    const { memory } = this;
    this.#done('jatshegi_board_play', memory.exports.jatshegi_board_play(this.slot, memory.move(lan), memory.cell(FLAG)));
  }

  // What `asks` answers after a legal move, which is taken back.
  #with(lan, asks) {
    const { memory } = this;
    this.play(lan);
    const added = memory.bytes[memory.cells + FLAG];
    const answer = asks();
    this.#done('jatshegi_board_undo', memory.exports.jatshegi_board_undo(this.slot, added));
    return answer;
  }

  /** The position's FEN after a legal move, which is taken back. */
  after(lan) {
    return this.#with(lan, () => this.fen());
  }

  /** The number of the series of `depth` legal moves. */
  perft(depth) {
    if (depth === 0) return 1;
    const lans = this.moves();
    if (depth === 1) return lans.length;
    return lans.reduce((count, lan) => count + this.#with(lan, () => this.perft(depth - 1)), 0);
  }

  /** The four fields that identify the position by the Laws. */
  epd() {
    return this.asked('jatshegi_board_epd', []);
  }

  /** The position's key in Polyglot's opening books. */
  key() {
    const { memory } = this;
    this.#done('jatshegi_board_key', memory.exports.jatshegi_board_key(this.slot, memory.cell(USED)));
    return memory.view.getBigUint64(memory.cells + USED, true);
  }

  /** The squares of the men of a colour, 0 or 1, that attack a square. */
  attackers(color, square) {
    const { memory } = this;
    const status = memory.exports.jatshegi_board_attackers(this.slot, color, SQUARES.indexOf(square), memory.cell(USED));
    this.#done('jatshegi_board_attackers', status);
    const set = memory.view.getBigUint64(memory.cells + USED, true);
    return SQUARES.filter((_, i) => (set >> BigInt(i)) & 1n);
  }

  /** What a tag of the game says, a byte string; null where there is no such tag. */
  tag(name) {
    return this.asked('jatshegi_board_tag', this.memory.put(name), [NO_SUCH]);
  }

  /** Gives a tag a value, both bytes, or takes it out: the status, where the name or the value is refused that. */
  setTag(name, value) {
    const all = new Uint8Array(name.length + value.length);
    all.set(name);
    all.set(value, name.length);
    const [at, length] = this.memory.put(all);
    const first = BigInt(name.length);
    const status = this.memory.exports.jatshegi_board_set_tag(this.slot, at, first, at + first, length - first);
    return this.#done('jatshegi_board_set_tag', status, [TAG_NAME, TAG_OWN, TAG_VALUE]);
  }

  clearTag(name) {
    return this.#done('jatshegi_board_clear_tag', this.memory.exports.jatshegi_board_clear_tag(this.slot, ...this.memory.put(name)));
  }

  /** Takes the annotation numbers of the move at the cursor out: the status, 8 at the root. */
  clearNags() {
    return this.#done('jatshegi_board_clear_annotations', this.memory.exports.jatshegi_board_clear_annotations(this.slot), [AT_ROOT]);
  }

  /** How the game ended, by its number: 0 for `*`, 1 for `1-0`, 2 for `0-1`, 3 for `1/2-1/2`; and set so: the status, 9 for another number. */
  result() {
    return this.#number('jatshegi_board_result');
  }

  setResult(marker) {
    return this.#done('jatshegi_board_set_result', this.memory.exports.jatshegi_board_set_result(this.slot, marker), [ARGUMENT]);
  }

  // The status of a call that reads a text, which may be no game, or for which there may be no memory.
  #ofText(name, status) {
    return status === NO_MEMORY || status === NO_GAME || status >= PGN_TOKEN ? status : this.#done(name, status);
  }

  /** The game at the start of the text becomes the board's: `{status, used}`, where the status may be that of a fault, or want of memory. */
  load(text) {
    const status = this.memory.exports.jatshegi_board_load(this.slot, ...this.memory.put(text), this.memory.cell(USED));
    return { status: this.#ofText('jatshegi_board_load', status), used: this.memory.number(USED) };
  }

  /** The game at the start of a text in the memory: `{status, used}`, as `load`; `handed` of the memory is its export form. */
  game(at, length) {
    const { memory } = this;
    for (;;) {
      const { answers } = memory;
      const status = memory.exports.jatshegi_game_read(
        this.#lender(), BigInt(at), BigInt(length), BigInt(answers.at), BigInt(answers.size), memory.cell(COUNT), memory.cell(USED),
      );
      if (status !== NO_ROOM) return { status: this.#ofText('jatshegi_game_read', status), used: memory.number(USED) };
      memory.larger('answers', 2 * Math.max(answers.size, memory.number(COUNT)));
    }
  }

  /** The same, saved where it can be: `{status, used, repairs}`, where each of these is `{place, length, written, kind}`, a number. */
  salvage(at, length) {
    const { memory } = this;
    for (;;) {
      const { answers, repairs } = memory;
      const places = Math.floor(repairs.size / REPAIR);
      const status = memory.exports.jatshegi_game_salvage(
        this.#lender(), BigInt(at), BigInt(length), BigInt(answers.at), BigInt(answers.size), memory.cell(COUNT), BigInt(repairs.at), BigInt(places), memory.cell(FLAG),
        memory.cell(USED),
      );
      const used = memory.number(USED);
      if (status !== NO_ROOM && status !== OK) return { status: this.#ofText('jatshegi_game_salvage', status), used, repairs: [] };
      const many = memory.number(FLAG);
      if (status === OK && many <= places) return { status, used, repairs: Array.from({ length: many }, (_, i) => memory.repair(repairs.at + REPAIR * i)) };
      if (many > places) memory.larger('repairs', REPAIR * many);
      if (status === NO_ROOM) memory.larger('answers', 2 * Math.max(answers.size, memory.number(COUNT)));
    }
  }

  // What a call answers of a text of which more may come: `{status, used}`.
  #ofNext(name, ...words) {
    const status = this.memory.exports[name](...words, this.memory.cell(USED));
    return { status: status === MORE ? status : this.#ofText(name, status), used: this.memory.number(USED) };
  }

  /**
   * What is at the start of a text in the memory, which `isLast`, or of which more may come: `{status, used}`, how many bytes to pass over to what follows it. The
   * status may be that of a fault, that no game is there, want of memory, or that more bytes decide.
   */
  next(at, length, isLast) {
    return this.#ofNext('jatshegi_game_next', this.#lender(), BigInt(at), BigInt(length), Number(isLast));
  }

  /** The same; and where a game is there the board has it. */
  loadNext(at, length, isLast) {
    return this.#ofNext('jatshegi_board_load_next', this.slot, BigInt(at), BigInt(length), Number(isLast));
  }

  /** What the Laws say of the main line of the game at the start of a text in the memory: `{status, used, numbers, agrees, fen}`. */
  report(from, length) {
    const { memory } = this;
    const { at, size } = memory.answers;
    const status = memory.exports.jatshegi_game_report(
      this.#lender(), BigInt(from), BigInt(length), memory.cell(REPORT), BigInt(at), BigInt(size), memory.cell(COUNT), memory.cell(USED),
    );
    const numbers = Array.from({ length: 10 }, (_, i) => memory.view.getUint32(memory.cells + REPORT + 4 * i, true)).map((it) => (it === NEVER ? null : it));
    const agrees = memory.view.getUint8(memory.cells + REPORT + 40) !== 0;
    return { status: this.#ofText('jatshegi_game_report', status), used: memory.number(USED), numbers, agrees, fen: status === OK ? fromBytes(memory.handed()) : '' };
  }

  /** What the engine replies to a line, to a slice of time, and to a reading of the clock, lines of it. */
  engine(event, word) {
    const words = event === 'line' ? this.memory.put(word) : event === 'moment' ? [BigInt(word)] : [];
    return this.asked(`jatshegi_engine_${event}`, words).split('\n').filter(Boolean);
  }

  searching() {
    this.#done('jatshegi_engine_searching', this.memory.exports.jatshegi_engine_searching(this.slot, this.memory.cell(FLAG)));
    return this.memory.view.getUint8(this.memory.cells + FLAG) !== 0;
  }
}
