// A move as users of chess.js know it. What sort of move it is the module says; its men are those of the FEN before it.

/** The men of a FEN's first field, by their squares. */
export const menOf = (placed) => {
  const men = new Map();
  placed.split('/').forEach((row, down) => {
    let file = 0;
    for (const c of row) {
      if (c >= '1' && c <= '8') file += Number(c);
      else men.set('abcdefgh'[file++] + (8 - down), c);
    }
  });
  return men;
};

/** The first field of a FEN for men by their squares. */
export const placedOf = (men) => [8, 7, 6, 5, 4, 3, 2, 1].map((rank) => {
  const row = [...'abcdefgh'].map((file) => men.get(file + rank) ?? '1').join('');
  return row.replace(/1+/g, (run) => String(run.length));
}).join('/');

export const pieceOf = (letter) => (letter ? { type: letter.toLowerCase(), color: letter === letter.toLowerCase() ? 'b' : 'w' } : undefined);

// The men of the position that was asked for last: moves are mostly of one.
let last = { placed: '', men: new Map() };
const menIn = (placed) => {
  if (last.placed !== placed) last = { placed, men: menOf(placed) };
  return last.men;
};

export class Move {
  constructor(lan, san, kinds, before, after) {
    const [placed, color] = before.split(' ');
    const men = menIn(placed);
    this.color = color;
    this.from = lan.slice(0, 2);
    this.to = lan.slice(2, 4);
    this.piece = men.get(this.from).toLowerCase();
    // (en passant a pawn is captured that stands on another square)
    if (kinds.includes('capture')) this.captured = kinds.includes('enPassant') ? 'p' : men.get(this.to).toLowerCase();
    if (lan.length > 4) this.promotion = lan[4];
    this.flags = this.#flags(kinds);
    this.san = san;
    this.lan = lan;
    this.before = before;
    this.after = after;
  }

  #flags(kinds) {
    const has = (kind) => kinds.includes(kind);
    if (has('queenSide')) return 'q';
    if (has('kingSide')) return 'k';
    const isBig = has('pawn') && Math.abs(this.to[1] - this.from[1]) === 2;
    const takes = has('enPassant') ? 'e' : has('capture') ? 'c' : '';
    return `${takes || (isBig ? 'b' : 'n')}${this.promotion ? 'p' : ''}`;
  }

  isCapture() {
    return this.captured !== undefined;
  }

  isPromotion() {
    return this.promotion !== undefined;
  }

  isEnPassant() {
    return this.flags === 'e';
  }

  isKingsideCastle() {
    return this.flags === 'k';
  }

  isQueensideCastle() {
    return this.flags === 'q';
  }

  isBigPawn() {
    return this.flags === 'b';
  }

  /** No move here is null. */
  isNullMove() {
    return false;
  }

  toString() {
    return this.san;
  }
}
