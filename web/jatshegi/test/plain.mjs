// A plain board of 0x88 squares, to compare speeds with, and for nothing else: it reads a FEN, and says what stands where, who moves, and whether that side is in check.
const LETTERS = 'pnbrqk';
const KNIGHT = [-33, -31, -18, -14, 14, 18, 31, 33];
const STRAIGHT = [-16, -1, 1, 16];
const SLANTED = [-17, -15, 15, 17];

export class Plain {
  constructor(fen) {
    const fields = fen.split(/\s+/);
    if (fields.length !== 6 || !/^(-|[KQkq]+)$/.test(fields[2]) || !/^(-|[a-h][36])$/.test(fields[3])) throw new Error(`no FEN: ${fen}`);
    this.squares = new Array(128);
    this.kings = { w: -1, b: -1 };
    let at = 0;
    for (const c of fields[0]) {
      if (c === '/') at += 8;
      else if (c >= '1' && c <= '8') at += Number(c);
      else {
        const type = c.toLowerCase();
        if (!LETTERS.includes(type)) throw new Error(`no man: ${c}`);
        const color = c === type ? 'b' : 'w';
        if (type === 'k') this.kings[color] = at;
        this.squares[at++] = { type, color };
      }
    }
    [, this.side, this.rights, this.target] = fields;
    this.clock = Number(fields[4]);
    this.number = Number(fields[5]);
  }

  get(square) {
    const there = this.squares[(56 - square.charCodeAt(1)) * 16 + square.charCodeAt(0) - 97];
    return there && { type: there.type, color: there.color };
  }

  turn() {
    return this.side;
  }

  isAttacked(at, by) {
    const stands = (to, types) => !(to & 0x88) && this.squares[to]?.color === by && types.includes(this.squares[to].type);
    const forward = by === 'w' ? 16 : -16;
    if (stands(at + forward - 1, 'p') || stands(at + forward + 1, 'p')) return true;
    if (KNIGHT.some((it) => stands(at + it, 'n')) || [...STRAIGHT, ...SLANTED].some((it) => stands(at + it, 'k'))) return true;
    return [[STRAIGHT, 'rq'], [SLANTED, 'bq']].some(([ways, types]) => ways.some((way) => {
      let to = at + way;
      while (!(to & 0x88) && !this.squares[to]) to += way;
      return stands(to, types);
    }));
  }

  isCheck() {
    return this.isAttacked(this.kings[this.side], this.side === 'w' ? 'b' : 'w');
  }
}
