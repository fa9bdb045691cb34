// The board of this repository for suite/run.mjs, a model for others: node suite/run.mjs suite/boards/ours.mjs
import { Chess, ChessError, games } from '../../web/jatshegi/src/node.js';

// The kinds of fault that aren't the package's names with their words apart.
const KINDS = {
  Token: 'bad_token', Tag: 'bad_tag', Move: 'bad_move', Variation: 'bad_variation',
  Deep: 'too_deep', Truncated: 'ends_early', Fen: 'bad_fen', Memory: 'no_memory',
};

class Refused extends Error {
  constructor({ code, place, message }) {
    super(message);
    this.fault = KINDS[code] ?? code.replace(/(?<=.)(?=[A-Z])/g, '_').toLowerCase();
    this.at = place?.byte;
  }
}

// What is done; what the package refuses is refused here.
const done = (action) => {
  try {
    return action();
  } catch (error) {
    throw error instanceof ChessError ? new Refused(error) : error;
  }
};

export class Board {
  constructor(fen) {
    // The texts of the legal moves, once one is asked for.
    this.texts = null;
    this.chess = done(() => new Chess(fen));
  }

  push(move) {
    this.texts = null;
    done(() => this.chess.move(move));
  }

  fen() {
    return this.chess.fen();
  }

  legal() {
    return this.chess.lans();
  }

  san(move) {
    const texts = (this.texts ??= this.chess.moves());
    return texts[this.chess.lans().indexOf(move)];
  }

  check() {
    return this.chess.isCheck();
  }

  checkers() {
    return this.chess.checks();
  }

  status() {
    return this.chess.status();
  }

  claims() {
    return this.chess.claims();
  }

  repetitions() {
    return this.chess.repetitions();
  }

  attacks() {
    const [white, black] = ['w', 'b'].map((color) => Object.values(this.chess.counts(color)));
    return { white, black };
  }

  static game(text) {
    const [game] = done(() => [...games(text, { onFault: (fault) => { throw fault; } })]);
    const { FEN: start, Result: result, ...tags } = game.getHeaders();
    const root = game.root();
    return { tags, ...(start && { start }), ...(root.comment && { comment: root.comment }), moves: lineAfter(root), result };
  }
}

// The moves of the line after a node, each with those that may be played in its place.
const lineAfter = (node) => node.mainline().map((it) => shown(it, it.parent.children.slice(1)));

const shown = ({ san, nags, comment }, others = []) => ({
  san,
  ...(nags.length && { nags }),
  ...(comment && { comment }),
  ...(others.length && { variations: others.map((it) => [shown(it), ...lineAfter(it)]) }),
});
