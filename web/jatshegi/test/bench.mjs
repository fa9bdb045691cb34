// What a page with a board calls most, beside a plain board in JavaScript: node web/jatshegi/test/bench.mjs prints nanoseconds a call, the best of nine runs in turn, and
// how many times as long the package's is. With `--check` the answers alone are compared.
import assert from 'node:assert/strict';
import { Chess } from '../src/node.js';
import { chance } from './help.js';
import { Plain } from './plain.mjs';

const { below } = chance(88);
const FENS = [];
for (const chess = new Chess(); FENS.length < 500; ) {
  const lans = chess.lans();
  if (lans.length === 0 || chess.history().length > 120) chess.reset();
  else chess.move(lans[below(lans.length)]);
  FENS.push(chess.fen());
}
const SQUARES = [...'abcdefgh'].flatMap((file) => [...'12345678'].map((rank) => file + rank));

for (const fen of FENS) {
  const [own, plain] = [new Chess(fen), new Plain(fen)];
  assert.deepEqual([own.turn(), own.isCheck(), SQUARES.map((it) => own.get(it))], [plain.turn(), plain.isCheck(), SQUARES.map((it) => plain.get(it))], fen);
}

const boards = { own: FENS.slice(0, 100).map((it) => new Chess(it)), plain: FENS.slice(0, 100).map((it) => new Plain(it)) };
const asks = (does) => (all) => {
  for (const it of all) for (let i = 0; i < 64; i++) does(it, SQUARES[i]);
  return all.length * 64;
};
const begins = (kind) => () => {
  for (const fen of FENS) new kind(fen);
  return FENS.length;
};
const WAYS = {
  get: [asks((it, square) => it.get(square))], turn: [asks((it) => it.turn())], isCheck: [asks((it) => it.isCheck())], 'new (FEN)': [begins(Chess), begins(Plain)],
};

const time = (does, all) => {
  const from = performance.now();
  const many = does(all);
  return (1e6 * (performance.now() - from)) / many;
};

if (!process.argv.includes('--check')) {
  for (const [name, [own, plain = own]] of Object.entries(WAYS)) {
    let best = [Infinity, Infinity];
    for (let i = 0; i < 9; i++) {
      const now = [[own, boards.own], [plain, boards.plain]].map(([does, all]) => Math.min(...Array.from({ length: 20 }, () => time(does, all))));
      best = best.map((it, k) => Math.min(it, now[k]));
    }
    console.log(`${name.padEnd(10)}${best.map((it) => it.toFixed(1).padStart(10)).join('')}${(best[0] / best[1]).toFixed(2).padStart(8)}`);
  }
}
