// The best move by plain minimax: at once, and depth after depth with other things in between, until one has seen enough.
import { Chess } from 'jatshegi';

const chess = new Chess('6k1/5ppp/8/8/8/8/8/R5K1 w - - 0 1');
const { move, score } = chess.best(2);
console.log(move.san, score);

const enough = new AbortController();
for await (const { depth, move: best } of new Chess().search(16, { signal: enough.signal })) {
  console.log(depth, best.san);
  if (depth === 3) enough.abort();
}
//> Ra8# { mate: 1 }
//> 1 Nc3
//> 2 Nc3
//> 3 Nc3
