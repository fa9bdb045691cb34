// A search a slice at a time: the machine of the engine (UCI), in a session of its own.
import { engines } from './boards.js';
import { ChessError } from './errors.js';
import { movesOf } from './questions.js';

const TURN = 15;
const others = () => new Promise((done) => { setTimeout(done); });

// The next best move of a depth that was completed, among the replies; null where there is none.
const infos = (replies, fen) => replies.map((it) => /^info depth (\d+) score (cp|mate) (-?\d+) pv (\S+)/.exec(it)).filter(Boolean)
  .map(([, depth, unit, value, lan]) => ({ depth: Number(depth), move: movesOf(fen, [lan])[0], score: { [unit]: Number(value) } }));

export async function* search({ start, lans, fen, depth, signal }) {
  if (!Number.isInteger(depth) || depth < 1) throw new ChessError('Argument', `no depth: ${String(depth)}`);
  const session = engines.take();
  try {
    const replies = session.engine('line', `position fen ${start}${lans.length ? ` moves ${lans.join(' ')}` : ''}`);
    if (replies.length) throw new ChessError('Argument', replies.join(', '));
    let said = session.engine('line', `go depth ${depth}`);
    for (let last = performance.now(); ;) {
      yield* infos(said, fen);
      if (!session.searching()) return;
      if (signal?.aborted) return;
      if (performance.now() - last > TURN) {
        await others();
        last = performance.now();
        if (signal?.aborted) return;
      }
      said = session.engine('slice');
    }
  } finally {
    if (session.searching()) session.engine('line', 'stop');
    engines.give(session);
  }
}
