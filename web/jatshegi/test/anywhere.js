// What is the same wherever the package runs: Node and browsers do this, and their answers are compared (tests/test_javascript.py).
export default async ({ Chess, ChessError, readGames, validateFen }) => {
  const told = [];
  // Games by a plain rule, over more boards than have memory of their own at once.
  const boards = Array.from({ length: 200 }, () => new Chess());
  for (let ply = 0; ply < 12; ply++) {
    boards.forEach((chess, i) => {
      const lans = chess.lans();
      if (lans.length) chess.move(lans[(7 * i + 13 * ply) % lans.length]);
    });
  }
  boards[0].setComment('é 日本 😀');
  for (const chess of boards) told.push(chess.pgn());
  const [chess] = boards;
  told.push(chess.history({ verbose: true }), chess.attackers('e4', 'w'), chess.counts('b'), chess.best(2), validateFen('8/8 w').code);
  const faults = [];
  const text = boards.slice(0, 20).map((it) => it.pgn()).join('[White "bad"]\n\n1. e5 *\n\n');
  for await (const game of readGames(new Response(text), { onFault: (it) => faults.push(it.message) })) told.push(game.moves().length, game.report());
  told.push(faults);
  for await (const { depth, move, score } of chess.search(3)) told.push([depth, move.lan, score]);
  try {
    chess.loadPgn('1. e4 e5\n2. Ke3 *');
  } catch (error) {
    told.push([error instanceof ChessError, error.code, error.place]);
  }
  return JSON.stringify(told);
};
