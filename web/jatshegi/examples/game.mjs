// A game to mate: moves in any spelling that a program has, and the game's status.
import { Chess, ChessError } from 'jatshegi';

const chess = new Chess();
for (const move of ['e4', { from: 'e7', to: 'e5' }, 'd1h5', 'Nc6', 'Bc4', 'Nf6']) chess.move(move);
console.log(chess.fen());
console.log(chess.moves({ square: 'h5' }).length, 'moves of the queen; attackers of f7:', chess.attackers('f7', 'w').join(' '));
try {
  chess.move('Qxf9');
} catch (error) {
  if (!(error instanceof ChessError)) throw error;
  console.log(error.code);
}
const mate = chess.move('Qxf7#');
console.log(mate.lan, mate.captured, chess.isCheckmate(), chess.checks());
console.log(chess.history().join(' '));
//> r1bqkb1r/pppp1ppp/2n2n2/4p2Q/2B1P3/8/PPPP1PPP/RNB1K1NR w KQkq - 4 4
//> 13 moves of the queen; attackers of f7: c4 h5
//> Form
//> h5f7 p true [ 'f7' ]
//> e4 e5 Qh5 Nc6 Bc4 Nf6 Qxf7#
