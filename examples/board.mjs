// Plays the moves that are named, and prints the position and the game's status: node examples/board.mjs e4 e5 Bc4 Nc6 Qh5 Nf6 Qxf7
import { Chess, ChessError } from '../web/jatshegi/src/node.js';

const chess = new Chess();
for (const text of process.argv.slice(2)) {
  try {
    chess.move(text);
  } catch (error) {
    // A refusal has a name, and nothing has changed.
    if (!(error instanceof ChessError)) throw error;
    console.log(`${text}: ${error.code}`);
  }
}
console.log(chess.fen());
console.log(chess.moves().join(' ') || 'none');
console.log(chess.status());
