// A position set up man by man, and draws: those that are, and those that may be claimed.
import { Chess, validateFen } from 'jatshegi';

console.log(validateFen('8/8/8/8/8/8/8/K7 w - - 0 1').code);
const chess = new Chess();
chess.clear();
for (const [square, type, color] of [['h1', 'k', 'w'], ['a7', 'r', 'w'], ['h8', 'k', 'b']]) chess.put({ type, color }, square);
console.log(chess.fen(), chess.status());
for (const move of ['Kh2', 'Kg8', 'Kh1', 'Kh8', 'Kh2', 'Kg8', 'Kh1']) chess.move(move);
console.log(chess.repetitions(), chess.claims(), chess.claims('Kh8'));
chess.move('Kh8');
console.log(chess.repetitions(), chess.claims(), chess.isDraw(), chess.status());
//> Kings
//> 7k/R7/8/8/8/8/8/7K w - - 0 1 play
//> 2 [] [ 'threefold' ]
//> 3 [ 'threefold' ] true play
