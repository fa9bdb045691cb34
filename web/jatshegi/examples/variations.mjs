// A tree of variations: read, gone over, changed, and written.
import { Chess } from 'jatshegi';

const chess = new Chess();
chess.loadPgn('[White "Jörg"]\n\n1. e4 e5 (1... c5 $1 {open} 2. Nf3 (2. c3)) 2. Nf3 *');
for (const node of chess.root()) console.log(node.path, node.san, node.nags, node.comment);

// Another answer to 1. e4, which becomes the main line.
const [e4] = chess.root().children;
chess.goto(e4);
chess.move('e6');
chess.setComment('French 日本');
chess.promoteVariation();
chess.setHeader('Result', '1/2-1/2');
console.log(chess.pgn().split('\n\n')[1]);
//> 0 e4 [] 
//> 0.0 e5 [] 
//> 0.0.0 Nf3 [] 
//> 0.1 c5 [ 1 ] open
//> 0.1.0 Nf3 [] 
//> 0.1.1 c3 [] 
//> 1. e4 e6 {French 日本} (1... e5 2. Nf3) (1... c5 $1 {open} 2. Nf3 (2. c3))
//> 1/2-1/2
