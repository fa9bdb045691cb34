// The types, by a program that the TypeScript compiler has to take, and calls that it has to refuse.
import { Chess, ChessError, Game, Move, Node, SUFFIX_LIST, games, readGames, validateFen, type Color, type Fault, type Square, type Suffix } from 'jatshegi';
import { start } from 'jatshegi/core';
import { Chess as Inline } from 'jatshegi/inline';
import { JatshegiBoard } from 'jatshegi/board';
const board: JatshegiBoard = document.createElement('jatshegi-board');
board.moves = new Inline().lans();
board.addEventListener('move', ({ detail }) => detail.lan.length);
board.shapes = [...board.shapes, 'Ge2e4'];
const inline: Chess = new Inline();
inline.turn();
const signs: Suffix[] = [...SUFFIX_LIST];
inline.setSuffixAnnotation(signs[0]);
inline.loadPgn('*', { onRepair: (repairs) => repairs[0].name.length, newlineChar: 'x' });
const winner: Color | null = inline.winner();
inline.perft(1).toFixed(winner === 'w' ? 0 : 1);
inline.fen({ target: 'legal' }).length + inline.hash().length + inline.pgn({ maxWidth: 0 }).length;
const chess: Chess = new Chess();
const sans: string[] = chess.moves();
const verbose: Move[] = chess.moves({ verbose: true, square: 'e2', piece: 'p' });
const made: Move = chess.move({ from: 'e2', to: 'e4', promotion: 'q' });
const there: Square = made.from;
const node: Node = chess.root();
for (const it of node) it.san?.length;
const found = chess.best(3);
if (found && 'cp' in found.score) found.score.cp.toFixed();
const all: Game[] = [...games(new Uint8Array(3), { onFault: (fault: Fault) => fault.place.line })];
for await (const game of readGames(new Blob(['x']).stream())) game.report().threefold;
for await (const { depth } of chess.search(3, { signal: new AbortController().signal })) depth.toFixed();
const answer = validateFen('x');
if (!answer.ok) answer.code;
// @ts-expect-error
chess.get(5);
// @ts-expect-error
chess.setSuffixAnnotation('!!!');
// @ts-expect-error
chess.moves({ verbose: 1 });
try { chess.load('x', { preserveHeaders: true }); } catch (error) { if (error instanceof ChessError) error.place?.column; }
start(new Uint8Array(0));
export { sans, verbose, there, all };
