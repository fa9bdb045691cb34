// All of the package without the module: `start(bytes)` begins it.
export { Chess, DEFAULT_POSITION, SUFFIX_LIST, validateFen } from './chess.js';
export { ChessError } from './errors.js';
export { Node } from './export.js';
export { Game, games, readGames } from './games.js';
export { Move } from './move.js';
export { start } from './boards.js';

export const WHITE = 'w';
export const BLACK = 'b';
export const PAWN = 'p';
export const KNIGHT = 'n';
export const BISHOP = 'b';
export const ROOK = 'r';
export const QUEEN = 'q';
export const KING = 'k';
export const SEVEN_TAG_ROSTER = ['Event', 'Site', 'Date', 'Round', 'White', 'Black', 'Result'];
export const SQUARES = [8, 7, 6, 5, 4, 3, 2, 1].flatMap((rank) => [...'abcdefgh'].map((file) => file + rank));
