export type Color = 'w' | 'b';
export type PieceSymbol = 'p' | 'n' | 'b' | 'r' | 'q' | 'k';
/** `a1` to `h8`. */
export type Square = `${'a' | 'b' | 'c' | 'd' | 'e' | 'f' | 'g' | 'h'}${1 | 2 | 3 | 4 | 5 | 6 | 7 | 8}`;
export interface Piece { type: PieceSymbol; color: Color }
// tools/calls writes the following lines from tools/tables.
export type Status = 'mate' | 'stalemate' | 'dead' | 'fivefold' | 'seventyfive' | 'play';
export type Claim = 'threefold' | 'fifty';
export type Result = '*' | '1-0' | '0-1' | '1/2-1/2';
// (end of these lines)
/** For the side to move: centipawns, or in how many of its moves it mates (below 0: is mated by the other's). */
export type Score = { cp: number } | { mate: number };
/** The text of a move, standard or long algebraic, or its squares. */
export type MoveLike = string | { from: string; to: string; promotion?: string };
export interface Place { byte: number; line: number; column: number }
/** A sign after a move. */
export type Suffix = '!' | '?' | '!!' | '!?' | '?!' | '??';

export declare const DEFAULT_POSITION: string;
export declare const WHITE: 'w';
export declare const BLACK: 'b';
export declare const PAWN: 'p';
export declare const KNIGHT: 'n';
export declare const BISHOP: 'b';
export declare const ROOK: 'r';
export declare const QUEEN: 'q';
export declare const KING: 'k';
export declare const SEVEN_TAG_ROSTER: readonly string[];
export declare const SQUARES: readonly Square[];
export declare const SUFFIX_LIST: readonly Suffix[];

/** Begins with the module's bytes, or with what WebAssembly compiled of them. The package itself does it, the entry `jatshegi/core` doesn't. */
export declare function start(source: BufferSource | WebAssembly.Module): void;
/** Whether a FEN spells a position. */
export declare function validateFen(fen: string): { ok: true } | { ok: false; code: string; error: string };
/** What was written otherwise in the text of a game so that it could be read: its name, its place in bytes of the whole, and how many bytes became how many. */
export interface Repair {
  name: string;
  place: number;
  length: number;
  written: number;
}
export interface ReadOptions {
  /** Has each game that can't be read; without it that is thrown. */
  onFault?: (fault: Fault) => void;
  /** With it a game that can't be read is saved where it can be, and it has the repairs, before the game comes. */
  onRepair?: (repairs: Repair[], game: Game) => void;
}
/** The games of a whole text. A bad game is thrown, or reported to `onFault`, and reading goes on after it. */
export declare function games(source: Piecewise, options?: ReadOptions): Generator<Game>;
/** The games of a stream, as its bytes come. */
export declare function readGames(source: Source, options?: ReadOptions): AsyncGenerator<Game>;
export type Piecewise = string | ArrayBufferView | ArrayBuffer;
export type Source = Piecewise | AsyncIterable<Piecewise> | Iterable<Piecewise> | ReadableStream<Uint8Array> | Blob | Response;

/** What is refused; nothing has changed. */
export declare class ChessError extends Error {
  constructor(code: string, message: string, more?: { number?: number | null; place?: Place | null });
  /** The refusal's name, as `Illegal`. */
  readonly code: string;
  /** The board's number of it, or the fault's. */
  readonly number: number | null;
  /** Where in the text: the byte from 0, the line and the column from 1. */
  readonly place: Place | null;
}
/** `from` is the byte where the game that can't be read begins. */
export type Fault = ChessError & { index: number; place: Place; from: number };

export declare class Move {
  readonly color: Color;
  readonly from: Square;
  readonly to: Square;
  readonly piece: PieceSymbol;
  readonly captured?: PieceSymbol;
  readonly promotion?: PieceSymbol;
  /** `n`, `b` (a pawn's two squares), `e` (en passant), `c`, `k`, `q`; with `p` after it for a promotion. */
  readonly flags: string;
  readonly san: string;
  readonly lan: string;
  readonly before: string;
  readonly after: string;
  isCapture(): boolean;
  isPromotion(): boolean;
  isEnPassant(): boolean;
  isKingsideCastle(): boolean;
  isQueensideCastle(): boolean;
  isBigPawn(): boolean;
  /** Always false: no move here is null. */
  isNullMove(): boolean;
  toString(): string;
}

/** A node of a game's tree as it was when it was asked for. */
export declare class Node {
  private constructor();
  readonly parent: Node | null;
  /** Which child of its parent it is, from 0. */
  readonly index: number;
  /** The text of its move; null for the root. */
  readonly san: string | null;
  readonly nags: number[];
  readonly comment: string;
  readonly children: Node[];
  readonly isRoot: boolean;
  /** Child numbers from 0 from the root, separated by periods; `-` for the root. */
  readonly path: string;
  /** The nodes from the first move to this one. */
  line(): Node[];
  /** The nodes of the main line after this one. */
  mainline(): Node[];
  /** All nodes below this one. */
  [Symbol.iterator](): Iterator<Node>;
}

/** What the Laws say of a game's main line. A ply is a number of moves made; null is what never happens. */
export interface Report {
  plies: number;
  result: Result;
  status: Status;
  winner: Color | null;
  /** The first ply at which the game is over, and why. */
  over: number | null;
  why: Status | null;
  /** The first ply at which a draw may be claimed. */
  threefold: number | null;
  fifty: number | null;
  /** The most often a position has come up. */
  repetitions: number;
  /** The most plies in a row without a capture or a pawn's move. */
  quiet: number;
  /** Whether the result agrees with the board. */
  agrees: boolean;
  /** The FEN of the last position. */
  fen: string;
}

export declare class Game {
  private constructor();
  /** The export form, as `chess pgn` writes it. */
  readonly bytes: Uint8Array;
  /** Which game of the text it is, from 0, bad ones counted. */
  readonly index: number;
  /** Where its bytes begin, whitespace before it among them, and how many they are. */
  readonly place: number;
  readonly length: number;
  pgn(): string;
  /** The tags in the order of the text, each with its value. */
  tags(): [string, string][];
  getHeaders(): Record<string, string>;
  root(): Node;
  moves(): string[];
  report(): Report;
}

export declare class Chess {
  /** With `skipValidation` a FEN that is well formed, but not a position, is a draft: pieces can be placed, and what needs a position throws. */
  constructor(fen?: string, options?: { skipValidation?: boolean });
  /** The board's answer to a line as `chess board` writes it. */
  line(text: string): string;
  /** With `target: 'legal'` or `forceEnpassantSquare: false` an en passant target only if a legal move captures there. */
  fen(options?: { target?: 'always' | 'legal'; forceEnpassantSquare?: boolean }): string;
  /** The key of Polyglot's opening books, 16 hexadecimal digits. */
  hash(): string;
  load(fen: string, options?: { preserveHeaders?: boolean; skipValidation?: boolean }): void;
  reset(options?: { preserveHeaders?: boolean }): void;
  clear(options?: { preserveHeaders?: boolean }): void;
  turn(): Color;
  moveNumber(): number;
  get(square: string): Piece | undefined;
  /** After a move a new game begins with the changed position. `false` for a second king of a colour. */
  put(piece: Piece, square: string): boolean;
  remove(square: string): Piece | undefined;
  board(): ({ square: Square; type: PieceSymbol; color: Color } | null)[][];
  ascii(): string;
  findPiece(piece: Piece): Square[];
  squareColor(square: string): 'light' | 'dark';
  getCastlingRights(color: Color): { k: boolean; q: boolean };
  setCastlingRights(color: Color, rights: { k?: boolean; q?: boolean }): boolean;
  setTurn(color: Color): boolean;
  moves(options?: { verbose?: false; square?: string; piece?: PieceSymbol }): string[];
  moves(options: { verbose: true; square?: string; piece?: PieceSymbol }): Move[];
  lans(): string[];
  /** The number of series of `depth` legal moves, 0 to 16. */
  perft(depth: number): number;
  /** A text that names no move may be another spelling of a move, unless it is to be `strict`. */
  move(move: MoveLike, options?: { strict?: boolean }): Move;
  isLegal(move: MoveLike, options?: { strict?: boolean }): boolean;
  undo(): Move | null;
  history(options?: { verbose?: false }): string[];
  history(options: { verbose: true }): Move[];
  status(): Status;
  claims(move?: MoveLike): Claim[];
  repetitions(): number;
  checks(): Square[];
  isCheck(): boolean;
  inCheck(): boolean;
  isCheckmate(): boolean;
  isStalemate(): boolean;
  isInsufficientMaterial(): boolean;
  isThreefoldRepetition(): boolean;
  isDrawByFiftyMoves(): boolean;
  isDraw(): boolean;
  isGameOver(): boolean;
  /** The side that has mated, or null. */
  winner(): Color | null;
  counts(color: Color): Record<Square, number>;
  isAttacked(square: string, color: Color): boolean;
  attackers(square: string, color?: Color): Square[];
  evaluate(): number;
  best(depth: number): { move: Move; score: Score } | null;
  search(depth: number, options?: { signal?: AbortSignal }): AsyncGenerator<{ depth: number; move: Move; score: Score }>;
  root(): Node;
  node(): Node;
  goto(node: Node | string): void;
  fenAt(node: Node | string): string;
  back(): boolean;
  forward(child?: number): boolean;
  toStart(): void;
  toEnd(): void;
  promoteVariation(): void;
  deleteVariation(): void;
  addNag(nag: number): void;
  clearNags(): void;
  getNags(): number[];
  getComment(): string | undefined;
  setComment(text: string): void;
  removeComment(): string | undefined;
  /** @deprecated as in chess.js: `removeComment` */
  deleteComment(): string | undefined;
  /** The comments and signs of the line to the cursor. */
  getComments(): { fen: string; comment?: string; suffixAnnotation?: Suffix }[];
  removeComments(): { fen: string; comment: string }[];
  /** @deprecated as in chess.js: `removeComments` */
  deleteComments(): { fen: string; comment: string }[];
  /** The sign after a move: of the cursor's, or of the position with that FEN in the line to it. */
  getSuffixAnnotation(fen?: string): Suffix | undefined;
  setSuffixAnnotation(suffix: Suffix, fen?: string): void;
  removeSuffixAnnotation(fen?: string): Suffix | undefined;
  /** The moves are in lines of at most `maxWidth` characters where words allow; 0 is one line. */
  pgn(options?: { newline?: string; maxWidth?: number }): string;
  pgnBytes(): Uint8Array;
  /** `onRepair` saves a game that can't be read, and has its repairs. `newlineChar` is a regular expression of a line's end. */
  loadPgn(text: string | ArrayBufferView | ArrayBuffer, options?: { onRepair?: (repairs: Repair[]) => void; strict?: boolean; newlineChar?: string }): void;
  clone(): Chess;
  getHeaders(): Record<string, string>;
  setHeader(name: string, value: string): Record<string, string>;
  removeHeader(name: string): boolean;
  header(...pairs: string[]): Record<string, string>;
}
