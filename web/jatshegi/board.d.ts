/** A move that a person made, or in the event `refused` two squares between which no move goes. */
export interface MoveDetail { lan: string; from: string; to: string }

/**
 * `<jatshegi-board>`. Each property is an attribute, too; a list is written with spaces, and a flag is there or not.
 * Events: `move` and `refused` with a `MoveDetail`, `shape` with `{shape}`.
 */
export declare class JatshegiBoard extends HTMLElement {
  addEventListener(kind: 'move' | 'refused', hears: (event: CustomEvent<MoveDetail>) => void, options?: boolean | AddEventListenerOptions): void;
  addEventListener(kind: 'shape', hears: (event: CustomEvent<{ shape: string }>) => void, options?: boolean | AddEventListenerOptions): void;
  addEventListener(kind: string, hears: EventListenerOrEventListenerObject, options?: boolean | AddEventListenerOptions): void;
  /** The position; without it the usual start. */
  fen: string;
  /** The moves that may be made, in long algebraic notation: `chess.lans()`. */
  get moves(): string[];
  set moves(moves: readonly string[] | string);
  /** The last move, which is marked. */
  last: string;
  /** The squares of the pieces that give check: `chess.checks()`. */
  get checks(): string[];
  set checks(checks: readonly string[] | string);
  /** Arrows and circles, as `Ge2e4` and `Rd5`: green, red, yellow or blue. */
  get shapes(): string[];
  set shapes(shapes: readonly string[] | string);
  /** Whether Black is below. */
  turned: boolean;
  /** Whether pieces jump instead of gliding. */
  still: boolean;
  /** Whether a person may draw arrows and circles. */
  draws: boolean;
  /** The name of the board for who doesn't see it. */
  label: string;
}

declare global {
  interface HTMLElementTagNameMap { 'jatshegi-board': JatshegiBoard }
}
