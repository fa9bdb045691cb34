// What is refused, by its name, its number where the board writes one, and its place where it has one.

import { SENTENCES } from './made.js';

/** What each name says; the last two are refusals of the program's board alone. */
export const SAYS = { ...SENTENCES, Command: 'no command', LongLine: 'more than 1,048,576 bytes' };

export class ChessError extends Error {
  /** `code` is the refusal's name, `number` the board's number of it or null, `place` is `{byte, line, column}` or null. */
  constructor(code, message, { number = null, place = null } = {}) {
    super(message);
    this.name = 'ChessError';
    this.code = code;
    this.number = number;
    this.place = place;
  }
}

/** The error of an answer `refused N NAME`, with what was asked. */
export const refusal = (answer, asked) => {
  const [, number, name] = answer.split(' ');
  return new ChessError(name, `${SAYS[name] ?? name}: ${asked}`, { number: Number(number) });
};

export const noMemory = () => new ChessError('Memory', SAYS.Memory, { number: 5 });

/** What a status of the module says that no call of this package can have. */
export const strange = (name, status) => new Error(`${name} answered with the status ${status}`);
