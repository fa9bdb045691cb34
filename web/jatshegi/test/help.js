// What the tests share: the program, chance, and errors.
import assert from 'node:assert/strict';
import { spawnSync } from 'node:child_process';
import { fileURLToPath } from 'node:url';
import { ChessError } from '../src/node.js';

export const CHESS = process.env.CHESS ?? fileURLToPath(new URL('../../../release/x86_64-linux/bin/chess', import.meta.url));

/** What the program writes for a word and an input: `{output, error}`, bytes and a text. */
export const chess = (word, input) => {
  const ran = spawnSync(CHESS, [word], { input, maxBuffer: 1 << 28 });
  if (ran.error) throw ran.error;
  return { output: ran.stdout, error: ran.stderr.toString() };
};

/** Numbers by chance, the same for the same seed: below `n`, and one of a list. */
export const chance = (seed) => {
  let state = seed >>> 0;
  const below = (n) => {
    state = (state + 0x6d2b79f5) >>> 0;
    let t = Math.imul(state ^ (state >>> 15), state | 1);
    t ^= t + Math.imul(t ^ (t >>> 7), t | 61);
    return ((t ^ (t >>> 14)) >>> 0) % n;
  };
  return { below, of: (list) => list[below(list.length)] };
};

/** That an action is refused by a name. */
export const refuses = (code, action) => assert.throws(action, (error) => {
  assert.ok(error instanceof ChessError, String(error));
  assert.equal(error.name, 'ChessError');
  assert.equal(error.code, code);
  return true;
});
