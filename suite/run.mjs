#!/usr/bin/env node
// Asks a board in JavaScript all that the suite has, as run_class.py does: node suite/run.mjs [--target always|attacked|legal] MY_BOARD.mjs [ROWS ..]
//
// MY_BOARD.mjs exports a class `Board`; boards/ours.mjs has one. `new Board(fen)` is a board, and `push(move)` makes a move, as e2e4. Of fen(), legal(),
// san(move), check(), checkers(), status(), claims(), repetitions(), attacks() and, of the class itself, game(text), each is asked that is there: README.md
// says what they answer. undefined is no answer. What is refused is thrown, with its kind as a text `fault` and its place as a number `at`, if any.
import { readFileSync } from 'node:fs';
import { resolve } from 'node:path';
import { pathToFileURL } from 'node:url';
import { isDeepStrictEqual, parseArgs } from 'node:util';

const TARGETS = ['legal', 'attacked', 'always'];
const SETS = ['legal', 'checkers', 'claims'];
const QUESTIONS = ['fen', 'legal', 'san', 'check', 'checkers', 'status', 'claims', 'repetitions', 'attacks'];

// What is to be answered; the FEN as a board writes it that has a target only then.
const wantedOf = (question, row, when) => {
  const isThere = TARGETS.indexOf(row.target ?? 'legal') <= TARGETS.indexOf(when);
  if (question === 'fen') return row.at.split(' ').map((field, place) => (place === 3 && !isThere ? '-' : field)).join(' ');
  if (question === 'san') return row.legal;
  return question === 'legal' ? Object.keys(row.legal) : row[question];
};

// What is answered, or the error that is thrown.
const tried = (read) => {
  try {
    return { got: read() };
  } catch (error) {
    return { error };
  }
};

const answerOf = (question, board, row) => {
  if (!board[question]) return undefined;
  const sans = () => Object.fromEntries(Object.keys(row.legal).map((move) => [move, board.san(move)]));
  const { got, error } = tried(() => (question === 'san' ? sans() : board[question]()));
  return error ? String(error) : got;
};

// A game without the tags that say nothing of their own.
const known = (game) => {
  const says = ([name, value]) => !['Result', 'FEN', 'SetUp'].includes(name) && !['?', '????.??.??'].includes(value);
  return game && { ...game, tags: Object.fromEntries(Object.entries(game.tags).filter(says)) };
};

const { values, positionals } = parseArgs({ options: { target: { type: 'string', default: 'always' } }, allowPositionals: true });
const [module, ...paths] = positionals;
if (!module || !TARGETS.includes(values.target)) {
  console.error('run.mjs [--target always|attacked|legal] MY_BOARD.mjs [ROWS ..]');
  process.exit(2);
}
const { Board } = await import(pathToFileURL(resolve(module)));
const files = paths.length ? paths : ['laws', 'texts', 'fens'].map((name) => new URL(`${name}.jsonl`, import.meta.url));
const rows = files.flatMap((path) => readFileSync(path, 'utf8').trimEnd().split('\n').map((line) => JSON.parse(line)));
const asked = {};
let differences = 0;

const differs = (row, what) => {
  differences++;
  console.log(`${row.name}: ${what}`);
};

const compare = (row, question, answer, wanted) => {
  const counts = (asked[question] ??= { rows: 0, answers: 0 });
  counts.rows++;
  if (answer === undefined) return;
  counts.answers++;
  const [got, right] = SETS.includes(question) && Array.isArray(answer) ? [[...answer].sort(), [...wanted].sort()] : [answer, wanted];
  if (!isDeepStrictEqual(got, right)) differs(row, `${question}: ${JSON.stringify(got)} for ${JSON.stringify(right)}`);
};

const after = (board, moves) => {
  for (const move of moves) board.push(move);
  return board;
};

for (const row of rows) {
  const isGame = 'text' in row;
  if (isGame && !Board.game) {
    compare(row, 'game');
    continue;
  }
  const { got, error } = tried(() => (isGame ? known(Board.game(row.text)) : after(new Board(row.fen), row.moves ?? [])));
  const isWrong = !error !== !row.faults;
  if (isWrong) differs(row, error ? `refused: ${error}` : `accepted: ${row.text ?? row.fen}, which is to be refused: ${row.faults.join(' or ')}`);
  else if (error) {
    const { fault, at } = error;
    compare(row, 'fault', typeof fault === 'string' ? fault : undefined, row.faults.includes(fault) ? fault : row.faults);
    if (isGame) compare(row, 'place', typeof at === 'number' ? at : undefined, row.at);
  } else if (isGame) compare(row, 'game', got, row.game);
  else for (const question of QUESTIONS) compare(row, question, answerOf(question, got, row), wantedOf(question, row, values.target));
}
const left = Object.entries(asked).filter(([, { rows: all, answers }]) => answers < all);
for (const [question, { rows: all, answers }] of left) console.log(`not asked: ${question} in ${all - answers} rows`);
console.log(`${rows.length} rows, ${differences} differences`);
process.exitCode = differences ? 1 : 0;
