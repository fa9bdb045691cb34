// Beside the program, byte for byte: what the calls answer, as lines of `chess board`, and games, as `chess pgn` writes them.
import assert from 'node:assert/strict';
import test from 'node:test';
import { Chess, ChessError, games, readGames } from '../src/node.js';
import { chance, chess as program } from './help.js';

const FENS = [
  'r3k2r/p1ppqpb1/bn2pnp1/3PN3/1p2P3/2N2Q1p/PPPBBPPP/R3K2R w KQkq - 0 1',
  '8/2p5/3p4/KP5r/1R3p1k/8/4P1P1/8 w - - 98 1',
  'r3k2r/Pppp1ppp/1b3nbN/nP6/BBP1P3/q4N2/Pp1P2PP/R2Q1RK1 w kq - 0 1',
  '8/8/8/K1pP3r/8/8/8/4k3 w - c6 0 2',
  '4k3/8/8/8/8/8/8/R3K2R w KQ - 149 90',
  '8/8/44/8/8/8/8/8 w - - 0 1',
  '4k3/8/8/8/8/8/8/4RK2 w - - 0 1',
];
const COMMENTS = ['good', 'é 日本 😀', '', 'a  b', 'a } b', 'x'.repeat(200), '( ; $1 "'];
const SQUARES = ['e4', 'a1', 'h8', 'd5'];
const rows = (counts) => [1, 2, 3, 4, 5, 6, 7, 8].map((rank) => [...'abcdefgh'].map((file) => counts[file + rank]).join(' ')).join(' / ');
const list = (found) => found.join(' ') || 'none';
const scored = (found) => (found ? `${found.move.lan} ${Object.entries(found.score)[0].join(' ')}` : 'none');

// What one does: a line of the board, and the call that does the same, with what it answers as the board writes it.
const deeds = (chess, { below, of }) => {
  const legal = chess.moves();
  const lans = chess.lans();
  const move = of([...legal, ...lans, 'e4', 'Nf3', 'O-O', 'e9', 'a8Q', 'exd5', 'h7h8q']);
  const path = of(['0', '0.0', '0.1', '1', '0.0.0.0', 'x', '0.']);
  const fen = of(FENS);
  const note = of(COMMENTS);
  const ok = (does) => () => {
    does();
    return 'ok';
  };
  return [
    [`play ${move}`, ok(() => chess.move(move))],
    [`play ${of(lans.length ? lans : ['a1a1'])}`, null],
    ['back', () => (chess.back() ? 'ok' : 'refused 2 AtRoot')],
    ['step 0', () => (chess.forward() ? 'ok' : 'refused 1 NoSuch')],
    [`step ${below(3)}`, null],
    ['start', ok(() => chess.toStart())],
    ['end', ok(() => chess.toEnd())],
    [`goto ${path}`, ok(() => chess.goto(path))],
    ['promote', ok(() => chess.promoteVariation())],
    ['delete', below(3) ? ok(() => chess.deleteVariation()) : () => (chess.undo() ? 'ok' : 'refused 2 AtRoot')],
    [`comment ${note}`, ok(() => chess.setComment(note))],
    [`nag ${below(300)}`, null],
    ['fen', () => chess.fen()],
    ['moves', () => list(chess.lans())],
    ['checks', () => list(chess.checks())],
    ['status', () => chess.status()],
    ['claims', () => list(chess.claims())],
    [`claim ${move}`, () => list(chess.claims(move))],
    ['count', () => String(chess.repetitions())],
    ['eval', () => String(chess.evaluate())],
    ['counts w', () => rows(chess.counts('w'))],
    ['counts b', () => rows(chess.counts('b'))],
    ['path', () => chess.node().path],
    [`best ${below(3)}`, null],
    ['pgn', () => chess.pgn().slice(0, -1)],
    below(4) ? ['moves', () => list(chess.moves({ verbose: true }).map(({ lan }) => lan))] : [`set ${fen}`, ok(() => chess.load(fen))],
  ];
};

// The calls whose line has the number in it.
const byLine = (chess, text) => {
  const [word, value] = text.split(' ');
  if (word === 'play') return () => (chess.move(value), 'ok');
  if (word === 'step') return () => (chess.forward(Number(value)) ? 'ok' : 'refused 1 NoSuch');
  if (word === 'nag') return () => (chess.addNag(Number(value)), 'ok');
  return () => scored(chess.best(Number(value)));
};

const answered = (action) => {
  try {
    return action();
  } catch (error) {
    if (!(error instanceof ChessError)) throw error;
    return `refused ${error.number} ${error.code}`;
  }
};

test('300 random scripts beside the board', () => {
  // (eight at a time over boards side by side, so that none gets what another was given)
  for (let from = 0; from < 300; from += 8) {
    const scripts = Array.from({ length: Math.min(8, 300 - from) }, (_, i) => ({ chess: new Chess(), by: chance(from + i), lines: ['new'], answers: ['ok'] }));
    for (let step = 0; step < 40; step++) {
      for (const it of scripts) {
        const all = deeds(it.chess, it.by);
        // (half of them moves)
        const [line, action] = it.by.below(2) ? all[it.by.below(2)] : it.by.of(all);
        it.lines.push(line);
        it.answers.push(answered(action ?? byLine(it.chess, line)));
      }
    }
    for (const { lines, answers } of scripts) assert.equal(program('board', `${lines.join('\n')}\n`).output.toString(), `${answers.join('\n')}\n`);
  }
});

// A game by chance: moves, variations, comments, annotations, names and a result.
const game = (seed) => {
  const { below, of } = chance(seed);
  const chess = new Chess(below(4) ? undefined : FENS[below(4)]);
  for (let i = below(60); i > 0; i--) {
    if (!below(5)) for (let back = below(4); back > 0; back--) chess.back();
    const moves = chess.lans();
    if (moves.length) chess.move(of(moves));
    if (!below(6)) chess.setComment(of(COMMENTS.filter((it) => !it.includes('}'))));
    if (!below(6) && !chess.node().isRoot) chess.addNag(below(256));
  }
  if (below(2)) chess.setHeader('White', of(['Jörg "x" \\', '', '日本', 'a'.repeat(90)]));
  chess.setHeader('Result', of(['*', '1-0', '0-1', '1/2-1/2']));
  return chess;
};

// The same game otherwise spelt.
const respelt = (text, { below, of }) => text.split('\n\n').map((part, i) => (i % 2 === 0 && part.startsWith('[') ? part : part.replace(/(\d+)\. /g, (all, number) => (below(3) ? all : `${number}.`)).replace(/ \*$/, of([' *', '\n\n*'])).replace(/\n/g, () => of(['\n', ' ', '\n\t'])))).join('\n\n');

test('100 games beside pgn, whole and piece by piece', async () => {
  const boards = Array.from({ length: 100 }, (_, i) => game(1000 + i));
  const by = chance(7);
  const text = boards.map((it) => respelt(it.pgn(), by)).join(of(by));
  const bytes = new TextEncoder().encode(text);
  const { output, error } = program('pgn', bytes);
  assert.equal(error, '');
  const joined = (found) => Buffer.concat(found.map((it) => it.bytes));
  const found = [...games(bytes)];
  assert.equal(found.length, 100);
  assert.ok(joined(found).equals(output));
  boards.forEach((it, i) => {
    assert.ok(Buffer.from(it.pgnBytes()).equals(Buffer.from(found[i].bytes)));
    const again = new Chess();
    again.loadPgn(found[i].bytes);
    assert.equal(again.pgn(), it.pgn());
  });
  for (const size of [1, 7, 61, 1024, 70000]) {
    const pieces = [];
    for (let at = 0; at < bytes.length; at += size) pieces.push(bytes.subarray(at, at + size));
    const came = [];
    for await (const it of readGames(pieces)) came.push(it);
    assert.ok(joined(came).equals(output), `pieces of ${size}`);
  }
});

const of = ({ below }) => ['\n', ' ', '\n\n\n'][below(3)];

test('texts with a fault: the same place and name as pgn, and reading goes on as with the whole text', async () => {
  const by = chance(11);
  for (let i = 0; i < 150; i++) {
    const text = Array.from({ length: 3 }, (_, k) => game(5000 + 3 * i + k).pgn()).join('\n');
    const at = by.below(text.length);
    const bad = text.slice(0, at) + by.of(['}', '{', '(', ')', '$999', 'Ke9', '[', '"', '~', '1-0', '\n\n', '\u0000']) + text.slice(at + by.below(3));
    const bytes = new TextEncoder().encode(bad);
    const { error } = program('pgn', bytes);
    const faults = [];
    const whole = [...games(bytes, { onFault: (it) => faults.push(it) })];
    if (error) assert.equal(`fault ${faults[0].place.byte} ${faults[0].number} ${faults[0].code}\n`, error);
    else assert.equal(faults.length, 0);
    for (const size of [3, 50]) {
      const pieces = [];
      for (let from = 0; from < bytes.length; from += size) pieces.push(bytes.subarray(from, from + size));
      const told = [];
      const came = [];
      for await (const it of readGames(pieces, { onFault: (fault) => told.push(fault) })) came.push(it);
      assert.deepEqual(told.map((it) => [it.message, it.index, it.place]), faults.map((it) => [it.message, it.index, it.place]), JSON.stringify(bad));
      assert.deepEqual(came.map((it) => [it.pgn(), it.index, it.place, it.length]), whole.map((it) => [it.pgn(), it.index, it.place, it.length]));
    }
  }
});

test('many boards in one module keep their games', () => {
  const boards = Array.from({ length: 700 }, (_, i) => ({ chess: new Chess(), by: chance(i), moves: [] }));
  for (let step = 0; step < 12; step++) {
    for (const it of boards) {
      const lans = it.chess.lans();
      if (lans.length === 0) continue;
      const lan = it.by.of(lans);
      it.moves.push(lan);
      it.chess.move(lan);
      if (step === 3) it.chess.setComment(`é ${it.moves.length}`);
      if (step === 5) it.chess.setHeader('White', String(it.moves.length));
      if (step === 8) it.chess.back();
      if (step === 8) it.moves.pop();
    }
  }
  for (const { chess, moves } of boards) {
    assert.deepEqual(chess.history({ verbose: true }).map(({ lan }) => lan), moves);
    assert.equal(chess.root().line().length, 0);
    assert.ok(chess.pgn().includes('é 4') && chess.getHeaders().White === '6');
  }
});

test('a board grows past what it was lent, and can be nested deeper than a text', () => {
  const long = new Chess();
  const knights = ['g1f3', 'g8f6', 'f3g1', 'f6g8'];
  for (let i = 0; i < 9000; i++) assert.equal(long.line(`play ${knights[i % 4]}`), 'ok');
  assert.equal(long.history().length, 9000);
  assert.deepEqual(long.history({ verbose: true }).map(({ lan }) => lan), Array.from({ length: 9000 }, (_, i) => knights[i % 4]));
  assert.equal(long.undo().lan, 'f6g8');
  const bushy = new Chess();
  for (let i = 0; i < 6000; i++) {
    const lans = bushy.lans();
    bushy.move(lans[(7 * i) % lans.length]);
    bushy.setComment(`é ${i}`);
    if (i % 3) bushy.back();
    if (bushy.status() !== 'play' || i % 40 === 0) bushy.toStart();
  }
  assert.equal(bushy.clone().pgn(), bushy.pgn());
  const wide = new Chess();
  for (const san of wide.moves()) {
    wide.move(san);
    wide.setComment(san.repeat(20000));
    wide.back();
  }
  assert.ok(wide.root().children.every((it) => it.comment === it.san.repeat(20000)));
  assert.equal(wide.clone().pgn(), wide.pgn());
  wide.setHeader('Event', 'x'.repeat(500000));
  assert.equal(wide.getHeaders().Event.length, 500000);
  const often = new Chess();
  for (let i = 0; i < 3000; i++) {
    often.move('e4');
    often.undo();
  }
  assert.deepEqual(often.history(), []);
  const deep = new Chess();
  for (let i = 0; i < 140; i++) {
    const [first, second] = deep.lans();
    deep.line(`play ${first}`);
    deep.back();
    deep.line(`play ${second}`);
  }
  const path = deep.node().path;
  const others = Array.from({ length: 300 }, () => new Chess());
  for (const it of others) it.move('e4');
  assert.equal(deep.node().path, path);
  assert.equal(others[0].history()[0], 'e4');
});

test('attackers are as many as the module counts, and those of a king are its checks', () => {
  for (let i = 0; i < 40; i++) {
    const chess = game(9000 + i);
    for (const color of ['w', 'b']) {
      const counts = chess.counts(color);
      for (const square of [...SQUARES, ...chess.findPiece({ type: 'k', color: color === 'w' ? 'b' : 'w' })]) assert.equal(chess.attackers(square, color).length, counts[square]);
    }
    const other = chess.turn() === 'w' ? 'b' : 'w';
    const [king] = chess.findPiece({ type: 'k', color: chess.turn() });
    assert.deepEqual(chess.attackers(king, other), chess.checks());
  }
});
