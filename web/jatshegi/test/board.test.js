// Each call once as it is meant, and wrong arguments, after which nothing has changed.
import assert from 'node:assert/strict';
import test from 'node:test';
import { runInNewContext } from 'node:vm';
import * as all from '../src/node.js';
import { Chess, ChessError, DEFAULT_POSITION, Move, Node, games, readGames, validateFen } from '../src/node.js';
import { theMemory } from '../src/boards.js';
import { toBytes } from '../src/bytes.js';
import { entries, listed } from '../src/games.js';
import { Session } from '../src/memory.js';
import { refuses } from './help.js';

const SICILIAN = '[White "Jörg"]\n\n1.e4 e5 (1...c5 2.Nf3 {open  Sicilian 日本} $1) 2.Nf3 *';
const played = (...sans) => {
  const chess = new Chess();
  for (const san of sans) chess.move(san);
  return chess;
};

test('positions', () => {
  const chess = new Chess();
  assert.equal(chess.fen(), DEFAULT_POSITION);
  assert.equal(chess.turn(), 'w');
  assert.equal(chess.moveNumber(), 1);
  assert.deepEqual(chess.get('e1'), { type: 'k', color: 'w' });
  assert.equal(chess.get('e4'), undefined);
  assert.deepEqual(chess.board()[0][3], { square: 'd8', type: 'q', color: 'b' });
  assert.equal(chess.board()[4][4], null);
  assert.match(chess.ascii(), /^ {3}\+-{24}\+\n 8 \| r {2}n .*\n(.*\n){7} {3}\+-{24}\+\n {5}a {2}b/);
  assert.deepEqual(chess.findPiece({ type: 'n', color: 'b' }), ['b8', 'g8']);
  assert.deepEqual(['a1', 'b1', 'a2', 'h8', 'h1'].map((it) => chess.squareColor(it)), ['dark', 'light', 'light', 'dark', 'light']);
  assert.deepEqual(chess.getCastlingRights('b'), { k: true, q: true });
  chess.load('4k3/8/8/8/8/8/8/R3K3 w Q - 5 9');
  assert.equal(chess.fen(), '4k3/8/8/8/8/8/8/R3K3 w Q - 5 9');
  chess.reset();
  assert.equal(chess.fen(), DEFAULT_POSITION);
  assert.deepEqual(validateFen(DEFAULT_POSITION), { ok: true });
  assert.equal(validateFen('8/8/8/8/8/8/8/8 w - - 0 1').code, 'Kings');
});

test('a FEN that is none changes nothing', () => {
  const chess = played('e4');
  refuses('Placement', () => chess.load('8/8/44/8/8/8/8/8 w - - 0 1'));
  refuses('InCheck', () => chess.load('4k3/8/8/8/8/8/8/4RK2 w - - 0 1'));
  refuses('Fields', () => new Chess(''));
  refuses('Option', () => new Chess(undefined, { validation: true }));
  assert.throws(() => chess.load(null), TypeError);
  assert.throws(() => validateFen(5), TypeError);
  assert.deepEqual(chess.history(), ['e4']);
});

test('moves', () => {
  const chess = new Chess();
  assert.equal(chess.moves().length, 20);
  assert.deepEqual(chess.moves({ square: 'g1' }), ['Nf3', 'Nh3']);
  assert.deepEqual(chess.moves({ piece: 'n' }).sort(), ['Na3', 'Nc3', 'Nf3', 'Nh3']);
  assert.deepEqual(chess.lans().slice(0, 3), ['b1a3', 'b1c3', 'g1f3']);
  const [move] = chess.moves({ square: 'e2', verbose: true }).filter((it) => it.to === 'e4');
  assert.ok(move instanceof Move);
  assert.deepEqual({ ...move }, {
    color: 'w', from: 'e2', to: 'e4', piece: 'p', flags: 'b', san: 'e4', lan: 'e2e4', before: DEFAULT_POSITION,
    after: 'rnbqkbnr/pppppppp/8/8/4P3/8/PPPP1PPP/RNBQKBNR b KQkq e3 0 1',
  });
  assert.ok(move.isBigPawn() && !move.isCapture() && !move.isPromotion() && String(move) === 'e4');
  assert.equal(chess.move(move).san, 'e4');
  assert.equal(chess.move({ from: 'c7', to: 'c5' }).san, 'c5');
  assert.equal(chess.move('g1f3').san, 'Nf3');
  assert.ok(chess.isLegal('d6') && !chess.isLegal('Ke4') && !chess.isLegal('x') && !chess.isLegal({ from: 'x', to: 'y' }));
  assert.equal(chess.undo().lan, 'g1f3');
  assert.deepEqual(chess.history(), ['e4', 'c5']);
  assert.deepEqual(chess.history({ verbose: true }).map((it) => it.lan), ['e2e4', 'c7c5']);
  assert.equal(new Chess().undo(), null);
  assert.deepEqual(new Chess('7k/5Q2/6K1/8/8/8/8/8 b - - 0 1').moves(), []);
});

test('what kind of move it is', () => {
  const flags = (fen, move) => new Chess(fen).move(move).flags;
  assert.equal(flags('r3k2r/8/8/8/8/8/8/R3K2R w KQkq - 0 1', 'O-O'), 'k');
  assert.equal(flags('r3k2r/8/8/8/8/8/8/R3K2R w KQkq - 0 1', 'e1c1'), 'q');
  assert.equal(flags('1r2k3/P7/8/8/8/8/8/4K3 w - - 0 1', 'axb8=N'), 'cp');
  assert.equal(flags('1r2k3/P7/8/8/8/8/8/4K3 w - - 0 1', 'a8=Q'), 'np');
  const taken = new Chess('4k3/8/8/3pP3/8/8/8/4K3 w - d6 0 2').move('exd6');
  assert.deepEqual([taken.flags, taken.captured, taken.isEnPassant()], ['e', 'p', true]);
});

test('a move that is none changes nothing', () => {
  const chess = new Chess('4k3/8/8/8/8/2N5/8/4K1N1 w - - 0 1');
  refuses('Ambiguous', () => chess.move('Ne2'));
  refuses('Illegal', () => chess.move('Ke3'));
  for (const text of ['', ' ', 'e9', 'Nge2 e4', 'e\n']) refuses('Form', () => chess.move(text));
  refuses('NullMove', () => chess.move(null));
  refuses('Text', () => chess.move('\ud800'));
  refuses('Square', () => chess.move({ from: 'e1', to: 'e' }));
  refuses('Illegal', () => new Chess('4k3/P7/8/8/8/8/8/4K3 w - - 0 1').move({ from: 'a7', to: 'a8' }));
  for (const it of [undefined, 5]) assert.throws(() => chess.move(it), TypeError);
  refuses('Square', () => chess.moves({ square: 'i1' }));
  refuses('Square', () => chess.get('e0'));
  refuses('Square', () => chess.squareColor());
  refuses('Color', () => chess.counts('white'));
  refuses('Color', () => chess.isAttacked('e4'));
  refuses('Option', () => chess.pgn({ width: 5 }));
  assert.equal(chess.history().length, 0);
});

test('how the game stands', () => {
  const mate = played('f3', 'e5', 'g4', 'Qh4#');
  assert.ok(mate.isCheckmate() && mate.isCheck() && mate.inCheck() && mate.isGameOver() && !mate.isDraw());
  assert.deepEqual(mate.checks(), ['h4']);
  assert.equal(mate.status(), 'mate');
  const stale = new Chess('7k/5Q2/6K1/8/8/8/8/8 b - - 0 1');
  assert.ok(stale.isStalemate() && stale.isDraw() && stale.isGameOver() && !stale.isCheck());
  const dead = new Chess('4k3/8/8/8/8/8/8/4KB2 w - - 0 1');
  assert.ok(dead.isInsufficientMaterial() && dead.isDraw() && dead.isGameOver());
  const knights = played('Nf3', 'Nf6', 'Ng1', 'Ng8', 'Nf3', 'Nf6', 'Ng1');
  assert.deepEqual([knights.claims(), knights.claims('Ng8'), knights.repetitions()], [[], ['threefold'], 2]);
  knights.move('Ng8');
  assert.ok(knights.isThreefoldRepetition() && knights.isDraw() && knights.isGameOver() && knights.status() === 'play');
  assert.ok(new Chess('4k3/8/8/8/8/8/8/R3K3 w - - 100 80').isDrawByFiftyMoves());
});

test('attacks', () => {
  const chess = played('e4', 'e5', 'Nf3', 'Nc6');
  assert.deepEqual(chess.attackers('e5'), ['f3']);
  assert.deepEqual(chess.attackers('e5', 'b'), ['c6']);
  assert.deepEqual(chess.attackers('e2'), ['d1', 'e1', 'f1']);
  assert.ok(chess.isAttacked('e5', 'w') && !chess.isAttacked('a8', 'w'));
  assert.equal(chess.counts('w').e2, 3);
  assert.equal(typeof chess.evaluate(), 'number');
});

test('men are placed', () => {
  const chess = played('e4');
  chess.clear();
  assert.equal(chess.fen(), '8/8/8/8/8/8/8/8 w - - 0 1');
  refuses('Kings', () => chess.moves());
  refuses('Kings', () => chess.pgn());
  chess.put({ type: 'k', color: 'w' }, 'e1');
  assert.deepEqual(chess.get('e1'), { type: 'k', color: 'w' });
  chess.put({ type: 'K', color: 'b' }, 'e8');
  chess.put({ type: 'r', color: 'w' }, 'h1');
  assert.equal(chess.setCastlingRights('w', { k: true, q: true }), false);
  assert.deepEqual(chess.getCastlingRights('w'), { k: true, q: false });
  assert.ok(chess.moves().includes('O-O'));
  assert.deepEqual([chess.setTurn('b'), chess.setTurn('b'), chess.turn()], [true, false, 'b']);
  assert.deepEqual([chess.remove('h1'), chess.remove('h1')], [{ type: 'r', color: 'w' }, undefined]);
  refuses('Piece', () => chess.put({ type: 'x', color: 'w' }, 'h1'));
  refuses('Square', () => chess.put({ type: 'q', color: 'w' }, 'h9'));
  refuses('Color', () => chess.setTurn('x'));
  assert.equal(chess.fen(), '4k3/8/8/8/8/8/8/4K3 b - - 0 1');
});

test('the tree', () => {
  const chess = played('e4', 'e5');
  assert.ok(chess.back() && chess.node().path === '0');
  chess.move('c5');
  assert.equal(chess.node().path, '0.1');
  chess.addNag(1);
  chess.setComment(' open\n game ');
  assert.deepEqual([chess.getNags(), chess.getComment()], [[1], 'open game']);
  chess.clearNags();
  assert.deepEqual([chess.getNags(), chess.getComment()], [[], 'open game']);
  chess.addNag(1);
  chess.promoteVariation();
  assert.deepEqual(chess.root().mainline().map(({ san }) => san), ['e4', 'c5']);
  const [e4] = chess.root().children;
  assert.deepEqual(e4.children.map(({ san }) => san), ['c5', 'e5']);
  assert.ok(e4 instanceof Node && e4.parent.isRoot);
  assert.deepEqual([...chess.root()].map(({ path }) => path), ['0', '0.0', '0.1']);
  chess.goto(e4.children[1]);
  assert.deepEqual(chess.history(), ['e4', 'e5']);
  assert.equal(chess.fenAt(e4), 'rnbqkbnr/pppppppp/8/8/4P3/8/PPPP1PPP/RNBQKBNR b KQkq e3 0 1');
  chess.deleteVariation();
  refuses('NoSuch', () => chess.goto(e4.children[1]));
  refuses('NoSuch', () => chess.goto('0.1'));
  refuses('Argument', () => chess.goto('x'));
  assert.deepEqual([chess.forward(), chess.forward(), chess.forward(1)], [true, false, false]);
  chess.toStart();
  assert.equal(chess.back(), false);
  refuses('AtRoot', () => chess.addNag(1));
  refuses('AtRoot', () => chess.clearNags());
  refuses('AtRoot', () => chess.promoteVariation());
  refuses('AtRoot', () => chess.deleteVariation());
  refuses('BadComment', () => chess.setComment('a } b'));
  refuses('Text', () => chess.setComment('\udc00'));
  chess.setComment('the start');
  chess.toEnd();
  assert.deepEqual(chess.getComments().map((it) => it.comment), ['the start', 'open game']);
  assert.equal(chess.removeComment(), 'open game');
  assert.equal(chess.getComment(), undefined);
  assert.deepEqual(chess.removeComments().map((it) => it.comment), ['the start']);
  chess.clearNags();
  assert.deepEqual(chess.getComments(), []);
  refuses('Argument', () => chess.addNag(256));
});

test('games as texts', () => {
  const chess = new Chess();
  chess.loadPgn(SICILIAN);
  assert.deepEqual(chess.history(), ['e4', 'e5', 'Nf3']);
  assert.equal(chess.root().children[0].children[1].children[0].comment, 'open Sicilian 日本');
  assert.match(chess.pgn(), /\n1\. e4 e5 \(1\.\.\. c5 2\. Nf3 \$1 \{open Sicilian 日本\}\) 2\. Nf3 \*\n/);
  assert.ok(chess.pgn({ newline: '\r\n' }).includes('[White "Jörg"]\r\n'));
  assert.equal(chess.clone().pgn(), chess.pgn());
  const before = chess.pgn();
  refuses('NoGame', () => chess.loadPgn(' \n'));
  refuses('Many', () => chess.loadPgn('1. e4 * 1. d4 *'));
  refuses('Truncated', () => chess.loadPgn('1. e4 {'));
  refuses('Option', () => chess.loadPgn('*', { newline: 'x' }));
  assert.throws(() => chess.loadPgn('{é}\n1. e4 e5 2. Ke3 *'), (error) => {
    assert.deepEqual([error.code, error.number, error.place], ['Move', 3, { byte: 17, line: 2, column: 13 }]);
    return true;
  });
  assert.equal(chess.pgn(), before);
  assert.deepEqual(chess.history(), ['e4', 'e5', 'Nf3']);
  chess.loadPgn(Uint8Array.of(...[...'{'].map((c) => c.charCodeAt(0)), 0xe9, ...[...'} *'].map((c) => c.charCodeAt(0))));
  assert.equal(chess.getComment(), 'é');
});

test('headers', () => {
  const chess = new Chess();
  assert.equal(chess.setHeader('White', 'a "b" \\c').White, 'a "b" \\c');
  assert.equal(chess.header('Black', '日本', 'Result', '1-0').Result, '1-0');
  assert.match(chess.pgn(), /\[White "a \\"b\\" \\\\c"\]/);
  assert.deepEqual([chess.removeHeader('Black'), chess.removeHeader('Black'), chess.getHeaders().Black], [true, false, '?']);
  refuses('Result', () => chess.setHeader('Result', '2-0'));
  refuses('OwnTag', () => chess.setHeader('FEN', DEFAULT_POSITION));
  refuses('TagName', () => chess.setHeader('a b', 'c'));
  refuses('TagValue', () => chess.setHeader('Event', 'a\nb'));
  refuses('Argument', () => chess.header('Event'));
  assert.throws(() => chess.setHeader('Event', 5), TypeError);
  assert.equal(chess.setHeader('__proto__', 'x').Event, '?');
  chess.load('4k3/8/8/8/8/8/8/R3K3 w Q - 5 9', { preserveHeaders: true });
  assert.equal(chess.getHeaders().White, 'a "b" \\c');
  assert.equal(chess.getHeaders().FEN, '4k3/8/8/8/8/8/8/R3K3 w Q - 5 9');
  chess.load(DEFAULT_POSITION);
  assert.equal(chess.getHeaders().White, '?');
});

test('the search', async () => {
  const chess = new Chess('6k1/5ppp/8/8/8/8/8/R5K1 w - - 0 1');
  const found = chess.best(2);
  assert.deepEqual([found.move.san, found.score], ['Ra8#', { mate: 1 }]);
  assert.equal(played('f3', 'e5', 'g4', 'Qh4#').best(1), null);
  for (const depth of [0, 17, 1.5, '2 3', undefined]) refuses('Argument', () => chess.best(depth));
  const depths = [];
  for await (const it of new Chess().search(3)) depths.push([it.depth, it.move.lan, it.score]);
  assert.deepEqual(depths.map(([depth]) => depth), [1, 2, 3]);
  assert.deepEqual(depths[1], [2, 'b1c3', { cp: 0 }]);
  const ends = new AbortController();
  for await (const it of new Chess().search(16, { signal: ends.signal })) if (it.depth === 2) ends.abort();
  await assert.rejects(async () => { for await (const it of new Chess().search(0)) assert.fail(it); }, ChessError);
});

test('games of a text', () => {
  const faults = [];
  const text = `${SICILIAN}\n\n[White "bad"]\n\n1. e5 *\n\n[White "é"]\n\n1. f3 e5 2. g4 Qh4# 1-0`;
  const found = [...games(text, { onFault: (it) => faults.push(it) })];
  assert.deepEqual(found.map((it) => [it.index, it.getHeaders().White, it.moves().join(' ')]), [[0, 'Jörg', 'e4 e5 Nf3'], [2, 'é', 'f3 e5 g4 Qh4#']]);
  assert.deepEqual(faults.map((it) => [it.code, it.index, it.place.line, it.place.column]), [['Move', 1, 7, 4]]);
  const report = found[1].report();
  assert.deepEqual([report.plies, report.status, report.winner, report.over, report.why, report.result, report.agrees, report.threefold], [4, 'mate', 'b', 4, 'mate', '1-0', false, null]);
  refuses('Move', () => [...games(text)]);
  assert.throws(() => [...games(5)], TypeError);
  assert.deepEqual([...games(' \n')], []);
});

test('games of a list', () => {
  const heads = [
    '', ' \n% [Event "x"]\n', '[White "a"]\n\n', '{c} [White "a"]\r\n\r\n', '[White "a"]\n\n[Black "b"]\n\n', '[White "a\\"]\\\\"] [Black "é"]\n{[Event "x"]\n\n}\n[Event "e"]\n\n',
    '[FEN "4k3/4p3/8/8/8/8/4P3/R3K3 w Q - 0 1"]\n[Result "0-1"]\n\n',
  ];
  const tails = ['*', '1-0', 'e4', '1.e4 e5', '1. e4 {[Round "c"]\n\n} e5 (1... e6) 1/2-1/2', '{x} 1. e4 0-1', '\n{1. e4}', '; [Round "d"]\n 1. e5', '1. e4 $1 (1. e3) (', '1. f3 e5 2. g4 Qh4# 1-0'];
  const text = heads.flatMap((head) => tails.map((tail) => `${head}${tail}\n\n[Site "s"] *\n`)).join('');
  const told = (found, shows) => [...found].map(({ game, fault }) => (game ? [game.index, game.place, game.length, ...shows(game)] : [fault.index, fault.code, fault.from, fault.place]));
  const wanted = told(entries(text), (it) => [it.tags(), it.report()]);
  assert.ok(wanted.length > heads.length * tails.length);
  assert.deepEqual(told(listed(text), (it) => [it.tags, it.report]), wanted);
  for (const end of ['\x1a', '\r\n\0\x1a\0', '\0'.repeat(1_048_576)]) assert.deepEqual([...listed(`1. e4 *${end}`)].map(({ game }) => game?.length), [7]);
  assert.deepEqual([...listed('e5 *\x1a')].map(({ fault }) => fault?.code), ['Move']);
  assert.deepEqual([...listed('*\x1a!')].map(({ game, fault }) => game?.length ?? fault.code), [1, 'Token']);
});

test('games that are saved', async () => {
  const saved = [];
  const text = '1. e4 *\n\n[White "é"]\n\n1. e2-e4 e5 2. OO Nc6 *\n\n[FEN "8/8"]\n\n*';
  const faults = [];
  const options = { onFault: (it) => faults.push(it.code), onRepair: (repairs, game) => saved.push([game.index, repairs]) };
  assert.deepEqual([...games(text, options)].map((it) => it.moves().join(' ')), ['e4', 'e4 e5']);
  assert.deepEqual(faults, ['Fen']);
  const begin = Buffer.from(text.split('[White')[0]).length;
  const places = ['e2-e4', 'OO', 'OO'].map((it) => Buffer.from(text.slice(0, text.indexOf(it))).length);
  assert.deepEqual(saved.map(([index, all]) => [index, all.map(({ name, place }) => [name, place])]), [[1, [['Hyphen', places[0]], ['Castling', places[1]], ['Illegal', places[2]]]]]);
  assert.deepEqual([saved[0][1][0].length, saved[0][1][0].written, begin > 0], [5, 6, true]);
  const came = [];
  for await (const it of readGames(text.split(''), options)) came.push(it.moves().length);
  assert.deepEqual([came, faults, saved[1]], [[1, 2], ['Fen', 'Fen'], saved[0]]);
  assert.throws(() => [...games(text)], ChessError);
  for (const end of ['\x1a', '\r\n\0\x1a\0', '\0'.repeat(1_048_576)]) {
    const found = [];
    for await (const it of readGames([`1. e4 *${end}`], options)) found.push(it.moves().length);
    assert.deepEqual([[...games(`1. e4 *${end}`, options)].length, found, [...games(end, options)], faults.length, saved.length], [1, [1], [], 2, 2]);
  }
  assert.throws(() => [...games('1. e4 *\x1a')], ChessError);
});

test('games of a stream', async () => {
  const text = `${SICILIAN}\n\n[White "😀"]\n\n1. d4 *\n`;
  const bytes = new TextEncoder().encode(text);
  const wanted = [...games(text)].map((it) => it.pgn());
  const sources = [text, bytes, bytes.buffer, Buffer.from(text), new DataView(bytes.buffer), runInNewContext('Uint8Array').from(bytes), [...text].map(String), text.split(''), [bytes.subarray(0, 30), bytes.subarray(30)], new Blob([bytes]), new Response(bytes), new Blob([bytes]).stream()];
  for (const source of sources) {
    const found = [];
    for await (const it of readGames(source)) found.push(it.pgn());
    assert.deepEqual(found, wanted);
  }
  await assert.rejects(async () => { for await (const it of readGames(5)) assert.fail(it); }, TypeError);
  await assert.rejects(async () => { for await (const it of readGames('1. e5 *')) assert.fail(it); }, ChessError);
});

test('lines of the board', () => {
  const chess = new Chess();
  assert.deepEqual(['play e4', 'play e4', 'path', 'x', ''].map((it) => chess.line(it)), ['ok', 'refused 2 Illegal', '0', 'refused 6 Command', '']);
  refuses('Text', () => chess.line('new\nnew'));
  assert.deepEqual(chess.history(), ['e4']);
});

test('whatever is passed, a call answers, or is refused by an error of its own and changes nothing', () => {
  const words = [undefined, null, NaN, -1, 1e9, 0.5, true, {}, [], () => {}, Symbol('x'), 77n, '', ' ', '\0', '\n', '\r', 'x', 'e4', '-', '0', '0.0', '\ud800', '}', 'é', 'y'.repeat(1e5), { from: 'e2' }, { type: 'q', color: 'w' }, { type: 'k' }, new Uint8Array(3), new Date(0)];
  const names = Object.getOwnPropertyNames(Chess.prototype).filter((it) => !['constructor', 'search'].includes(it));
  for (const name of names) {
    for (const first of words) {
      for (const second of [undefined, null, 'w', 'e4', words[13], { preserveHeaders: true }, { verbose: true }, 5]) {
        const chess = played('e4', 'c5');
        chess.setHeader('White', 'a');
        const before = [chess.pgn(), chess.node().path];
        try {
          chess[name](first, second);
          continue;
        } catch (error) {
          assert.ok((error instanceof ChessError && error.code !== 'Memory') || error instanceof TypeError, `${name}: ${error.stack}`);
        }
        assert.deepEqual([chess.pgn(), chess.node().path], before, name);
      }
    }
  }
});

test('a board that begins anew has all its memory again', () => {
  const session = new Session(theMemory(), 256 << 10);
  const game = toBytes(`1. e4 e5 (1... c5 {${'open '.repeat(200)}}) 2. Nf3 *`);
  for (let i = 0; i < 5000; i++) {
    assert.equal(session.load(game).status, 0);
    if (i % 100 === 0) assert.deepEqual(session.engine('line', 'isready'), ['readyok']);
    session.begin();
  }
  assert.equal(session.fen(), DEFAULT_POSITION);
  assert.equal(session.moves().length, 20);
  assert.match(session.pgn(), /\n\n\*\n\n$/);
});

test('a board is used through a proxy, and by a copy of its object', () => {
  const deep = (it) => new Proxy(it, { get: (target, name, self) => {
    const found = Reflect.get(target, name, self);
    // (as such frameworks do: of objects, lists and maps)
    return ['Object', 'Array', 'Map'].includes(Object.prototype.toString.call(found).slice(8, -1)) && typeof found === 'object' ? deep(found) : found;
  } });
  const chess = new Chess();
  const proxy = deep(chess);
  proxy.move('e4');
  proxy.move('e5');
  assert.equal(proxy.fen(), chess.fen());
  proxy.goto(proxy.root().children[0]);
  assert.deepEqual([proxy.turn(), proxy.get('e4'), proxy.history(), proxy.undo().san], ['b', { type: 'p', color: 'w' }, ['e4'], 'e4']);
  proxy.clear();
  refuses('Kings', () => proxy.moves());
  proxy.loadPgn('1. d4 d5 *');
  const copy = Object.assign(Object.create(Object.getPrototypeOf(proxy)), proxy);
  assert.equal(copy.pgn(), proxy.pgn());
  const [game] = games('1. e4 *');
  assert.deepEqual(deep(game).moves(), ['e4']);
});

test('a board that begins from a FEN is the board that a line begins', () => {
  const fens = [
    DEFAULT_POSITION, '4k3/8/8/8/8/8/8/R3K3 w Q - 5 9', '4k3/8/8/8/8/8/8/4K3 w KQ - 03 0', '4k3/8/8/8/8/8/8/4K3  b -  -', 'r3k2r/p1ppqpb1/bn2pnp1/3PN3/1p2P3/2N2Q1p/PPPBBPPP/R3K2R w KQkq - 99999 99999',
    '8/8/8/K1pP3r/8/8/8/4k3 w - c6 0 2', 'rnbqkbnr/pppppppp/8/8/8/8/PPPPPPPP/RNBQKBNR b KQkq - 0 1', '7k/5Q2/6K1/8/8/8/8/8 b - - 0 1',
  ];
  for (const fen of fens) {
    const wanted = new Chess();
    wanted.line(`set ${fen}`);
    const used = played('e4', 'e5');
    used.setHeader('White', 'a');
    used.load(fen);
    for (const chess of [new Chess(fen), used]) {
      const told = (it) => [it.fen(), it.pgn(), it.history(), it.checks(), it.isCheck(), it.status(), it.root().children.length, it.getHeaders(), it.clone().pgn()];
      assert.deepEqual(told(chess), told(wanted), fen);
      const [first] = chess.lans();
      if (first) assert.deepEqual([chess.move(first).after, chess.undo().lan, chess.fen()], [wanted.move(first).after, first, (wanted.undo(), wanted.fen())]);
    }
  }
  // (more than have memory of their own, each used once they are all there)
  const many = Array.from({ length: 400 }, (_, i) => new Chess(`4k3/8/8/8/8/8/8/R3K3 w Q - ${i % 100} ${i + 1}`));
  many.forEach((it, i) => assert.deepEqual([it.fen(), it.move('Ra8+').after], [`4k3/8/8/8/8/8/8/R3K3 w Q - ${i % 100} ${i + 1}`, `R3k3/8/8/8/8/8/8/4K3 b - - ${(i % 100) + 1} ${i + 1}`]));
  // (a refused one leaves the game, also where none is there yet)
  const chess = played('e4');
  for (const fen of ['8/8/8/8/8/8/8/8 w - - 0 1', 'x x x x 0 1', '4k3/8/8/8/8/8/8/4RK2 w - - 0 1', `${DEFAULT_POSITION}00000`, '4k3/8/8/8/8/8/8/4K3 w - - 0 1 x']) {
    assert.throws(() => chess.load(fen), ChessError);
    assert.throws(() => new Chess(fen), ChessError);
  }
  assert.deepEqual(chess.history(), ['e4']);
  // (what is answered isn't what is known)
  const check = new Chess('R3k3/8/8/8/8/8/8/4K3 b - - 0 1');
  check.checks().length = 0;
  assert.deepEqual(check.checks(), ['a8']);
});

test('what is known of a position goes with it', () => {
  const chess = new Chess();
  const seen = () => [chess.isCheck(), chess.fen(), chess.turn(), chess.moveNumber(), chess.get('e2'), chess.get('e4'), chess.getCastlingRights('w').k];
  const fresh = () => {
    const other = new Chess(chess.fen());
    return [other.isCheck(), other.fen(), other.turn(), other.moveNumber(), other.get('e2'), other.get('e4'), other.getCastlingRights('w').k];
  };
  const steps = [
    () => chess.move('e4'), () => chess.move('e5'), () => chess.back(), () => chess.toStart(), () => chess.forward(), () => chess.toEnd(), () => chess.goto('0'), () => chess.undo(), () => chess.line('play d4'),
    () => chess.line('back'), () => chess.line(' set 4k3/8/8/8/8/8/4P3/4K3 w - - 0 9'), () => chess.put({ type: 'q', color: 'w' }, 'b3'), () => chess.setTurn('b'), () => chess.load('4k3/8/8/8/4p3/8/8/4K2R w K - 0 1'),
    () => chess.fenAt('-'), () => chess.loadPgn('1. e4 *'), () => chess.reset(), () => chess.clear() ?? chess.reset(),
  ];
  for (const step of steps) {
    step();
    assert.deepEqual(seen(), fresh(), String(step));
  }
  // (what is answered isn't what is known)
  chess.get('e2').type = 'q';
  chess.board()[6][4].color = 'b';
  assert.deepEqual(chess.get('e2'), { type: 'p', color: 'w' });
});

test('each exported name is one of the types', async () => {
  const { readFile } = await import('node:fs/promises');
  const types = await readFile(new URL('../core.d.ts', import.meta.url), 'utf-8');
  const names = [...types.matchAll(/^export (?:declare )?(?:class|function|const) (\w+)/gm)].map(([, name]) => name);
  assert.deepEqual(names.sort(), Object.keys(all).sort());
  for (const [name, declared] of [['Chess', Chess], ['Node', Node], ['Game', all.Game], ['Move', Move]]) {
    const body = new RegExp(`class ${name} \\{\\n([\\s\\S]*?)\\n\\}`).exec(types)[1];
    const own = Object.getOwnPropertyNames(declared.prototype).filter((it) => it !== 'constructor' && it !== 'toJSON' && !it.startsWith('_'));
    const said = new Set([...body.matchAll(/^ {2}(?:readonly )?(\w+)\??[(:<]/gm)].map(([, it]) => it));
    assert.deepEqual(own.filter((it) => !said.has(it)), [], name);
  }
});
