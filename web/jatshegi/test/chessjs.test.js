// Where a call of chess.js's name does something else: a test for each row of the table of docs/JAVASCRIPT.md, by its first cell.
import assert from 'node:assert/strict';
import { existsSync, readFileSync } from 'node:fs';
import test from 'node:test';
import * as all from '../src/node.js';
import { Chess, ChessError, DEFAULT_POSITION, Move, SUFFIX_LIST, validateFen } from '../src/node.js';
import { refuses } from './help.js';

const played = (...sans) => {
  const chess = new Chess();
  for (const san of sans) chess.move(san);
  return chess;
};

const KINGS = '4k3/8/8/8/8/8/8/4K3';

const ROWS = {
  'turn, moveNumber, board, ascii, get, findPiece, history, getCastlingRights, setCastlingRights, attackers, isAttacked': () => {
    const chess = played('e4', 'e5', 'Nf3');
    assert.deepEqual([chess.turn(), chess.moveNumber(), chess.board()[4][4], chess.get('f3'), chess.get('g1')], ['b', 2, { square: 'e4', type: 'p', color: 'w' }, { type: 'n', color: 'w' }, undefined]);
    assert.equal(chess.ascii().split('\n')[3], ' 6 | .  .  .  .  .  .  .  . |');
    assert.deepEqual([chess.findPiece({ type: 'k', color: 'b' }), chess.history(), chess.history({ verbose: true })[2].lan], [['e8'], ['e4', 'e5', 'Nf3'], 'g1f3']);
    assert.deepEqual([chess.getCastlingRights('w'), chess.attackers('e5', 'w'), chess.isAttacked('e5', 'b')], [{ k: true, q: true }, ['f3'], false]);
    const other = new Chess('4k3/8/8/8/8/8/8/4K2R w - - 0 1');
    assert.deepEqual([other.setCastlingRights('w', { k: true }), other.setCastlingRights('b', { k: true }), other.moves().includes('O-O')], [true, false, true]);
  },
  'isCheck, inCheck, isCheckmate, isStalemate, isThreefoldRepetition, isDrawByFiftyMoves': () => {
    const mate = played('f3', 'e5', 'g4', 'Qh4#');
    assert.deepEqual([mate.isCheck(), mate.inCheck(), mate.isCheckmate(), mate.isStalemate()], [true, true, true, false]);
    assert.ok(new Chess('7k/5Q2/6K1/8/8/8/8/8 b - - 0 1').isStalemate());
    assert.ok(new Chess('4k3/8/8/8/8/8/8/R3K3 w - - 100 90').isDrawByFiftyMoves());
    const knights = ['Nf3', 'Nf6', 'Ng1', 'Ng8'];
    assert.ok(played(...knights, ...knights).isThreefoldRepetition() && !played(...knights).isThreefoldRepetition());
  },
  'getHeaders, getComment, removeComment, removeComments, deleteComment, deleteComments': () => {
    const chess = played('e4');
    assert.deepEqual([chess.getHeaders().White, chess.getComment()], ['?', undefined]);
    chess.setComment('a');
    assert.deepEqual([chess.getComment(), chess.removeComment(), chess.deleteComment()], ['a', 'a', undefined]);
    chess.setComment('b');
    assert.deepEqual(chess.removeComments(), [{ fen: chess.fen(), comment: 'b' }]);
    assert.deepEqual(chess.deleteComments(), []);
  },
  'DEFAULT_POSITION, SQUARES, SUFFIX_LIST, WHITE, BLACK, PAWN, KNIGHT, BISHOP, ROOK, QUEEN, KING': () => {
    assert.equal(new Chess().fen(), DEFAULT_POSITION);
    assert.deepEqual([all.SQUARES.length, all.SQUARES[0], all.SQUARES[63]], [64, 'a8', 'h1']);
    assert.deepEqual([all.WHITE, all.BLACK, all.PAWN, all.KNIGHT, all.BISHOP, all.ROOK, all.QUEEN, all.KING].join(''), 'wbpnbrqk');
    assert.deepEqual([...SUFFIX_LIST], ['!', '?', '!!', '!?', '?!', '??']);
  },
  'Move': () => {
    const move = new Chess('1r2k3/P7/8/8/8/8/8/4K3 w - - 0 1').move('axb8=N');
    assert.ok(move instanceof Move);
    assert.deepEqual({ ...move }, {
      color: 'w', from: 'a7', to: 'b8', piece: 'p', captured: 'r', promotion: 'n', flags: 'cp', san: 'axb8=N', lan: 'a7b8n', before: '1r2k3/P7/8/8/8/8/8/4K3 w - - 0 1', after: '1N2k3/8/8/8/8/8/8/4K3 b - - 0 1',
    });
    assert.deepEqual(['isCapture', 'isPromotion', 'isEnPassant', 'isKingsideCastle', 'isQueensideCastle', 'isBigPawn', 'isNullMove'].map((it) => move[it]()), [true, true, false, false, false, false, false]);
  },
  'errors': () => {
    assert.throws(() => new Chess().loadPgn('1. e4\n1... Ke2 *'), (error) => error instanceof ChessError && error.code === 'Move' && error.place.line === 2 && error.place.column === 6 && error.place.byte === 11);
  },
  'wrong squares, colours and pieces': () => {
    const chess = new Chess();
    refuses('Square', () => chess.get('z9'));
    refuses('Square', () => chess.moves({ square: 'z9' }));
    refuses('Color', () => chess.attackers('e4', 'x'));
    refuses('Piece', () => chess.put({ type: 'z', color: 'w' }, 'e4'));
  },
  'unknown options': () => {
    refuses('Option', () => new Chess().load(DEFAULT_POSITION, { skipvalidation: true }));
    refuses('Option', () => new Chess().pgn({ width: 5 }));
    refuses('Option', () => new Chess().loadPgn('*', { newline: '|' }));
    refuses('Option', () => new Chess().fen({ target: 'never' }));
  },
  'Chess, load, validateFen': () => {
    assert.deepEqual(validateFen('4k3/8/8/8/8/8/8/4K3 w -  -'), { ok: true });
    assert.equal(new Chess(`${KINGS} w KQ - 03 0`).fen(), `${KINGS} w - - 3 1`);
    assert.deepEqual([validateFen('4k3/8/8/8/8/8/8/4RK2 w - - 0 1').code, validateFen('4k3/8/8/8/8/8/8/P3K3 w - - 0 1').code], ['InCheck', 'PawnRank']);
  },
  'skipValidation': () => {
    const chess = new Chess('8/8/8/8/8/8/8/R3K3 w Q - 0 1', { skipValidation: true });
    assert.deepEqual([chess.fen(), chess.get('a1'), chess.turn()], ['8/8/8/8/8/8/8/R3K3 w Q - 0 1', { type: 'r', color: 'w' }, 'w']);
    refuses('Kings', () => chess.moves());
    chess.put({ type: 'k', color: 'b' }, 'h8');
    assert.ok(chess.moves().includes('O-O-O'));
    chess.load('P7/8/8/8/8/8/8/8 w - -', { skipValidation: true });
    assert.equal(chess.fen(), 'P7/8/8/8/8/8/8/8 w - - 0 1');
    chess.load(DEFAULT_POSITION, { skipValidation: true });
    assert.equal(chess.moves().length, 20);
    chess.move('e4');
    for (const fen of ['', 'x', '8/8/8/8/8/8/8 w - - 0 1', '9/8/8/8/8/8/8/8 w - - 0 1', '8/8/8/8/8/8/8/8 x - - 0 1', '8/8/8/8/8/8/8/8 w x - 0 1', '8/8/8/8/8/8/8/8 w - e5 0 1', '8/8/8/8/8/8/8/8 w - - x 1']) assert.throws(() => chess.load(fen, { skipValidation: true }), ChessError);
    assert.deepEqual(chess.history(), ['e4']);
  },
  'reset, preserveHeaders': () => {
    const chess = played('e4');
    chess.setHeader('White', 'a');
    chess.load(`${KINGS} w - - 0 1`, { preserveHeaders: true });
    assert.equal(chess.getHeaders().White, 'a');
    chess.clear({ preserveHeaders: true });
    assert.equal(chess.getHeaders().White, 'a');
    chess.reset();
    assert.deepEqual([chess.getHeaders().White, chess.fen()], ['?', DEFAULT_POSITION]);
  },
  'clear, put, remove, setTurn': () => {
    const chess = played('e4');
    chess.setHeader('White', 'a');
    assert.ok(chess.put({ type: 'n', color: 'w' }, 'd2'));
    assert.deepEqual([chess.history(), chess.fen(), chess.getHeaders().White], [[], 'rnbqkbnr/pppppppp/8/8/4P3/8/PPPN1PPP/RNBQKBNR b KQkq - 0 1', 'a']);
    chess.move('e5');
    assert.deepEqual([chess.remove('d2'), chess.history(), chess.setTurn('b'), chess.setTurn('b')], [{ type: 'n', color: 'w' }, [], true, false]);
    chess.clear();
    refuses('Kings', () => chess.moves());
    refuses('Kings', () => chess.isGameOver());
    chess.put({ type: 'k', color: 'w' }, 'e1');
    assert.deepEqual([chess.put({ type: 'k', color: 'w' }, 'h1'), chess.put({ type: 'k', color: 'w' }, 'e1'), chess.get('h1')], [false, true, undefined]);
    chess.put({ type: 'k', color: 'b' }, 'e8');
    assert.equal(chess.moves().length, 5);
    assert.equal(chess.put({ type: 'k', color: 'b' }, 'a8'), false);
  },
  'squareColor': () => {
    assert.deepEqual([new Chess().squareColor('a1'), new Chess().squareColor('h1')], ['dark', 'light']);
    refuses('Square', () => new Chess().squareColor('z9'));
  },
  'fen, forceEnpassantSquare': () => {
    const chess = played('e4');
    const targets = () => [undefined, { target: 'always' }, { target: 'legal' }, { forceEnpassantSquare: true }, { forceEnpassantSquare: false }].map((it) => chess.fen(it).split(' ')[3]).join(' ');
    assert.equal(targets(), 'e3 e3 - e3 -');
    for (const san of ['a6', 'e5', 'd5']) chess.move(san);
    assert.equal(targets(), 'd6 d6 d6 d6 d6');
    assert.deepEqual(chess.fen({ target: 'legal' }), chess.fen());
    // (the capture would leave the king in check)
    chess.load('8/8/8/K1pP3r/8/8/8/4k3 w - c6 3 2');
    assert.equal(chess.fen({ target: 'legal' }), '8/8/8/K1pP3r/8/8/8/4k3 w - - 3 2');
    chess.clear();
    assert.equal(chess.fen({ target: 'legal' }), '8/8/8/8/8/8/8/8 w - - 0 1');
  },
  'moves, verbose, square, piece': () => {
    assert.deepEqual(new Chess().moves().slice(0, 6), ['Na3', 'Nc3', 'Nf3', 'Nh3', 'a3', 'a4']);
    assert.deepEqual(new Chess('4k3/P7/8/8/8/8/8/4K3 w - - 0 1').moves({ square: 'a7' }), ['a8=Q+', 'a8=R+', 'a8=B', 'a8=N']);
    assert.deepEqual(new Chess().moves({ piece: 'n', verbose: true }).map(({ lan }) => lan), ['b1a3', 'b1c3', 'g1f3', 'g1h3']);
  },
  'move': () => {
    for (const it of ['e4', 'e2e4', 'e2-e4', 'E4', 'e4!', '1. e4', 'Pe4', { from: 'e2', to: 'e4' }, { from: 'e2', to: 'e4', promotion: 'q' }]) assert.equal(new Chess().move(it).san, 'e4');
    assert.equal(new Chess('4k3/8/8/3pP3/8/8/8/4K3 w - d6 0 2').move('exd6 e.p.').san, 'exd6');
    assert.equal(new Chess('4k3/8/8/8/8/8/8/4K2R w K - 0 1').move('0-0').san, 'O-O');
    refuses('Form', () => new Chess().move('castle'));
    refuses('Illegal', () => new Chess().move('nf4'));
    refuses('Ambiguous', () => new Chess('4k3/8/8/8/8/2p5/1P1B4/4K3 w - - 0 1').move('BXC3'));
    const chess = played('e4', 'e5');
    chess.back();
    chess.move('c5');
    assert.ok(chess.pgn().includes('1. e4 e5 (1... c5) *'));
  },
  'strict': () => {
    const fen = '4k3/8/8/8/8/8/R7/4K2R w K - 0 1';
    for (const text of ['Ra8', 'Ra8+', 'Ra8#', 'Ra8!?', 'Ra8+!']) assert.equal(new Chess(fen).move(text, { strict: true }).san, 'Ra8+');
    assert.equal(new Chess(fen).move({ from: 'a2', to: 'a8' }, { strict: true }).san, 'Ra8+');
    for (const text of ['a2a8', 'ra8', 'Raa8', 'R2a8', 'Ra2a8', '0-0', 'Ra-a8']) refuses('Form', () => new Chess(fen).move(text, { strict: true }));
    refuses('Illegal', () => new Chess(fen).move('Rb8', { strict: true }));
    assert.deepEqual([new Chess(fen).isLegal('0-0'), new Chess(fen).isLegal('0-0', { strict: true })], [true, false]);
    const chess = new Chess();
    chess.loadPgn('1. e4 e5 *', { strict: true });
    assert.deepEqual(chess.history(), ['e4', 'e5']);
    refuses('Move', () => chess.loadPgn('1. nf3 *', { strict: false }));
    refuses('Option', () => chess.loadPgn('1. nf3 *', { strict: true, onRepair: () => {} }));
  },
  'null moves': () => {
    const chess = new Chess();
    for (const it of [null, '--', '0000', '@@@@', 'Z0']) {
      refuses('NullMove', () => chess.move(it));
      assert.equal(chess.isLegal(it), false);
    }
    assert.deepEqual(chess.history(), []);
  },
  'undo': () => {
    const chess = played('e4', 'e5', 'Nf3');
    chess.back();
    assert.equal(chess.undo().san, 'e5');
    assert.deepEqual([...chess.root()].map(({ san }) => san), ['e4']);
  },
  'perft': () => {
    assert.deepEqual([0, 1, 2, 3].map((it) => new Chess().perft(it)), [1, 20, 400, 8902]);
    const kiwipete = new Chess('r3k2r/p1ppqpb1/bn2pnp1/3PN3/1p2P3/2N2Q1p/PPPBBPPP/R3K2R w KQkq - 0 1');
    assert.deepEqual([1, 2, 3].map((it) => kiwipete.perft(it)), [48, 2039, 97862]);
    assert.deepEqual(kiwipete.history(), []);
    for (const it of [-1, 17, 0.5, '3', undefined]) refuses('Argument', () => kiwipete.perft(it));
  },
  'hash': () => {
    // (from the page of Polyglot's format)
    const keys = [[[], '463b96181691fc9c'], [['e4'], '823c9b50fd114196'], [['e4', 'd5'], '0756b94461c50fb0'], [['e4', 'd5', 'e5'], '662fafb965db29d4'], [['e4', 'd5', 'e5', 'f5'], '22a48b5a8e47ff78']];
    for (const [sans, key] of keys) assert.equal(played(...sans).hash(), key);
  },
  'isInsufficientMaterial': () => {
    assert.ok(new Chess('4k3/8/8/8/8/8/8/4KB2 w - - 0 1').isInsufficientMaterial());
    assert.ok(!new Chess('4k3/8/8/8/8/8/8/2N1KN2 w - - 0 1').isInsufficientMaterial());
    const both = new Chess('k7/8/1K6/4B3/8/8/8/8 b - - 0 1');
    assert.deepEqual([both.status(), both.isStalemate(), both.isInsufficientMaterial(), both.isDraw()], ['stalemate', true, false, true]);
  },
  'isDraw, isGameOver': () => {
    const knights = ['Nf3', 'Nf6', 'Ng1', 'Ng8'];
    const chess = played(...knights, ...knights);
    assert.deepEqual([chess.isDraw(), chess.isGameOver(), chess.status(), chess.claims(), chess.winner()], [true, true, 'play', ['threefold'], null]);
    for (const san of [...knights, ...knights]) chess.move(san);
    assert.equal(chess.status(), 'fivefold');
    assert.equal(played('f3', 'e5', 'g4', 'Qh4#').winner(), 'b');
  },
  'pgn, newline': () => {
    const chess = new Chess();
    assert.equal(chess.pgn(), '[Event "?"]\n[Site "?"]\n[Date "????.??.??"]\n[Round "?"]\n[White "?"]\n[Black "?"]\n[Result "*"]\n\n*\n\n');
    for (const san of ['e4', 'e5', 'Nf3', 'Nc6']) chess.move(san);
    chess.toStart();
    assert.ok(chess.pgn({ newline: '|' }).endsWith('||1. e4 e5 2. Nf3 Nc6 *||'));
    const mate = played('f3', 'e5', 'g4', 'Qh4#');
    assert.ok(mate.pgn().endsWith('Qh4# *\n\n'));
  },
  'maxWidth': () => {
    const chess = new Chess();
    chess.loadPgn(`1. e4 {${'%a ;b [%clk 0:01:00] ) $1 日本 '.repeat(20)}} e5 (1... c5 $1 2. Nf3 {x}) 2. Nf3 {${'y'.repeat(300)} z} *`);
    const whole = chess.pgn();
    for (const maxWidth of [0, 1, 5, 19, 20, 21, 40, 79, 1000]) {
      const text = chess.pgn({ maxWidth });
      const lines = text.slice(text.indexOf('\n\n') + 2).trim().split('\n');
      // (a word that is too long, and what keeps `%` from a line's beginning, is as it is)
      const isRight = (it) => !it.startsWith('%') && (it.length <= maxWidth || it.split(' ').slice(1).every((word) => word.startsWith('%')));
      if (maxWidth) assert.ok(lines.every(isRight), `${maxWidth}: ${lines.find((it) => !isRight(it))}`);
      else assert.equal(lines.length, 1);
      const again = new Chess();
      again.loadPgn(text);
      assert.equal(again.pgn(), whole);
    }
    for (const maxWidth of [-1, 0.5, '5', null]) refuses('Option', () => chess.pgn({ maxWidth }));
    assert.equal(new Chess().pgn({ maxWidth: 3 }), new Chess().pgn());
  },
  'loadPgn': () => {
    const chess = new Chess();
    chess.loadPgn('1. e4 e5 (1... c5 $1 {open}) *');
    assert.equal(chess.root().children[0].children[1].comment, 'open');
    refuses('NoGame', () => chess.loadPgn(''));
    refuses('Many', () => chess.loadPgn('1. e4 * 1. d4 *'));
    assert.deepEqual(chess.history(), ['e4', 'e5']);
    const told = [];
    const onRepair = (repairs) => told.push(...repairs.map(({ name, place }) => [name, place]));
    chess.loadPgn('1. e2-e4 e5 2. Qxh7 *', { onRepair });
    assert.deepEqual([chess.history(), told], [['e4', 'e5'], [['Hyphen', 3], ['Illegal', 15]]]);
    chess.loadPgn('1. d4 *', { onRepair });
    assert.deepEqual([chess.history(), told.length], [['d4'], 2]);
    refuses('NoGame', () => chess.loadPgn(' \n', { onRepair }));
    refuses('Many', () => chess.loadPgn('1. e2-e4 * 1. d4 *', { onRepair }));
    refuses('Fen', () => chess.loadPgn('[FEN "8/8"]\n\n*', { onRepair }));
    assert.throws(() => chess.loadPgn('1. e2-e4 *', { onRepair: () => { throw new Error('no'); } }), /no/);
    assert.deepEqual(chess.history(), ['d4']);
  },
  'newlineChar': () => {
    const chess = new Chess();
    chess.loadPgn('[White "a"]|[Black "b"]||1. e4 ; open|e5 *', { newlineChar: '\\|' });
    assert.deepEqual([chess.getHeaders().Black, chess.history()], ['b', ['e4', 'e5']]);
    refuses('Option', () => chess.loadPgn('*', { newlineChar: '(' }));
    assert.throws(() => chess.loadPgn(new Uint8Array(3), { newlineChar: 'x' }), TypeError);
  },
  'header, setHeader, removeHeader': () => {
    const chess = new Chess();
    refuses('Result', () => chess.setHeader('Result', 'won'));
    refuses('OwnTag', () => chess.setHeader('FEN', DEFAULT_POSITION));
    refuses('TagName', () => chess.setHeader('White Elo', '1'));
    refuses('TagValue', () => chess.setHeader('White', 'a\nb'));
    assert.deepEqual([chess.header('White', 'a').White, chess.removeHeader('White'), chess.removeHeader('White')], ['a', true, false]);
  },
  'SEVEN_TAG_ROSTER': () => {
    assert.deepEqual(all.SEVEN_TAG_ROSTER, Object.keys(new Chess().getHeaders()));
  },
  'setComment': () => {
    const chess = new Chess();
    chess.setComment(' two  words\n');
    assert.equal(chess.getComment(), 'two words');
    refuses('BadComment', () => chess.setComment('{a}'));
  },
  'getComments': () => {
    const chess = played('e4', 'e5');
    chess.setComment('b');
    chess.setSuffixAnnotation('!?');
    chess.back();
    chess.setSuffixAnnotation('?');
    chess.toEnd();
    const [e4, e5] = chess.history({ verbose: true }).map(({ after }) => after);
    assert.deepEqual(chess.getComments(), [{ fen: e4, suffixAnnotation: '?' }, { fen: e5, comment: 'b', suffixAnnotation: '!?' }]);
  },
  'getSuffixAnnotation, setSuffixAnnotation, removeSuffixAnnotation': () => {
    const chess = played('e4', 'e5');
    chess.addNag(14);
    assert.equal(chess.getSuffixAnnotation(), undefined);
    SUFFIX_LIST.forEach((suffix) => {
      chess.setSuffixAnnotation(suffix);
      assert.equal(chess.getSuffixAnnotation(), suffix);
      assert.deepEqual(chess.getNags().sort((a, b) => a - b), [['!', '?', '!!', '??', '!?', '?!'].indexOf(suffix) + 1, 14]);
    });
    const [{ after }] = chess.history({ verbose: true });
    chess.setSuffixAnnotation('!', after);
    // (also by the FEN without the target, as chess.js writes it)
    assert.deepEqual([chess.getSuffixAnnotation(after), chess.getSuffixAnnotation(after.replace('e3', '-')), chess.node().path], ['!', '!', '0.0']);
    assert.match(chess.pgn(), /1\. e4 \$1 (1\.\.\. )?e5 /);
    assert.deepEqual([chess.removeSuffixAnnotation(after), chess.removeSuffixAnnotation(after), chess.removeSuffixAnnotation(), chess.getNags()], ['!', undefined, '??', [14]]);
    refuses('Suffix', () => chess.setSuffixAnnotation('!!!'));
    refuses('NoSuch', () => chess.getSuffixAnnotation(KINGS));
    refuses('AtRoot', () => chess.setSuffixAnnotation('!', DEFAULT_POSITION));
    assert.deepEqual([chess.getNags(), chess.node().path], [[14], '0.0']);
  },
};

// The exports, methods and options of chess.js 1.4.
const THEIRS = (
  'Chess DEFAULT_POSITION SQUARES SUFFIX_LIST SEVEN_TAG_ROSTER WHITE BLACK PAWN KNIGHT BISHOP ROOK QUEEN KING Move validateFen skipValidation preserveHeaders forceEnpassantSquare verbose square piece '
  + 'strict newline maxWidth newlineChar ascii attackers board clear deleteComment deleteComments fen findPiece get getCastlingRights getComment getComments getHeaders getSuffixAnnotation hash header history '
  + 'inCheck isAttacked isCheck isCheckmate isDraw isDrawByFiftyMoves isGameOver isInsufficientMaterial isStalemate isThreefoldRepetition load loadPgn move moveNumber moves perft pgn put remove removeComment '
  + 'removeComments removeHeader removeSuffixAnnotation reset setCastlingRights setComment setHeader setSuffixAnnotation setTurn squareColor turn undo'
).split(' ');
const OPTIONS = ['skipValidation', 'preserveHeaders', 'forceEnpassantSquare', 'verbose', 'square', 'piece', 'strict', 'newline', 'maxWidth', 'newlineChar'];

test('each export, method and option of chess.js is in a row', () => {
  const named = Object.keys(ROWS).flatMap((it) => it.split(', ')).filter((it) => !it.includes(' ') && it !== 'errors' && it !== 'pieces');
  assert.deepEqual(THEIRS.filter((it) => !named.includes(it)), []);
  assert.deepEqual(THEIRS.filter((it) => !OPTIONS.includes(it) && !(it in all) && !(it in Chess.prototype)), []);
});

for (const [name, checks] of Object.entries(ROWS)) test(name, checks);

test('the table has these rows', { skip: !existsSync(new URL('../../../docs/JAVASCRIPT.md', import.meta.url)) }, () => {
  const page = readFileSync(new URL('../../../docs/JAVASCRIPT.md', import.meta.url), 'utf-8');
  const table = /## Beside chess\.js\n([\s\S]*?)\n## /.exec(page)[1];
  const rows = [...table.matchAll(/^\| ([^|]+?) \|/gm)].map(([, it]) => it.replaceAll('`', ''));
  assert.deepEqual(rows.slice(1), Object.keys(ROWS));
});
