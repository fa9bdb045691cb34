// What the page shows of the game: the status with its articles, the moves, the comment, and the names.
import { ask } from './ask.js';
import { clock, evaluation, shapes, split } from './commands.js';
import { evaluations, watch } from './evals.js';
import { game, lines, page, retag, tag } from './game.js';
import { Graph } from './graph.js';
import { shown } from './jatshegi/src/bytes.js';
import { man, named } from './jatshegi/src/men.js';
import { FILES, placed } from './jatshegi/src/placement.js';
import { canRedo, canUndo } from './mine.js';
import { nodesOn, pathOf, rows, typed } from './pgn.js';
import { CLAIMS, CLAIMS_WITH, MARKS, RESULTS, ROSTER, STATUS } from './words.js';

const by = (id) => document.getElementById(id);

const element = (name, text = '', className = '') => {
  const it = document.createElement(name);
  it.textContent = text;
  if (className) it.className = className;
  return it;
};

// ---- The status.

const inWords = (claims, words) => claims.map((it) => words[it]).join('; ');

const statusText = () => {
  const { state } = game;
  const side = state.fen.split(' ')[1] === 'w' ? 'White' : 'Black';
  const check = state.checks.length ? `, in check from ${state.checks.join(' and ')} (Article 3.9.1)` : '';
  return state.status === 'play' ? `${side} to move${check}` : STATUS[state.status];
};

export const drawStatus = () => {
  const { state } = game;
  by('status').textContent = statusText();
  const facts = [
    ...(state.claims.length ? [['May be claimed', inWords(state.claims, CLAIMS)]] : []),
    ...state.with.map(([m, claims]) => [`With ${m}`, inWords(claims, CLAIMS_WITH)]),
    ...(state.count === 1 ? [] : [['Position came up', `${state.count} times (Article 9.2.2)`]]),
  ];
  by('laws').replaceChildren(...facts.flatMap(([name, value]) => [element('dt', name), element('dd', value)]));
};

// ---- The players.

const POINTS = { '1-0': ['1', '0'], '0-1': ['0', '1'], '1/2-1/2': ['\u00bd', '\u00bd'] };

// What the clock of a side shows at the cursor: that of its last move on the way there which says it.
const clockOf = (side) => {
  const [root] = rowsNow();
  const line = root ? nodesOn(root, game.state.path).slice(1) : [];
  for (const row of line.reverse()) {
    const found = isWhites(row) === (side === 'w') ? clock(partsOf(row).commands) : { text: '' };
    if (found.text) return found;
  }
  return { text: '', name: '' };
};

const drawPlayer = (place, side) => {
  const name = side === 'w' ? 'White' : 'Black';
  const title = tag(`${name}Title`);
  const points = POINTS[RESULTS[game.state.result]]?.[side === 'w' ? 0 : 1] ?? '';
  place.classList.toggle('turn', game.state.fen.split(' ')[1] === side && game.state.status === 'play');
  place.setAttribute('role', 'group');
  place.setAttribute('aria-label', name);
  const { text, name: kind } = clockOf(side);
  const shows = element('span', '', 'clock');
  if (text) shows.append(element('span', kind === 'clk' ? 'Clock ' : 'Time for the move ', 'away'), text);
  shows.title = kind === 'emt' ? 'Time for the move' : '';
  place.replaceChildren(
    element('span', '', `disc ${side}`), element('span', `${title ? `${title} ` : ''}${tag(name) || name}`, 'name'), element('span', tag(`${name}Elo`), 'rating'), shows, element('span', points, 'result'),
  );
};

export const drawPlayers = (isTurned) => {
  drawPlayer(by('player1'), isTurned ? 'b' : 'w');
  drawPlayer(by('player2'), isTurned ? 'w' : 'b');
};

// ---- The moves.

let listed = { pgn: null, rows: [] };

const rowsNow = () => {
  const { pgn } = game.state;
  if (listed.pgn !== pgn) listed = { pgn, rows: pgn.startsWith('refused') ? [] : rows(pgn) };
  return listed.rows;
};

const moveText = (row) => `${row.san}${row.nags.map((it) => MARKS[it] ?? ` $${it}`).join('')}`;

const moveButton = (text) => {
  const button = element('button', text, 'move');
  button.tabIndex = -1;
  return button;
};

// The commands of a row's comment, and its words.
const partsOf = (row) => (row.parts ??= split(shown(row.comment)));

// A move's button, with what its comment evaluates the position to.
const buttonFor = (row, text) => {
  const button = moveButton(text);
  const found = evaluation(partsOf(row).commands);
  if (found) button.append(' ', element('small', found.text));
  return button;
};

// A move's number, which Black's needs only where something is between it and White's.
const numberOf = (row, before) => (row.number.endsWith('...') && before?.kind === 'move' && !partsOf(before).words ? '' : row.number);

const isWhites = (row) => row.number !== '' && !row.number.endsWith('...');

// A move of the main line in its column, with its number.
const inColumns = ({ row, number, text }) => {
  const button = buttonFor(row, text);
  button.classList.add(isWhites(row) ? 'white' : 'black');
  return [...(number ? [element('span', number, 'number'), ' '] : []), button, ' '];
};

// The list is drawn in pieces of `PIECE` moves of the main line, each with its variations: what is the same as before stays.
const PIECE = 40;

// The pieces of a list of rows: what each shows, its moves, and all of its words, by which it is compared.
const piecesOf = (all) => {
  const found = [];
  let open = 0;
  let played = PIECE;
  for (const [i, row] of all.entries()) {
    if (open === 0 && row.kind === 'move' && played++ >= PIECE && isWhites(row) || i === 0) {
      found.push({ shows: [], moves: [], words: '' });
      played = row.kind === 'move' ? 1 : 0;
    }
    if (row.kind === 'open') open++;
    if (row.kind === 'close') open--;
    const piece = found.at(-1);
    const [number, text] = row.kind === 'move' ? [numberOf(row, all[i - 1]), moveText(row)] : ['', ''];
    if (row.kind === 'move') {
      Object.assign(row, { piece, at: piece.moves.length });
      piece.moves.push(row);
    }
    piece.shows.push({ row, number, text });
    piece.words += `${row.kind} ${number} ${text} ${row.comment ?? ''}\n`;
  }
  return found;
};

let pieces = [];

// ---- The diagrams.

// A diagram is a sign in the list of moves, and on paper a board.
const diagram = () => {
  const it = element('span', '', 'diagram');
  it.setAttribute('role', 'img');
  it.setAttribute('aria-label', 'Diagram');
  return it;
};

const fillDiagram = (it, fen) => {
  if (it.dataset.fen === fen) return;
  it.dataset.fen = fen;
  const men = placed(fen);
  it.setAttribute('aria-label', `Diagram: ${Object.entries(men).map(([square, letter]) => `${named(letter)} ${square}`).join(', ')}`);
  it.replaceChildren(...[8, 7, 6, 5, 4, 3, 2, 1].flatMap((rank) => [...FILES].map((file, i) => {
    const square = element('span', '', (i + rank) % 2 ? 'spot dark' : 'spot');
    if (men[file + rank]) square.append(man(men[file + rank]));
    return square;
  })));
};

const wantsDiagram = ({ comment = '' }) => comment.includes('[#]');

/** Draws the diagrams that comments ask for, by the module's positions; the browser's own print has them once this is done. */
export const drawDiagrams = async () => {
  const now = pieces;
  const asks = now.flatMap(({ shows, place }) => {
    const places = place.querySelectorAll('.diagram');
    return shows.map(({ row }) => row).filter(wantsDiagram).map((row, i) => ({ path: pathOf(row).join('.') || '-', place: places[i] }));
  });
  const fens = asks.length ? await ask('fens', { paths: asks.map(({ path }) => path) }) : [];
  if (now === pieces) asks.forEach(({ place }, i) => fens[i] && fillDiagram(place, fens[i]));
};

const drawPiece = ({ shows }) => {
  const top = element('div', '', 'piece');
  const open = [top];
  for (const it of shows) {
    const { row, number, text } = it;
    const to = open.at(-1);
    if (row.kind === 'open') {
      const inner = element('div', '', 'variation');
      inner.setAttribute('role', 'group');
      inner.setAttribute('aria-label', 'Variation');
      to.append(inner, ' ');
      open.push(inner);
    } else if (row.kind === 'close') open.pop();
    else {
      if (row.kind === 'move') to.append(...(open.length === 1 ? inColumns(it) : [buttonFor(row, `${number ? `${number} ` : ''}${text}`), ' ']));
      const { words } = partsOf(row);
      if (words) to.append(element('span', ` ${words} `, 'remark'));
      if (wantsDiagram(row)) to.append(diagram());
    }
  }
  return top;
};

const drawTree = (all) => {
  const box = by('moves');
  const had = pieces;
  pieces = piecesOf(all);
  for (const [i, it] of pieces.entries()) {
    it.place = had[i]?.words === it.words ? had[i].place : drawPiece(it);
    if (!box.children[i]) box.append(it.place);
    else if (box.children[i] !== it.place) box.children[i].replaceWith(it.place);
  }
  while (box.children.length > pieces.length) box.lastElementChild.remove();
};

const buttonOf = ({ piece, at }) => piece.place.querySelectorAll('.move')[at];

/** The path of the move that an element of the list is, as the board reads it; undefined where it is none. */
export const pathAt = (target) => {
  const button = target.closest('.move');
  const place = button?.closest('.piece');
  const piece = pieces.find((it) => it.place === place);
  return piece && pathOf(piece.moves[[...place.querySelectorAll('.move')].indexOf(button)]).join('.');
};

// The comment of the node at the cursor, as it was set.
let said = '';

/** The words of the comment of the node at the cursor, or what is typed in their place. */
export const showComment = () => {
  const text = game.draft ? game.draft.box ?? split(game.draft.text).words : split(said).words;
  if (by('comment').value !== text) by('comment').value = text;
};
export const saidHere = () => said;
/** The arrows and circles of that comment. */
export const shapesHere = () => shapes(split(said).commands);
/** What it evaluates the position to, `{text, value}`; null where it doesn't. */
export const evaluationHere = () => evaluation(split(said).commands);

// The marks of the move at the cursor.
let marks = [];
export const marksHere = () => marks;

const graph = new Graph(by('graph'), (row) => lines(`goto ${pathOf(row).join('.')}`));

// What the engine said is drawn a little later: it says much in a moment, and who steps on waits for nothing.
const LATER = 150;
let telling = 0;
watch.changed = () => {
  clearTimeout(telling);
  telling = setTimeout(async () => {
    const all = drawn;
    const said = await evaluations().catch(() => []);
    if (all === drawn) graph.tell(said);
  }, LATER);
};

let drawn = null;
let marked = null;
let current = null;

// Has the move at the cursor in sight.
const showCurrent = () => {
  const box = by('moves');
  if (!current) {
    box.scrollTop = 0;
    return;
  }
  const [a, b] = [current.getBoundingClientRect(), box.getBoundingClientRect()];
  if (a.top < b.top || a.bottom > b.bottom) box.scrollTop += a.top - b.top - box.clientHeight / 2;
};
new ResizeObserver(showCurrent).observe(by('moves'));
// (and once more where the window's new size is laid out)
addEventListener('resize', () => requestAnimationFrame(showCurrent));

// Marks the move at the cursor, which is the list's one tab stop, and where the focus goes on.
const markCurrent = (row) => {
  const box = by('moves');
  const had = box.contains(document.activeElement) || document.activeElement === marked;
  marked?.removeAttribute('aria-current');
  if (marked) marked.tabIndex = -1;
  current = row?.kind === 'move' ? buttonOf(row) : null;
  current?.setAttribute('aria-current', 'step');
  marked = current ?? box.querySelector('.move');
  if (marked) marked.tabIndex = 0;
  if (had) (marked ?? by('san')).focus({ preventScroll: true });
  showCurrent();
};

let announced = { path: '-', fen: '' };

// What is said to who doesn't see: the move that led here, and the game's status.
const announce = (row) => {
  const { path, fen } = game.state;
  if (announced.path === path && announced.fen === fen) return;
  const isFirst = !announced.fen;
  announced = { path, fen };
  if (isFirst) return;
  const move = row?.kind === 'move' ? `${row.number || '\u2026'} ${moveText(row)}. ` : 'The start. ';
  by('said').textContent = `${move}${statusText()}.`;
};

export const drawMoves = () => {
  const all = rowsNow();
  const box = by('moves');
  const row = all.length ? nodesOn(all[0], game.state.path).at(-1) : undefined;
  const had = box.contains(document.activeElement);
  if (drawn !== all) {
    drawTree(all);
    graph.show(all[0], (it) => partsOf(it).commands);
    watch.changed();
    drawDiagrams().catch(() => {});
  }
  drawn = all;
  graph.go(row);
  if (had && !box.contains(document.activeElement)) box.querySelector('.move')?.focus({ preventScroll: true });
  markCurrent(row);
  said = row ? shown(row.comment) : '';
  marks = row?.nags ?? [];
  by('hint').hidden = all.length !== 1 || all[0].comment !== '';
  showComment();
  announce(row);
  // (a control that can do nothing keeps the focus)
  const isInside = game.state.path !== '-';
  const next = game.state.pgn.startsWith('refused') || row?.children.length;
  const can = { promote: isInside, delete: isInside, back: isInside, start: isInside, forward: next, end: next, undo: canUndo() || game.draft, redo: canRedo() };
  for (const [id, is] of Object.entries(can)) by(id).setAttribute('aria-disabled', String(!is));
};

// ---- The names and the result.

export const drawTags = () => {
  const players = ['White', 'Black'].map(tag);
  document.title = players.some(Boolean) ? `${players.map((it) => it || '?').join(' \u2013 ')} \u00b7 Jatshegi` : 'Jatshegi: an analysis board';
  const box = by('tags');
  box.replaceChildren();
  const field = (name, input) => {
    const label = element('label', name);
    label.htmlFor = input.id = `tag${name}`;
    box.append(label, input);
  };
  for (const name of ROSTER) {
    const input = document.createElement('input');
    input.value = tag(name);
    input.onchange = () => retag('tag', name, typed(input.value));
    field(name, input);
  }
  const select = document.createElement('select');
  RESULTS.forEach((it, i) => select.add(new Option(it, it, false, i === game.state.result)));
  select.onchange = () => retag('result', 'Result', select.selectedIndex);
  field('Result', select);
};
