// The board editor: men are put, moved and taken, by drag, by taps and by keys, and the fields of a FEN beside them. Whether it is a position, the module says.
import { ask } from './ask.js';
import { game } from './game.js';
import { dragged } from './jatshegi/src/drag.js';
import { man, named } from './jatshegi/src/men.js';
import { FILES, placed, placement } from './jatshegi/src/placement.js';
import { typed } from './pgn.js';
import { refusal } from './words.js';

const by = (id) => document.getElementById(id);
const MEN = ['K', 'Q', 'R', 'B', 'N', 'P', 'k', 'q', 'r', 'b', 'n', 'p'];
const RIGHTS = ['K', 'Q', 'k', 'q'];
const TAKE = 'take';
const STEPS = { ArrowLeft: [-1, 0], ArrowRight: [1, 0], ArrowUp: [0, 1], ArrowDown: [0, -1] };

// `tool` is the man that a tap puts, or that it takes one; `chosen` is the square whose man a tap moves; `at` has the focus.
const editor = { men: {}, tool: '', chosen: '', at: 'e4', isTurned: false, squares: {} };

// ---- Drawing.

const square = (name) => {
  const it = document.createElement('button');
  it.type = 'button';
  it.dataset.edit = name;
  it.setAttribute('role', 'gridcell');
  editor.squares[name] = it;
  return it;
};

const lay = () => {
  const order = [0, 1, 2, 3, 4, 5, 6, 7];
  by('editboard').replaceChildren(...order.map((row) => {
    const rank = document.createElement('div');
    rank.className = 'rank';
    rank.setAttribute('role', 'row');
    rank.append(...order.map((column) => square(FILES[editor.isTurned ? 7 - column : column] + (editor.isTurned ? row + 1 : 8 - row))));
    return rank;
  }));
};

const draw = () => {
  for (const [name, it] of Object.entries(editor.squares)) {
    const letter = editor.men[name];
    const isDark = (FILES.indexOf(name[0]) + Number(name[1])) % 2 === 1;
    it.className = `square${isDark ? ' dark' : ''}${name === editor.chosen ? ' chosen' : ''}`;
    it.tabIndex = name === editor.at ? 0 : -1;
    it.setAttribute('aria-label', `${name}, ${letter ? named(letter) : 'empty'}${name === editor.chosen ? ', chosen' : ''}`);
    it.setAttribute('aria-selected', String(name === editor.chosen));
    const ring = document.createElement('span');
    ring.className = 'ring';
    it.replaceChildren(...(letter ? [man(letter)] : []), ring);
  }
  for (const it of by('palette').children) it.setAttribute('aria-pressed', String(it.dataset.man === editor.tool));
};

// ---- The FEN.

const fenNow = () => {
  const rights = RIGHTS.filter((it) => by(`edit${it}`).checked).join('');
  const field = (id, without) => by(id).value.trim() || without;
  return [placement(editor.men), by('editside').value, rights || '-', field('edittarget', '-'), field('editclock', '0'), field('editnumber', '1')].join(' ');
};

let asked = 0;

// Says why it is no position, or how the module reads it, where that is otherwise than written.
const check = async () => {
  const number = ++asked;
  const fen = by('fen').value.trim();
  const { answer, fen: as } = await ask('tried', { text: `set ${typed(fen)}` });
  if (number !== asked) return;
  const said = answer === 'ok' ? (as === fen ? '' : `It is read as ${as}`) : refusal(answer);
  if (by('fentold').textContent !== said) by('fentold').textContent = said;
};

const changed = () => {
  game.acts++;
  by('fen').value = fenNow();
  draw();
  check();
};

const shows = (fen) => {
  const [men = '', side, rights = '', target = '-', clock = '0', number = '1'] = fen.trim().split(/\s+/);
  Object.assign(editor, { men: placed(men), chosen: '' });
  by('editside').value = side === 'b' ? 'b' : 'w';
  for (const it of RIGHTS) by(`edit${it}`).checked = rights.includes(it);
  by('edittarget').value = target;
  by('editclock').value = clock;
  by('editnumber').value = number;
  draw();
};

const setTo = (fen) => {
  by('fen').value = fen;
  shows(fen);
  check();
};

// ---- What a person does.

const put = (name, letter) => {
  if (letter) editor.men[name] = letter;
  else delete editor.men[name];
  editor.chosen = '';
  changed();
};

const moveMan = (from, to) => {
  if (from === to) return;
  const letter = editor.men[from];
  delete editor.men[from];
  put(to, letter);
};

// A tap or a key on a square.
const pick = (name) => {
  editor.at = name;
  if (editor.tool === TAKE) put(name, '');
  else if (editor.tool) put(name, editor.men[name] === editor.tool ? '' : editor.tool);
  else if (editor.chosen && editor.chosen !== name) moveMan(editor.chosen, name);
  else {
    editor.chosen = editor.chosen || !editor.men[name] ? '' : name;
    draw();
  }
};

const choose = (tool) => {
  editor.tool = editor.tool === tool ? '' : tool;
  editor.chosen = '';
  draw();
};

const squareAt = (x, y) => document.elementFromPoint(x, y)?.closest('[data-edit]')?.dataset.edit;

// What is let go beside the box is no click there, which would close it.
const swallowClick = () => {
  const swallow = (event) => event.stopPropagation();
  addEventListener('click', swallow, { capture: true, once: true });
  setTimeout(() => removeEventListener('click', swallow, { capture: true }));
};

// A man is dragged from its square or from beside the board; what is let go beside the board is taken.
const down = (event) => {
  const from = event.target.closest('[data-edit]')?.dataset.edit;
  const tool = event.target.closest('#palette [data-man]')?.dataset.man;
  if ((!from && !tool) || event.button !== 0) return;
  const letter = from ? editor.men[from] : tool === TAKE ? '' : tool;
  event.preventDefault();
  event.target.closest('button').focus({ preventScroll: true });
  const ends = (it, isDragged) => {
    if (it.type !== 'pointerup') return;
    if (isDragged) swallowClick();
    const to = squareAt(it.clientX, it.clientY);
    if (!isDragged) {
      if (from && to === from) pick(from);
    } else if (from && to) moveMan(from, to);
    else if (to) put(to, letter);
    else if (from) put(from, '');
  };
  dragged(event, { begins: () => (letter ? { letter, size: editor.squares.e4.offsetWidth, into: by('fenbox') } : null), ends });
};

const goBy = ([x, y]) => {
  const by1 = editor.isTurned ? -1 : 1;
  const [file, number] = [FILES.indexOf(editor.at[0]) + by1 * x, Number(editor.at[1]) + by1 * y];
  if (file < 0 || file > 7 || number < 1 || number > 8) return;
  editor.at = FILES[file] + number;
  draw();
  editor.squares[editor.at].focus();
};

const key = (event) => {
  const { key: pressed } = event;
  if (event.altKey || event.ctrlKey || event.metaKey) return;
  if (STEPS[pressed]) goBy(STEPS[pressed]);
  else if (pressed === 'Enter' || pressed === ' ') pick(editor.at);
  else if (pressed === 'Delete' || pressed === 'Backspace') put(editor.at, '');
  else if (MEN.includes(pressed)) put(editor.at, pressed);
  else if (pressed === 'Escape' && editor.chosen) {
    editor.chosen = '';
    draw();
  } else return;
  event.preventDefault();
};

const palette = () => {
  const button = (tool, says, picture) => {
    const it = document.createElement('button');
    it.type = 'button';
    it.dataset.man = tool;
    it.setAttribute('aria-label', says);
    it.title = says;
    it.append(picture);
    // (a tap with the pointer is a click, too)
    it.onclick = () => choose(tool);
    return it;
  };
  const icon = document.querySelector('#delete svg').cloneNode(true);
  by('palette').append(...MEN.map((letter) => button(letter, `Put a ${named(letter)}`, man(letter))), button(TAKE, 'Take men away', icon));
};

/** `isTurned` says whether the board on the page is turned. */
export const editing = (isTurned) => {
  palette();
  by('fenbox').addEventListener('opened', () => {
    Object.assign(editor, { tool: '', isTurned: isTurned() });
    lay();
    setTo(game.state.fen);
  });
  by('fenbox').addEventListener('close', () => {
    asked++;
    by('fen').value = game.state.fen;
    by('fentold').textContent = '';
  });
  by('fenbox').addEventListener('pointerdown', down);
  by('editboard').addEventListener('keydown', key);
  by('editboard').addEventListener('focusin', ({ target }) => { editor.at = target.dataset.edit ?? editor.at; });
  for (const id of ['editside', 'edittarget', 'editclock', 'editnumber', ...RIGHTS.map((it) => `edit${it}`)]) by(id).addEventListener('input', changed);
  by('fen').addEventListener('input', () => {
    shows(by('fen').value);
    check();
  });
  by('editstart').onclick = async () => setTo((await ask('tried', { text: 'new' })).fen);
  by('editempty').onclick = () => {
    shows('8/8/8/8/8/8/8/8 w - - 0 1');
    changed();
  };
};
