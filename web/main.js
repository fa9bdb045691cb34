// The page: carries what a person does to the module as lines, and draws what it answers.
import { ask, module } from './ask.js';
import { moveNow, points, positionChanged, positionDrawn, reply, toggleAll, toggleAnalysis, toggleDepths } from './analysis.js';
import { joined, split } from './commands.js';
import { dialogs, openDialog, placeAt } from './dialogs.js';
import { drawDiagrams, drawMoves, drawPlayers, drawStatus, drawTags, marksHere, pathAt, saidHere, shapesHere, showComment } from './draw.js';
import { editing } from './editor.js';
import { evaluations } from './evals.js';
import { choose, download, listAgain, markOpened, read, readWhole, saveBack, showCollection } from './files.js';
import { begin, diagrammed, drawn, exported, fileName, game, isSettled, lines, mark, page, playTyped, redo, settled, stepped, doing, undo, unmark } from './game.js';
import { keepOffline, renewed } from './kept.js';
import { faultOf, isEmbedded, keepLink, linkNow, linked, openLink } from './link.js';
import { shown, toBytes } from './jatshegi/src/bytes.js';
import { styled } from './jatshegi/src/look.js';
import { man, named } from './jatshegi/src/men.js';
import { Board } from './jatshegi/src/view.js';
import { allTexts, beside, beyond, canRedo, canUndo, keep, keepsGames, noteChange, openKept, start } from './mine.js';
import { drawOwn, ownCommands } from './own.js';
import { typed } from './pgn.js';
import { isStill, settings } from './settings.js';

const by = (id) => document.getElementById(id);

let view;

// ---- Drawing.

const drawBoard = () => {
  const { state } = game;
  const heat = by('heat').value;
  view.show({
    fen: state.fen,
    moves: state.moves,
    castlings: state.castlings,
    heat: heat ? { counts: state.counts['wb'.indexOf(heat.at(-1))], colour: heat.at(-1) } : null,
    checks: state.checks,
    last: state.last,
    still: isStill(),
  });
  by('heat').parentElement.classList.toggle('on', heat !== '');
};

page.told = (text) => {
  by('told').textContent = text;
  for (const box of ['fen', 'tag']) by(`${box}told`).textContent = by(`${box}box`).open ? text : '';
};
page.draw = () => {
  drawBoard();
  drawStatus();
  drawPlayers(view.turned);
  drawMoves();
  view.mark(shapesHere());
  if (!by('fenbox').open) by('fen').value = game.state.fen;
  by('saveback').hidden = !game.origin;
  markOpened();
  positionDrawn(game.isMoved);
  game.isMoved = false;
  if (isEmbedded()) return;
  keepLink(view.turned);
  keep(false);
};
page.drawTags = drawTags;
page.noted = (isNew = false) => {
  if (isNew) noteChange();
  keep();
};
Object.assign(page, { keepsGames, beside, beyond });

// ---- What a person does.

const move = (m, text) => lines(`play ${m ?? text}`);

const askPromotion = (moves) => {
  const box = by('promotion');
  box.replaceChildren(...moves.map((m) => {
    const letter = view.side === 'w' ? m[4].toUpperCase() : m[4];
    const button = document.createElement('button');
    button.setAttribute('aria-label', named(letter));
    button.dataset.move = m;
    button.append(man(letter));
    button.onclick = () => {
      box.close();
      move(m);
    };
    return button;
  }));
  box.showModal();
  placeAt(box, view.squares[moves[0].slice(2, 4)]);
};

const turnRound = (isTurned) => {
  view.turn(isTurned);
  by('bar').classList.toggle('turned', isTurned);
  if (game.state) drawPlayers(isTurned);
};
const flip = () => {
  turnRound(!view.turned);
  if (!isEmbedded()) keepLink(view.turned);
};
const can = (id) => by(id).getAttribute('aria-disabled') !== 'true';
// (asked in turn: keys come faster than what they ask for is drawn)
const back = () => doing(() => (can('back') ? stepped('back') : isSettled()));
const forward = () => doing(() => (can('forward') ? stepped('step 0') : isSettled()));
const toStart = () => lines('start');
const toEnd = () => lines('end');

// How far the wheel has been turned on the board since the last step: a notch of a mouse's is a step. Where the page itself scrolls, the wheel does that.
const A_NOTCH = 60;
let turnedBy = 0;
const wheeled = (event) => {
  const { scrollHeight, clientHeight } = document.documentElement;
  if (event.ctrlKey || scrollHeight > clientHeight) return;
  event.preventDefault();
  const { deltaMode, deltaY } = event;
  const far = deltaY * [1, 33, 400][deltaMode];
  turnedBy = Math.sign(far) === Math.sign(turnedBy) ? turnedBy + far : far;
  if (Math.abs(turnedBy) < A_NOTCH) return;
  if (turnedBy > 0) forward();
  else back();
  turnedBy = 0;
};

const steps = () => {
  const does = { start: toStart, back, forward, end: toEnd, undo, redo, flip, promote: () => lines('promote'), delete: () => lines('delete') };
  for (const [id, call] of Object.entries(does)) by(id).onclick = call;
  by('heat').onchange = drawBoard;
  by('sanform').onsubmit = async (event) => {
    event.preventDefault();
    const text = by('san').value.trim();
    if (text && await playTyped(text)) by('san').value = '';
  };
  by('board').addEventListener('wheel', wheeled, { passive: false });
  by('moves').onclick = (event) => {
    const path = pathAt(event.target);
    if (path !== undefined) lines(`goto ${path}`);
  };
};

const annotations = () => {
  by('nag').onchange = () => {
    const chosen = by('nag').value;
    by('nag').value = '';
    if (chosen === 'none') unmark();
    else if (chosen) mark(Number(chosen), marksHere);
  };
  by('comment').oninput = () => {
    game.acts++;
    const box = by('comment').value;
    const { commands, words } = split(saidHere());
    game.draft = box === words ? null : { path: game.state.path, text: joined(commands, box), box };
    keep();
    reply();
  };
  by('comment').onchange = () => game.draft && lines();
  by('comment').onkeydown = (event) => {
    if (event.key !== 'Escape') return;
    game.draft = null;
    page.told('');
    showComment();
    keep();
    reply();
  };
  by('commentform').onsubmit = (event) => {
    event.preventDefault();
    if (game.draft) lines();
  };
  for (const id of ['san', 'fen']) by(id).addEventListener('input', () => game.acts++);
  for (const kind of ['pointerdown', 'keydown']) by('board').addEventListener(kind, () => game.acts++);
};

const copy = async (text, what) => {
  try {
    await navigator.clipboard.writeText(text);
    page.told(`${what} is copied.`);
  } catch {
    by('pgn').value = text;
    openDialog('pastebox');
    by('pgn').select();
    page.told(`The browser gives no clipboard: ${what.toLowerCase()} is in the box.`);
  }
};

// What goes out has the comment that is being typed, and an error is reported.
const out = (give) => async () => {
  try {
    if (!await doing(isSettled)) return;
    await settled();
    await give();
  } catch (error) {
    page.told(error.message);
  }
};

const games = () => {
  by('fenform').onsubmit = async (event) => {
    event.preventDefault();
    if (await begin(`set ${typed(by('fen').value)}`)) by('fenbox').close();
  };
  by('new').onclick = () => begin('new');
  by('open').onclick = choose;
  by('file').onchange = async () => {
    const file = by('file').files[0];
    const before = game.acts;
    if (file) await readWhole(file, before);
    by('file').value = '';
  };
  by('read').onclick = () => {
    by('pastebox').close();
    read(new TextEncoder().encode(by('pgn').value));
  };
  by('copy').onclick = out(async () => copy(shown(exported()), 'The game'));
  by('copyfen').onclick = () => copy(by('fen').value, 'The FEN');
  by('link').onclick = out(async () => {
    const link = await linkNow(view.turned);
    document.documentElement.dataset.given = link;
    await copy(location.href.replace(/#.*/, '') + link, 'The link');
  });
  by('save').onclick = out(async () => download(toBytes(exported()), fileName()));
  by('saveall').onclick = out(async () => download(toBytes(await allTexts()), `games-${new Date().toISOString().slice(0, 10)}.pgn`));
  by('saveback').onclick = out(saveBack);
  by('print').onclick = out(async () => {
    await drawDiagrams();
    globalThis.print();
  });
  by('diagram').onclick = () => diagrammed(saidHere);
  by('find').oninput = showCollection;
};

const engine = () => {
  by('analyse').onclick = toggleAnalysis;
  by('analyseall').onclick = toggleAll;
  by('now').onclick = moveNow;
  by('depths').onclick = toggleDepths;
  for (const id of ['depth', 'plays']) by(id).addEventListener('change', () => positionChanged());
};

// An arrow steps wherever nothing is typed and no box is open.
const KEYS = { ArrowLeft: back, ArrowRight: forward, ArrowUp: toStart, ArrowDown: toEnd, Home: toStart, End: toEnd, f: flip, l: toggleAnalysis, '/': () => by('san').focus(), '?': () => openDialog('keysbox') };

const FRAME_KEYS = ['ArrowLeft', 'ArrowRight', 'ArrowUp', 'ArrowDown', 'Home', 'End', 'f'];

const keys = (event) => {
  if (event.defaultPrevented || event.target.closest('dialog')) return;
  const typing = event.target.closest('input, textarea, select');
  const key = event.key.length === 1 ? event.key.toLowerCase() : event.key;
  if (event.ctrlKey || event.metaKey) {
    // (a field with a text undoes that)
    const isEmpty = ['san', 'comment'].includes(event.target.id) && event.target.value === '';
    if ((event.target.closest('input, textarea') && !isEmpty) || event.altKey) return;
    if (key === 'z' && !event.shiftKey) undo();
    else if (key === 'y' || key === 'z') redo();
    else return;
    event.preventDefault();
    return;
  }
  // (with Alt an arrow steps from a field, too)
  const isStep = event.altKey && !event.shiftKey && (key === 'ArrowLeft' || key === 'ArrowRight');
  if (isEmbedded() && !FRAME_KEYS.includes(key)) return;
  // (which keys give `/` and `?` is the keyboard's own)
  const isShifted = event.shiftKey && key !== '?' && key !== '/';
  if (!KEYS[key] || !(isStep || !(typing || event.altKey || isShifted))) return;
  event.preventDefault();
  KEYS[key]();
};

const drops = () => {
  const place = by('main');
  addEventListener('dragover', (event) => {
    event.preventDefault();
    place.classList.add('drop');
  });
  addEventListener('dragleave', () => place.classList.remove('drop'));
  addEventListener('drop', async (event) => {
    event.preventDefault();
    place.classList.remove('drop');
    const before = game.acts;
    const [item] = event.dataTransfer.items ?? [];
    const file = event.dataTransfer.files[0];
    const handle = item?.kind === 'file' ? item.getAsFileSystemHandle?.() : null;
    if (file) readWhole(file, before, await handle?.catch(() => null) ?? null);
    else if (event.dataTransfer.getData('text')) read(new TextEncoder().encode(event.dataTransfer.getData('text')));
  });
  addEventListener('paste', (event) => {
    if (event.target.closest('input, textarea, dialog')) return;
    const text = event.clipboardData.getData('text');
    if (text) read(new TextEncoder().encode(text));
  });
};

const lacks = (text) => {
  by('lacking').textContent = text;
  by('lacking').classList.remove('starting');
  by('lacking').hidden = false;
  by('main').hidden = true;
};

// The board begins as the address says, or as this browser kept it. A kept game has gone on since its link where this window had it, and the link is older than it. An
// address whose position is none says so, and all is as without it.
const beginning = async () => {
  const asked = linked();
  const fault = await faultOf(asked);
  const link = fault ? null : asked;
  const isOf = (it, own) => it.link === link.held && (it.id === own || it.linkAt === it.at);
  const found = await start(drawOwn, (records, own) => (link ? records.find((it) => link.held && isOf(it, own)) ?? null : undefined));
  if (asked?.isTurned) turnRound(true);
  if (found === 'none' && !(link && await openLink(link))) page.draw();
  else if (found === 'opened' && link) await lines(link.path === '-' ? 'start' : `goto ${link.path}`);
  if (fault) page.told(fault);
};

// In a frame of another page: what its address names, and nothing is kept.
const framed = async () => {
  const link = linked();
  if (link?.isTurned) turnRound(true);
  if (!(link && await openLink(link))) page.draw();
};

const main = async () => {
  if (!isEmbedded()) openKept();
  styled(document);
  view = new Board(by('board'), { wants: move, asks: askPromotion, draws: (item) => drawn(item, saidHere) });
  points.at = (m) => view.point(m);
  document.documentElement.classList.toggle('framed', isEmbedded());
  for (const give of [settings, dialogs, steps, annotations, games, engine, ...(isEmbedded() ? [] : [drops, ownCommands])]) give();
  editing(() => view.turned);
  addEventListener('keydown', keys);
  const first = await ask('start', { module: await module });
  if (first.status !== 0) {
    lacks('There is not enough memory for the board.');
    return;
  }
  const { state } = first;
  game.state = state;
  game.history.note({ origin: null, pgn: state.pgn, path: state.path });
  drawTags();
  await (isEmbedded() ? framed() : beginning());
  // (by the event's address: the page's own may hold the game before by now)
  addEventListener('hashchange', ({ newURL }) => {
    const link = linked(new URL(newURL));
    if (link) openLink(link);
  });
  by('lacking').hidden = true;
  performance.mark('ready');
  document.documentElement.dataset.ready = 'yes';
  if (isEmbedded()) return;
  await listAgain();
  await keepOffline();
};

// For who looks on, from the console or a test.
globalThis.jatshegi = { game, evaluations, exported: async () => shown(exported()), settled, pathAt, canUndo, canRedo };

main().catch(async (error) => {
  if (await renewed().catch(() => false)) return;
  lacks(`The board could not be begun: ${error.message}. Chrome and Edge from 97 on, Firefox from 114 on and Safari from 15.4 on have what it needs.`);
});
