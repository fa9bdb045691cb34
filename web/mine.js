// The games that are kept in this browser: several at once, each with its name and the states that it has been in.
import { ask } from './ask.js';
import { begin, exported, game, beginAlone, doing, inTurn, isSettled, page, shownAgain, tag } from './game.js';
import { History } from './history.js';
import { allGames, changeGame, dropFiles, dropGame, hasStore, openStore, readGame, writeGame } from './store.js';

/** `here` is the game on the board; `records` are those that are kept; `trouble` is why nothing is kept, `failed` why the last change isn’t. */
export const mine = { here: null, records: [], trouble: '', failed: '' };

let show = () => {};

// ---- Which game a window had on its board is kept with the window.

const remember = ({ id, from = '' }) => {
  try {
    sessionStorage.setItem('game', id);
    sessionStorage.setItem('from', from);
  } catch {
    // (a window that may keep nothing)
  }
};
const remembered = (name) => {
  try {
    return sessionStorage.getItem(name);
  } catch {
    return null;
  }
};

const newId = () => `${Date.now().toString(36)}-${Math.random().toString(36).slice(2, 10)}`;

// A game that isn't in the store yet; `kept` has the `mark` with which each of its states is there. The game `from` which it was begun is the one on the board, or if
// nothing has been done with that the one before it.
const fresh = (history, { isEmpty = true, isPosition = false, called = '', from = mine.here?.record.from ?? '' }) => {
  const done = mine.here && !isFresh() ? mine.here.record : { id: from, serial: 0 };
  const serial = Math.max(done.serial, ...mine.records.map((it) => it.serial)) + 1;
  const record = { id: newId(), serial, name: '', called, players: '', version: 0, made: Date.now(), removed: 0, link: '', from: done.id };
  return { record, history, draft: null, kept: new WeakMap(), isDirty: false, saving: null, isEmpty, isPosition };
};

/** What a game is called: by the name that was given to it, else by its players, by that of the position that it began with, or by its number. */
export const nameOf = ({ name, players, called, serial }) => name || players || called || `Game ${serial}`;

/** The name by which the game on the board is kept; null where none is. */
export const idHere = () => mine.here?.record.id ?? null;

/** Whether nothing has been done with the game on the board. */
export const isFresh = () => {
  const { isEmpty, record, history } = mine.here;
  return isEmpty && record.version === 0 && history.last === 0 && !game.draft && !record.name;
};

/** Whether the game on the board is as it came from a file. */
export const isAsLoaded = () => game.history.here.isLoaded === true && !game.history.canRedo() && !game.draft;

// ---- Writing.

// The games that are being written, and those of which the last change could not be.
const writing = new Set();
const unwritten = new Set();
const showKept = () => {
  document.documentElement.dataset.kept = mine.trouble ? 'never' : writing.size || unwritten.size ? 'no' : 'yes';
  show();
};

// Asks the browser, once something is to be kept, that it clears that only if a person wants it. Some browsers ask the person.
let isAsked = false;
const askToStay = async () => {
  if (isAsked || !navigator.storage?.persist) return;
  isAsked = true;
  if (!await navigator.storage.persisted()) await navigator.storage.persist();
};

const players = () => {
  const [white, black] = [tag('White'), tag('Black')];
  return white || black ? `${white || '?'} \u2013 ${black || '?'}` : '';
};

// What of a state that was written may change: its place, and a comment that was left with it.
const mark = ({ path, draft }) => ({ path, draft });
const isMarked = (it, { path, draft }) => it.path === path && it.draft?.path === draft?.path && it.draft?.text === draft?.text;

// What is to be written: the record, and the states that aren't in the store as they are. The place of the state that is there now is the record's.
const snapshot = (it) => {
  const { history, kept } = it;
  const states = history.states.map((state, i) => ({ state, number: history.first + i }))
    .filter(({ state, number }) => !kept.has(state) || (number !== history.number && !isMarked(kept.get(state), state)));
  const files = [...new Set(history.states.map(({ origin }) => origin?.file).filter(Boolean))];
  it.record = { ...it.record, files, players: it.players, draft: it.draft, at: history.number, path: history.here.path, changed: Date.now() };
  return { states, record: { ...it.record, version: it.record.version + 1 }, first: history.first, last: history.last };
};

const written = async (it, { states, record, first, last }) => {
  const rows = states.map(({ state, number }) => ({ ...state, game: record.id, number }));
  const marks = states.map(({ state }) => mark(state));
  const isOurs = await writeGame(record, { was: record.version - 1, states: rows, first, last });
  if (isOurs) {
    it.record.version = record.version;
    states.forEach(({ state }, i) => it.kept.set(state, marks[i]));
    mine.records = [...mine.records.filter(({ id }) => id !== record.id), record];
    return;
  }
  // Another window went on with it: this one's is kept as a game of its own.
  it.record = { ...it.record, id: newId(), version: 0, name: `${nameOf(it.record)} (in another window)` };
  it.kept = new WeakMap();
  it.isDirty = true;
  if (it === mine.here) remember(it.record);
};

const save = async (it) => {
  writing.add(it);
  showKept();
  try {
    while (it.isDirty) {
      it.isDirty = false;
      await written(it, snapshot(it));
    }
    it.isMade = false;
    unwritten.delete(it);
    if (!unwritten.size) mine.failed = '';
  } catch (error) {
    it.isDirty = true;
    unwritten.add(it);
    mine.failed = `The last change of ${nameOf(it.record)} is not kept in this browser: ${error.message.replace(/\.$/, '')}. Save the game as a file (PGN) before you leave the page.`;
  } finally {
    it.saving = null;
    writing.delete(it);
    showKept();
  }
};

/** Keeps the game on the board as it is now; `isMade` is whether a person did something with it, so that the page isn't left before it is kept. */
export const keep = (isMade = true) => {
  const it = mine.here;
  if (!it) return;
  if (isFresh()) {
    show();
    return;
  }
  it.isMade ||= isMade;
  if (mine.trouble) {
    show();
    return;
  }
  Object.assign(it, { draft: game.draft, players: players() });
  it.isDirty = true;
  if (isMade) askToStay().catch(() => {});
  for (const other of new Set([it, ...unwritten])) other.saving ??= save(other);
};

// Whether something that a person made is lost if the page is left now.
const isAtRisk = () => [...writing, ...unwritten].some((it) => it.isMade) || Boolean(mine.trouble && mine.here.isMade);

export const keepLinkOf = (link) => {
  if (!mine.here || mine.here.record.link === link) return;
  Object.assign(mine.here.record, { link, linkAt: mine.here.history.number });
  keep(false);
};

// ---- From one game to another.

const put = (it) => {
  mine.here = it;
  remember(it.record);
  showKept();
};

/** Whether a game that something was done with stays when another is put on the board. */
export const keepsGames = () => hasStore() && !mine.trouble;

/** The game on the board is one beside those that are kept: an empty one, one that was read, or a position, which is `called` so. It is kept once something is done with it. */
export const beside = (history = game.history, more = {}) => put(fresh(history, more));

/** Whether the game on the board is a position that was opened, with which nothing has been done. */
export const isPosition = () => isFresh() && mine.here.isPosition === true;

// A state as it is kept now: of one that an earlier page kept, with its tags and its result beside it, the module writes the whole text. Where it can't, it stays.
const asNow = async ({ game: _, number, tags, result, ...state }) => {
  if (!tags) return state;
  const { status, text } = await ask('older', { tags, result, pgn: state.pgn });
  return status === 0 ? { ...state, pgn: text } : { ...state, tags, result };
};

const opened = async (id) => {
  await Promise.all([...writing].map((it) => it.saving));
  // (what could not be written is here alone)
  const held = [...unwritten].find(({ record }) => record.id === id);
  if (held) return shownAgain(held.history, held.draft, () => put(held));
  const { record, states } = await readGame(id);
  const at = states.findIndex(({ number }) => number === record?.at);
  if (at < 0) {
    page.told('That game is no more in this browser.');
    return false;
  }
  const first = states[0].number;
  const kept = new WeakMap();
  const all = await Promise.all(states.map(asNow));
  states.forEach(({ tags }, i) => tags || kept.set(all[i], mark(all[i])));
  all[at].path = record.path;
  delete all[at].draft;
  const history = new History(all, at, first);
  const draft = record.draft ?? null;
  return shownAgain(history, draft, () => put({ record, history, draft, kept, isDirty: false, saving: null }));
};

/** The records of the games that are kept, with those that only this page has. */
export const recordsNow = () => [...new Map([...mine.records, ...[...unwritten].map(({ record }) => record)].map((it) => [it.id, it])).values()];

// The text of a kept game as it was left.
const textOf = async ({ id }) => {
  if (id === mine.here.record.id) return exported();
  const held = [...unwritten].find(({ record }) => record.id === id);
  if (held) return held.history.here.pgn;
  const { record, states } = await readGame(id);
  return (await asNow(states.find(({ number }) => number === record.at))).pgn;
};

/** All games that aren't put away, one after another, as a text of PGN. */
export const allTexts = async () => {
  await Promise.all([...writing].map((it) => it.saving));
  const others = recordsNow().filter((it) => !it.removed && it.id !== mine.here.record.id);
  const all = isFresh() ? others : [...others, mine.here.record];
  const texts = await Promise.all(all.sort((a, b) => a.serial - b.serial || a.made - b.made).map(textOf));
  return texts.map((it) => `${it.trimEnd()}\n`).join('\n');
};

/** Puts a kept game on the board, as it was left. */
export const openGame = (id) => doing(async () => {
  if (id === mine.here.record.id) return true;
  return await isSettled() && opened(id);
});

/** Begins another game by `set FEN`, of a position that is `called` so; it is kept once something is done with it. */
export const another = (line, called = '') => begin(line, { isEmpty: true, isPosition: true, called });

// ---- Undo at the first state of a game goes to the one from which it was begun, and redo from there to it.

// The games that were left so since the last change; with each the one to which that led, and its state then.
let left = [];

export const noteChange = () => { left = []; };

const isThere = (id) => mine.records.some((it) => it.id === id && !it.removed) || [...writing, ...unwritten].some(({ record }) => record.id === id);

export const canUndo = () => game.history.canUndo() || (mine.here !== null && isThere(mine.here.record.from));
const canReturn = () => left.length > 0 && left.at(-1).to === mine.here.record.id && left.at(-1).at === game.history.number;
export const canRedo = () => game.history.canRedo() || canReturn();

const goBack = async () => {
  const it = mine.here;
  if (game.history.canUndo() || !isThere(it.record.from) || !await opened(it.record.from)) return false;
  left.push({ it, to: mine.here.record.id, at: game.history.number });
  page.draw();
  return true;
};

const goOn = async () => {
  if (!canReturn()) return false;
  const { it } = left.pop();
  const isKept = it.record.version > 0 || writing.has(it);
  return isKept ? opened(it.record.id) : shownAgain(it.history, it.draft, () => put(it));
};

/** A step of undo, -1, or of redo, 1, that leads to another game; whether it did. Only in turn. */
export const beyond = (by) => (mine.here === null ? false : by < 0 ? goBack() : goOn());

export const rename = (id, name) => doing(async () => {
  if (id === mine.here.record.id) {
    mine.here.record.name = name;
    keep();
    return;
  }
  await changeGame(id, () => ({ name }));
  mine.records = await allGames();
  show();
});

/** Puts a game away, or brings it back. */
export const putAway = (id, isAway) => doing(async () => {
  if (isAway && id === mine.here.record.id) {
    if (!await isSettled() || !await beginAlone()) return;
    await mine.here.saving;
    beside();
    page.drawTags();
    page.draw();
  }
  await changeGame(id, () => ({ removed: isAway ? Date.now() : 0 }));
  mine.records = await allGames();
  show();
});

/** Takes a game that was put away out of the store, for good. */
export const drop = (id) => doing(async () => {
  await dropGame(id);
  mine.records = await allGames();
  show();
});

let records = null;

/** The records that are kept, from the store, which is opened while the board begins. */
export const openKept = () => {
  records ??= (async () => {
    await openStore();
    const all = await allGames();
    await dropFiles(new Set(all.flatMap((it) => it.files ?? [])));
    return all;
  })();
  // (`start` says what is wrong with it)
  records.catch(() => {});
  return records;
};

/**
 * Puts on the board the game that `wanted` names among those that are kept, or the one that this window had, or in a new window the last one that
 * was changed, or none. A `wanted` that answers null wants none.
 */
export const start = async (showing, wanted) => {
  show = showing;
  const [own, from] = ['game', 'from'].map(remembered);
  try {
    mine.records = await openKept();
  } catch (error) {
    mine.trouble = `Nothing is kept in this browser: ${error.message}`;
  }
  // (a game with which nothing was done is kept nowhere, and comes back as it was begun)
  beside(game.history, { from: from ?? '' });
  addEventListener('beforeunload', (event) => {
    if (isAtRisk()) event.preventDefault();
  });
  if (!hasStore()) return 'none';
  const live = mine.records.filter((it) => !it.removed);
  const latest = () => (own === null ? [...live].sort((a, b) => b.changed - a.changed)[0] : undefined);
  let chosen = wanted(live, own);
  if (chosen === undefined) chosen = live.find((it) => it.id === own) ?? latest();
  if (!chosen || !await inTurn(() => opened(chosen.id))) return 'none';
  return chosen.id === own ? 'as it was' : 'opened';
};
