// Games and positions that are read from a text or a file, their list, and a game written back into its file's place.
import { ask } from './ask.js';
import { areMostPositions, position } from './epd.js';
import { doing, exported, game, inTurn, isSettled, page, taken } from './game.js';
import { another, idHere, isAsLoaded } from './mine.js';
import { fromBytes, shown, toBytes } from './jatshegi/src/bytes.js';
import { List } from './list.js';
import { hasStore, newFileId, readFile, writeFile } from './store.js';
import { faultWords, refusal, repaired } from './words.js';

const by = (id) => document.getElementById(id);
// This number of bytes decides what a game is repaired to.
const MOST_REPAIRED = 1_179_648;

// The games, or positions, that were read last: the bytes, what was found in them, and the file, where they are of one: `{id, name, handle}`.
// `opened` has the numbers of those that were opened, by the games that they are then.
const collected = (more = {}) => ({ bytes: null, file: null, found: [], bad: 0, wrong: 0, first: null, isLoaded: null, isRead: false, arePositions: false, opened: new Map(), ...more });
let collection = collected();

// ---- The list.

const isKnown = (value) => /[^?.*\s]/.test(value);

const tagOf = (it, name) => it.tags?.find(([is]) => is === name)?.[1] ?? '';
const known = (it, ...names) => names.map((name) => tagOf(it, name)).filter(isKnown).join(' ');

// A game by its players, or where it names none by its opening, and what else is shown of it: its result, its event, its date and what is wrong with it.
const playersOf = (it) => (known(it, 'White', 'Black') ? `${tagOf(it, 'White') || '?'} \u2013 ${tagOf(it, 'Black') || '?'}` : known(it, 'ECO', 'Opening', 'Variation') || '? \u2013 ?');
const cellsOf = (it) => {
  if (it.fault !== undefined) return [`${it.number}. Can\u2019t be read: ${faultWords(it.fault, it.where)}`];
  return [`${it.number}. ${playersOf(it)}`, ...['Result', 'Event', 'Date'].map((name) => known(it, name)), it.finding ? `\u2014 ${it.finding}` : ''];
};
const label = (it) => cellsOf(it).filter(Boolean).join(' ');

// A position by its line, what it is called, and what else is said of it.
const positionLabel = ({ number, fen, said, refused, text }) => {
  if (refused) return `Line ${number} can\u2019t be read: ${refusal(refused)} \u201c${shown(text)}\u201d`;
  const others = said.filter(([name]) => name !== 'id').map((it) => shown(it.join(' ').trim()));
  return `${number}. ${calledOf(said) || fen}${others.length ? ` \u2014 ${others.join('; ')}` : ''}`;
};
const calledOf = (said) => shown(said.find(([name]) => name === 'id')?.[1] ?? '');

const has = (it, words) => it.label.toLowerCase().includes(words) || (it.tags ?? []).some(([, value]) => value.toLowerCase().includes(words));

const originOf = (it) => (collection.file ? { file: collection.file.id, number: it.number } : null);

// A game of the list: beside what has been done, and in the place of one that is as it came from a file.
const openListed = (it) => doing(async () => {
  const { bytes } = collection;
  const origin = originOf(it);
  if (!await isSettled() || !await taken(bytes.slice(it.at, it.at + it.used), { isBeside: !isAsLoaded(), origin })) return;
  noteOpened(collection, it);
});

// A game that can't be read, as far as the module saves it; null where no move is left.
const repairedOf = async ({ bytes }, it) => {
  const saved = await ask('salvage', { bytes: bytes.slice(it.at, it.at + MOST_REPAIRED) });
  return saved?.hasMoves ? saved : null;
};

// It comes on the board, and its repairs are said. It is a game of its own, which has no place in the file. Only in turn.
const takeRepaired = async (saved, it, isBeside) => {
  if (!await isSettled() || !await taken(saved.bytes, { isBeside })) return false;
  page.told(`This game was repaired (${faultWords(it.fault, it.where)}): ${repaired(saved.repairs)}.`);
  return true;
};

const openRepaired = (it) => doing(async () => {
  const of = collection;
  const saved = await repairedOf(of, it);
  if (!saved) page.told(`Nothing of it can be read: ${faultWords(it.fault, it.where)}.`);
  else if (await takeRepaired(saved, it, !isAsLoaded())) noteOpened(of, it);
});

const openPosition = async (it) => {
  const of = collection;
  if (await another(`set ${it.fen}`, calledOf(it.said))) noteOpened(of, it);
};

const noteOpened = (of, { number }) => {
  of.opened.set(idHere(), number);
  markOpened();
};

// The entry of the list that is on the board.
export const markOpened = () => {
  const { file, opened } = collection;
  list.mark(file && game.origin ? game.origin.file === file.id && game.origin.number : opened.get(idHere()));
};

const CELLS = ['result', 'event', 'date', 'wrong'];

// A row of the list: what opens it, and for a game its other cells.
const fills = (row, it) => {
  const [cell] = row.children;
  const [button] = cell.children;
  if (it.isBad) row.className = 'bad';
  else if (it.finding) row.className = 'finding';
  if (it.refused) {
    row.classList.add('refused');
    cell.textContent = it.label;
    return;
  }
  if (it.fen) button.title = it.fen;
  if (it.isBad) button.title = 'Show it repaired';
  const [first, ...others] = it.tags ? cellsOf(it) : [it.label];
  button.textContent = first;
  others.forEach((text, i) => {
    const other = document.createElement('span');
    other.setAttribute('role', 'cell');
    other.className = CELLS[i];
    other.textContent = text && ` ${text}`;
    row.append(other);
  });
};

const list = new List({
  texts: { number: () => '', players: (it) => known(it, 'White', 'Black') && `${tagOf(it, 'White')}\n${tagOf(it, 'Black')}`, ...Object.fromEntries(['Result', 'Event', 'Date'].map((name) => [name.toLowerCase(), (it) => known(it, name)])) },
  fills,
  opens: (it) => (it.fen ? openPosition(it) : it.isBad ? openRepaired(it) : openListed(it)),
});

// Where the list was left is kept with the window, so that it comes back there after a reload.
addEventListener('pagehide', () => {
  try {
    sessionStorage.setItem('list', JSON.stringify({ file: collection.file?.id, ...list.where }));
  } catch {
    // (a window that may keep nothing)
  }
});
const left = () => {
  try {
    return JSON.parse(sessionStorage.getItem('list'));
  } catch {
    return null;
  }
};

// What is listed stays where it is while the list grows, so that it can be clicked.
export const showCollection = () => {
  const words = by('find').value.toLowerCase();
  const { found, bad, wrong, arePositions, isRead } = collection;
  const good = found.length - bad;
  const counted = arePositions ? [`${good} position${good === 1 ? '' : 's'}`, bad === 1 ? ', and a line that can\u2019t be read' : `, and ${bad} lines that can\u2019t be read`] : [`${good} games`, `, and ${bad} that can\u2019t be read`];
  const beyond = list.show({ of: collection, words, found, has: (it) => !words || has(it, words), isRead, isTable: !arePositions });
  by('howmany').textContent = `${counted[0]}${bad ? counted[1] : ''}${wrong ? `; ${wrong} with a finding` : ''}${beyond ? `; ${beyond} more aren\u2019t shown` : ''}`;
  markOpened();
};

// ---- Reading.

// What was found goes into the list.
const listed = (into, found, labelled) => {
  for (const it of found) {
    const isBad = it.fault !== undefined || it.refused !== undefined;
    into.found.push({ ...it, isBad, label: labelled(it) });
    if (isBad) into.bad++;
    if (it.finding) into.wrong++;
  }
};

// Reads a text of positions: one comes on the board; of several there is a list, and the board stays.
const readPositions = async (bytes) => {
  const rows = fromBytes(bytes).split('\n').filter((it) => it.trim());
  const [{ fen, said }] = rows.map(position);
  if (rows.length === 1 && (!await another(`set ${fen}`, calledOf(said)) || !said.length)) return;
  const mine = collected({ bytes, arePositions: true });
  collection = mine;
  const add = (found) => {
    if (collection !== mine) return;
    listed(mine, found, positionLabel);
    by('collection').hidden = false;
    showCollection();
  };
  list.comeTo();
  const { found } = await ask('positions', { bytes }, add);
  mine.isRead = true;
  add(found);
  if (collection === mine && rows.length > 1) page.told('The positions are in the list: choose one. The board is as it was.');
};

/**
 * Reads a text that was given when so much was done: a FEN, a game, or many. The first game comes on the board, beside the one that is there; but where something was
 * done since, the board stays, and it is in the list.
 */
export const read = async (bytes, { before = game.acts, file = null } = {}) => {
  if (areMostPositions(fromBytes(bytes.subarray(0, 65536)))) {
    await readPositions(bytes);
    return;
  }
  const [old, place] = [collection, list.where];
  const mine = collected({ bytes, file });
  collection = mine;
  list.comeTo(file ? [{ file: old.file?.id, ...place }, left()].find((it) => it?.file === file.id) : {});
  by('collection').hidden = true;
  // (`before` is null where none is to come on the board)
  const take = (it) => inTurn(async () => {
    if (game.acts !== before || collection !== mine || !await isSettled()) return false;
    const isTaken = await taken(bytes.slice(it.at, it.at + it.used), { isBeside: !file || !isAsLoaded(), origin: originOf(it) });
    if (isTaken) noteOpened(mine, it);
    return isTaken;
  });
  const show = () => {
    const { found, bad, isLoaded } = collection;
    by('collection').hidden = found.length < 2 && !bad && isLoaded !== false;
    showCollection();
  };
  const add = (found) => {
    if (collection !== mine) return;
    listed(mine, found, label);
    const first = found.find((it) => it.used !== undefined);
    if (first) mine.first ??= take(first).then((is) => { mine.isLoaded = is; });
    show();
  };
  const { found: last } = await ask('games', { bytes, isPasted: !file }, add);
  mine.isRead = true;
  add(last);
  await mine.first;
  if (collection !== mine) return;
  const [bad] = mine.first ? [] : mine.found;
  const saved = bad && before !== null ? await repairedOf(mine, bad) : null;
  if (collection !== mine) return;
  // (a text without a game leaves the list that was there)
  if (!file && !mine.first && !saved && old.first) {
    collection = old;
    list.comeTo(place);
  }
  show();
  if (before === null) return;
  const isFree = () => game.acts === before;
  if (mine.first) {
    if (!mine.isLoaded && !isFree()) page.told('The games of the file are in the list; the board is as you left it.');
  } else if (saved) {
    // (where none can be read the first is shown repaired)
    if (await inTurn(async () => isFree() && takeRepaired(saved, bad, !file || !isAsLoaded()))) noteOpened(mine, bad);
    else if (!isFree()) page.told('The game is in the list; the board is as you left it.');
  } else if (bad) page.told(`No game can be read: ${faultWords(bad.fault, bad.where)}.`);
  else page.told('There is no game in it.');
};

/** Reads a file, which is kept in the browser, so that a game of it can be written back. */
export const readWhole = async (given, before, handle = null) => {
  const bytes = new Uint8Array(await given.arrayBuffer());
  const file = { id: newFileId(), name: given.name, handle };
  if (hasStore()) {
    try {
      await writeFile({ ...file, bytes: new Blob([bytes]) });
    } catch (error) {
      page.told(`The file could not be kept in the browser: ${error.message}`);
    }
  }
  await read(bytes, { before, file });
};

/** Opens a file that is chosen: where the browser gives files to be written, with that. */
export const choose = async () => {
  const before = game.acts;
  if (!globalThis.showOpenFilePicker) {
    by('file').click();
    return;
  }
  let handle;
  try {
    [handle] = await showOpenFilePicker({ types: [{ description: 'Chess games', accept: { 'text/plain': ['.pgn', '.fen', '.epd', '.txt'] } }] });
  } catch {
    // (none was chosen)
    return;
  }
  await readWhole(await handle.getFile(), before, handle);
};

const MOST_LISTED_AGAIN = 4 << 20;

/** Lists the games of the file that the game on the board came from, as after a reload. */
export const listAgain = async () => {
  const kept = game.origin && hasStore() ? await readFile(game.origin.file) : null;
  if (!kept || kept.bytes.size > MOST_LISTED_AGAIN) return;
  const { id, name, handle } = kept;
  await read(new Uint8Array(await kept.bytes.arrayBuffer()), { before: null, file: { id, name, handle } });
};

// ---- Writing.

export const download = (bytes, name) => {
  const it = document.createElement('a');
  it.href = URL.createObjectURL(new Blob([bytes], { type: 'application/x-chess-pgn' }));
  it.download = name;
  it.click();
  URL.revokeObjectURL(it.href);
};

const joined = (parts) => {
  const whole = new Uint8Array(parts.reduce((sum, it) => sum + it.length, 0));
  let at = 0;
  for (const it of parts) {
    whole.set(it, at);
    at += it.length;
  }
  return whole;
};

const isEqual = (a, b) => a.length === b.length && a.every((it, i) => it === b[i]);

// The file's bytes with that game in the place of the one with the number. What is before it and after it stays.
const withGame = async (bytes, number, text) => {
  const place = await ask('place', { bytes, number });
  if (!place) throw new Error(`There is no game ${number} in the file.`);
  return joined([bytes.subarray(0, place.from), toBytes(text.trimEnd()), bytes.subarray(place.end)]);
};

// Writes where the file was opened from, if it is still what was read there; else the file is downloaded.
const delivered = async ({ handle, name }, was, now) => {
  if (!handle) {
    download(now, name);
    return `The file ${name} is downloaded with the game in its place.`;
  }
  if (!isEqual(new Uint8Array(await (await handle.getFile()).arrayBuffer()), was)) throw new Error(`${name} was changed since it was opened: open it again.`);
  const out = await handle.createWritable();
  await out.write(now);
  await out.close();
  return `The game is in its place in ${name}.`;
};

/** Writes the game on the board back into its place in the file that it came from. */
export const saveBack = async () => {
  const { origin } = game;
  if (!origin) throw new Error('This game came from no file.');
  const isListed = collection.file?.id === origin.file;
  const kept = hasStore() ? await readFile(origin.file) : null;
  const file = kept ?? (isListed ? collection.file : null);
  if (!file) throw new Error('The file of this game is no more in this browser.');
  // (asked for at once, while the browser still knows of the click)
  if (file.handle && await file.handle.requestPermission({ mode: 'readwrite' }) !== 'granted') throw new Error(`${file.name} may not be written.`);
  const was = kept ? new Uint8Array(await kept.bytes.arrayBuffer()) : collection.bytes;
  const now = await withGame(was, origin.number, exported());
  const said = await delivered(file, was, now);
  if (kept) await writeFile({ ...kept, bytes: new Blob([now]) });
  page.told(said);
  if (isListed) await read(now, { before: null, file: collection.file });
};
