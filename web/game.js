// The game on the board: what the board says of it, the comment that is being typed, and the states before.
import { ask } from './ask.js';
import { joined, split, toggled, withDiagram } from './commands.js';
import { History } from './history.js';
import { shown, toBytes } from './jatshegi/src/bytes.js';
import { typed } from './pgn.js';
import { faultText, refusal } from './words.js';

/**
 * `acts` is how much a person has done: what is read from a file meanwhile doesn't take its place. `draft` is the comment that is being typed, `{path, text, box}`:
 * the path of its node, the whole comment, and the words in the box. It is kept until it is set or given up. `isMoved` is whether what is drawn comes of a move that was made, or of a game that was begun.
 */
export const game = { state: null, origin: null, history: new History(), draft: null, acts: 0, isMoved: false };

/**
 * What the page does when the game is another, when it has been noted, which is a new state or none, and when something is to be said; and with the games that it keeps:
 * whether another can begin beside this one, that one does, and a step of undo or redo that leads to another game, if it does.
 */
export const page = { draw() {}, drawTags() {}, noted() {}, told() {}, keepsGames: () => false, beside() {}, beyond: () => false };

// What the board is asked to do: one thing after another, each once the one before is drawn.
let turn = Promise.resolve();
export const inTurn = (work) => {
  const it = turn.then(work);
  turn = it.catch(() => {});
  return it;
};
export const settled = () => turn;

/** As `inTurn`, and an error is reported. */
export const doing = (work) => {
  game.acts++;
  return inTurn(work).catch((error) => {
    page.told(error.message);
    return false;
  });
};

/** The game in export form, as the module writes it. */
export const exported = () => {
  const { pgn } = game.state;
  if (pgn.startsWith('refused')) throw new Error(`The game can\u2019t be written: ${refusal(pgn)}`);
  return pgn;
};

// As `ask`, of a job that answers with a state, in which the game's text comes only where it is another than that of the state which is here.
const asked = async (job, more) => {
  const had = game.state;
  const found = await ask(job, { ...more, has: had?.number });
  if (found.state) found.state.pgn ??= had.pgn;
  return found;
};

// ---- The states.

// Notes how the game now is. What can't be written can't be noted. Of a game from a file it is said that it `isLoaded`, as it is there: once something is done with one,
// the games that were looked at before in its place are no states of it, so that no change of them takes its place.
const note = (isLoaded = false) => {
  const { state, origin } = game;
  if (state.pgn.startsWith('refused')) {
    page.told(`Since the last move or so nothing can be undone or kept: ${refusal(state.pgn)}`);
    return;
  }
  const { history } = game;
  const isNew = history.note({ origin, pgn: state.pgn, path: state.path, ...(isLoaded ? { isLoaded } : {}) });
  if (isNew && !isLoaded && history.states[history.at - 1]?.isLoaded) history.forgetBefore(history.at - 1);
  page.noted(isNew);
};

/** Has the module restore a state. Where it can't, all is as before. */
const restored = async ({ origin, pgn, path }) => {
  const found = await asked('restore', { bytes: toBytes(pgn), path });
  if (found.status !== 0) {
    page.told(`That can\u2019t be restored: ${faultText(found.status)}.`);
    return false;
  }
  Object.assign(game, { origin: origin ?? null, state: found.state });
  const isExact = found.state.pgn === pgn && found.state.path === path;
  page.told(isExact ? '' : 'The module gives this state otherwise than it was.');
  return true;
};

const travel = (by) => doing(async () => {
  if (game.draft && !await answered([])) return false;
  if (await page.beyond(by)) return true;
  const { history } = game;
  const wanted = history.states[history.at + by];
  if (!wanted || !await restored(wanted)) return false;
  history.at += by;
  game.draft = wanted.draft ?? null;
  delete wanted.draft;
  page.noted();
  page.drawTags();
  page.draw();
  return true;
});
export const undo = () => travel(-1);
export const redo = () => travel(1);

/** Puts a game with its states on the board, as it was left; `put` is called once it is there. Only in turn. */
export const shownAgain = async (history, draft, put) => {
  if (!await restored(history.here)) return false;
  Object.assign(game, { history, draft });
  put();
  page.drawTags();
  page.draw();
  return true;
};

// ---- Lines of the board.

const to = (path) => (path === '-' ? 'start' : `goto ${path}`);
const commentLine = ({ text }) => `comment ${typed(text)}`;

// Has the board answer lines, up to one that is refused; or begin a game by one.
const say = async (all, job = 'lines') => {
  const { answers, state } = await asked(job, { lines: all.map((it) => it.replace(/[\r\n]+/g, ' ')) });
  return { answers, bad: answers.find((it) => it.startsWith('refused')), state };
};

// A comment that was typed in the moment in which its node went stays with the state that had it, and comes back with that.
const leaveDraft = () => {
  if (game.draft && game.history.here) game.history.here.draft = game.draft;
  game.draft = null;
};

// A comment that was typed while the board answered is one of the node that was shown then.
const settle = async (all, { bad, state }) => {
  if (!game.draft || game.draft.path === state.path) return { bad, state };
  const late = game.draft;
  if (all.includes('promote')) game.draft = { ...late, path: state.path };
  else if (all.includes('delete')) leaveDraft();
  else {
    const more = await say([to(late.path), commentLine(late), to(state.path)]);
    if (game.draft === late && !more.bad) game.draft = null;
    return { bad: bad ?? more.bad, state: more.state };
  }
  return { bad, state };
};

/** Sets the comment that is being typed: a state of its own. Where it is refused, it stays in its box. Only in turn. */
const setDraft = async () => {
  const kept = game.draft;
  if (!kept) return undefined;
  const { bad, state } = await say([commentLine(kept)]);
  if (!bad) {
    if (game.draft === kept) game.draft = null;
    game.state = state;
    note();
  }
  return bad;
};

/** Has the board answer lines, and draws what it then is. Only in turn. */
const answered = async (all) => {
  let bad = await setDraft();
  if (!bad) {
    const found = await settle(all, await say(all));
    game.state = found.state;
    bad = found.bad;
    game.isMoved = !bad && all.some((it) => it.startsWith('play '));
  }
  page.told(bad ? refusal(bad) : '');
  note();
  page.draw();
  return !bad;
};

/** Has the board answer lines, and draws what it then is. Returns whether all were answered. */
export const lines = (...all) => doing(() => answered(all));

// Has the comment at the cursor other commands; `said` gives that comment.
const commanded = (change, said) => doing(async () => {
  if (!await isSettled()) return false;
  const { commands, words } = split(said());
  return answered([`comment ${typed(joined(change(commands), words))}`]);
});

/** Draws an arrow or a circle in the comment at the cursor, as `Ge2e4` or `Rd5`, or takes it out. `said` gives the comment there. */
export const drawn = (item, said) => commanded((commands) => toggled(commands, item), said);

/** Has a print show a diagram at the cursor, or none there. */
export const diagrammed = (said) => commanded(withDiagram, said);

/** Plays the move that a text as people type it means. Where it means none or several, that is said and nothing has changed. */
export const playTyped = (text) => doing(async () => {
  if (!await isSettled()) return false;
  const { move, among, why } = await ask('meant', { text });
  if (move) return answered([`play ${move}`]);
  page.told(among ? `That may be ${among.join(' or ')}: say which.` : refusal(why));
  return false;
});

/** As `lines`, for one line, in turn. */
export const stepped = (line) => answered([line]);

// Another game is on the board, as it began. It is beside the one that was there, which is kept with the comment that is being typed; `more` is what the page knows of
// it. Where no game is kept it `isBeside` none and takes the place of the one that was there, and undo brings that back.
const puts = (state, { origin = null, isMoved = false, isBeside = true, more = {} }) => {
  if (isBeside && page.keepsGames()) {
    if (game.draft) page.noted();
    const history = new History();
    page.beside(history, more);
    Object.assign(game, { history, draft: null });
  } else leaveDraft();
  Object.assign(game, { state, origin, isMoved });
  page.told('');
  note(origin !== null);
  page.drawTags();
  page.draw();
};

/** Begins another game by `new` or `set FEN`. Refused, all is as it was. */
export const begin = (line, more = {}) => doing(async () => {
  if (!await isSettled()) return false;
  const { bad, state } = await say([line], 'begin');
  if (bad) {
    page.told(refusal(bad));
    return false;
  }
  puts(state, { isMoved: true, more: { isEmpty: line === 'new', ...more } });
  return true;
});

/** The board as a game begins, with no state before. Only in turn, and with no comment that is being typed. */
export const beginAlone = async () => {
  const { bad, state } = await say(['new'], 'begin');
  if (bad) {
    page.told(refusal(bad));
    return false;
  }
  Object.assign(game, { state, origin: null, history: new History(), draft: null });
  game.history.note({ pgn: state.pgn, path: state.path });
  return true;
};

/** Sets a comment that is being typed, before something else is done with the game. Only in turn. */
export const isSettled = async () => !game.draft || answered([]);

/**
 * Has the board give a tag a value, a byte string, or take it out where that is empty (the job `tag`); or say how the game ended, by its number (the job `result`).
 * Refused, all is as it was.
 */
export const retag = (job, name, value) => doing(async () => {
  const { status, state } = await asked(job, { name, value });
  if (status !== 0) throw new Error(`${name} stays as it was: ${faultText(status)}`);
  game.state = state;
  page.told('');
  note();
  page.draw();
});

/** Takes the marks of the move at the cursor out; at the root that is said. */
export const unmark = () => doing(async () => {
  if (!await isSettled()) return false;
  const { status, state } = await asked('unmark', {});
  if (status === 8) {
    page.told(refusal('refused 2 AtRoot'));
    return false;
  }
  if (status !== 0) throw new Error(`The marks stay as they were: ${faultText(status)}`);
  game.state = state;
  page.told('');
  note();
  page.draw();
  return true;
});

// Of each of these groups of marks a move has one: what is said of the move, and of the position after it.
const GROUPS = [[1, 2, 3, 4, 5, 6], [10, 11, 12, 13, 14, 15, 16, 17, 18, 19, 20, 21]];

/** Marks the move at the cursor, in the place of another mark of the same group; the mark that it has is taken out. `had` gives the marks that it has. */
export const mark = (nag, had) => doing(async () => {
  if (!await isSettled()) return false;
  const was = had();
  const group = GROUPS.find((it) => it.includes(nag)) ?? [nag];
  const now = [...was.filter((it) => !group.includes(it)), ...(was.includes(nag) ? [] : [nag])];
  if (now.length > was.length) return answered([`nag ${nag}`]);
  const { status } = await asked('unmark', {});
  const { bad, state } = await say(status === 0 ? now.map((it) => `nag ${it}`) : []);
  if (status !== 0 || bad) {
    await restored(game.history.here);
    page.told(bad ? refusal(bad) : `The marks stay as they were: ${faultText(status)}`);
    page.draw();
    return false;
  }
  game.state = state;
  page.told('');
  note();
  page.draw();
  return true;
});

/**
 * The text's first game comes on the board, at the node with that path: beside the one that is there, or if it `isBeside` none in its place. `origin` is the file and
 * the number of the game there. Only in turn, once `isSettled`.
 */
export const taken = async (bytes, { path = '-', isBeside = true, origin = null } = {}) => {
  const found = await asked('load', { bytes, path });
  if (found.status !== 0) {
    page.told(found.status === 16 ? 'There is no game in it.' : `No game: ${faultText(found.status, found.where)}.`);
    return false;
  }
  puts(found.state, { origin, isBeside, more: { isEmpty: false } });
  return true;
};

/** What a tag says, for showing; empty where nothing is known. */
export const tag = (name) => shown(game.state.tags[name].replace(/^(\?|\?{4}\.\?\?\.\?\?)$/, ''));

/** The name of a file for the game: its players and its date, as far as they are known. */
export const fileName = () => {
  const known = tag('White') || tag('Black') ? ['White', 'Black', 'Date'] : ['Event', 'Date'];
  const words = known.map((name) => tag(name).replace(/[^\p{L}\p{M}\p{N}.]+/gu, '_').replace(/^[_.]+|[_.]+$/g, '')).filter(Boolean);
  return `${words.join('-').slice(0, 100) || 'game'}.pgn`;
};
