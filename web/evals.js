// What the engine said of positions, and the run over the whole game that a button begins and ends.
import { ask, module } from './ask.js';
import { game } from './game.js';

const by = (id) => document.getElementById(id);

// By the FEN of a position: the depth, and for White the value in pawns and its text.
const found = new Map();

/** What the page does when there is another evaluation. */
export const watch = { changed() {} };

/** Notes what the engine says of a position, in centipawns or moves to mate for White. Of several depths the deepest stays. */
export const note = (fen, { depth, isMate, value }) => {
  if (found.get(fen)?.depth > depth) return;
  const sign = value < 0 ? '\u2212' : '';
  const text = isMate ? `${sign}#${Math.abs(value)}` : `${sign || (value > 0 ? '+' : '')}${Math.abs(value / 100).toFixed(1)}`;
  found.set(fen, { depth, text, value: isMate ? Math.sign(value) * (1000 - Math.min(900, Math.abs(value))) : value / 100 });
  watch.changed();
};

// The positions of the main line, from its start on, each with its FEN, its move and its status.
let line = { pgn: null, positions: [] };
const positionsNow = async () => {
  const { pgn } = game.state;
  if (line.pgn !== pgn) line = { pgn, positions: await ask('mainline') };
  return line.positions;
};

/** The engine's evaluations along the main line: for each of its moves one, or null. */
export const evaluations = async () => (found.size ? (await positionsNow()).slice(1).map(({ fen }) => found.get(fen) ?? null) : []);

// ---- The whole game.

// What runs: its worker, and how far it is; null where nothing does.
let run = null;

const told = (text) => { by('analysed').textContent = text; };

const ended = (text) => {
  run?.worker.terminate();
  run = null;
  by('analyseall').setAttribute('aria-pressed', 'false');
  told(text);
};

const MATE = /^info depth (\d+) score (cp|mate) (-?\d+) /;

// Goes on with the next position that isn't known to this depth.
const next = () => {
  const { todo, worker, depth } = run;
  while (todo.length && found.get(todo[0].fen)?.depth >= depth) {
    todo.shift();
    run.done++;
  }
  if (!todo.length) {
    ended(`All ${run.done} positions are analysed to depth ${depth}`);
    return;
  }
  told(`Analysed ${run.done} of ${run.done + todo.length}`);
  const moves = run.moves.slice(1, todo[0].at + 1);
  worker.postMessage({ line: ['position fen', run.start, ...(moves.length ? ['moves', ...moves] : [])].join(' ') });
  worker.postMessage({ line: `go depth ${depth}` });
};

const heard = (of, said) => {
  if (run !== of) return;
  const [here] = of.todo;
  const [, depth, kind, number] = MATE.exec(said) ?? [];
  if (depth) note(here.fen, { depth: Number(depth), isMate: kind === 'mate', value: (here.fen.split(' ')[1] === 'w' ? 1 : -1) * Number(number) });
  if (!said.startsWith('bestmove')) return;
  of.todo.shift();
  of.done++;
  next();
};

const begin = async (depth) => {
  const mine = { worker: new Worker(new URL('engine.js', import.meta.url), { type: 'module' }), depth, done: 0, todo: [] };
  run = mine;
  by('analyseall').setAttribute('aria-pressed', 'true');
  told('Analysing the game');
  mine.worker.onerror = () => run === mine && ended('The engine could not be begun');
  mine.worker.onmessage = ({ data }) => {
    if (!('opened' in data)) heard(mine, data.reply);
    else if (data.opened && run === mine) next();
    else if (run === mine) ended('There is no memory for the engine');
  };
  const positions = await positionsNow();
  // (a game that is over needs no engine)
  const todo = positions.map((it, at) => ({ ...it, at })).filter(({ status }) => status === 'play');
  Object.assign(mine, { todo, start: positions[0]?.fen, moves: positions.map(({ last }) => last) });
  mine.worker.postMessage({ module: await module });
};

/** Begins the run over the main line, to a depth, or ends the one that runs. What was said until then stays. */
export const toggleRun = async (depth) => {
  if (run) {
    ended(`Ended: ${run.done} of ${run.done + run.todo.length} positions are analysed`);
    return;
  }
  try {
    await begin(depth);
  } catch (error) {
    ended(error.message);
  }
};
