// The engine on the page: what it says, how it is stopped, and its replies in a game against it.
import { ask, module } from './ask.js';
import { evaluationHere } from './draw.js';
import { note, toggleRun } from './evals.js';
import { game, lines } from './game.js';
import { share } from './graph.js';

const by = (id) => document.getElementById(id);

// A worker hears a line only between two slices, and a slice is a root move searched to its end. One that doesn't stop within `PATIENCE`
// milliseconds is put away, and another one, which was begun before, takes its place.
const PATIENCE = 25;

const engine = { worker: null, spare: null, searching: false, stopping: false, side: 'w', fen: '', wanted: null, done: null, reply: null, patience: 0, last: '', said: undefined, named: null, isHurried: false };

// ---- What is shown.

const drawBar = (value, text) => {
  by('barwhite').style.height = `${share(value)}%`;
  by('barvalue').textContent = text.replace(/^[+\u2212]/, '').slice(0, 4);
  by('barvalue').className = value < 0 ? 'black' : '';
  by('value').textContent = text;
  by('bar').classList.remove('off');
  by('bar').setAttribute('aria-label', `Evaluation: ${text} for White`);
};

const hideBar = () => {
  by('bar').classList.add('off');
  by('value').textContent = '';
};

const signed = (value, digits) => `${value > 0 ? '+' : value < 0 ? '\u2212' : ''}${Math.abs(value / 100).toFixed(digits)}`;
const brief = (value) => signed(value, Math.abs(value) < 995 ? 1 : 0);
const thinking = (text) => {
  by('thinking').textContent = text;
};

/** Where the page shows the best move on the board. */
export const points = { at() {} };

const clear = () => {
  by('lines').replaceChildren();
  by('depths').hidden = true;
  engine.named = null;
  points.at('');
};

/** Shows the earlier depths below the last, or folds them away. */
export const toggleDepths = () => {
  const isShown = by('lines').classList.toggle('all');
  by('depths').setAttribute('aria-expanded', String(isShown));
};

// A line of the engine: its value for White, the move, and the depth. A click plays the move.
const drawLine = ({ depth, isMate, value, move }) => {
  const { fen } = engine;
  const row = document.createElement('li');
  const button = document.createElement('button');
  const [score, san, at] = ['b', 'span', 'small'].map((name) => document.createElement(name));
  score.textContent = isMate ? `${value > 0 ? '' : '\u2212'}#${Math.abs(value)}` : signed(value, 2);
  san.textContent = move;
  at.textContent = `depth ${depth}`;
  button.append(score, san, at);
  button.onclick = () => game.state.fen === fen && lines(`play ${move}`);
  row.dataset.move = move;
  row.dataset.depth = depth;
  row.append(button);
  by('lines').prepend(row);
  by('depths').hidden = by('lines').children.length < 2;
  ask('words', { fen, moves: [move] }).then(([found]) => {
    san.textContent = found;
  }, () => {});
};

// ---- The workers.

const begun = () => {
  const worker = new Worker(new URL('engine.js', import.meta.url), { type: 'module' });
  const it = { worker, ready: false };
  worker.onmessage = ({ data }) => {
    if ('opened' in data) {
      it.ready = data.opened;
      if (!it.ready && it === engine.worker) thinking('There is no memory for the engine');
      go();
    } else if (it === engine.worker) heard(data.reply);
  };
  // (the board has begun with it before)
  module.then((compiled) => worker.postMessage({ module: compiled }));
  return it;
};

const startEngine = () => {
  engine.worker?.worker.terminate();
  engine.worker = engine.spare ?? begun();
  engine.spare = begun();
  engine.searching = false;
  engine.stopping = false;
  go();
};

const stopped = () => {
  engine.searching = false;
  engine.stopping = false;
  clearTimeout(engine.patience);
  go();
};

/**
 * Stops the search at once. The machine's answer to `stop` is the move of the last depth that it completed, which it named in its last `info`; a slice that is given
 * up with its worker is no event of the machine. Where that answer `isWanted`, it is the machine's own `bestmove` if it comes in time, else the move so named.
 */
const stopEngine = (isWanted = false) => {
  if (!engine.searching || engine.stopping) return;
  const { named, done } = engine;
  engine.stopping = true;
  engine.done = isWanted ? done : null;
  thinking(named ? `Stopped at depth ${named.depth}` : 'Stopped');
  by('now').hidden = true;
  engine.worker.worker.postMessage({ line: 'stop' });
  engine.patience = setTimeout(() => {
    startEngine();
    if (isWanted) done?.(named.move);
  }, PATIENCE);
};

/** Has the engine move now that it thinks of its reply: once it has completed a depth. */
export const moveNow = () => {
  if (engine.named) stopEngine(true);
  else engine.isHurried = true;
};

// Begins what is wanted, once nothing else runs.
const go = () => {
  if (!engine.wanted || !engine.worker?.ready || engine.searching) return;
  const { position, fen, depth, done } = engine.wanted;
  Object.assign(engine, { wanted: null, searching: true, stopping: false, isHurried: false, done, fen, side: fen.split(' ')[1] });
  clear();
  by('now').hidden = !done;
  thinking(`Depth 0 of ${depth}`);
  engine.depth = depth;
  for (const line of [position, `go depth ${depth}`]) engine.worker.worker.postMessage({ line });
};

const search = async (depth, done) => {
  const { fen } = game.state;
  const position = await ask('position');
  if (game.state.fen !== fen || !(analyses() || done)) return;
  engine.wanted = { position, fen, depth, done };
  if (!engine.worker) startEngine();
  else if (engine.searching) stopEngine();
  else go();
};

const heard = (said) => {
  const info = /^info depth (\d+) score (cp|mate) (-?\d+) pv (\S+)/.exec(said);
  // (what it still says of the position before is of none that is shown)
  if (info && !engine.stopping && engine.fen === game.state.fen) {
    const value = (engine.side === 'w' ? 1 : -1) * Number(info[3]);
    engine.named = { depth: Number(info[1]), isMate: info[2] === 'mate', value, move: info[4] };
    drawLine(engine.named);
    note(engine.fen, engine.named);
    if (analyses()) points.at(info[4]);
    thinking(`Depth ${info[1]} of ${engine.depth}`);
    if (analyses()) drawBar(engine.named.isMate ? Math.sign(value) * 2000 : value, engine.named.isMate ? `#${Math.abs(value)}` : brief(value));
    if (engine.isHurried) stopEngine(true);
  }
  const best = /^bestmove (\S+)/.exec(said);
  if (best) {
    const { done, stopping } = engine;
    if (!stopping) thinking(`Depth ${engine.depth}`);
    by('now').hidden = true;
    stopped();
    done?.(best[1]);
  }
};

// ---- What it is asked.

const depthNow = () => Math.min(16, Math.max(1, Math.floor(Number(by('depth').value)) || 1));
const analyses = () => by('analyse').getAttribute('aria-pressed') === 'true';

/** Makes the engine's move, once no comment is being typed. */
export const reply = () => {
  if (game.draft || !engine.reply) return;
  const { m, fen } = engine.reply;
  engine.reply = null;
  if (by('plays').value === fen.split(' ')[1] && game.state.fen === fen) lines(`play ${m}`);
};

/** What the engine is to do with the position that is there; it replies where a person moved, or chose its side. */
export const positionChanged = (isMoved = true) => {
  const { fen, moves } = game.state;
  const isOver = moves.length === 0;
  const plays = by('plays').value;
  document.body.classList.toggle('analysing', analyses() || plays !== '');
  if (engine.fen !== fen) clear();
  if (plays === fen.split(' ')[1] && !isOver && isMoved) {
    search(depthNow(), (m) => {
      engine.reply = { m, fen };
      reply();
    });
  } else if (analyses() && !isOver) search(depthNow(), null);
  else {
    engine.wanted = null;
    stopEngine();
    points.at('');
    drawEvaluation();
    if (!engine.searching) thinking(analyses() ? 'The game is over' : 'Engine off');
  }
};

// Without the engine the bar shows how the game ended, or what the comment evaluates the position to.
const drawEvaluation = () => {
  const { fen, status } = game.state;
  const said = evaluationHere();
  if (status === 'play' && said) drawBar(100 * said.value, said.text);
  else if (status === 'play') {
    // (the engine says it anew at once)
    if (!analyses()) hideBar();
  }
  else if (status === 'mate') drawBar(fen.split(' ')[1] === 'b' ? 2000 : -2000, fen.split(' ')[1] === 'b' ? '1\u20130' : '0\u20131');
  else drawBar(0, '\u00bd');
};

/** The position is drawn: where it is another, its evaluation is shown, and the engine gets it. */
export const positionDrawn = (isMoved) => {
  const said = evaluationHere()?.text;
  if (engine.last !== game.state.fen) {
    drawEvaluation();
    positionChanged(isMoved);
  } else if (engine.said !== said && !analyses()) drawEvaluation();
  Object.assign(engine, { last: game.state.fen, said });
  reply();
};

/** Begins or ends the engine's run over the whole game. */
export const toggleAll = () => toggleRun(depthNow());

export const toggleAnalysis = () => {
  by('analyse').setAttribute('aria-pressed', String(!analyses()));
  // (a reply that is being thought of goes on)
  positionChanged(Boolean(engine.searching && engine.done));
};
