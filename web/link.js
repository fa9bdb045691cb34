// A link that holds the game: its export form, deflated, after the sign #. And an address that names a position, by ?fen= or #fen=.
import { ask } from './ask.js';
import { exported, game, inTurn, isSettled, page, taken } from './game.js';
import { fromBytes, toBytes } from './jatshegi/src/bytes.js';
import { another, isFresh, isPosition, keepLinkOf } from './mine.js';
import { typed } from './pgn.js';
import { refusal } from './words.js';

const LONGEST = 60000;
let waiting;

const through = async (bytes, stream) => new Uint8Array(await new Response(new Blob([bytes]).stream().pipeThrough(stream)).arrayBuffer());

const deflated = async (pgn) => btoa(fromBytes(await through(toBytes(pgn), new CompressionStream('deflate-raw'))))
  .replaceAll('+', '-').replaceAll('/', '_').replace(/=+$/, '');

// The game's text as a link has it, which a step leaves as it is.
let last = { pgn: '', held: '' };
const heldNow = async () => {
  const pgn = exported();
  if (last.pgn !== pgn) last = { pgn, held: await deflated(pgn) };
  return last.held;
};

const whole = (held, isTurned) => `#g=${held}&p=${game.state.path}${isTurned ? '&f=1' : ''}`;

/** The link of the game as it is, from the sign # on. */
export const linkNow = async (isTurned) => whole(await heldNow(), isTurned);

// The address without a position or a game.
const bare = () => {
  const words = new URLSearchParams(location.search);
  if (!words.has('fen')) return location.pathname + location.search;
  words.delete('fen');
  words.delete('f');
  return location.pathname + (words.size ? `?${words}` : '');
};

const putLink = async (isTurned) => {
  const { state } = game;
  const held = isFresh() ? '' : await heldNow();
  if (game.state !== state) return;
  const isHeld = held && held.length <= LONGEST;
  const position = isPosition() ? `#fen=${state.fen.replaceAll(' ', '_')}${isTurned ? '&f=1' : ''}` : '';
  // (an address that can't hold the game holds none, and no older one)
  history.replaceState(null, '', bare() + (isHeld ? whole(held, isTurned) : position));
  keepLinkOf(isHeld ? held : '');
};

/** Has the address hold the game, a little later. */
export const keepLink = (isTurned) => {
  clearTimeout(waiting);
  waiting = setTimeout(() => {
    // (a game that can't be written has no link; what is asked for by a button says why)
    putLink(isTurned).catch(() => {});
  }, 150);
};

/** Whether the page shows the board with its moves alone, in a frame of another page. */
export const isEmbedded = () => new URLSearchParams(location.search).has('embed');

/** What an address holds, the page's own or another: a game, `{held, path, isTurned}` or `{pgn, path, isTurned}`, a position, `{fen, isTurned}`, or null. */
export const linked = ({ hash, search } = location) => {
  const words = new URLSearchParams(hash.slice(1));
  const before = new URLSearchParams(search);
  const isTurned = words.has('f') || before.has('f');
  const [held, pgn] = [words.get('g'), words.get('pgn')];
  if (held || pgn) return { held, pgn, path: words.get('p') ?? '-', isTurned };
  const fen = words.get('fen') ?? before.get('fen');
  return fen === null ? null : { fen: fen.replaceAll('_', ' ').trim(), isTurned };
};

/** Why the position that the address names is none; empty where it is one, or none is named. */
export const faultOf = async (link) => {
  if (link?.fen === undefined) return '';
  const { answer } = await ask('tried', { text: `set ${typed(link.fen)}` });
  return answer === 'ok' ? '' : `The address names no position: ${refusal(answer)}`;
};

const openPosition = async (link) => {
  const fault = await faultOf(link);
  if (fault) page.told(fault);
  return !fault && another(`set ${link.fen}`);
};

const textOf = ({ held, pgn }) => (held ? through(toBytes(atob(held.replaceAll('-', '+').replaceAll('_', '/'))), new DecompressionStream('deflate-raw')) : toBytes(typed(pgn)));

const openGame = (link) => inTurn(async () => {
  try {
    const bytes = await textOf(link);
    return await isSettled() && await taken(bytes, { path: link.path, isBeside: !isEmbedded() });
  } catch {
    page.told('The link doesn\u2019t hold a game.');
    return false;
  }
});

/** Puts the game or the position of the link on the board, beside a game that is there; in a frame, where nothing is kept, in its place. */
export const openLink = (link) => (link.fen === undefined ? openGame(link) : openPosition(link));
