// Keeps the engine in a worker of its own: a slice of a search at a time, so that a line is read between two.
import { engines, start } from './jatshegi/src/boards.js';

let session;
let waits = false;
const { port1, port2 } = new MessageChannel();

// What the engine replies to an event; where there is no memory for it at its first one, that, as it says it later.
const replies = (event, word) => {
  try {
    return session.engine(event, word);
  } catch (error) {
    if (error.code !== 'Memory') throw error;
    return ['info string out of memory'];
  }
};

const say = (all) => {
  for (const reply of all) postMessage({ reply });
};

const now = () => Math.floor(performance.now());

// Goes on with the search that runs, after the messages that have come.
const feed = () => {
  if (waits || !session.searching()) return;
  waits = true;
  port2.postMessage(0);
};

port1.onmessage = () => {
  waits = false;
  if (!session.searching()) return;
  say(replies('slice'));
  say(replies('moment', now()));
  feed();
};

// Begins with the module, compiled; whether there is memory for it.
const begun = (module) => {
  start(module);
  try {
    session = engines.take();
    return true;
  } catch (error) {
    if (error.code !== 'Memory') throw error;
    return false;
  }
};

onmessage = ({ data }) => {
  if (data.module) {
    postMessage({ opened: begun(data.module) });
    return;
  }
  say(replies('moment', now()));
  say(replies('line', data.line));
  feed();
};
