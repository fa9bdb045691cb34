// The board's worker, which is asked for one job after another. It begins with the page, and so does the module, which is compiled once for all workers.
import { compiled } from './jatshegi/src/compile.js';

/** The module, compiled. */
export const module = compiled(new URL('jatshegi.wasm', import.meta.url));
// (who begins the board hears of it)
module.catch(() => {});

const worker = new Worker(new URL('worker.js', import.meta.url), { type: 'module' });
let number = 0;
let hasAnswered = false;
let failure = null;
const waiting = new Map();

/** What the worker answers to a job; `part` is called with what comes before its end. */
export const ask = (job, more = {}, part = null) => new Promise((done, failed) => {
  if (failure) {
    failed(failure);
    return;
  }
  const id = ++number;
  waiting.set(id, { done, failed, part });
  worker.postMessage({ id, job, ...more });
});

worker.onmessage = ({ data }) => {
  hasAnswered = true;
  const it = waiting.get(data.id);
  if (data.part) {
    it.part(data.part);
    return;
  }
  waiting.delete(data.id);
  if (data.error) it.failed(new Error(data.error));
  else it.done(data.result);
};

// (a worker that could not be loaded answers nothing)
worker.onerror = (event) => {
  const error = new Error(event.message || 'its worker did not start');
  if (!hasAnswered) failure = error;
  for (const it of waiting.values()) it.failed(error);
  waiting.clear();
};
