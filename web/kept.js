// Has the browser keep the page's own files, where it can (offline.js), and go on with a new version of them.
import { game } from './game.js';

// A window that has just been left counts for a moment, so a new version is asked again: so often, after so many milliseconds.
const TIMES = 40;
const AGAIN = 250;
// So often the files are fetched where one of them could not be had, each time after so many milliseconds more.
const TRIES = 4;
const LATER = 1000;

const kept = navigator.serviceWorker;
const had = kept?.controller ?? null;
const replaced = had && new Promise((done) => { kept.addEventListener('controllerchange', done, { once: true }); });

// Whether the version that gave this page is kept no more: another took its place while the page began.
const isOld = async () => {
  if (!kept?.controller) return false;
  const names = (await caches.keys()).filter((it) => it.startsWith('jatshegi '));
  return names.length > 0 && !names.includes(`jatshegi ${document.documentElement.dataset.version}`);
};

/** Loads a page anew that began in the moment in which another version took over. Returns whether it does: a page that was loaded anew isn't once more. */
export const renewed = async () => {
  const isAnew = performance.getEntriesByType('navigation')[0]?.type === 'reload';
  if (isAnew || !await isOld()) return false;
  location.reload();
  return true;
};

// Whether a person has done something in this window, also what isn't done with the game: a text in a box, a menu that is open.
let isTouched = false;
const touched = () => { isTouched = true; };
for (const kind of ['pointerdown', 'click', 'keydown', 'input', 'paste', 'drop']) addEventListener(kind, touched, { capture: true, once: true, passive: true });

const after = (milliseconds) => new Promise((done) => { setTimeout(done, milliseconds); });

// Whether a version that is being fetched is then there.
const isThere = (worker) => new Promise((done) => {
  const told = () => {
    if (worker.state !== 'installing') done(worker.state !== 'redundant');
  };
  worker.addEventListener('statechange', told);
  told();
});

// Registers the worker, and waits for its files where there are none yet.
const registered = async () => {
  const registration = await kept.register(new URL('offline.js', import.meta.url));
  const { installing } = registration;
  if (!had && installing && !await isThere(installing)) throw new Error('a file is not to be had');
  return registration;
};

const triedAgain = async () => {
  for (let i = 1; i < TRIES; i++) {
    try {
      return await registered();
    } catch {
      await after(i * LATER);
    }
  }
  return registered();
};

/** A new version that was fetched before takes over where no other window has the page; the page is then loaded anew, unless something has been done on it. */
export const keepOffline = async () => {
  if (!kept || !location.protocol.startsWith('http')) return;
  const before = game.acts;
  const isUntouched = () => !isTouched && game.acts === before;
  replaced?.then(() => {
    if (isUntouched()) location.reload();
  });
  try {
    if (isUntouched() && await renewed()) return;
    const registration = await triedAgain();
    if (had && !registration.waiting) {
      await registration.update();
      return;
    }
    for (let i = 0; had && i < TIMES && registration.waiting && isUntouched(); i++) {
      registration.waiting.postMessage('take over');
      await after(AGAIN);
    }
  } catch {
    // (a browser, or a window of it, that keeps no files; or the net is not there)
  }
};
