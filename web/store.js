// What is kept in the browser (IndexedDB): games, the states that each has been in, and the files that games came from.
const NAME = 'jatshegi';

let db = null;

const ended = (transaction) => new Promise((done, failed) => {
  transaction.oncomplete = () => done();
  transaction.onabort = () => failed(transaction.error ?? new Error('it was given up'));
});

const answer = (request) => new Promise((done, failed) => {
  request.onsuccess = () => done(request.result);
  request.onerror = () => failed(request.error);
});

/** Opens the database; an error says why there is none. */
export const openStore = () => new Promise((done, failed) => {
  if (!globalThis.indexedDB) {
    failed(new Error('this browser keeps nothing'));
    return;
  }
  const request = indexedDB.open(NAME, 1);
  request.onupgradeneeded = () => {
    request.result.createObjectStore('games', { keyPath: 'id' });
    request.result.createObjectStore('states', { keyPath: ['game', 'number'] });
    request.result.createObjectStore('files', { keyPath: 'id' });
  };
  request.onsuccess = () => {
    db = request.result;
    db.onversionchange = () => db.close();
    done();
  };
  request.onerror = () => failed(request.error);
  request.onblocked = () => failed(new Error('another window holds it'));
});

export const hasStore = () => db !== null;

const statesOfGame = (id, from = 0, to = Infinity) => IDBKeyRange.bound([id, from], [id, to]);

/** The records of all games, without their states. */
export const allGames = () => answer(db.transaction('games').objectStore('games').getAll());

/** A game's record and its states, of one moment. */
export const readGame = async (id) => {
  const transaction = db.transaction(['games', 'states']);
  const [record, states] = await Promise.all([
    answer(transaction.objectStore('games').get(id)),
    answer(transaction.objectStore('states').getAll(statesOfGame(id))),
  ]);
  return { record, states };
};

/**
 * Writes a game's record with states of it, and takes out the states of other numbers than `first` to `last`: all of it or nothing. Where the game was changed in
 * another window since it was read, nothing is written, and the answer is false.
 */
export const writeGame = async (record, { was, states, first, last }) => {
  const transaction = db.transaction(['games', 'states'], 'readwrite', { durability: states.length ? 'strict' : 'relaxed' });
  const end = ended(transaction);
  let isOurs = true;
  const games = transaction.objectStore('games');
  games.get(record.id).onsuccess = ({ target }) => {
    isOurs = (target.result?.version ?? 0) === was;
    if (isOurs) {
      games.put(record);
      const kept = transaction.objectStore('states');
      if (states.length) {
        kept.delete(IDBKeyRange.bound([record.id, -1], [record.id, first], false, true));
        kept.delete(IDBKeyRange.bound([record.id, last], [record.id, Infinity], true));
      }
      for (const it of states) kept.put(it);
    }
    transaction.commit?.();
  };
  await end;
  return isOurs;
};

/** Changes the record of a game that isn't on the board. */
export const changeGame = async (id, change) => {
  const transaction = db.transaction('games', 'readwrite');
  const end = ended(transaction);
  const games = transaction.objectStore('games');
  games.get(id).onsuccess = ({ target }) => {
    if (target.result) games.put({ ...target.result, ...change(target.result), version: target.result.version + 1 });
  };
  await end;
};

export const dropGame = async (id) => {
  const transaction = db.transaction(['games', 'states'], 'readwrite');
  const end = ended(transaction);
  transaction.objectStore('games').delete(id);
  transaction.objectStore('states').delete(statesOfGame(id));
  await end;
};

const DAY = 24 * 60 * 60 * 1000;

/** Names for files: each has in it when it was opened. */
export const newFileId = () => `f${Date.now().toString(36)}-${Math.random().toString(36).slice(2, 10)}`;
const ageOf = (id) => Date.now() - parseInt(id.slice(1), 36);

/** Takes out the files that no game came from, once they are a day old: another window may be about to take a game from them. */
export const dropFiles = async (wanted) => {
  const transaction = db.transaction('files', 'readwrite');
  const end = ended(transaction);
  const files = transaction.objectStore('files');
  files.getAllKeys().onsuccess = ({ target }) => {
    for (const id of target.result) if (!wanted.has(id) && ageOf(id) > DAY) files.delete(id);
  };
  await end;
};

export const readFile = (id) => answer(db.transaction('files').objectStore('files').get(id));

/** Keeps a file, and changes the records of games with it, all or nothing. */
export const writeFile = async (file, change = () => null) => {
  const transaction = db.transaction(['files', 'games'], 'readwrite', { durability: 'strict' });
  const end = ended(transaction);
  transaction.objectStore('files').put(file);
  const games = transaction.objectStore('games');
  games.openCursor().onsuccess = ({ target: { result: cursor } }) => {
    if (!cursor) return;
    const changed = change(cursor.value);
    if (changed) cursor.update({ ...cursor.value, ...changed, version: cursor.value.version + 1 });
    cursor.continue();
  };
  await end;
};
