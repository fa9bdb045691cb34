// Keeps the page's own files of one version in the browser, so that it opens without a net. A new version replaces them as a whole.
// The list is written by tools/offline.
const VERSION = 'a3dd0bc2beb2be94';
const KEPT = {
  'about.html': 'sha256-r1CC3PSgnT3IeddTCQ+9Qc4Ht/lyiBkQBzsxB+mInYc=',
  'analysis.js': 'sha256-EBXrFs+aNX0zv+2Ew0PpWs3xd/QObjPbhPtKc7Rf1/U=',
  'ask.js': 'sha256-uqHZPTXBZ7DD0Fuz6d7kZrpLkyZxQbyMlDUkVxo5Klw=',
  'board.css': 'sha256-DCkDM8MoGkApTySQwKhuxli8aCajqcgLM+xChCINdc0=',
  'commands.js': 'sha256-CccvFt820FaMsB+TBcUIebeQ+vSC9LpPfQ6mHWSdtYM=',
  'dialogs.js': 'sha256-A/DMyRk0ss1T4ccdYxVo4WQNcJ5zrYNywFvGcpZInRk=',
  'draw.js': 'sha256-oCmeEsTbqYq6ftX0VwTx/6ssfUAoUP2Ix7vWdNDfb88=',
  'editor.js': 'sha256-MYcQWrl/WU8fxoQnTbAJ5Ygtef1EmQU6SPOzGst1QvM=',
  'engine.js': 'sha256-XINIk4AlkbrbMMaBOUYsVq9+D8NFb4QxGGTlA3Oevo0=',
  'epd.js': 'sha256-xQn3GCHNc2Yqdh0gMV5ngVdUaQNX/WBZXprjkCkK10g=',
  'evals.js': 'sha256-wQR6YJCBOg13PCe8tq1sWgmjUbIyx3FTT7KFi7UB+J8=',
  'files.js': 'sha256-0rfGLqLHWOIMzzqeM7CkpZtu4Z4ZFNQkyNgeAA6wsIg=',
  'game.js': 'sha256-3hmUhmUW9r/OJwh2PJhVDMtV3yMmB7t7lRy7kYvulqw=',
  'graph.js': 'sha256-kiZBtyFYuJQRNOrvi80izSxOj7asNCXUXQg3GU+tZDg=',
  'history.js': 'sha256-RLVHLQ+yLGfFvQ3BPW1pGbtaJkvMxkPEIXhM7IR8hYE=',
  'icon-180.png': 'sha256-ZHAADm7xEcOvlYm1SUwNSluxpBuZoXY0pxAV0aAue2w=',
  'icon-192.png': 'sha256-dDBraL7vMtodXDIdT9kkB4nmtLHKDDvq75i4QBmFy1Y=',
  'icon-512.png': 'sha256-kKyDl2nv4OOxpJUmrtDtH5oAQqigmf5TT2OnNGXpHsU=',
  'icon.svg': 'sha256-MIqbBfrY8jneIrbk+mcJq7TJSYDbHm5LwjQhbWTpmWU=',
  'index.html': 'sha256-l8XpU/PukHNYlpu8e4rSJ6OjcJMih1yVwgoBakmcBF8=',
  'jatshegi.wasm': 'sha256-fgKJksUKPQ1MOrFyDTL/9Y+wVgPpEC0opv8j0s1Mvbk=',
  'jatshegi/src/boards.js': 'sha256-FhM9HTDTz802BSdSGBxKyxcKhZqbAhriKB7fj7626qM=',
  'jatshegi/src/bytes.js': 'sha256-LBtpigRyCU+u7acHDGRl53R4GTPRblnbyZw1zI1KCLk=',
  'jatshegi/src/compile.js': 'sha256-W5YCPdzEjIwsTakE2+p5y4KsZsbNwjHyMkzcXGp/evQ=',
  'jatshegi/src/drag.js': 'sha256-K8qL+i6cl1oxKquyKUKQSLIg20lV/e6ySYcTYytoK84=',
  'jatshegi/src/errors.js': 'sha256-CKuUAZ5GO0HdNu0l53APwn8fZOH+fhCpbA5KJW4LTIs=',
  'jatshegi/src/export.js': 'sha256-egRUhiJQJG9LhdzozicibgN07pK+fc6rtvKc39h2ZIg=',
  'jatshegi/src/games.js': 'sha256-HEPQ2DUyrYkH/71XcknI73DbdCcqUKkGq3meHkCRNjw=',
  'jatshegi/src/look.js': 'sha256-W2XnS3P/J8FitlN5a/EtzEllhO5RmJflfHp7fn2YEas=',
  'jatshegi/src/made.js': 'sha256-vz+J+5g9ahn3j/F+Kbu6lyhV+TpvZHbiO/5vE3S4v9c=',
  'jatshegi/src/memory.js': 'sha256-66uUwR11d0F5+aRs/tU3wdQsORZc/dCu4leJVzar97k=',
  'jatshegi/src/men.js': 'sha256-17V0ghxtUGEMDH+qOJh5IXcXpfSNIeXrqHYKKvJ3t9g=',
  'jatshegi/src/placement.js': 'sha256-tYVv38gdjVF02qg7ZhnHkVXIz6EbA+6cJslqsPCR140=',
  'jatshegi/src/spellings.js': 'sha256-4ZUgPyCZJ5j4XbOYL9JMkb+ulsYm/jMrJLyqndlE4bo=',
  'jatshegi/src/view.js': 'sha256-mhDyqh/5N0nmemHdq5ODgXavphRQificP8sB030clko=',
  'kept.js': 'sha256-IzmQCddu7qdeF/idl0rLm7bUYOG5NXH9IIaiKlrh5GA=',
  'link.js': 'sha256-yOY4ch4C9jWHyzEGT1ozdyWf8krTURqNMwrGeWkneLk=',
  'list.js': 'sha256-632CkzvfcFMS4l21FQ2T3FIEasdyo7vJcQkwLhgRnXI=',
  'main.js': 'sha256-i1ig7LYHY6qNP0Av8jP0mn632sYx93PV+4LtosuxCp0=',
  'manifest.json': 'sha256-QAKyIQ4IOcScflN1yhydOIxNqrwWpRonHOlGu17rDhg=',
  'mine.js': 'sha256-bb4j/2IL1kqEZ6OqedtX70U1eahLRlkESSeVjzl/OUk=',
  'own.js': 'sha256-59wcSsJGCgiOu9ePaeF6DWM7VaSW5Rhqcj+D+ktElng=',
  'pgn.js': 'sha256-TxoePkcQmrumVSgjY6UWWb28LNwgXcrlPUfO+Oe+efo=',
  'settings.js': 'sha256-lfnY3Lee1w8sdBUo5DpbL5zUnuORJHD/B69WyxuGQrs=',
  'store.js': 'sha256-C10zWHMq50ar1TXN97UWrl7czSU+khYnbTpapLDHo2A=',
  'style.css': 'sha256-JSa1AIrvflNfrHASY8ux/Dp4OaTUuaWVKS1sQQEbb9o=',
  'words.js': 'sha256-8CV7OdI32uu361pvtd5CmcgO1RGe10bgSn69tkxy89w=',
  'worker.js': 'sha256-bOMAGML4HZxoMDzSXggInxh2D4gYtJwzZZ6XcdX1kR8=',
};
// (end of the list)

const NAME = `jatshegi ${VERSION}`;
const at = (name) => new URL(name, registration.scope).href;

// All files of the list, each with the bytes that it names, or none.
const keep = async () => {
  const had = await caches.has(NAME);
  const cache = await caches.open(NAME);
  try {
    // (one after another: a small server takes few at a time)
    for (const [name, integrity] of Object.entries(KEPT)) {
      const found = await fetch(new Request(at(name), { integrity, cache: 'no-cache' }));
      if (!found.ok) throw new Error(`${name} is not to be had`);
      await cache.put(at(name), found);
    }
  } catch (error) {
    if (!had) await caches.delete(NAME);
    throw error;
  }
};

const replace = async () => {
  for (const name of await caches.keys()) if (name.startsWith('jatshegi ') && name !== NAME) await caches.delete(name);
  await clients.claim();
};

// (a version that was replaced meanwhile has no files: then those of the new one go out, and the page sees that it is another)
const answer = async (name, request) => (await caches.match(at(name), { cacheName: NAME })) ?? (await caches.match(at(name))) ?? fetch(request);

addEventListener('install', (event) => event.waitUntil(keep()));
addEventListener('activate', (event) => event.waitUntil(replace()));

// A new version waits until no window has the old one, or the only one that has it says that nothing was done there.
addEventListener('message', (event) => event.waitUntil((async () => {
  const all = await clients.matchAll({ includeUncontrolled: true, type: 'window' });
  if (event.data === 'take over' && all.length < 2) await skipWaiting();
})()));

addEventListener('fetch', (event) => {
  const [address] = event.request.url.split(/[?#]/);
  if (event.request.method !== 'GET' || !address.startsWith(registration.scope)) return;
  const name = address.slice(registration.scope.length) || 'index.html';
  if (Object.hasOwn(KEPT, name)) event.respondWith(answer(name, event.request));
});
