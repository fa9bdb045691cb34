// For Node, Bun and Deno: the module is read from beside this file, where the package has it, or in a clone of the repository from the page's folder.
import { readFileSync } from 'node:fs';
import { start } from './core.js';

export * from './core.js';

const places = ['./jatshegi.wasm', '../../jatshegi.wasm'].map((path) => new URL(path, import.meta.url));
// (at once, so that `require` can load it, too)
const bytes = () => {
  try {
    return readFileSync(places[0]);
  } catch (error) {
    if (error.code !== 'ENOENT') throw error;
    return readFileSync(places[1]);
  }
};

start(bytes());
