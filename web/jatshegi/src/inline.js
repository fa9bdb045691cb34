// For bundlers, workers and whatever loads a module at once: the module of WebAssembly is a text in the package, and compiled without waiting. `module.js`, which has
// that text in base64, is written when the package is packed (tools/packages).
import { toBytes } from './bytes.js';
import { start } from './core.js';
import text from './module.js';

export * from './core.js';

start(toBytes(atob(text)));
