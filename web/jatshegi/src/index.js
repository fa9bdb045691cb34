// For browsers and bundlers: the module is fetched from beside this file.
import { compiled } from './compile.js';
import { start } from './core.js';

export * from './core.js';

start(await compiled(new URL('./jatshegi.wasm', import.meta.url)));
