// Each example writes what it says after `//> `, and is short.
import assert from 'node:assert/strict';
import { spawnSync } from 'node:child_process';
import { readFileSync, readdirSync } from 'node:fs';
import test from 'node:test';
import { fileURLToPath } from 'node:url';

const folder = fileURLToPath(new URL('../examples/', import.meta.url));
// (that of a board is tried in browsers: tests/test_javascript.py)
const names = readdirSync(folder).filter((it) => it.endsWith('.mjs'));

test('there are five', () => assert.equal(names.length, 5));

for (const name of names) {
  test(name, () => {
    const lines = readFileSync(folder + name, 'utf-8').trimEnd().split('\n');
    assert.ok(lines.length < 40);
    const said = lines.filter((it) => it.startsWith('//> ')).map((it) => it.slice(4).trimEnd());
    const ran = spawnSync(process.execPath, [folder + name], { encoding: 'utf-8' });
    assert.equal(ran.stderr, '');
    assert.deepEqual(ran.stdout.trimEnd().split('\n').map((it) => it.trimEnd()), said);
  });
}
