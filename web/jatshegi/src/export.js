// The export form of a game, as the module writes it, cut into its tags and its tree.
import { shown } from './bytes.js';

// In lines of at most `width` characters, as far as words allow; 0 is one line. No line begins with `%`, which would have the line passed over.
const wrapped = (words, width) => {
  const lines = [];
  for (const word of words) {
    const line = lines.at(-1);
    const isFitting = width === 0 || word.startsWith('%') || line?.length + 1 + word.length <= width;
    if (line !== undefined && isFitting) lines[lines.length - 1] = `${line} ${word}`;
    else lines.push(word);
  }
  return lines.join('\n');
};

/** An export form whose movetext is in lines of that width. */
export const laidOut = (text, width) => {
  const from = text.indexOf('\n\n') + 2;
  return `${text.slice(0, from)}${wrapped(text.slice(from).trim().split(/[ \n]+/), width)}\n\n`;
};

/** A node of a game as it was when it was asked for: the root, or a move. */
export class Node {
  constructor(parent, index, san) {
    this.parent = parent;
    this.index = index;
    this.san = san;
    this.nags = [];
    this.comment = '';
    this.children = [];
  }

  get isRoot() {
    return this.parent === null;
  }

  /** Child numbers from 0 from the root, separated by periods; `-` for the root. */
  get path() {
    const all = [];
    for (let it = this; it.parent; it = it.parent) all.push(it.index);
    return all.length ? all.reverse().join('.') : '-';
  }

  /** The nodes from the first move to this one. */
  line() {
    const all = [];
    for (let it = this; it.parent; it = it.parent) all.push(it);
    return all.reverse();
  }

  /** The nodes of the main line after this one. */
  mainline() {
    const all = [];
    for (let it = this.children[0]; it; it = it.children[0]) all.push(it);
    return all;
  }

  /** The nodes below this one, each before those below it. */
  *[Symbol.iterator]() {
    const waiting = [...this.children].reverse();
    while (waiting.length) {
      const it = waiting.pop();
      yield it;
      waiting.push(...[...it.children].reverse());
    }
  }

  toJSON() {
    const { san, nags, comment, children } = this;
    return { san, nags, comment, children };
  }
}

/** The bytes of an export form up to its movetext. */
export const headOf = (bytes) => {
  if (bytes[0] === 10) return bytes.subarray(0, 1);
  let end = bytes.indexOf(10);
  while (end >= 0 && bytes[end + 1] !== 10) end = bytes.indexOf(10, end + 1);
  return bytes.subarray(0, end + 2);
};

const TAG = /^\[([A-Za-z0-9_]+) "(.*)"\]$/s;

/** The tags of an export form (a byte string), `[name, value]`, and where its movetext begins. */
export const tagsOf = (text) => {
  const end = text.startsWith('\n') ? 0 : text.indexOf('\n\n') + 1;
  const tags = [];
  for (const row of text.slice(0, end).split('\n')) {
    const found = TAG.exec(row);
    if (found) tags.push([found[1], shown(found[2].replace(/\\(.)/gs, '$1'))]);
  }
  return { tags, end };
};

const WORD = /\{([^}]*)\}|(\()|(\))|\$(\d+)|(\d+\.+)|(1-0|0-1|1\/2-1\/2|\*)(?=\s|$)|([^\s(){}]+)/g;

/** The root of the tree of an export form's movetext. */
export const treeIn = (movetext) => {
  const root = new Node(null, 0, null);
  const saved = [];
  let here = root;
  for (const [, comment, opens, closes, nag, counted, marker, san] of movetext.matchAll(WORD)) {
    if (comment !== undefined) here.comment = shown(comment.replace(/[\t-\r ]+/g, ' ').trim());
    else if (opens) {
      saved.push(here);
      here = here.parent;
    } else if (closes) here = saved.pop();
    else if (nag !== undefined) here.nags.push(Number(nag));
    else if (san && !counted && !marker) {
      const next = new Node(here, here.children.length, san);
      here.children.push(next);
      here = next;
    }
  }
  return root;
};

/** The root of an export form's tree. */
export const treeOf = (text) => treeIn(text.slice(tagsOf(text).end));
