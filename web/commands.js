// The commands that programs write into comments, `[%name value]`: clocks, evaluations, arrows and circles. The page shows them apart from the words, and keeps them.
// The sign for a diagram, `[#]`, is one of them, without a name of its own.
const COMMAND = /\[%([A-Za-z]\w*)\s+([^\]]*)\]|\[#\]/g;
const DIAGRAM = '#';

/** The commands of a comment, `{name, value, text}`, and its words. */
export const split = (comment) => {
  const commands = [...comment.matchAll(COMMAND)].map(([text, name = DIAGRAM, value = '']) => ({ name: name.toLowerCase(), value: value.trim(), text }));
  return { commands, words: comment.replace(COMMAND, ' ').replace(/\s+/g, ' ').trim() };
};

/** Whether a comment asks for a diagram. */
export const hasDiagram = (commands) => commands.some(({ name }) => name === DIAGRAM);

/** The commands with the sign for a diagram, or without it where it was there. */
export const withDiagram = (commands) => (hasDiagram(commands) ? commands.filter(({ name }) => name !== DIAGRAM) : [{ name: DIAGRAM, value: '', text: '[#]' }, ...commands]);

/** A comment of commands and words. */
export const joined = (commands, words) => [...commands.map(({ text }) => text), words].filter(Boolean).join(' ');

const lastOf = (commands, name) => commands.findLast((it) => it.name === name)?.value ?? '';

/** A clock as it is shown: without hours that are 0, and with parts of a second in the last minute. */
export const clock = (commands) => {
  const [text, name] = ['clk', 'emt'].map((it) => [lastOf(commands, it), it]).find(([it]) => it) ?? ['', ''];
  const [, hours, minutes, seconds, part = ''] = /^(\d+):(\d\d):(\d\d)(\.\d+)?$/.exec(text) ?? [];
  if (hours === undefined) return { text: text.slice(0, 12), name };
  if (Number(hours)) return { text: `${Number(hours)}:${minutes}:${seconds}`, name };
  return { text: `${Number(minutes)}:${seconds}${Number(minutes) ? '' : part.slice(0, 2)}`, name };
};

/** What a comment evaluates a position to, for White: `{text, value}`, in pawns, a mate as 100 or more; null where it doesn't. */
export const evaluation = (commands) => {
  const [, mate, minus, number] = /^(#?)([+-]?)(\d+(?:\.\d+)?)/.exec(lastOf(commands, 'eval')) ?? [];
  if (number === undefined) return null;
  const [value, sign] = [Number(number), minus === '-' ? '\u2212' : ''];
  if (mate) return { text: `${sign}#${value}`, value: (sign ? -1 : 1) * (1000 - Math.min(900, value)) };
  return { text: `${sign || (value > 0 ? '+' : '')}${value.toFixed(value < 99.5 ? 1 : 0)}`, value: (sign ? -1 : 1) * Math.min(99, value) };
};

const itemsOf = ({ value }) => value.split(',').map((it) => it.trim()).filter(Boolean);
const nameOf = (item) => (item.length > 3 ? 'cal' : 'csl');

/** The arrows and circles: `{colour, from, to}`, with a colour's letter; a circle has one square twice. */
export const shapes = (commands) => commands.filter(({ name }) => name === 'cal' || name === 'csl').flatMap((it) => itemsOf(it).map((item) => ({ name: it.name, item })))
  .filter(({ name, item }) => /^[A-Z][a-h][1-8]([a-h][1-8])?$/.test(item) && nameOf(item) === name)
  .map(({ item }) => ({ colour: item[0], from: item.slice(1, 3), to: item.slice(3) || item.slice(1) }));

/** The commands with an arrow or a circle more, as `Ge2e4` or `Rd5`, in the place of one of another colour; or without it where it was there. */
export const toggled = (commands, item) => {
  const name = nameOf(item);
  let isThere = false;
  const kept = commands.flatMap((it) => {
    if (it.name !== name) return [it];
    const items = itemsOf(it);
    isThere ||= items.includes(item);
    const others = items.filter((other) => other.slice(1) !== item.slice(1));
    if (others.length === items.length) return [it];
    return others.length ? [{ ...it, value: others.join(','), text: `[%${name} ${others.join(',')}]` }] : [];
  });
  if (isThere) return kept;
  const at = kept.findLastIndex((it) => it.name === name);
  const value = at < 0 ? item : [...itemsOf(kept[at]), item].join(',');
  const now = { name, value, text: `[%${name} ${value}]` };
  return at < 0 ? [...kept, now] : kept.map((it, i) => (i === at ? now : it));
};
