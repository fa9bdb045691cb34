// Lines that say positions: a FEN, or the first four fields of one and operations (EPD, PGN 16.2), cut into their parts. Whether they spell a position, the module says.
const FORM = /^\s*[pnbrqkPNBRQK1-8]+(\/[pnbrqkPNBRQK1-8]+){7}\s+[wb]\s/;
const LOOKED_AT = 65536;

/** Whether most lines of a text are written as positions are. */
export const areMostPositions = (text) => {
  const rows = text.slice(0, LOOKED_AT).split('\n').filter((it) => it.trim());
  return rows.filter((it) => FORM.test(it)).length * 2 > rows.length;
};

const operation = (text) => {
  const [name, ...words] = text.trim().split(/\s+/);
  return [name, words.join(' ').replace(/^"([^"]*)"$/, '$1')];
};

/** A line's FEN, of four fields or six, and what is said of it, `[operation, operand]`. */
export const position = (line) => {
  const [, fields, counters = '', rest] = /^\s*((?:[^\s;]+\s+){3}[^\s;]+)((?:\s+\d+){2}(?=\s|;|$))?(.*)$/s.exec(line) ?? [null, line, '', ''];
  const said = (rest.match(/(?:"[^"]*"|[^;"])+/g) ?? []).filter((it) => it.trim()).map(operation);
  // (what follows is no operation, and the module says what is wrong with the whole line)
  if (said.some(([name]) => !/^[A-Za-z_]/.test(name))) return { fen: line.trim().split(/\s+/).join(' '), said: [] };
  const of = (name) => said.find(([is]) => is === name)?.[1];
  const clock = counters || (of('hmvc') === undefined && of('fmvn') === undefined ? '' : ` ${of('hmvc') ?? 0} ${of('fmvn') ?? 1}`);
  return { fen: `${fields}${clock}`.trim().split(/\s+/).join(' '), said: said.filter(([name]) => name !== 'hmvc' && name !== 'fmvn') };
};
