// The first field of a FEN as men on squares, for drawing, and back.
export const FILES = 'abcdefgh';

/** The letters of the men by square. What isn't written as such a field has the men that were found in it. */
export const placed = (fen) => {
  const men = {};
  fen.trim().split(/\s+/)[0].split('/').slice(0, 8).forEach((row, i) => {
    let file = 0;
    for (const c of row) {
      if (c >= '1' && c <= '8') file += Number(c);
      else if (/[pnbrqk]/i.test(c) && file < 8) men[FILES[file++] + (8 - i)] = c;
    }
  });
  return men;
};

/** The first field of a FEN that has these men. */
export const placement = (men) => [8, 7, 6, 5, 4, 3, 2, 1]
  .map((number) => [...FILES].map((file) => men[file + number] ?? '1').join('').replace(/1+/g, (run) => run.length))
  .join('/');
