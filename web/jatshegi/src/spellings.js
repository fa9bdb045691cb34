// How people write a move otherwise than the standard. What a spelling names, if anything, the module says.
const FIGURINES = { '\u2654': 'K', '\u2655': 'Q', '\u2656': 'R', '\u2657': 'B', '\u2658': 'N', '\u265a': 'K', '\u265b': 'Q', '\u265c': 'R', '\u265d': 'B', '\u265e': 'N', '\u2659': '', '\u265f': '' };

// Without spaces, a move's number before it, and what is said of it after it.
const bare = (text) => text.replace(/[\u2654-\u265f\ufe0e\ufe0f]/g, (c) => FIGURINES[c] ?? '').replace(/\s+/g, '')
  .replace(/^\d+(\.+|\u2026)/, '').replace(/[!?\u203c\u2047-\u2049]+$/, '').replace(/(\w)e\.?p\.?$/, '$1');

const castling = (text) => {
  if (!/^[oO0]([-\u2010-\u2013]?[oO0]){1,2}[+#]*$/.test(text)) return [];
  return [text.replace(/[^oO0]/g, '').length === 2 ? 'O-O' : 'O-O-O'];
};

/** The spellings to try after the text itself, in their order. */
export const spellings = (text) => {
  const plain = bare(text);
  const joined = plain.replace(/[-\u2010-\u2014:\u00d7/]/g, '').replace(/\(([qrbnQRBN])\)$/, '$1');
  const lower = joined.toLowerCase();
  // (`b2c3` is a pawn's, from square to square)
  const withMan = /^([nrqk]|b(?![1-8][a-h][1-8]))/.test(lower) ? [lower[0].toUpperCase() + lower.slice(1)] : [];
  // (a pawn's letter isn't written, and a king's move of two squares is castling without it alone)
  const withoutLetter = /^p|^k[a-h][1-8][a-h][1-8]$/.test(lower) ? [lower.slice(1)] : [];
  const all = [plain, ...castling(plain), joined, lower, ...withMan, ...withoutLetter];
  return [...new Set(all)].filter((it) => it && it !== text);
};

/** From which square to which a text says that a man goes, `['e1', 'h1']`; or null. */
export const squares = (text) => /^k?([a-h][1-8])([a-h][1-8])$/.exec(bare(text).toLowerCase().replace(/[-\u2010-\u2014:x\u00d7]/g, ''))?.slice(1) ?? null;
