// The numbers, names and sentences of include/jatshegi.h. tools/calls writes this file from tools/tables.
// (of the faults of FENs and of games the first ones)
export const OK = 0, EMPTY = 1, NO_MEMORY = 2, ILLEGAL = 3, AMBIGUOUS = 4, FORM = 5, TOO_LONG = 6, FULL = 7, AT_ROOT = 8, ARGUMENT = 9, NO_ROOM = 10, NONE = 11,
  NO_SUCH = 12, BAD_COMMENT = 13, MORE = 14, NO_GAME = 16, ABANDONED = 17, TAG_NAME = 18, TAG_OWN = 19, TAG_VALUE = 20, FEN_FIELDS = 21, PGN_TOKEN = 41;
export const MOST_MOVES = 432, MOST_FEN = 128, MOST_SAN = 8, MOST_UCI = 5, MOST_ANSWER = 2600, MOST_REPLIES = 260, NO_SQUARE = 64, NEVER = 4294967295;

const FAULTS = [
  [1, 'Empty', 'there is no board'],
  [2, 'Memory', 'there is no memory'],
  [3, 'Illegal', 'the move isn\'t legal'],
  [4, 'Ambiguous', 'the text names more than one legal move'],
  [5, 'Form', 'the text has no form of a move'],
  [6, 'TooLong', 'the cursor is 20,000 plies deep'],
  [7, 'Full', 'the tree holds 1,000,000 moves'],
  [8, 'AtRoot', 'the cursor is at the root'],
  [9, 'Argument', 'a number is out of its range'],
  [10, 'NoRoom', 'the answer is longer than the room for it'],
  [11, 'None', 'there is no legal move, or no search'],
  [12, 'NoSuch', 'there is no such child, or no such tag'],
  [13, 'BadComment', 'the comment has a right brace'],
  [14, 'More', 'more bytes decide what is there'],
  [16, 'NoGame', 'only whitespace follows'],
  [17, 'Abandoned', 'the search was abandoned'],
  [18, 'TagName', 'the name of the tag is empty, or has a byte that is no letter, digit or underscore'],
  [19, 'OwnTag', 'Result, FEN and SetUp are no tags: the game itself has what they say'],
  [20, 'TagValue', 'the value of the tag has a line feed'],
  [21, 'Fields', 'the FEN has neither four nor six fields'],
  [22, 'Placement', 'the men are not eight ranks of eight squares'],
  [23, 'Kings', 'a side has no king, or more than one'],
  [24, 'PawnRank', 'a pawn is on the first or the last rank'],
  [25, 'TooManyMen', 'a side has more than 16 men'],
  [26, 'Side', 'the side to move is neither w nor b'],
  [27, 'Castling', 'the castling rights are neither - nor different letters of KQkq, or one lacks its king or rook at home'],
  [28, 'Target', 'the en passant target is neither - nor a square, or no pawn has just passed over it'],
  [29, 'Counter', 'a counter is no number up to 99,999'],
  [30, 'InCheck', 'the side not to move is in check'],
  [41, 'Token', 'bytes that are no token of PGN'],
  [42, 'Tag', 'a tag that is none'],
  [43, 'Move', 'a word that names no legal move, or more than one'],
  [44, 'Variation', 'a variation that doesn\'t fit'],
  [45, 'Deep', 'more than 128 variations within one another'],
  [46, 'Truncated', 'the text ends within the game'],
  [47, 'Fen', 'the tag FEN spells no position'],
  [49, 'TooLarge', 'more than 1,048,576 bytes, or 20,000 plies in a line'],
];
/** The names of the faults, by their statuses. */
export const NAMES = Object.fromEntries(FAULTS);
/** The faults in words, by their names. */
export const SENTENCES = Object.fromEntries(FAULTS.map(([, name, text]) => [name, text]));

/** The names of outcomes, results and repairs, by their numbers; those of claims and of the kinds of a move, by their bits. */
export const OUTCOMES = ['mate', 'stalemate', 'dead', 'fivefold', 'seventyfive', 'play'];
export const MARKERS = ['*', '1-0', '0-1', '1/2-1/2'];
export const CLAIMS = ['threefold', 'fifty'];
export const KINDS = ['capture', 'enPassant', 'kingSide', 'queenSide', 'pawn'];
export const REPAIRS = [
  'TagQuotes', 'TagBracket', 'TagName', 'Castling', 'Hyphen', 'Colon', 'Pawn', 'Small', 'Large', 'Promotion', 'Sign', 'Said', 'Value', 'Result', 'Glyphs',
  'Number', 'Dots', 'Space', 'Control', 'Stray', 'Offer', 'Angles', 'Bracket', 'Marker', 'Symbol', 'Nested', 'Comment', 'Unclosed', 'Prose', 'Fen', 'Squares',
  'Null', 'Illegal', 'Unreadable', 'Variation',
];
