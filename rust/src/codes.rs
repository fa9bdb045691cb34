//! The errors of statuses, with the sentences of include/jatshegi.h, and the kinds of repair. tools/calls writes this file from tools/tables/words.csv.
use crate::error::GameError;

/// Why a call was refused. The board is unchanged after it.
#[derive(Clone, Copy, Debug, PartialEq, Eq, Hash)]
#[non_exhaustive]
pub enum Error {
    /// There is no memory.
    NoMemory,
    /// The move isn't legal (FIDE Laws 3.10.2).
    Illegal,
    /// The text names more than one legal move (PGN 8.2.3.4).
    Ambiguous,
    /// The text has no form of a move (PGN 8.2.3).
    Form,
    /// The cursor is 20,000 plies deep (LIMITS).
    TooLong,
    /// The tree holds 1,000,000 moves (LIMITS).
    Full,
    /// The cursor is at the root.
    AtRoot,
    /// A number is out of its range.
    Argument,
    /// There is no legal move, or no search.
    None,
    /// There is no such child, or no such tag.
    NoSuch,
    /// The comment has a right brace (PGN 5).
    BadComment,
    /// The search was abandoned.
    Abandoned,
    /// The name of the tag is empty, or has a byte that is no letter, digit or underscore.
    TagName,
    /// Result, FEN and SetUp are no tags: the game itself has what they say.
    TagOwn,
    /// The value of the tag has a line feed.
    TagValue,
    /// A text isn't a FEN, or fields aren't a position.
    Fen(FenError),
    /// No game is at the start of the text.
    Game(GameError),
}

impl Error {
    /// The fault of a status.
    pub(crate) const fn of_status(status: u32) -> Option<Error> {
        Some(match status {
            2 => Error::NoMemory,
            3 => Error::Illegal,
            4 => Error::Ambiguous,
            5 => Error::Form,
            6 => Error::TooLong,
            7 => Error::Full,
            8 => Error::AtRoot,
            9 => Error::Argument,
            11 => Error::None,
            12 => Error::NoSuch,
            13 => Error::BadComment,
            17 => Error::Abandoned,
            18 => Error::TagName,
            19 => Error::TagOwn,
            20 => Error::TagValue,
            _ => return None,
        })
    }

    /// The fault in words.
    pub(crate) const fn text(&self) -> &'static str {
        match self {
            Error::NoMemory => "there is no memory",
            Error::Illegal => "the move isn't legal",
            Error::Ambiguous => "the text names more than one legal move",
            Error::Form => "the text has no form of a move",
            Error::TooLong => "the cursor is 20,000 plies deep",
            Error::Full => "the tree holds 1,000,000 moves",
            Error::AtRoot => "the cursor is at the root",
            Error::Argument => "a number is out of its range",
            Error::None => "there is no legal move, or no search",
            Error::NoSuch => "there is no such child, or no such tag",
            Error::BadComment => "the comment has a right brace",
            Error::Abandoned => "the search was abandoned",
            Error::TagName => "the name of the tag is empty, or has a byte that is no letter, digit or underscore",
            Error::TagOwn => "Result, FEN and SetUp are no tags: the game itself has what they say",
            Error::TagValue => "the value of the tag has a line feed",
            Error::Fen(fault) => fault.text(),
            Error::Game(game) => game.fault.text(),
        }
    }
}

/// The first fault of a FEN, or of fields that aren't a position.
#[derive(Clone, Copy, Debug, PartialEq, Eq, Hash)]
#[non_exhaustive]
pub enum FenError {
    /// The FEN has neither four nor six fields (PGN 16.1.3).
    Fields,
    /// The men are not eight ranks of eight squares (PGN 16.1.3.1).
    Placement,
    /// A side has no king, or more than one (FIDE Laws 2.2).
    Kings,
    /// A pawn is on the first or the last rank (FIDE Laws 3.7).
    PawnRank,
    /// A side has more than 16 men (FIDE Laws 2.2).
    TooManyMen,
    /// The side to move is neither w nor b (PGN 16.1.3.2).
    Side,
    /// The castling rights are neither - nor different letters of KQkq, or one lacks its king or rook at home (PGN 16.1.3.3).
    Castling,
    /// The en passant target is neither - nor a square, or no pawn has just passed over it (PGN 16.1.3.4).
    Target,
    /// A counter is no number up to 99,999 (PGN 16.1.3.5, 16.1.3.6).
    Counter,
    /// The side not to move is in check (FIDE Laws 3.9).
    InCheck,
}

impl FenError {
    /// The fault of a status.
    pub(crate) const fn of_status(status: u32) -> Option<FenError> {
        Some(match status {
            21 => FenError::Fields,
            22 => FenError::Placement,
            23 => FenError::Kings,
            24 => FenError::PawnRank,
            25 => FenError::TooManyMen,
            26 => FenError::Side,
            27 => FenError::Castling,
            28 => FenError::Target,
            29 => FenError::Counter,
            30 => FenError::InCheck,
            _ => return None,
        })
    }

    /// The fault in words.
    pub(crate) const fn text(&self) -> &'static str {
        match self {
            FenError::Fields => "the FEN has neither four nor six fields",
            FenError::Placement => "the men are not eight ranks of eight squares",
            FenError::Kings => "a side has no king, or more than one",
            FenError::PawnRank => "a pawn is on the first or the last rank",
            FenError::TooManyMen => "a side has more than 16 men",
            FenError::Side => "the side to move is neither w nor b",
            FenError::Castling => "the castling rights are neither - nor different letters of KQkq, or one lacks its king or rook at home",
            FenError::Target => "the en passant target is neither - nor a square, or no pawn has just passed over it",
            FenError::Counter => "a counter is no number up to 99,999",
            FenError::InCheck => "the side not to move is in check",
        }
    }
}

/// The fault of a game.
#[derive(Clone, Copy, Debug, PartialEq, Eq, Hash)]
#[non_exhaustive]
pub enum GameFault {
    /// Bytes that are no token of PGN (PGN 7).
    Token,
    /// A tag that is none (PGN 8.1).
    Tag,
    /// A word that names no legal move, or more than one (PGN 8.2.3).
    Move,
    /// A variation that doesn't fit (PGN 8.2.5).
    Variation,
    /// More than 128 variations within one another (LIMITS).
    Deep,
    /// The text ends within the game (PGN 8).
    Truncated,
    /// The tag FEN spells no position (PGN 9.7.2).
    Fen,
    /// More than 1,048,576 bytes, or 20,000 plies in a line (LIMITS).
    TooLarge,
}

impl GameFault {
    /// The fault of a status.
    pub(crate) const fn of_status(status: u32) -> Option<GameFault> {
        Some(match status {
            41 => GameFault::Token,
            42 => GameFault::Tag,
            43 => GameFault::Move,
            44 => GameFault::Variation,
            45 => GameFault::Deep,
            46 => GameFault::Truncated,
            47 => GameFault::Fen,
            49 => GameFault::TooLarge,
            _ => return None,
        })
    }

    /// The fault in words.
    pub(crate) const fn text(&self) -> &'static str {
        match self {
            GameFault::Token => "bytes that are no token of PGN",
            GameFault::Tag => "a tag that is none",
            GameFault::Move => "a word that names no legal move, or more than one",
            GameFault::Variation => "a variation that doesn't fit",
            GameFault::Deep => "more than 128 variations within one another",
            GameFault::Truncated => "the text ends within the game",
            GameFault::Fen => "the tag FEN spells no position",
            GameFault::TooLarge => "more than 1,048,576 bytes, or 20,000 plies in a line",
        }
    }
}

/// The kinds of repair.
#[derive(Clone, Copy, Debug, PartialEq, Eq, Hash)]
#[non_exhaustive]
pub enum RepairKind {
    /// A tag whose value has no quotation marks or bare ones.
    TagQuotes,
    /// A tag without its right bracket.
    TagBracket,
    /// A tag whose name has other bytes than letters, digits and the underscore.
    TagName,
    /// Castling in small letters, in other zeros, or without hyphens.
    Castling,
    /// A move with a hyphen between its squares.
    Hyphen,
    /// A capture with a colon.
    Colon,
    /// A pawn's move with a P.
    Pawn,
    /// A man's letter that is small.
    Small,
    /// A file's letter that is large.
    Large,
    /// A promotion with another sign, or in parentheses.
    Promotion,
    /// A figurine, a dash or a sign of captures within a word.
    Sign,
    /// A word that the move says itself, as `e.p.` or `mate`.
    Said,
    /// A word of evaluation, for which there is an annotation number.
    Value,
    /// A result in another form.
    Result,
    /// More than two signs of annotation together, or two that aren't of the standard.
    Glyphs,
    /// An annotation number that isn't one from 0 to 255.
    Number,
    /// An ellipsis of one character.
    Dots,
    /// A space that isn't one of ASCII.
    Space,
    /// A control byte.
    Control,
    /// Punctuation that belongs to nothing.
    Stray,
    /// An offer of a draw or another letter in parentheses.
    Offer,
    /// A text in angle brackets.
    Angles,
    /// A text in square brackets within the moves.
    Bracket,
    /// A result within a variation.
    Marker,
    /// A sign that no other row has.
    Symbol,
    /// A comment within a comment: what comes after the inner one.
    Nested,
    /// A comment without its right brace.
    Comment,
    /// A variation without its right parenthesis.
    Unclosed,
    /// Text that belongs to no game.
    Prose,
    /// A FEN tag without its last fields, with castling rights by files, or without a position.
    Fen,
    /// Castling by the squares of king and rook.
    Squares,
    /// The rest of a line after a null move, which is cut off.
    Null,
    /// The rest of a line after a word that names no legal move, or more than one.
    Illegal,
    /// The rest of a line after what is no move.
    Unreadable,
    /// A variation that can't begin where it does.
    Variation,
}

impl RepairKind {
    /// The kind of a number.
    pub(crate) const fn of_number(number: u32) -> Option<RepairKind> {
        Some(match number {
            0 => RepairKind::TagQuotes,
            1 => RepairKind::TagBracket,
            2 => RepairKind::TagName,
            3 => RepairKind::Castling,
            4 => RepairKind::Hyphen,
            5 => RepairKind::Colon,
            6 => RepairKind::Pawn,
            7 => RepairKind::Small,
            8 => RepairKind::Large,
            9 => RepairKind::Promotion,
            10 => RepairKind::Sign,
            11 => RepairKind::Said,
            12 => RepairKind::Value,
            13 => RepairKind::Result,
            14 => RepairKind::Glyphs,
            15 => RepairKind::Number,
            16 => RepairKind::Dots,
            17 => RepairKind::Space,
            18 => RepairKind::Control,
            19 => RepairKind::Stray,
            20 => RepairKind::Offer,
            21 => RepairKind::Angles,
            22 => RepairKind::Bracket,
            23 => RepairKind::Marker,
            24 => RepairKind::Symbol,
            25 => RepairKind::Nested,
            26 => RepairKind::Comment,
            27 => RepairKind::Unclosed,
            28 => RepairKind::Prose,
            29 => RepairKind::Fen,
            30 => RepairKind::Squares,
            31 => RepairKind::Null,
            32 => RepairKind::Illegal,
            33 => RepairKind::Unreadable,
            34 => RepairKind::Variation,
            _ => return None,
        })
    }
}
