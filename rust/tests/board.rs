//! The layer over the library: each call once, what is refused, and random play beside a plain list of moves.
use jatshegi::*;

const KIWIPETE: &str = "r3k2r/p1ppqpb1/bn2pnp1/3PN3/1p2P3/2N2Q1p/PPPBBPPP/R3K2R w KQkq - 0 1";

fn perft(board: &mut Board, depth: u32) -> u64 {
    let moves = board.legal_moves();
    if depth == 1 {
        return moves.len() as u64;
    }
    let before = board.pgn().unwrap();
    let leaves = moves
        .map(|m| {
            let added = board.play(m).unwrap();
            let leaves = perft(board, depth - 1);
            board.undo(added).unwrap();
            leaves
        })
        .sum();
    assert_eq!(board.pgn().unwrap(), before);
    leaves
}

#[test]
fn leaves_are_counted() {
    assert_eq!(perft(&mut Board::new().unwrap(), 4), 197_281);
    assert_eq!(perft(&mut Board::from_fen(KIWIPETE).unwrap(), 3), 97_862);
}

#[test]
fn a_position() {
    let board: Board = KIWIPETE.parse().unwrap();
    assert_eq!(board.fen(), KIWIPETE);
    assert_eq!(board.epd(), "r3k2r/p1ppqpb1/bn2pnp1/3PN3/1p2P3/2N2Q1p/PPPBBPPP/R3K2R w KQkq -");
    assert_eq!(
        (board.turn(), board.halfmove_clock(), board.fullmove_number(), board.ep_square()),
        (Color::White, 0, 1, None)
    );
    assert_eq!(
        (board.castling_rights(Color::White), board.castling_rights(Color::Black)),
        ((true, true), (true, true))
    );
    assert_eq!(
        board.piece_at(Square::E5),
        Some(Piece {
            color: Color::White,
            role: Role::Knight
        })
    );
    assert_eq!((board.piece_at(Square::E4).unwrap().char(), board.piece_at(Square::A3)), ('P', None));
    assert_eq!(board.pieces().count(), 32);
    assert_eq!(board.to_string().lines().next(), Some("r . . . k . . r"));
    assert_eq!(board.attackers(Color::White, Square::F6).collect::<Vec<_>>(), [Square::F3]);
    let (white, black) = board.attack_counts();
    for square in Square::all() {
        assert_eq!(board.attackers(Color::White, square).len(), white[square.index() as usize] as usize);
        assert_eq!(board.attackers(Color::Black, square).len(), black[square.index() as usize] as usize);
    }
    let mut other = Board::new().unwrap();
    other.set_setup(&board.setup()).unwrap();
    assert_eq!(other.fen(), board.fen());
    assert_eq!(Board::new().unwrap().key(), 0x463b_9618_1691_fc9c);
}

#[test]
fn moves_and_their_texts() {
    let board = Board::from_fen(KIWIPETE).unwrap();
    let castling: Move = "e1c1".parse().unwrap();
    assert_eq!((board.san(castling).unwrap().as_str(), board.parse_san("O-O-O")), ("O-O-O", Ok(castling)));
    let kind = board.kind(castling).unwrap();
    assert!(kind.castles_queen_side && !kind.castles_king_side && !kind.is_capture && !kind.is_zeroing());
    assert!(board.kind("e5f7".parse().unwrap()).unwrap().is_capture);
    assert_eq!(board.kind("e5e6".parse().unwrap()), Err(Error::Illegal));
    for m in board.legal_moves() {
        assert_eq!(board.parse_san(&board.san(m).unwrap()), Ok(m));
        assert_eq!(m.to_string().parse(), Ok(m));
        assert!(board.is_legal(m));
    }
    for text in ["", "e2", "e2e9", "e7e8k", "x", "e2e4 "] {
        assert_eq!(text.parse::<Move>(), Err(NotAMove));
    }
    assert_eq!((board.parse_san("Qz9"), board.parse_san("Ka1")), (Err(Error::Form), Err(Error::Illegal)));
    assert_eq!(
        Board::from_fen("6k1/8/8/8/8/8/8/R3K2R w - - 0 1").unwrap().parse_san("Rd1").map(|m| m.from),
        Ok(Square::A1)
    );
    let wrong = Move {
        from: Square::E7,
        to: Square::E8,
        promotion: Some(Role::King),
    };
    assert!(!board.is_legal(wrong));
}

#[test]
fn how_games_end() {
    let mut board = Board::new().unwrap();
    for san in ["f3", "e5", "g4", "Qh4"] {
        assert_eq!(board.play_san(san), Ok(true));
    }
    assert_eq!(
        (board.status(), board.winner(), board.is_check(), board.checkers().collect::<Vec<_>>()),
        (Status::Checkmate, Some(Color::Black), true, vec![Square::H4])
    );
    assert!(board.status().is_over() && board.best(1) == Err(Error::None));
    let mut board = Board::new().unwrap();
    for san in ["Nf3", "Nf6", "Ng1", "Ng8", "Nf3", "Nf6", "Ng1"] {
        board.play_san(san).unwrap();
    }
    assert_eq!(
        (board.claims(), board.claims_with("f6g8".parse().unwrap())),
        (Claims::default(), Ok(Claims { threefold: true, fifty: false }))
    );
    board.play_san("Ng8").unwrap();
    assert_eq!((board.repetitions(), board.claims().threefold, board.status()), (3, true, Status::Play));
    let bare = Board::from_fen("4k3/8/8/8/8/8/4P3/4K3 b - - 0 1").unwrap();
    assert_eq!((bare.cannot_mate(Color::White), bare.cannot_mate(Color::Black)), (false, true));
}

#[test]
fn what_is_refused_changes_nothing() {
    let mut board = Board::from_fen(KIWIPETE).unwrap();
    board.play_san("O-O").unwrap();
    let before = (board.pgn().unwrap(), board.fen());
    assert_eq!(board.set_fen("8/8/8/8/8/8/8/8 w - - 0 1"), Err(Error::Fen(FenError::Kings)));
    assert_eq!(board.play("a1a2".parse().unwrap()), Err(Error::Illegal));
    assert_eq!((board.step(0), board.set_comment(b"}")), (Err(Error::NoSuch), Err(Error::BadComment)));
    assert_eq!(
        board.load(b"1. e4 e5 2. e5"),
        Err(Error::Game(GameError {
            at: 12,
            fault: GameFault::Move
        }))
    );
    assert_eq!(board.load(b" \n"), Ok(None));
    assert_eq!(
        (board.set_tag("", b"x"), board.set_tag("FEN", b"x"), board.set_tag("White", b"\n")),
        (Err(Error::TagName), Err(Error::TagOwn), Err(Error::TagValue))
    );
    let mut setup = board.setup();
    setup.pieces[0] = None;
    setup.castling[0] = (false, true);
    assert_eq!(board.set_setup(&setup), Err(Error::Fen(FenError::Castling)));
    assert_eq!((board.pgn().unwrap(), board.fen()), before);
    board.start();
    assert_eq!(
        (board.back(), board.undo(true), board.promote(), board.delete(), board.annotate(1)),
        (
            Err(Error::AtRoot),
            Err(Error::AtRoot),
            Err(Error::AtRoot),
            Err(Error::AtRoot),
            Err(Error::AtRoot)
        )
    );
    assert_eq!(Error::Fen(FenError::Kings).to_string(), "no position: a side has no king, or more than one");
}

#[test]
fn a_tree() {
    let mut board = Board::new().unwrap();
    assert_eq!(
        board.load(b"[White \"Anna\"]\n\n1. e4 {one} e5 (1... c5 $1 2. Nf3) 2. Nc3 1-0\nmore"),
        Ok(Some(61))
    );
    assert_eq!(
        (board.tag("White").unwrap().unwrap(), board.tag("ECO").unwrap(), board.marker()),
        (b"Anna".to_vec(), None, Marker::WhiteWins)
    );
    board.step(0).unwrap();
    assert_eq!(
        (board.comment().unwrap(), board.children(), board.last_move()),
        (b"one".to_vec(), 2, "e2e4".parse().ok())
    );
    board.step(1).unwrap();
    assert_eq!((board.annotations().unwrap(), board.ply()), (vec![1], 2));
    board.promote().unwrap();
    board.annotate(3).unwrap();
    board.set_comment(b"two").unwrap();
    board.end();
    assert_eq!(board.line().unwrap().iter().map(Move::to_string).collect::<Vec<_>>(), ["e2e4", "c7c5", "g1f3"]);
    board.set_tag("ECO", b"B27").unwrap();
    board.set_marker(Marker::Draw);
    assert_eq!(board.tags().unwrap().len(), 7);
    let text = String::from_utf8(board.pgn().unwrap()).unwrap();
    assert!(
        text.contains("[ECO \"B27\"]") && text.ends_with("1. e4 {one} 1... c5 $1 $3 {two} (1... e5 2. Nc3) 2. Nf3 1/2-1/2\n\n"),
        "{text}"
    );
    let copy = board.try_clone().unwrap();
    assert_eq!((copy.pgn().unwrap(), copy.ply()), (text.clone().into_bytes(), 3));
    board.clear_tag("ECO").unwrap();
    board.back().unwrap();
    board.delete().unwrap();
    assert!(!String::from_utf8(board.pgn().unwrap()).unwrap().contains("Nf3"));
    assert_eq!(board.answer(b"fen").unwrap(), b"rnbqkbnr/pppppppp/8/8/4P3/8/PPPP1PPP/RNBQKBNR b KQkq e3 0 1\n");
    assert_eq!(copy.pgn().unwrap(), text.into_bytes());
}

#[test]
fn games_of_a_text() {
    let text = b"[White \"a\"]\n\n1. e4 *\n\n[White \"b\"]\n\n1. e5 *\n\n[White \"c\"]\n\n1. f3 e5 2. g4 Qh4# 1-0\n";
    let games: Vec<_> = Games::new(text).collect();
    assert_eq!(games.len(), 3);
    assert_eq!(
        games[1],
        Err(Error::Game(GameError {
            at: 38,
            fault: GameFault::Move
        }))
    );
    let (found, used) = report(games[2].as_ref().unwrap()).unwrap().unwrap();
    assert_eq!(
        (found.plies, found.marker, found.status, found.winner, found.agrees),
        (4, Marker::WhiteWins, Status::Checkmate, Some(Color::Black), false)
    );
    assert_eq!(
        (found.over, found.threefold, used),
        (Some((4, Status::Checkmate)), None, games[2].as_ref().unwrap().len() - 2)
    );
    assert_eq!((read_game(b" "), report(b" ").unwrap().is_none(), Games::new(b"").count()), (Ok(None), true, 0));
    for bytes in [&b"}"[..], b"[", b"\xff\xfe", b"1. e4 e4 e4 } { (", b"[A \"x\"]\n}\n"] {
        assert!(Games::new(bytes).count() <= bytes.len());
    }
}

#[test]
fn a_book() {
    let board = Board::new().unwrap();
    let entry = |key: u64, bytes: [u8; 8]| [key.to_be_bytes().as_slice(), &bytes].concat();
    let key = board.key();
    let book = [
        entry(1, [3, 28, 0, 1, 0, 0, 0, 0]),
        entry(key, [3, 28, 0, 2, 0, 0, 0, 9]),
        entry(key, [3, 36, 0, 1, 0, 0, 0, 0]),
        entry(u64::MAX, [0; 8]),
    ]
    .concat();
    assert_eq!((find_in_book(&book, key), find_in_book(&book, 5), find_in_book(&[], key)), (1..3, 1..1, 0..0));
    assert_eq!(
        board.book_moves(&book).collect::<Vec<_>>(),
        [BookMove {
            m: "e2e4".parse().unwrap(),
            weight: 2,
            learn: 9
        }]
    );
    assert_eq!(
        (board.book_move(&book, 0), board.book_move(&book, 4)),
        (Err(Error::Illegal), Err(Error::Argument))
    );
}

#[test]
fn the_engine() {
    let mut board = Board::from_fen(KIWIPETE).unwrap();
    let best = board.best(2).unwrap();
    assert_eq!(
        (board.best_within(2, u64::MAX, None), board.best_within(2, 10, None), board.best(0)),
        (Ok(best), Err(Error::Abandoned), Err(Error::Argument))
    );
    let mut search = board.search(2).unwrap();
    assert_eq!((search.best(), search.slice_within(0, None)), (None, Err(Error::Abandoned)));
    while search.slice() > 0 {}
    assert_eq!(search.best(), Some(best));
    drop(search);
    let mut engine = Engine::new().unwrap();
    assert!(engine.line("uci").unwrap().ends_with("uciok\n"));
    engine.line("go infinite").unwrap();
    assert!(engine.is_searching() && engine.is_infinite() && !engine.is_waiting() && engine.time_left().is_none());
    assert_eq!(engine.slice_within(0, None), Err(Error::Abandoned));
    engine.slice().unwrap();
    assert!(engine.line("stop").unwrap().starts_with("bestmove "));
    engine.line("quit").unwrap();
    assert!(engine.has_ended() && engine.line("isready").unwrap().is_empty());
    engine.moment(7).unwrap();
}

/// Small random numbers, the same at each run.
struct Chance(u64);

impl Chance {
    fn below(&mut self, most: usize) -> usize {
        self.0 = self.0.wrapping_mul(6_364_136_223_846_793_005).wrapping_add(1_442_695_040_888_963_407);
        (self.0 >> 33) as usize % most
    }
}

#[test]
fn lists_and_sets() {
    let board = Board::from_fen(KIWIPETE).unwrap();
    let (moves, mut both) = (board.legal_moves(), board.legal_moves());
    let backwards: Vec<Move> = moves.clone().rev().collect();
    assert_eq!(backwards.iter().rev().copied().collect::<Vec<_>>(), moves.clone().collect::<Vec<_>>());
    assert_eq!(
        (both.next(), both.next_back(), both.len()),
        (moves.clone().next(), backwards.first().copied(), 46)
    );
    let (white, black) = (board.attackers(Color::White, Square::E6), board.attackers(Color::Black, Square::E6));
    assert_eq!(
        ((white | black).len(), (white & black).is_empty(), (!white & white).len()),
        (white.len() + black.len(), true, 0)
    );
    assert!(Role::ALL.iter().all(|role| Role::from_char(role.char()) == Some(*role)));
    assert_eq!(String::from(board.fen()), KIWIPETE);
    assert_eq!((board.turn(), board.castling_rights(Color::Black)), (board.setup().turn, (true, true)));
    let after = Board::from_fen("r3k2r/8/8/8/8/8/8/R3K2R b Kq - 0 1").unwrap();
    assert_eq!(
        (after.turn(), after.castling_rights(Color::White), after.castling_rights(Color::Black)),
        (Color::Black, (true, false), (false, true))
    );
}

/// The library writes to a shared handle, so its bytes are in an `UnsafeCell`: `None` has no spare value there, and needs bytes of its own.
#[test]
fn a_handle_may_be_written_to_behind_a_shared_reference() {
    use std::{cell::UnsafeCell, mem::size_of};
    #[repr(C)]
    struct Handle {
        _full: bool,
        _at: *mut u8,
    }
    struct Shared {
        _handle: UnsafeCell<Handle>,
    }
    // (an older Rust takes a spare value all the same)
    if size_of::<Option<Shared>>() > size_of::<Shared>() {
        assert!(size_of::<Option<Stop>>() > size_of::<Stop>());
        assert!(size_of::<Option<Board>>() > size_of::<Board>());
    }
}

#[test]
fn boards_of_threads_beside_a_list_of_moves() {
    let threads: Vec<_> = (0..4u64)
        .map(|seed| {
            std::thread::spawn(move || {
                let (mut chance, mut board, mut line) = (Chance(seed), Board::new().unwrap(), Vec::new());
                for _ in 0..400 {
                    let moves: Vec<_> = board.legal_moves().collect();
                    match chance.below(5) {
                        0 if !line.is_empty() => {
                            let (_, added) = line.pop().unwrap();
                            board.undo(added).unwrap();
                        }
                        _ if moves.is_empty() || board.status().is_over() => {
                            board.set_fen("rnbqkbnr/pppppppp/8/8/8/8/PPPPPPPP/RNBQKBNR w KQkq - 0 1").unwrap();
                            line.clear();
                        }
                        _ => {
                            let m = moves[chance.below(moves.len())];
                            let added = board.play(m).unwrap();
                            line.push((m, added));
                        }
                    }
                    assert_eq!(board.line().unwrap(), line.iter().map(|(m, _)| *m).collect::<Vec<_>>());
                }
                board
            })
        })
        .collect();
    for thread in threads {
        // (a board that another thread made)
        let mut board = thread.join().unwrap();
        let again = board.pgn().unwrap();
        assert!(board.load(&again).unwrap().is_some() && board.pgn().unwrap() == again);
    }
}

#[test]
fn the_library_is_of_this_version() {
    let [first, second, third] = [0, 2, 0];
    assert_eq!(version(), first << 16 | second << 8 | third);
}
