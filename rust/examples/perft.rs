//! Counts the leaves of the tree of legal moves: `cargo run --release --example perft -- 5 [FEN]`.
use jatshegi::{Board, Error};

fn perft(board: &mut Board, depth: u32) -> Result<u64, Error> {
    let moves = board.legal_moves();
    if depth <= 1 {
        return Ok(if depth == 0 { 1 } else { moves.len() as u64 });
    }
    let mut leaves = 0;
    for m in moves {
        let added = board.play(m)?;
        leaves += perft(board, depth - 1)?;
        board.undo(added)?;
    }
    Ok(leaves)
}

fn main() -> Result<(), Box<dyn std::error::Error>> {
    let mut words = std::env::args().skip(1);
    let depth = words.next().unwrap_or_else(|| "4".into()).parse()?;
    let mut board = match words.next() {
        Some(fen) => fen.parse()?,
        None => Board::new()?,
    };
    println!("{}", perft(&mut board, depth)?);
    Ok(())
}
