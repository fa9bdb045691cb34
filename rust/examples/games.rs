//! A line for each game of a file: who played, how it ended by its text and by the Laws, or why it can't be read: `cargo run --example games -- FILE`.
use jatshegi::{report, Board, Error, Games};

fn main() -> Result<(), Box<dyn std::error::Error>> {
    let text = std::fs::read(std::env::args().nth(1).ok_or("which file?")?)?;
    let mut board = Board::new()?;
    for game in Games::new(&text) {
        match game {
            Ok(game) => {
                board.load(&game)?;
                let name = |tag| Ok::<_, Error>(String::from_utf8_lossy(&board.tag(tag)?.unwrap_or_default()).into_owned());
                let (found, _) = report(&game)?.expect("a game in export form is one");
                println!(
                    "{} - {}: {}, {:?} after {} plies",
                    name("White")?,
                    name("Black")?,
                    found.marker,
                    found.status,
                    found.plies
                );
            }
            Err(Error::Game(fault)) => println!("{fault}"),
            Err(error) => return Err(error.into()),
        }
    }
    Ok(())
}
