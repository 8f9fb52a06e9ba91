//! Reads the replies of a file ROUNDS times over, PIECE bytes a feed, and prints how many there are.
//!
//! ```sh
//! cargo run --release --example bench -- FILE PIECE ROUNDS
//! ```
//!
//! `tools/bench-c` counts its instructions.

use resp_c::Parser;
use std::error::Error;
use std::{env, fs};

/// How many replies these bytes have.
fn replies(bytes: &[u8], piece: usize) -> Result<usize, resp_c::Error> {
    let mut parser = Parser::new()?;
    let mut count = 0;
    for piece in bytes.chunks(piece) {
        parser.feed(piece)?;
        while parser.next()?.is_some() {
            count += 1;
        }
    }
    Ok(count)
}

fn main() -> Result<(), Box<dyn Error>> {
    let words: Vec<String> = env::args().collect();
    let [_, file, piece, rounds] = words.as_slice() else {
        return Err("usage: bench FILE PIECE ROUNDS".into());
    };
    let bytes = fs::read(file)?;
    let mut count = 0;
    for _ in 0..rounds.parse()? {
        count = replies(&bytes, piece.parse()?)?;
    }
    println!("{count}");
    Ok(())
}
