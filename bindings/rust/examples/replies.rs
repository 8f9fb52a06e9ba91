//! Reads replies from standard input, and prints each on a line.
//!
//! ```sh
//! printf '*2\r\n$5\r\nhello\r\n:42\r\n' | cargo run --example replies
//! ```

use resp_c::Parser;
use std::error::Error;
use std::io::{self, Read};

fn main() -> Result<(), Box<dyn Error>> {
    let mut parser = Parser::new()?;
    let mut input = io::stdin().lock();
    let mut piece = [0; 4096];
    loop {
        let size = input.read(&mut piece)?;
        if size == 0 {
            break;
        }
        parser.feed(&piece[..size])?;
        while let Some(view) = parser.next()? {
            println!("{:?}", view.value());
        }
    }
    if parser.in_progress() {
        return Err("the input ends within a reply".into());
    }
    Ok(())
}
