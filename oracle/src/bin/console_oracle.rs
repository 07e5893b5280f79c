//! What `console script WORD` prints for a script on standard input, by the original.

use std::env;
use std::io::{self, Write};

use oracle::console::play;
use oracle::lines::read_input;

fn main() -> io::Result<()> {
    let word = env::args().nth(1).ok_or(io::Error::other("usage: console_oracle WORD < script"))?;
    io::stdout().write_all(play(&read_input()?, word.as_bytes()).as_bytes())
}
