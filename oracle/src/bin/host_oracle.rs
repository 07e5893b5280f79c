//! What the C program of `hosts/c` prints, by the original: a script of calls on standard
//! input, lines on standard output.

use std::io::{self, Read, Write};

use oracle::host::played;

fn main() -> io::Result<()> {
    let mut script = String::new();
    io::stdin().read_to_string(&mut script)?;
    io::stdout().write_all(played(&script).as_bytes())
}
