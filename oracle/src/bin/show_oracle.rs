//! The picture after commands as `mines` or `cuts` read them, as text, by the original.

use std::env;
use std::io::{self, Write};

use oracle::lines::{Program, read_input, text};

fn main() -> io::Result<()> {
    let program = match env::args().nth(1).as_deref() {
        Some("mines") => Program::Mines,
        Some("cuts") => Program::Cuts,
        _ => return Err(io::Error::other("usage: show_oracle mines|cuts < commands")),
    };
    io::stdout().write_all(text(&program.frame(&read_input()?)).as_bytes())
}
