//! What `mines` prints, by the original: commands on standard input, lines on standard
//! output. With `--cases` the input is many scripts parted by `|`, each from the start.

use oracle::lines::{Program, run};

fn main() -> std::io::Result<()> {
    run(Program::Mines)
}
