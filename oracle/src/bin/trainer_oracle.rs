//! What `trainer` prints: commands of `cuts` on standard input; the original's lines and, where a
//! cut closes, sweeps of this crate's own.

use oracle::lines::{Program, run};

fn main() -> std::io::Result<()> {
    run(Program::Trainer)
}
