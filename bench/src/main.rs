//! Measures the original's functions and the port's on the same states, and prints the table; then
//! the stack of a closing.

mod clock;
mod cuts;
mod mines;
mod ours;
mod stack;
mod states;
mod table;

use std::time::Duration;

/// How long each pair is measured, in milliseconds, unless a word says otherwise.
const SPAN: u64 = 400;
/// A reading that makes both ticks due, against marks of 0, and one that makes none due.
const LATE: u32 = 100_000_000;
const EARLY: u32 = 0;
/// Right, which the pass of either game plays.
const KEYS: [u8; 1] = [9];

fn main() {
    let mut words = std::env::args().skip(1);
    let span = words.next().map_or(SPAN, |word| word.parse().expect("milliseconds"));
    let digits = words.next().map_or(0, |word| word.parse().expect("digits past the point"));
    let table = table::Table { clock: clock::Clock::new(Duration::from_millis(span)), digits };
    table.head();
    mines::rows(&table);
    cuts::rows(&table);
    println!();
    stack::rows();
}
