//! Writes traces to standard output: calls with the original's answers.

use std::io::{self, Write};

use oracle::make::damage::damaged;
use oracle::make::{corners, sequences};
use oracle::trace::Trace;

const USAGE: &str = "usage: trace_oracle SEED SEQUENCES | corners | closings | refused | swept | \
                     corners-list | edges | \
                     damaged refusal|answer|state|record|result|frame|cost|place|place-high";

fn main() -> io::Result<()> {
    let words: Vec<String> = std::env::args().skip(1).collect();
    let words: Vec<&str> = words.iter().map(String::as_str).collect();
    let mut out = io::stdout().lock();
    let trace = match words.as_slice() {
        ["corners"] => corners::corners().trace,
        ["corners-list"] => {
            for (program, corners) in corners::all() {
                writeln!(out, "{program}")?;
                for (entry, name) in corners.names {
                    writeln!(out, "{entry:5} {name}")?;
                }
            }
            return Ok(());
        }
        ["closings"] => corners::closings().trace,
        ["refused"] => corners::refused().trace,
        ["swept"] => corners::corners().swept.expect("a trace apart"),
        ["edges"] => corners::edges(),
        ["damaged", part] => {
            let (bytes, entry, byte) = damaged(part).ok_or(io::Error::other(USAGE))?;
            eprintln!("entry {entry} is wrong at byte {byte} of the trace");
            return out.write_all(&bytes);
        }
        [seed, number] => {
            let (Ok(seed), Ok(number)) = (seed.parse(), number.parse()) else {
                return Err(io::Error::other(USAGE));
            };
            random(&mut out, seed, number)?
        }
        _ => return Err(io::Error::other(USAGE)),
    };
    out.write_all(&trace.bytes)?;
    eprintln!("{} entries, {} calls", trace.entries, trace.calls);
    Ok(())
}

/// Writes the sequences one by one; what comes back has been written.
fn random(out: &mut impl Write, seed: u64, number: usize) -> io::Result<Trace> {
    let mut trace = sequences::start();
    for index in 0..number {
        sequences::sequence(&mut trace, seed, index);
        out.write_all(&std::mem::take(&mut trace.bytes))?;
    }
    Ok(trace)
}
