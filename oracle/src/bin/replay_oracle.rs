//! Replays a trace from standard input against the original and tells what differs: the first
//! difference, or with `--each` all of them.

use std::io;
use std::process::ExitCode;

use oracle::replay::{replay, replay_each};

fn main() -> io::Result<ExitCode> {
    let input = io::stdin().lock();
    let each = std::env::args().nth(1).is_some_and(|word| word == "--each");
    let report = if each {
        let mut report = replay_each(input, |difference| println!("{difference}"))?;
        report.first = None;
        report
    } else {
        replay(input)?
    };
    print!("{report}");
    Ok(if report.entries != 0 && report.differ == 0 {
        ExitCode::SUCCESS
    } else {
        ExitCode::FAILURE
    })
}
