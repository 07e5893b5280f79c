//! The trainer's lessons, and `crates/trainer/stdout`, which the program is held to.

use oracle::lines::Program;
use oracle::make::cutter_grounds::{chequers, drawing};
use oracle::state::UP;
use oracle::trainer::lesson;

const SCRIPT: &str = include_str!("../../crates/trainer/stdin");
const PRINTED: &str = include_str!("../../crates/trainer/stdout");

#[test]
fn the_stored_script() {
    assert_eq!(Program::Trainer.lines(SCRIPT.as_bytes()), PRINTED);
    let ends = |fate: &str| PRINTED.lines().filter(|line| line.ends_with(fate)).count();
    assert_eq!([", kept", ", taken", ", not counted"].map(ends), [7, 57, 6]);
}

#[test]
fn without_its_lessons_it_is_cuts() {
    let taught = |line: &&str| line.starts_with("sweep") || line.starts_with("region");
    let lines: Vec<&str> = PRINTED.lines().filter(|line| !taught(line)).collect();
    let cuts = Program::Cuts.lines(SCRIPT.as_bytes());
    assert_eq!(lines, cuts.lines().collect::<Vec<_>>());
    assert_eq!(Program::Trainer.lines(b"8ser5x\n"), Program::Cuts.lines(b"8ser5x\n"));
}

#[test]
fn lessons() {
    let middle = "sweep 1: 1828 changed, 2 numbers\n\
                  sweep 2: 0 changed, 2 numbers\n\
                  region 1 1: 930 cells, 1 creatures, kept\n\
                  region 33 1: 900 cells, 0 creatures, taken\n";
    assert_eq!(lesson(&drawing(30)), middle);
    assert_eq!(lesson(&chequers(0)), "sweep 1: 0 changed, 0 numbers\n");
    assert_eq!([drawing(29), drawing(4).heading(UP)].map(|c| lesson(&c)), ["", ""]);
    let many = lesson(&chequers(50).peopled_in_order(48));
    let ends = |fate: &str| many.lines().filter(|line| line.ends_with(fate)).count();
    assert_eq!([", kept", ", taken", ", not counted"].map(ends), [1, 47, 2]);
    let [.., last, ninth, tenth] = many.lines().collect::<Vec<_>>()[..] else { panic!("{many}") };
    assert_eq!(last, "region 36 5: 1 cells, 2 creatures, kept");
    assert_eq!(ninth, "region 38 5: 1 cells, 0 creatures, not counted");
    assert_eq!(tenth, "region 40 5: 1 cells, 0 creatures, not counted");
}
