//! `crates/console/stdout`, which the console is held to, is what the original gives.

use oracle::console::play;

#[test]
fn script() {
    let word = include_str!("../../crates/console/args").lines().nth(1).unwrap();
    let script = include_bytes!("../../crates/console/stdin");
    assert_eq!(play(script, word.as_bytes()), include_str!("../../crates/console/stdout"));
}
