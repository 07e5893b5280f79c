//! `hosts/c/round.out`, which the C program is held to, is what the original gives.

use oracle::host::played;

#[test]
fn round() {
    let script = include_str!("../../hosts/c/round.txt");
    assert_eq!(played(script), include_str!("../../hosts/c/round.out"));
}
