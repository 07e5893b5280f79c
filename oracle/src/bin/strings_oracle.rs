//! Writes all strings of up to LENGTH bytes over ALPHABET, shortest first, parted by `|`.

use std::io::{self, Write};

const USAGE: &str = "usage: strings_oracle ALPHABET LENGTH";

fn main() -> io::Result<()> {
    let words: Vec<String> = std::env::args().skip(1).collect();
    let [alphabet, length] = words.as_slice() else {
        return Err(io::Error::other(USAGE));
    };
    let length: u32 = length.parse().map_err(|_| io::Error::other(USAGE))?;
    let letters = alphabet.as_bytes();
    let mut out = io::BufWriter::new(io::stdout().lock());
    for places in 0..=length {
        for number in 0..letters.len().pow(places) {
            let mut rest = number;
            for _ in 0..places {
                out.write_all(&[letters[rest % letters.len()]])?;
                rest /= letters.len();
            }
            out.write_all(b"|")?;
        }
    }
    out.flush()
}
