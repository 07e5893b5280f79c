//! Takes the original module from the path in GAMES_RS, checks its sum, and puts it where
//! `src/games.rs` includes it, and with counters where `src/games/counted.rs` does. Nothing of it
//! is kept in this repository.

mod sha256;

use std::path::{Path, PathBuf};
use std::{env, fs};

const VARIABLE: &str = "GAMES_RS";
const DEFAULT: &str = "../../shared/docs/src/apps/games/src/lib.rs";
const SUM: &str = "7660499e8f4cadeb1d9b179e044e3e1d9b9e8fbefb787be3b975f1ba29360b17";
/// What the original does for each cell that it takes from a queue, here followed by a count.
const TAKES: &str = "head += 1;";
const COUNTS: [(&str, &str); 2] =
    [("fn move_to_border", " count_walked();"), ("fn close_cut", " count_searched();")];

fn main() {
    println!("cargo::rerun-if-env-changed={VARIABLE}");
    println!("cargo::rerun-if-changed=build");
    if let Err(why) = take() {
        println!("cargo::error={why}");
    }
}

fn take() -> Result<(), String> {
    let folder = PathBuf::from(env::var_os("CARGO_MANIFEST_DIR").ok_or("no manifest folder")?);
    let from = env::var_os(VARIABLE).map_or_else(|| folder.join(DEFAULT), PathBuf::from);
    println!("cargo::rerun-if-changed={}", from.display());

    let bytes = fs::read(&from).map_err(|e| {
        format!(
            "the original module is missing at {} ({e}); set {VARIABLE} to the path of \
             apps/games/src/lib.rs",
            from.display()
        )
    })?;
    let sum = sha256::hex(&bytes);
    if sum != SUM {
        return Err(format!(
            "{} is not the original module: its sha256 is {sum}, expected {SUM}",
            from.display()
        ));
    }
    let text = String::from_utf8(bytes).map_err(|e| format!("not a text: {e}"))?;
    let out = env::var_os("OUT_DIR").ok_or("no output folder")?;
    let text = included(&text);
    for (name, text) in [("counted.rs", counted(&text)?), ("games.rs", text)] {
        let to = Path::new(&out).join(name);
        fs::write(&to, text).map_err(|e| format!("cannot write {}: {e}", to.display()))?;
    }
    Ok(())
}

/// The text with its leading inner attribute and inner comments turned into plain comments,
/// which is all that an included file may not carry.
fn included(text: &str) -> String {
    let mut head = true;
    text.lines()
        .map(|line| {
            head &= line.starts_with("#![") || line.starts_with("//!");
            format!("{}{line}\n", if head { "// " } else { "" })
        })
        .collect()
}

/// The text with a count behind each cell that the walk and the closing take from their queues.
fn counted(text: &str) -> Result<String, String> {
    let mut parts = text.split(TAKES);
    let mut out = parts.next().unwrap_or_default().to_string();
    for (function, count) in COUNTS {
        let rest = parts.next().ok_or(format!("no `{TAKES}` for `{function}`"))?;
        if !out.rfind("fn ").is_some_and(|at| out[at..].starts_with(function)) {
            return Err(format!("a `{TAKES}` that is not in `{function}`"));
        }
        out += &[TAKES, count, rest].concat();
    }
    parts.next().map_or(Ok(out), |_| Err(format!("a `{TAKES}` too many")))
}
