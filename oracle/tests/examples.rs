//! The programs: document 01's examples, the odd bytes, many scripts, pictures as text.

use oracle::lines::{Program, text};

fn last(program: Program, script: &str) -> String {
    let out = program.lines(script.as_bytes());
    out.lines().last().expect("a line").to_string()
}

#[test]
fn mines_as_in_the_document() {
    let lines = "1 1 0 28 2 0 0\n2 1 0 28 2 0 0\n2 1 0 28 2 0 0\n";
    assert_eq!(Program::Mines.lines(b"L9g"), lines);
}

#[test]
fn cuts_as_in_the_document() {
    let lines = "32 0 1860 188 0 1 0\n32 1 1859 188 1 1 0\n";
    assert_eq!(Program::Cuts.lines(b"8s"), lines);
}

#[test]
fn newline_is_ignored_and_other_bytes_refused() {
    for program in [Program::Mines, Program::Cuts] {
        assert_eq!(program.lines(b""), "");
        assert_eq!(program.lines(b"\n\n"), "");
        for byte in [b'\r', b' ', 0, b'0', b'4', b'6', b'|', 255] {
            assert_eq!(program.lines(&[byte]), "refused 5\n");
        }
    }
    assert_eq!(Program::Cuts.lines(b"L"), "refused 5\n");
    assert_eq!(Program::Cuts.lines(b"gc"), "refused 5\nrefused 5\n");
    assert_eq!(Program::Mines.lines(b"ser"), "refused 5\n".repeat(3));
    assert_eq!(Program::Mines.lines(b"9x\n9"), "2 1 0 28 2 0 0\nrefused 5\n3 1 0 28 2 0 0\n");
}

#[test]
fn scripts_each_start_anew() {
    let one = Program::Cuts.lines(b"8s");
    assert_eq!(Program::Cuts.cases(b"8s|8s||8s\n"), one.repeat(3));
    assert_eq!(Program::Mines.cases(b"9|9"), "2 1 0 28 2 0 0\n".repeat(2));
}

#[test]
fn scripts_of_the_findings() {
    assert_eq!(last(Program::Mines, "88999g7g5778989g"), "3 4 2 28 2 1 0");
    assert_eq!(last(Program::Cuts, "8ss5sr"), "32 0 1860 188 0 1 1");
    assert_eq!(last(Program::Cuts, "8s5s"), "32 0 1859 189 0 1 0");
    assert_eq!(last(Program::Cuts, "8ss9ss5s7s5s"), "32 0 1854 194 0 1 0");
    assert_eq!(last(Program::Cuts, "9s8s7ss5s9sr"), "31 0 1857 191 0 1 0");
}

#[test]
fn a_picture_as_text() {
    let shown = text(&Program::Cuts.frame(b"8s"));
    let lines: Vec<&str> = shown.lines().collect();
    assert_eq!(lines.len(), 32);
    assert!(lines.iter().all(|line| line.chars().count() == 128));
    // Three lives are dark pixels in the top row; the line starts below the border; the
    // player's own two by two pixels are dark.
    assert!(lines[0].starts_with("██▄██▄██▄█"));
    assert_eq!(lines[0].chars().skip(64).take(2).collect::<String>(), "██");
    assert_eq!(lines[1].chars().skip(62).take(6).collect::<String>(), "      ");
    let shown = text(&Program::Cuts.frame(b"8ss"));
    assert_eq!(
        shown.lines().nth(1).unwrap().chars().skip(62).take(6).collect::<String>(),
        "  ██  "
    );
    // One pixel at (20,20), the topmost of two rows.
    assert_eq!(lines[10].chars().nth(20), Some('▀'));

    let shown = text(&Program::Mines.frame(b""));
    assert!(shown.lines().take(4).all(|line| line.trim().is_empty()), "page 0 is blank");
    let row: String = shown.lines().nth(8).unwrap().chars().take(24).collect();
    assert_eq!(row, "█▀▀▀█▀▀▀   ██   ▀▄▀▄▀▄▀▄");
}

/// The scripts of a file in cases/, and the last line that each prints.
fn cases(program: Program, file: &str) -> Vec<(String, String)> {
    let path = concat!(env!("CARGO_MANIFEST_DIR"), "/cases/");
    let text = std::fs::read_to_string([path, file].concat()).expect(file);
    let scripts: Vec<String> = text.split('|').map(|script| script.replace('\n', "")).collect();
    let last = |script: &String| {
        let lines = program.lines(script.as_bytes());
        lines.lines().last().unwrap_or("").to_string()
    };
    scripts.iter().map(|script| (script.clone(), last(script))).collect()
}

#[test]
fn the_cases_of_mines_show_what_they_should() {
    let cases = cases(Program::Mines, "mines.txt");
    let ends = |ending: &str| cases.iter().filter(|(_, line)| line.ends_with(ending)).count();
    assert_eq!((cases.len(), ends("28 1 0 0")), (34, 2), "two squashes");
    assert_eq!((ends(" 0 1"), ends("28 2 1 0")), (2, 11), "two wins, eleven deaths");
    let won = cases.iter().find(|(_, line)| line.ends_with(" 0 1")).expect("a win");
    assert_eq!(won.1, "20 12 28 28 2 0 1");
}

#[test]
fn the_cases_of_cuts_show_what_they_should() {
    let cases = cases(Program::Cuts, "cuts.txt");
    let has = |line: &str| cases.iter().any(|(_, last)| last == line);
    assert_eq!(cases.len(), 45);
    assert!(has("32 31 930 1118 0 1 0"), "keeps the left");
    assert!(has("6 31 1680 368 0 1 0"), "keeps the right");
    assert!(has("63 15 868 1180 0 1 0"), "keeps the upper");
    assert!(has("63 6 1504 544 0 0 0"), "more than 48 regions, the large one uncounted");
    assert!(has("0 4 1612 436 0 1 0"), "42 pockets, all counted");
    assert!(has("59 0 1860 188 0 1 1"), "from the border into a creature");
    assert!(has("32 28 1832 188 28 1 1"), "a creature meets the line");
    assert!(has("32 0 0 2048 0 0 0"), "no black is left to walk to");
}

/// What `mines_cases` and `cuts_cases` read and are held to.
#[test]
fn the_stored_cases() {
    macro_rules! stored {
        ($program:expr, $cases:literal, $folder:literal) => {
            let cases = include_str!(concat!("../cases/", $cases));
            assert_eq!(include_str!(concat!("../../crates/", $folder, "/stdin")), cases);
            let printed = include_str!(concat!("../../crates/", $folder, "/stdout"));
            assert!($program.cases(cases.as_bytes()) == printed, $folder);
        };
    }
    stored!(Program::Mines, "mines.txt", "mines_cases");
    stored!(Program::Cuts, "cuts.txt", "cuts_cases");
}

#[test]
fn long_plays() {
    let [(_, mines)] = &cases(Program::Mines, "mines_play.txt")[..] else { panic!("one script") };
    assert_eq!(mines, "11 11 27 28 1 1 0", "collects, squashes and dies");
    let [(_, cuts)] = &cases(Program::Cuts, "cuts_play.txt")[..] else { panic!("one script") };
    assert_eq!(cuts, "56 15 20 2028 0 1 1");
}
