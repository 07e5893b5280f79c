//! The reader finds what is wrong in a trace.

use oracle::calls::Call;
use oracle::make::damage::{PARTS, damaged};
use oracle::make::mine_corners::walled;
use oracle::make::{corners, sequences};
use oracle::replay::{Part, Report, replay, replay_each};
use oracle::rng::Rng;
use oracle::state::*;
use oracle::trace::Trace;

const DAMAGES: usize = 60;

fn report(trace: &[u8]) -> Report {
    replay(trace).expect("a trace in memory")
}

/// The bytes that say what the original answered: headers, states of calls and results, but
/// not arguments or the states of entries 0, which are what it was asked.
fn answers(trace: &[u8]) -> Vec<usize> {
    let mut places = Vec::new();
    let mut at = 0;
    while at < trace.len() {
        let length = |i| usize::from(u16::from_le_bytes([trace[at + i], trace[at + i + 1]]));
        let asked = 12 + length(4) + if trace[at] == 0 { length(6) } else { 0 };
        let end = at + 12 + length(4) + length(6) + length(8);
        places.extend(at..at + 12);
        places.extend(at + asked..end);
        at = end;
    }
    places
}

/// One of every kind of entry, as short as can be.
fn small() -> Trace {
    let m = walled((5, 5), &[(6, 5, DIRT), (7, 5, BOULDER)]).peopled(&[(9, 9, UP), (9, 8, UP)]);
    let mut trace = Trace::new(State { game: Game::Mine(Box::new(m)), pace: Pace::default() });
    trace.call(Call::Move(RIGHT));
    trace.call(Call::Move(4));
    trace.call(Call::MinePass { time: 36_000_000, keys: vec![7, 10] });
    trace.call(Call::MinePass { time: 36_000_000, keys: vec![7] });
    trace.call(Call::MinePicture(3));
    trace.call(Call::MineWho { x: 9, y: 9, list: vec![Enemy { x: 9, y: 9, dir: 1 }] });
    trace.call(Call::Page { number: 7, frame: vec![9; 1024] });
    let m = walled((5, 5), &[]).peopled(&[(9, 9, UP), (9, 9, UP)]);
    trace.set(State { game: Game::Mine(Box::new(m)), pace: Pace::default() });
    trace.call(Call::Gravity);
    trace.call(Call::NewRound(vec![9, 9, 1, 1]));
    trace.call(Call::NewRound(vec![9, 9, 1]));
    trace.call(Call::Ground);
    trace.call(Call::Step);
    trace.call(Call::CutterPass { time: 1, keys: vec![10], draws: Vec::new() });
    trace.call(Call::Start(7));
    trace
}

#[test]
fn every_wrong_byte_of_a_small_trace_is_found() {
    let trace = small();
    let clean = report(&trace.bytes);
    assert_eq!((clean.calls, clean.differ), (trace.calls, 0));
    let places = answers(&trace.bytes);
    for &place in &places {
        let mut bytes = trace.bytes.clone();
        bytes[place] ^= 1 << (place % 8);
        assert_ne!(report(&bytes).differ, 0, "byte {place}");
    }
    println!("{} bytes damaged one by one", places.len());
}

#[test]
fn wrong_bytes_of_the_corners_are_found() {
    for (program, corners) in corners::all() {
        let trace = corners.trace.bytes;
        let places = answers(&trace);
        let rng = &mut Rng::new(1);
        for _ in 0..DAMAGES {
            let place = rng.pick(&places);
            let mut bytes = trace.clone();
            bytes[place] ^= 1 << rng.below(8);
            assert_ne!(report(&bytes).differ, 0, "{program}, byte {place}");
        }
    }
}

#[test]
fn the_first_difference_is_told() {
    let parts = [
        ("refusal", Part::Refusal),
        ("answer", Part::Answer),
        ("state", Part::State(0)),
        ("record", Part::Record(0)),
        ("result", Part::Result(0)),
        ("frame", Part::Result(1023)),
        ("cost", Part::Result(2)),
        ("place", Part::Place),
        ("place-high", Part::Place),
    ];
    assert_eq!(parts.map(|(name, _)| name), PARTS);
    for (name, part) in parts {
        let (trace, entry, _) = damaged(name).expect("a part");
        let report = report(&trace);
        let first = report.first.expect("a difference");
        assert_eq!((first.entry, first.part), (entry, part), "{name}");
        assert_eq!(report.calls, 7, "the run goes on");
    }
}

/// What `replay_damaged` reads and is held to.
#[test]
fn the_stored_damages() {
    let each = PARTS.map(|part| damaged(part).expect("a part").0).concat();
    assert!(each == include_bytes!("../../crates/replay_damaged/stdin"), "not as stored");
    let mut told = String::new();
    let mut report =
        replay_each(each.as_slice(), |d| told += &format!("{d}\n")).expect("in memory");
    report.first = None;
    assert_eq!(told + &report.to_string(), include_str!("../../crates/replay_damaged/stdout"));
}

#[test]
fn a_difference_is_told_in_words() {
    let (trace, ..) = damaged("refusal").expect("a part");
    let words = "entry 1 at 862, call 2: refusal differs\n7 calls, 1 differ\n";
    assert_eq!(report(&trace).to_string(), words);
    let clean = report(&small().bytes);
    assert_eq!(clean.to_string(), "14 calls, 0 differ\n");
}

#[test]
fn an_empty_input_is_no_run() {
    assert_eq!(report(&[]).to_string(), "no entry: the input is empty or can't be read\n");
}

#[test]
fn a_trace_cut_short_cannot_be_read() {
    let trace = small();
    let whole = trace.bytes.len();
    for length in whole - 20..whole {
        let report = report(&trace.bytes[..length]);
        let first = report.first.expect("a difference");
        assert_eq!((first.part, report.differ), (Part::Unreadable, 1), "{length} bytes");
    }
    assert_eq!(report(&[]), Report::default());
}

#[test]
fn an_unknown_or_foreign_call_cannot_be_read() {
    let start = sequences::start().bytes;
    let entry = |call: u8| [call, 0, 0, 0, 0, 0, 0, 0, 0, 0, 0, 0];
    for call in [8, 16, 19, 27, 29, 34, 255] {
        let trace = [start.clone(), entry(call).to_vec()].concat();
        let first = report(&trace).first.expect("a difference");
        assert_eq!((first.entry, first.offset, first.part), (1, 862, Part::Unreadable));
    }
    let bare = report(&entry(3)).first.expect("a difference");
    assert_eq!(bare.part, Part::Unreadable, "no state to start from");
}
