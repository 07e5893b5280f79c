//! A short trace with one wrong byte in a part of choice.

use super::readings::{ENEMY, STEP};
use super::sequences;
use crate::calls::Call;
use crate::games::mine;
use crate::stand_ins::catcard_app::screen::FRAME;
use crate::state::{Game, Pace, State};

pub const PARTS: [&str; 9] =
    ["refusal", "answer", "state", "record", "result", "frame", "cost", "place", "place-high"];

const HEADER: usize = 12;
const REFUSAL: usize = 1;
const ANSWER: usize = 2;
const PLACE: usize = 10;
const RECORD: usize = 8;
/// A pass's arguments: a reading and one key, in Cutter with their number; a picture's: a length.
const PASS: usize = HEADER + 5;
const CUTTER_PASS: usize = HEADER + 7;
const PICTURE: usize = HEADER + 2;
/// Behind the cells that were searched come those that were walked.
const WALKED: usize = 2;

/// The trace, and the entry and the byte that are wrong; `None` for an unknown part.
pub fn damaged(part: &str) -> Option<(Vec<u8>, usize, usize)> {
    let mut trace = sequences::start();
    let mut starts = vec![0];
    let calls = [
        Call::Move(4),
        Call::MinePass { time: ENEMY, keys: vec![9] },
        Call::MinePicture(FRAME as u16),
        Call::NewRound(vec![9, 9, 1, 1]),
        Call::CutterPass { time: STEP + ENEMY, keys: vec![8], draws: Vec::new() },
        Call::Ground,
    ];
    for call in calls {
        starts.push(trace.bytes.len());
        trace.call(call);
    }
    let mut bad = mine::load();
    bad.enemies[1].dir = 4;
    starts.push(trace.bytes.len());
    trace.set(State { game: Game::Mine(Box::new(bad)), pace: Pace::default() });
    starts.push(trace.bytes.len());
    trace.call(Call::Gravity);
    let (entry, byte) = match part {
        "refusal" => (1, REFUSAL),
        "answer" => (2, ANSWER),
        "state" => (2, PASS),
        "record" => (2, PASS + State::MINE_BYTES - RECORD),
        "result" => (6, HEADER),
        "frame" => (3, PICTURE + FRAME - 1),
        "cost" => (5, CUTTER_PASS + State::CUTTER_BYTES + WALKED),
        "place" => (8, PLACE),
        // Of a call that isn't refused.
        "place-high" => (2, PLACE + 1),
        _ => return None,
    };
    let wrong = starts[entry] + byte;
    trace.bytes[wrong] ^= 1;
    Some((trace.bytes, entry, wrong))
}
