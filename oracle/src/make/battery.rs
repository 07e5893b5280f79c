//! Every call of a game once with good and once with bad arguments.

use super::readings::{ENEMY, MOVER};
use crate::calls::Call;
use crate::check::draws_for;
use crate::state::{Cutter, MOVERS, Pace, RIGHT};

const QUIT: u8 = 10;
const BAD_COMMAND: u8 = 4;
const BAD_FRAME: u16 = 3;

/// Mine's calls; `picture` is the length of the good frame.
pub fn mine(pace: &Pace, picture: u16) -> Vec<Call> {
    let time = pace.second.wrapping_add(ENEMY);
    vec![
        Call::Move(BAD_COMMAND),
        Call::MinePicture(BAD_FRAME),
        Call::MinePicture(picture),
        Call::MinePass { time, keys: vec![QUIT] },
        Call::Move(RIGHT),
        Call::Gravity,
        Call::MoveEnemies,
        Call::MinePass { time, keys: vec![9, 8] },
    ]
}

/// Cutter's calls on `c`, the step by sweeps left to whoever makes them; `picture` is the length of the good frame.
pub fn cutter(c: &Cutter, pace: &Pace, picture: u16) -> Vec<Call> {
    let time = pace.second.wrapping_add(MOVER);
    let level = vec![0; draws_for(c.level)];
    let next = if c.won_level && !c.dead { draws_for(c.level.min(MOVERS as u32) + 1) } else { 0 };
    let draws = vec![1; next];
    vec![
        Call::Direction(BAD_COMMAND),
        Call::NewLevel(vec![0; 3]),
        Call::CutterPass { time, keys: vec![QUIT], draws: vec![0; next + 1] },
        Call::CutterPicture(BAD_FRAME),
        Call::CutterPicture(picture),
        Call::Ground,
        Call::CutterPass { time, keys: vec![8], draws },
        Call::Direction(RIGHT),
        Call::StepEnemies,
        Call::Step,
        Call::Respawn,
        Call::NewLevel(level),
    ]
}
