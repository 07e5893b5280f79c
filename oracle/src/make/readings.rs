//! Clock readings that fall on and around the intervals.

use crate::rng::Rng;
use crate::state::Pace;

pub const GRAVITY: u32 = 12_000_000;
pub const ENEMY: u32 = 36_000_000;
pub const STEP: u32 = 2_400_000;
pub const MOVER: u32 = 4_000_000;

pub fn mine(pace: &Pace, rng: &mut Rng) -> u32 {
    reading(pace, [GRAVITY, ENEMY], rng)
}

pub fn cutter(pace: &Pace, rng: &mut Rng) -> u32 {
    reading(pace, [STEP, MOVER], rng)
}

/// Just before, on and after an interval counted from its mark, or anything.
fn reading(pace: &Pace, [first, second]: [u32; 2], rng: &mut Rng) -> u32 {
    let (mark, interval) = rng.pick(&[(pace.first, first), (pace.second, second)]);
    let near = [interval - 1, interval, interval + 1, 0, 1, second * 2, u32::MAX];
    match rng.below(8) {
        0 => rng.word() as u32,
        _ => mark.wrapping_add(rng.pick(&near)),
    }
}

/// Marks anywhere, often so that the next interval wraps.
pub fn pace(rng: &mut Rng) -> Pace {
    let mark = |rng: &mut Rng| match rng.below(3) {
        0 => u32::MAX - rng.below(ENEMY as usize) as u32,
        1 => rng.pick(&[0, u32::MAX, 4_294_967_000]),
        _ => rng.word() as u32,
    };
    Pace { first: mark(rng), second: mark(rng) }
}
