//! The public calls of Block Cutter. A refused one changes nothing.

use crate::check::{self, LAST_LEVEL, LEVEL_LAST, Refusal};
use crate::games::{Answer, cutter};
use crate::state::{CLAIMED, Cutter, INTERIOR, LINE, Pace, RING};

pub fn new_round(draws: &[u8]) -> Result<Cutter, Refusal> {
    check::draws(draws, check::draws_for(1))?;
    Ok(cutter::new_round(draws))
}

pub fn new_level(c: &mut Cutter, draws: &[u8]) -> Result<(), Refusal> {
    check::cutter(c)?;
    check::draws(draws, check::draws_for(c.level))?;
    cutter::new_level(c, draws);
    Ok(())
}

pub fn direction(c: &mut Cutter, dir: u8) -> Result<(), Refusal> {
    check::cutter(c)?;
    check::command(dir)?;
    cutter::direction(c, dir);
    Ok(())
}

pub fn step_player(c: &mut Cutter) -> Result<(), Refusal> {
    check::cutter(c)?;
    cutter::step_player(c);
    Ok(())
}

pub fn step_enemies(c: &mut Cutter) -> Result<(), Refusal> {
    check::cutter(c)?;
    cutter::step_enemies(c);
    Ok(())
}

pub fn respawn(c: &mut Cutter) -> Result<(), Refusal> {
    check::cutter(c)?;
    cutter::respawn(c);
    Ok(())
}

/// Whether the next pass starts a level.
pub fn level_due(c: &Cutter) -> bool {
    c.won_level && !c.dead
}

/// Draws that the next pass needs.
pub fn pass_draws(c: &Cutter) -> usize {
    if level_due(c) { check::draws_for(c.level + 1) } else { 0 }
}

pub fn pass(
    c: &mut Cutter,
    keys: &[u8],
    draws: &[u8],
    time: u32,
    pace: &mut Pace,
) -> Result<Answer, Refusal> {
    check::cutter(c)?;
    check::ensure(!(level_due(c) && c.level == LAST_LEVEL), LEVEL_LAST)?;
    check::draws(draws, pass_draws(c))?;
    Ok(cutter::pass(c, keys, draws, time, pace))
}

pub fn render(c: &Cutter, frame: &mut [u8]) -> Result<(), Refusal> {
    check::cutter(c)?;
    check::frame(frame)?;
    frame.copy_from_slice(&cutter::render(c));
    Ok(())
}

/// Black, claimed and line cells, and the hundredths of the ground inside the ring that are claimed
/// (document 02, ii).
pub fn ground_report(c: &Cutter) -> Result<[usize; 4], Refusal> {
    check::cutter(c)?;
    let black = cutter::black_count(c);
    let claimed = c.count_of(CLAIMED);
    let share = (claimed - RING) * 100 / INTERIOR;
    Ok([black, claimed, c.count_of(LINE), share])
}
