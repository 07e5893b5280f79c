//! The public calls of Block Mine. A refused one changes nothing.

use crate::check::{self, Refusal};
use crate::games::{Answer, mine};
use crate::state::{Mine, Pace};

pub use crate::games::mine::load;

pub fn step_player(m: &mut Mine, dir: u8) -> Result<(), Refusal> {
    check::mine(m)?;
    check::command(dir)?;
    mine::step_player(m, dir);
    Ok(())
}

pub fn gravity(m: &mut Mine) -> Result<(), Refusal> {
    check::mine(m)?;
    mine::gravity(m);
    Ok(())
}

pub fn move_enemies(m: &mut Mine) -> Result<(), Refusal> {
    check::mine(m)?;
    mine::move_enemies(m);
    Ok(())
}

pub fn pass(m: &mut Mine, keys: &[u8], time: u32, pace: &mut Pace) -> Result<Answer, Refusal> {
    check::mine(m)?;
    Ok(mine::pass(m, keys, time, pace))
}

pub fn render(m: &Mine, frame: &mut [u8]) -> Result<(), Refusal> {
    check::mine(m)?;
    check::frame(frame)?;
    frame.copy_from_slice(&mine::render(m).0);
    Ok(())
}
