//! Makes what is asked: plausible play, random states, states with one field at a boundary,
//! and the corners.

pub mod battery;
pub mod closing_corners;
pub mod corners;
pub mod cutter_closings;
pub mod cutter_corners;
pub mod cutter_grounds;
pub mod cutter_play;
pub mod cutter_states;
pub mod cutter_variations;
pub mod cutter_walks;
pub mod damage;
pub mod mine_corners;
pub mod mine_play;
pub mod mine_states;
pub mod mine_variations;
pub mod question_corners;
pub mod readings;
pub mod refusal_corners;
pub mod sequences;
pub mod variations;

use crate::calls::Call;
use crate::rng::Rng;
use crate::stand_ins::catcard_app::screen::FRAME;

/// Lengths of frames that a picture refuses.
pub const BAD_FRAMES: [u16; 7] = [0, 1, 127, 128, 1023, 1025, 2048];

fn frame_length(rng: &mut Rng) -> u16 {
    if rng.one_in(4) { rng.pick(&BAD_FRAMES) } else { FRAME as u16 }
}

/// A call that either game may be current for and that leaves it current.
fn common(rng: &mut Rng) -> Call {
    match rng.below(4) {
        0 => Call::NewRound(
            rng.pick::<&[u8]>(&[&[62, 0, 0, 0], &[0, 0, 0, 255], &[0; 5], &[]]).to_vec(),
        ),
        1 => Call::Start(rng.word() as u32),
        _ => {
            let length = rng.pick(&[0, 128, FRAME - 1, FRAME, FRAME, FRAME + 1]);
            let frame = (0..length).map(|_| rng.byte()).collect();
            let number = rng.pick(&[0, 1, 6, 7, 8, 9, 256, 1 << 32, usize::MAX]);
            Call::Page { number, frame }
        }
    }
}
