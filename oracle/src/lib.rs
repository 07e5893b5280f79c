//! The original Rust of both games, built unchanged, and what is needed to ask it.
//!
//! [`games`] holds the original module over [`stand_ins`] for the crates it leans on.
//! [`calls`] are document 01's public calls on it, with refusals of this crate's own in
//! [`check`]. [`trace`] writes calls with their answers, [`replay`] reads them back.
//! What document 02 adds is written from it, and compared with the original: [`nearest`], [`sweeps`],
//! [`costs`].

pub mod bytes;
pub mod calls;
pub mod check;
pub mod console;
pub mod costs;
pub mod games;
pub mod host;
pub mod lines;
pub mod make;
pub mod nearest;
pub mod replay;
pub mod rng;
pub mod stand_ins;
pub mod state;
pub mod sweeps;
pub mod trace;
pub mod trainer;
