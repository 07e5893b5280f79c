//! The original module, every word of it, over the stand-ins. Its private items are within
//! reach of the modules below it and of nothing else.

#![allow(clippy::collapsible_match, reason = "the original's own text")]

use crate::stand_ins::{catcard_app, catcard_ui, heapless};

include!(concat!(env!("OUT_DIR"), "/games.rs"));

pub mod counted;
pub mod cutter;
pub mod mine;

/// What a pass answers.
#[derive(Clone, Copy, Debug, PartialEq, Eq)]
pub enum Answer {
    GoingOn = 0,
    Won = 1,
    Dead = 2,
    Over = 3,
    Quit = 4,
}
