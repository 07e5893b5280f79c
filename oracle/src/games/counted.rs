//! The original once more, with a count of the cells that its two queues give up and no other
//! change: what the costs of document 02 (x) are compared with. The original doesn't tell them.

#![allow(dead_code, clippy::collapsible_match, reason = "the original's own text")]

use std::cell::Cell;

use crate::stand_ins::{catcard_app, catcard_ui, heapless};
use crate::state;

include!(concat!(env!("OUT_DIR"), "/counted.rs"));

thread_local! {
    static SEARCHED: Cell<usize> = const { Cell::new(0) };
    static WALKED: Cell<usize> = const { Cell::new(0) };
}

fn count_searched() {
    SEARCHED.set(SEARCHED.get() + 1);
}

fn count_walked() {
    WALKED.set(WALKED.get() + 1);
}

/// Cells that the closing and the walk of a step take from their queues.
pub fn step_player(c: &state::Cutter) -> (usize, usize) {
    taken(c, Cutter::step_player)
}

/// The same of a respawn.
pub fn respawn(c: &state::Cutter) -> (usize, usize) {
    taken(c, Cutter::respawn)
}

/// The same of the walk alone.
pub fn move_to_border(c: &state::Cutter) -> (usize, usize) {
    taken(c, Cutter::move_to_border)
}

fn taken(c: &state::Cutter, act: fn(&mut Cutter)) -> (usize, usize) {
    let mut enemies = heapless::Vec::new();
    for &state::Mover { x, y, vx, vy } in &c.enemies[..c.count] {
        assert!(enemies.push(Mover { x, y, vx, vy }).is_ok());
    }
    let &state::Cutter { grid, px, py, dx, dy, trailing, level, lives, dead, won_level, .. } = c;
    let mut game =
        Cutter { grid, px, py, dx, dy, trailing, enemies, level, lives, dead, won_level };
    SEARCHED.set(0);
    WALKED.set(0);
    act(&mut game);
    (SEARCHED.get(), WALKED.get())
}
