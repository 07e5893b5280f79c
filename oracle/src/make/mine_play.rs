//! A player for Block Mine that digs for coins and then for the exit.

use std::collections::VecDeque;

use crate::rng::Rng;
use crate::state::*;

/// How often the player does something other than dig on, once in so many moves.
pub struct MinePlayer {
    pub whim: usize,
    pub push: usize,
}

impl MinePlayer {
    pub fn new(rng: &mut Rng) -> Self {
        MinePlayer { whim: rng.pick(&[5, 20, 200]), push: rng.pick(&[2, 10, 50]) }
    }

    /// The next command.
    pub fn command(&self, m: &Mine, rng: &mut Rng) -> u8 {
        if rng.one_in(self.whim) {
            return rng.below(4) as u8;
        }
        let pushable = [LEFT, RIGHT].into_iter().find(|&dir| pushable(m, dir));
        if let Some(dir) = pushable
            && rng.one_in(self.push)
        {
            return dir;
        }
        let target = if m.coins < m.needed { COIN } else { EXIT };
        way(m, target).unwrap_or_else(|| rng.below(4) as u8)
    }
}

fn pushable(m: &Mine, dir: u8) -> bool {
    let over = |(x, y)| beside(x, y, dir, W, H);
    beside(m.px, m.py, dir, W, H)
        .filter(|&(x, y)| m.grid[y * W + x] == BOULDER)
        .and_then(over)
        .is_some_and(|(x, y)| m.grid[y * W + x] == EMPTY)
}

/// Whether something hangs over the cell that could come down on it.
fn under_load(m: &Mine, x: usize, y: usize) -> bool {
    y > 0 && m.grid[(y - 1) * W + x] == BOULDER && m.falling[(y - 1) * W + x]
}

fn creature_at(m: &Mine, x: usize, y: usize) -> bool {
    m.enemies[..m.count].iter().any(|e| (e.x, e.y) == (x, y))
}

/// The first step of a shortest way to the nearest cell of this code.
fn way(m: &Mine, target: u8) -> Option<u8> {
    let mut first = [None; CELLS];
    let mut queue = VecDeque::from([(m.px, m.py)]);
    let start = m.py * W + m.px;
    while let Some((x, y)) = queue.pop_front() {
        for dir in [RIGHT, DOWN, LEFT, UP] {
            let Some((nx, ny)) = beside(x, y, dir, W, H) else {
                continue;
            };
            let cell = ny * W + nx;
            if cell == start || first[cell].is_some() || creature_at(m, nx, ny) {
                continue;
            }
            let step = first[y * W + x].or(Some(dir));
            if m.grid[cell] == target {
                return step;
            }
            if matches!(m.grid[cell], EMPTY | DIRT | COIN) && !under_load(m, nx, ny) {
                first[cell] = step;
                queue.push_back((nx, ny));
            }
        }
    }
    None
}
