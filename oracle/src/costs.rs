//! How much a closing can cost, from documents 01 and 02 (x) alone: the cells that its search and
//! the walk to the border take. The original doesn't tell them, and is not asked.

use crate::bytes::fields;
use crate::nearest::{STEPS, taken};
use crate::state::*;
use crate::sweeps::{COUNTED, closes_at, closing};

/// Where a respawn puts the player, before the walk.
pub const TOP: (usize, usize) = (CW / 2, 0);
/// Cycles between steps, and the key that quits.
const STEP: u32 = 2_400_000;
const QUIT: u8 = 10;

/// Zeros for a call without such a search.
#[derive(Clone, Copy, Debug, Default, PartialEq, Eq)]
pub struct Cost {
    /// Cells that the closing's search takes.
    pub searched: u16,
    /// Cells that the walk to the border takes.
    pub walked: u16,
}

fields!(Cost { searched, walked });

/// A step by the queue on a well-formed state.
pub fn step(c: &Cutter) -> Cost {
    let Some(entered) = closes_at(c) else { return Cost::default() };
    let searched = searched(c.grid.map(|code| if code == LINE { CLAIMED } else { code }));
    Cost { searched: searched as u16, walked: taken(&closing(c).grid, entered).len() as u16 }
}

/// A step by sweeps: no queue.
pub fn step_by_sweeps(c: &Cutter) -> Cost {
    Cost { searched: 0, ..step(c) }
}

pub fn respawn(c: &Cutter) -> Cost {
    let grid = c.grid.map(|code| if code == LINE { BLACK } else { code });
    Cost { walked: taken(&grid, TOP).len() as u16, ..Cost::default() }
}

/// A pass: what its respawn or its step costs.
pub fn pass(c: &Cutter, keys: &[u8], time: u32, pace: &Pace) -> Cost {
    if c.dead {
        return if c.lives > 1 { respawn(c) } else { Cost::default() };
    }
    if c.won_level || keys.contains(&QUIT) || time.wrapping_sub(pace.first) < STEP {
        return Cost::default();
    }
    let mut c = c.clone();
    for key in keys {
        (c.dx, c.dy) = match key {
            5 => (0, -1),
            8 => (0, 1),
            7 => (-1, 0),
            9 => (1, 0),
            _ => (c.dx, c.dy),
        };
    }
    step(&c)
}

/// The black cells of the regions that are counted, each emptied from its earliest cell.
fn searched(mut grid: [u8; CN]) -> usize {
    let mut cells = 0;
    for _ in 0..COUNTED {
        let Some(first) = grid.iter().position(|&code| code == BLACK) else { break };
        cells += emptied(&mut grid, first);
    }
    cells
}

/// Claims the region of a black cell, the cell found last first: how many cells it had.
fn emptied(grid: &mut [u8; CN], first: usize) -> usize {
    let mut cells = 0;
    let mut found = vec![first];
    grid[first] = CLAIMED;
    while let Some(cell) = found.pop() {
        cells += 1;
        for dir in STEPS {
            let Some((x, y)) = beside(cell % CW, cell / CW, dir, CW, CH) else { continue };
            if grid[y * CW + x] == BLACK {
                grid[y * CW + x] = CLAIMED;
                found.push(y * CW + x);
            }
        }
    }
    cells
}
