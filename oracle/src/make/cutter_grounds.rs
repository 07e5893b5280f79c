//! Cutter states made by hand.

use std::ops::Range;

use super::cutter_play::zigzag;
use crate::games::cutter;
use crate::state::*;

/// A new round with one creature at (10,10), velocity (1,1).
pub fn fresh() -> Cutter {
    cutter::new_round(&[9, 9, 1, 1])
}

/// A fresh level with a line of this length down from the start, heading down.
pub fn drawing(length: usize) -> Cutter {
    let cells: Vec<_> = (1..=length).map(|y| (32, y)).collect();
    fresh().line(&cells).at((32, length)).heading(DOWN)
}

/// No creature, and all claimed but these cells.
pub fn claimed_but(black: &[(usize, usize)]) -> Cutter {
    let claimed = fresh().claimed(1..CW - 1, 1..CH - 1).peopled(&[]);
    black.iter().fold(claimed, |c, &(x, y)| c.black(x, y))
}

/// One step before a closing that leaves so many regions of one cell, row by row.
pub fn chequers(number: usize) -> Cutter {
    let cells: Vec<_> = (0..number).map(|i| (2 + 2 * (i % 30), 3 + 2 * (i / 30))).collect();
    claimed_but(&cells).line(&[(32, 1)]).at((32, 1)).heading(UP)
}

/// One step before a closing that leaves 930 regions, each black cell one.
pub fn chequerboard() -> Cutter {
    let mut c = chequers(0);
    for i in (0..INTERIOR).filter(|i| (i % 62 + i / 62) % 2 == 0) {
        c = c.black(1 + i % 62, 1 + i / 62);
    }
    c
}

/// One step before a closing that leaves one region: a corridor to and fro across the ground, or
/// up and down, half of it against the way of the sweeps.
pub fn snake(upright: bool) -> Cutter {
    let mut c = chequers(0);
    let (turns, length) = if upright { (31, 28) } else { (14, 62) };
    for turn in 0..turns {
        // The last cell on the way leads to the next turn.
        let end = if turn % 2 == 0 { length - 1 } else { 0 };
        let link = (turn + 1 < turns).then_some((2 * turn + 1, end));
        for (across, along) in (0..length).map(|along| (2 * turn, along)).chain(link) {
            let (x, y) = if upright { (across, along) } else { (along, across) };
            c = c.black(1 + x, 3 + y);
        }
    }
    c
}

/// One step before a closing that leaves one corridor, the longest found against the way of the
/// sweeps: from the far end of the first row, by stairs that fill two diagonals of three.
pub fn longest_snake() -> Cutter {
    let mut c = chequers(0);
    for (y, row) in (1..).zip(include_str!("../../cases/snake.txt").lines()) {
        for (x, _) in (1..).zip(row.bytes()).filter(|&(_, cell)| cell == b'.') {
            c = c.black(x, y);
        }
    }
    c
}

/// One step before the closing of a zigzag over so many double rows.
pub fn zigzagged(rows: usize) -> Cutter {
    let mut c = fresh().at((1, 0));
    let way = zigzag(rows);
    let (last, before) = way.split_last().expect("a way");
    for &dir in before {
        c = c.heading(dir);
        cutter::step_player(&mut c);
    }
    c.heading(*last)
}

impl Cutter {
    pub fn at(mut self, (x, y): (usize, usize)) -> Self {
        (self.px, self.py) = (x, y);
        self
    }

    pub fn heading(mut self, dir: u8) -> Self {
        cutter::direction(&mut self, dir);
        self
    }

    /// With line on these cells, trailing.
    pub fn line(mut self, cells: &[(usize, usize)]) -> Self {
        for &(x, y) in cells {
            self.grid[y * CW + x] = LINE;
        }
        self.trailing = true;
        self
    }

    /// With a rectangle claimed.
    pub fn claimed(mut self, xs: Range<usize>, ys: Range<usize>) -> Self {
        for y in ys {
            self.grid[y * CW..][xs.clone()].fill(CLAIMED);
        }
        self
    }

    pub fn black(mut self, x: usize, y: usize) -> Self {
        self.grid[y * CW + x] = BLACK;
        self
    }

    /// With these creatures and no other.
    pub fn peopled(mut self, movers: &[(u8, u8, i8, i8)]) -> Self {
        self.enemies = Default::default();
        self.count = movers.len();
        for (slot, &(x, y, vx, vy)) in self.enemies.iter_mut().zip(movers) {
            *slot = Mover { x, y, vx, vy };
        }
        self
    }

    /// With two creatures on the last of [`chequers`]' cells and one on the first.
    pub fn peopled_in_order(self, number: usize) -> Self {
        let i = number - 1;
        let last = (2 + 2 * (i % 30) as u8, 3 + 2 * (i / 30) as u8);
        self.peopled(&[(last.0, last.1, 1, 1), (2, 3, 1, 1), (last.0, last.1, -1, 1)])
    }
}
