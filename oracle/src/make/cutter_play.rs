//! A player for Block Cutter that walks the border and cuts across the black.

use crate::rng::Rng;
use crate::state::*;

/// How the player cuts, once in so many steps.
pub struct CutterPlayer {
    /// Leaves the border for the black.
    pub start: usize,
    /// Turns while drawing.
    pub turn: usize,
    /// Doesn't look where it goes.
    pub blind: usize,
    /// Starts no cut with a creature this near to its course.
    pub wary: u8,
}

impl CutterPlayer {
    pub fn new(rng: &mut Rng) -> Self {
        CutterPlayer {
            start: rng.pick(&[2, 6, 20]),
            turn: rng.pick(&[3, 10, 1000, 1000]),
            blind: rng.pick(&[15, 100, 1000, 1000]),
            wary: rng.pick(&[0, 8, 15]),
        }
    }

    /// The next command, or to go on as before.
    pub fn command(&self, c: &Cutter, rng: &mut Rng) -> Option<u8> {
        if rng.one_in(self.blind) {
            return Some(rng.below(4) as u8);
        }
        let ahead = heading(c);
        let cell = |dir: u8| beside(c.px, c.py, dir, CW, CH).map(|(x, y)| c.grid[y * CW + x]);
        let wanted: Vec<u8> = if c.trailing {
            (0..4).filter(|&dir| matches!(cell(dir), Some(BLACK | CLAIMED))).collect()
        } else if rng.one_in(self.start) {
            let mut safe = |dir: u8| clear(c, dir, self.wary) || rng.one_in(20);
            (0..4).filter(|&dir| cell(dir) == Some(BLACK)).filter(|&dir| safe(dir)).collect()
        } else {
            (0..4).filter(|&dir| walkable(c, dir)).collect()
        };
        let goes_on = ahead.is_some_and(|dir| wanted.contains(&dir));
        if wanted.is_empty() || goes_on && !rng.one_in(self.turn) {
            return None;
        }
        Some(rng.pick(&wanted))
    }
}

/// Whether every creature is further than `wary` from a straight course.
fn clear(c: &Cutter, dir: u8, wary: u8) -> bool {
    let far = |e: &Mover| match dir {
        UP | DOWN => e.x.abs_diff(c.px as u8) > wary,
        _ => e.y.abs_diff(c.py as u8) > wary,
    };
    c.enemies[..c.count].iter().all(far)
}

fn heading(c: &Cutter) -> Option<u8> {
    match (c.dx, c.dy) {
        (0, -1) => Some(UP),
        (1, 0) => Some(RIGHT),
        (0, 1) => Some(DOWN),
        (-1, 0) => Some(LEFT),
        _ => None,
    }
}

/// Claimed, and black among the eight around it.
fn walkable(c: &Cutter, dir: u8) -> bool {
    let Some((x, y)) = beside(c.px, c.py, dir, CW, CH) else {
        return false;
    };
    let black = |(x, y): (usize, usize)| x < CW && y < CH && c.grid[y * CW + x] == BLACK;
    let around = (0..9).map(|i| ((x + i % 3).wrapping_sub(1), (y + i / 3).wrapping_sub(1)));
    c.grid[y * CW + x] == CLAIMED && around.into_iter().any(black)
}

/// Commands that draw a line in zigzag over the whole width, `rows` times: from (1,0) down,
/// then each time 21 pockets of one cell above it, ending beside the ring.
pub fn zigzag(rows: usize) -> Vec<u8> {
    let mut way = vec![DOWN];
    for row in 0..rows {
        let (on, first) = if row % 2 == 0 { (RIGHT, row == 0) } else { (LEFT, false) };
        way.extend(if first { vec![DOWN] } else { vec![DOWN, DOWN] });
        for pocket in 0..21 {
            way.push(on);
            if pocket < 20 {
                way.extend([on, UP, on, DOWN]);
            }
        }
    }
    way.push(if rows % 2 == 1 { RIGHT } else { LEFT });
    way
}
