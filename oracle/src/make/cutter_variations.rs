//! Cutter states with one thing changed.

use super::variations::{FINE, Variation, Variations, off};
use crate::check::*;
use crate::games::cutter;
use crate::state::*;

const NOT_UNIT: [i8; 5] = [0, 2, -2, 127, -128];

/// A level with some claimed ground inside, the player on the border heading down.
pub fn base() -> Cutter {
    let mut c = cutter::new_round(&[9, 9, 1, 1]);
    for y in 10..20 {
        c.grid[y * CW + 40..y * CW + 50].fill(CLAIMED);
    }
    (c.dx, c.dy) = (0, 1);
    c.enemies[1] = Mover { x: 20, y: 20, vx: -1, vy: 1 };
    c.enemies[2] = Mover { x: 10, y: 10, vx: -1, vy: -1 };
    c.count = 3;
    c.level = 3;
    c
}

/// The same with a line from the border down to the player.
pub fn drawing() -> Cutter {
    let mut c = base();
    for y in 1..5 {
        c.grid[y * CW + 32] = LINE;
    }
    c.py = 4;
    c.trailing = true;
    c
}

/// Variations of [`base`].
pub fn variations() -> Vec<Variation<Cutter>> {
    let mut v: Variations<Cutter> = Variations(Vec::new());
    v.add(FINE, "as it is", |_| {});
    cells(&mut v);
    player(&mut v);
    creatures(&mut v);
    slots(&mut v);
    numbers(&mut v);
    v.0
}

/// The same and more: what random traces don't draw from.
pub fn boundaries() -> Vec<Variation<Cutter>> {
    let mut v = Variations(variations());
    v.each(CELLS_BAD, "black on the ring at", &[62, 2046], |c, cell| c.grid[cell] = BLACK);
    v.add(CELLS_BAD, "last inner cell", |c| c.grid[30 * CW + 62] = LINE + 1);
    v.add(Refusal::at(OFF_GRID, 0), "first x a row on", |c| c.enemies[0].x = 65);
    v.0
}

/// Variations of [`drawing`].
pub fn drawing_variations() -> Vec<Variation<Cutter>> {
    let mut v: Variations<Cutter> = Variations(Vec::new());
    v.add(FINE, "drawing", |_| {});
    v.add(CELLS_BAD, "line, not trailing", |c| c.trailing = false);
    v.add(CELLS_BAD, "trailing, no line", |c| {
        for cell in c.grid.iter_mut().filter(|cell| **cell == LINE) {
            *cell = BLACK;
        }
    });
    v.add(FINE, "one line cell, under the player", |c| {
        for y in 1..4 {
            c.grid[y * CW + 32] = BLACK;
        }
    });
    v.each(PLAYER_BAD, "trailing, player at", &[(32, 0), (32, 5), (45, 15)], |c, place| {
        (c.px, c.py) = place;
    });
    v.add(FINE, "player back on the line", |c| c.py = 2);
    v.add(Refusal::at(WRONG_CELL, 0), "creature on line", |c| {
        (c.enemies[0].x, c.enemies[0].y) = (32, 3);
    });
    v.each(FINE, "direction", &[(0, 0), (0, -1), (-1, 0), (1, 0)], |c, d| (c.dx, c.dy) = d);
    v.add(FINE, "dead", |c| c.dead = true);
    v.0
}

fn cells(v: &mut Variations<Cutter>) {
    let codes = [LINE + 1, 4, 128, 255];
    v.each(CELLS_BAD, "first cell", &codes, |c, code| c.grid[0] = code);
    v.each(CELLS_BAD, "inner cell", &codes, |c, code| c.grid[5 * CW + 5] = code);
    v.each(CELLS_BAD, "player's cell", &codes, |c, code| c.grid[32] = code);
    v.each(CELLS_BAD, "last cell", &codes, |c, code| c.grid[CN - 1] = code);
    let ring = [0, 1, 63, 64, 127, 1920, 1983, 1984, 1985, 2016, 2047];
    v.each(CELLS_BAD, "black on the ring at", &ring, |c, cell| c.grid[cell] = BLACK);
    v.each(CELLS_BAD, "line on the ring at", &[1, 64, 2047], |c, cell| {
        c.grid[cell] = LINE;
        c.trailing = true;
    });
    v.add(CELLS_BAD, "trailing, no line", |c| c.trailing = true);
    v.add(CELLS_BAD, "line, not trailing", |c| c.grid[30 * CW + 62] = LINE);
    v.each(FINE, "inner corner claimed at", &[65, 126, 1921, 1982], |c, cell| {
        c.grid[cell] = CLAIMED;
    });
}

fn player(v: &mut Variations<Cutter>) {
    v.each(PLAYER_BAD, "px", &off(CW, 32), |c, x| c.px = x);
    v.each(PLAYER_BAD, "py", &off(CH, 0), |c, y| c.py = y);
    v.each(PLAYER_BAD, "player on black at", &[(32, 1), (1, 1), (62, 30)], |c, place| {
        (c.px, c.py) = place;
    });
    v.each(FINE, "player at", &[(0, 0), (63, 31), (45, 15)], |c, place| (c.px, c.py) = place);
    let odd = [-128, -127, -2, 2, 127];
    v.each(PLAYER_BAD, "dx", &odd, |c, dx| (c.dx, c.dy) = (dx, 0));
    v.each(PLAYER_BAD, "dy", &odd, |c, dy| c.dy = dy);
    let both = [(1, 1), (1, -1), (-1, 1), (-1, -1), (-128, -128), (-128, 1), (1, -128), (127, -1)];
    v.each(PLAYER_BAD, "direction", &both, |c, d| (c.dx, c.dy) = d);
    v.each(FINE, "direction", &[(0, 0), (0, -1), (1, 0), (-1, 0)], |c, d| (c.dx, c.dy) = d);
}

fn creatures(v: &mut Variations<Cutter>) {
    let [first, last] = [0, 2].map(|i| [WRONG_CELL, OFF_GRID].map(|number| Refusal::at(number, i)));
    v.each(first[0], "first x", &[0, 63], |c, x| c.enemies[0].x = x);
    v.each(first[1], "first x", &[64, 74, 138, 255], |c, x| c.enemies[0].x = x);
    v.each(first[0], "first y", &[0, 31], |c, y| c.enemies[0].y = y);
    v.each(first[1], "first y", &[32, 42, 138, 255], |c, y| c.enemies[0].y = y);
    v.each(last[0], "last x", &[0, 63], |c, x| c.enemies[2].x = x);
    v.each(last[1], "last x", &[64, 255], |c, x| c.enemies[2].x = x);
    v.each(FINE, "last x", &[1, 62], |c, x| c.enemies[2].x = x);
    v.each(FINE, "last y", &[1, 30], |c, y| c.enemies[2].y = y);
    v.add(Refusal::at(WRONG_CELL, 1), "creature on claimed", |c| {
        (c.enemies[1].x, c.enemies[1].y) = (40, 10);
    });
    v.each(Refusal::at(TURN_BAD, 0), "first vx", &NOT_UNIT, |c, vx| c.enemies[0].vx = vx);
    v.each(Refusal::at(TURN_BAD, 2), "last vy", &NOT_UNIT, |c, vy| c.enemies[2].vy = vy);
    v.each(FINE, "velocity", &[(1, 1), (1, -1), (-1, 1)], |c, (vx, vy)| {
        (c.enemies[2].vx, c.enemies[2].vy) = (vx, vy);
    });
}

fn slots(v: &mut Variations<Cutter>) {
    let too_many = [MOVERS + 1, MOVERS + 2, (1 << 8) + 3, (1 << 32) + 3, usize::MAX];
    v.each(Refusal::at(TOO_MANY, 0), "count", &too_many, |c, count| c.count = count);
    v.each_at(SLOT_USED, "count less than the slots", &[0, 1, 2], |c, count| c.count = count);
    v.add(Refusal::at(WRONG_CELL, 3), "count takes a zero slot", |c| c.count = 4);
    v.each_at(SLOT_USED, "x past the count", &[3, MOVERS - 1], |c, i| c.enemies[i].x = 1);
    v.each_at(SLOT_USED, "y past the count", &[3, MOVERS - 1], |c, i| c.enemies[i].y = 255);
    v.each_at(SLOT_USED, "vx past the count", &[3, MOVERS - 1], |c, i| c.enemies[i].vx = -1);
    v.each_at(SLOT_USED, "vy past the count", &[3, MOVERS - 1], |c, i| c.enemies[i].vy = -128);
    v.add(FINE, "no creature", |c| {
        c.enemies = Default::default();
        c.count = 0;
    });
    v.add(FINE, "sixteen creatures on one cell", |c| {
        c.enemies = [c.enemies[0]; MOVERS];
        c.count = MOVERS;
    });
}

fn numbers(v: &mut Variations<Cutter>) {
    v.each(FINE, "lives", &[0, 1, 2], |c, lives| c.lives = lives);
    v.each(NUMBERS_BAD, "lives", &[4, 5, 1 << 8, 1 << 16, u32::MAX], |c, n| c.lives = n);
    v.each(FINE, "level", &[1, 15, 16, 17, LAST_LEVEL], |c, level| c.level = level);
    let out = [0, LAST_LEVEL + 1, LAST_LEVEL + 2, 1 << 31, u32::MAX];
    v.each(NUMBERS_BAD, "level", &out, |c, level| c.level = level);
    v.each(FINE, "won at level", &[15, 16, LAST_LEVEL - 1, LAST_LEVEL], |c, level| {
        c.won_level = true;
        c.level = level;
    });
    v.add(FINE, "dead and won at the last level", |c| {
        c.won_level = true;
        c.dead = true;
        c.level = LAST_LEVEL;
    });
}
