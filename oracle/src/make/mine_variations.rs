//! Mine states with one thing changed.

use super::variations::{FINE, Variation, Variations, off};
use crate::check::*;
use crate::state::*;

const PLAYER: usize = 5 * W + 5;
const NOT_EMPTY: [u8; 5] = [DIRT, WALL, BOULDER, COIN, EXIT];

/// An open mine with something of everything; (0,0) and the corners are empty.
pub fn base() -> Mine {
    let mut m = Mine {
        grid: [EMPTY; CELLS],
        falling: [false; CELLS],
        px: 5,
        py: 5,
        enemies: [Enemy::default(); ENEMIES],
        count: 3,
        coins: 27,
        needed: 28,
        dead: false,
        won: false,
    };
    for (x, y, code) in [(5, 3, BOULDER), (6, 5, COIN), (7, 5, BOULDER), (4, 5, EXIT)] {
        m.grid[y * W + x] = code;
    }
    for (x, y, code) in [(5, 6, DIRT), (7, 6, WALL), (9, 8, BOULDER), (12, 12, COIN)] {
        m.grid[y * W + x] = code;
    }
    m.falling[8 * W + 9] = true;
    m.enemies[0] = Enemy { x: 7, y: 7, dir: UP };
    m.enemies[1] = Enemy { x: 9, y: 9, dir: RIGHT };
    m.enemies[2] = Enemy { x: 11, y: 3, dir: LEFT };
    m
}

pub fn variations() -> Vec<Variation<Mine>> {
    let mut v = Variations(Vec::new());
    v.add(FINE, "as it is", |_| {});
    cells(&mut v);
    player(&mut v);
    creatures(&mut v);
    slots(&mut v);
    numbers(&mut v);
    v.0
}

/// The same and more: what random traces don't draw from.
pub fn boundaries() -> Vec<Variation<Mine>> {
    let mut v = Variations(variations());
    v.add(FINE, "all coins in hand", |m| {
        m.grid.iter_mut().filter(|code| **code == COIN).for_each(|code| *code = EMPTY);
        m.coins = 336;
    });
    v.0
}

fn cells(v: &mut Variations<Mine>) {
    let codes = [EXIT + 1, 7, 128, 255];
    v.each(CELLS_BAD, "first cell", &codes, |m, code| m.grid[0] = code);
    v.each(CELLS_BAD, "player's cell", &codes, |m, code| m.grid[PLAYER] = code);
    v.each(CELLS_BAD, "creature's cell", &codes, |m, code| m.grid[7 * W + 7] = code);
    v.each(CELLS_BAD, "last cell", &codes, |m, code| m.grid[CELLS - 1] = code);
    v.each(FINE, "last cell", &NOT_EMPTY, |m, code| m.grid[CELLS - 1] = code);
    v.add(FINE, "all marks", |m| m.falling = [true; CELLS]);
}

fn player(v: &mut Variations<Mine>) {
    v.each(PLAYER_BAD, "px", &off(W, 5), |m, x| m.px = x);
    v.each(PLAYER_BAD, "py", &off(H, 5), |m, y| m.py = y);
    v.each(PLAYER_BAD, "player's cell", &NOT_EMPTY, |m, code| m.grid[PLAYER] = code);
    v.each(FINE, "px", &[0, W - 1], |m, x| m.px = x);
    v.each(FINE, "py", &[0, H - 1], |m, y| m.py = y);
    v.each(FINE, "dead and won", &[(true, false), (false, true), (true, true)], |m, flags| {
        (m.dead, m.won) = flags;
    });
}

fn creatures(v: &mut Variations<Mine>) {
    v.each(Refusal::at(OFF_GRID, 0), "first x", &off(W, 7), |m, x| m.enemies[0].x = x);
    v.each(Refusal::at(OFF_GRID, 0), "first y", &off(H, 7), |m, y| m.enemies[0].y = y);
    v.each(Refusal::at(OFF_GRID, 2), "last x", &off(W, 11), |m, x| m.enemies[2].x = x);
    v.each(Refusal::at(OFF_GRID, 2), "last y", &off(H, 3), |m, y| m.enemies[2].y = y);
    v.each(Refusal::at(TURN_BAD, 2), "last dir", &[4, 5, 128, 255], |m, dir| {
        m.enemies[2].dir = dir
    });
    v.each(FINE, "last dir", &[UP, RIGHT, DOWN, LEFT], |m, dir| m.enemies[2].dir = dir);
    v.each(FINE, "last x", &[0, W - 1], |m, x| m.enemies[2].x = x);
    v.each(FINE, "last y", &[0, H - 1], |m, y| m.enemies[2].y = y);
    v.each(Refusal::at(WRONG_CELL, 2), "creature on", &NOT_EMPTY, |m, code| {
        m.grid[3 * W + 11] = code
    });
    for pair in [(0, 1), (0, 2), (1, 2)] {
        let cause = format!("one cell shared by {pair:?}");
        v.add(Refusal::at(SHARED, pair.1), &cause, move |m| {
            (m.enemies[pair.1].x, m.enemies[pair.1].y) = (m.enemies[pair.0].x, m.enemies[pair.0].y);
        });
    }
    v.add(FINE, "one on the player", |m| at_player(m, 1));
    v.add(Refusal::at(SHARED, 2), "two on the player", |m| {
        at_player(m, 0);
        at_player(m, 2);
    });
}

fn at_player(m: &mut Mine, i: usize) {
    (m.enemies[i].x, m.enemies[i].y) = (m.px, m.py);
}

fn slots(v: &mut Variations<Mine>) {
    let too_many = [ENEMIES + 1, ENEMIES + 2, (1 << 8) + 3, (1 << 32) + 3, usize::MAX];
    v.each(Refusal::at(TOO_MANY, 0), "count", &too_many, |m, count| m.count = count);
    v.each_at(SLOT_USED, "count less than the slots", &[0, 1, 2], |m, count| m.count = count);
    v.add(FINE, "count takes a zero slot, at (0,0)", |m| m.count = 4);
    v.add(Refusal::at(SHARED, 4), "count takes two zero slots", |m| m.count = 5);
    v.each_at(SLOT_USED, "x past the count", &[3, ENEMIES - 1], |m, i| m.enemies[i].x = 1);
    v.each_at(SLOT_USED, "y past the count", &[3, ENEMIES - 1], |m, i| m.enemies[i].y = 1);
    v.each_at(SLOT_USED, "dir past the count", &[3, ENEMIES - 1], |m, i| m.enemies[i].dir = 1);
    v.each(
        Refusal::at(SLOT_USED, ENEMIES - 1),
        "wide past the count",
        &[1 << 8, 1 << 32, 1 << 63],
        |m, x| {
            m.enemies[ENEMIES - 1].x = x;
        },
    );
    v.add(FINE, "no creature", |m| {
        m.enemies = Default::default();
        m.count = 0;
    });
    v.add(FINE, "eight creatures", |m| {
        m.enemies = std::array::from_fn(|i| Enemy { x: 10 + i, y: 10, dir: UP });
        m.count = ENEMIES;
    });
}

fn numbers(v: &mut Variations<Mine>) {
    let on_map = base().count_of(COIN) as u32;
    let most = 336 - on_map;
    v.each(FINE, "coins", &[0, 28, most], |m, coins| m.coins = coins);
    let too_many = [most + 1, 336, 337, u32::MAX - on_map, u32::MAX - on_map + 1, u32::MAX];
    v.each(NUMBERS_BAD, "coins", &too_many, |m, coins| m.coins = coins);
    v.each(FINE, "needed", &[1, 27, 336], |m, needed| m.needed = needed);
    v.each(NUMBERS_BAD, "needed", &[0], |m, needed| m.needed = needed);
    let above = [337, (1 << 16) + 28, 1 << 31, u32::MAX];
    v.each(NUMBERS_BAD, "needed above", &above, |m, needed| m.needed = needed);
    v.add(FINE, "all coins on the map", |m| {
        m.grid = [COIN; CELLS];
        m.grid[PLAYER] = EMPTY;
        m.enemies = Default::default();
        m.count = 0;
        m.coins = 1;
    });
    v.add(NUMBERS_BAD, "all coins on the map and two in hand", |m| {
        m.grid = [COIN; CELLS];
        m.grid[PLAYER] = EMPTY;
        m.enemies = Default::default();
        m.count = 0;
        m.coins = 2;
    });
}
