//! Random well-formed Cutter states, and calls on them.

use super::cutter_play::CutterPlayer;
use super::{mine_states, readings};
use crate::calls::{Call, cutter as public};
use crate::check::{DRAW_BOUNDS, LAST_LEVEL, draws_for};
use crate::games::cutter;
use crate::rng::Rng;
use crate::state::*;

/// A well-formed state of any kind.
pub fn state(rng: &mut Rng) -> Cutter {
    let mut c = cutter::new_round(&draws(1, rng));
    ground(&mut c, rng);
    place_player(&mut c, rng);
    place_movers(&mut c, rng);
    c.lives = rng.below(4) as u32;
    c.level = rng.pick(&[1, 2, 15, 16, 17, LAST_LEVEL - 1, LAST_LEVEL]);
    c.dead = rng.one_in(8);
    c.won_level = rng.one_in(6);
    c
}

/// Draws for a level, each in its range.
pub fn draws(level: u32, rng: &mut Rng) -> Vec<u8> {
    let bounds = DRAW_BOUNDS.iter().cycle();
    bounds.take(draws_for(level)).map(|&bound| rng.below(usize::from(bound)) as u8).collect()
}

pub(super) fn inside(i: usize) -> bool {
    (1..CW - 1).contains(&(i % CW)) && (1..CH - 1).contains(&(i / CW))
}

pub(super) fn fill(c: &mut Cutter, mut code: impl FnMut(usize, usize) -> u8) {
    for i in (0..CN).filter(|&i| inside(i)) {
        c.grid[i] = code(i % CW, i / CW);
    }
}

/// Black and claimed inside the ring: open, noise, rooms, stripes, chequers, slivers.
pub(super) fn ground(c: &mut Cutter, rng: &mut Rng) {
    let code = |black: bool| if black { BLACK } else { CLAIMED };
    match rng.below(9) {
        0 => {}
        1 | 2 => {
            let of_eight = rng.below(8);
            fill(c, |_, _| code(rng.below(8) < of_eight));
        }
        3 => {
            fill(c, |_, _| CLAIMED);
            for _ in 0..rng.below(12) + 1 {
                let (x, y) = (1 + rng.below(CW - 2), 1 + rng.below(CH - 2));
                let (w, h) = (1 + rng.below(20), 1 + rng.below(10));
                let within = |at, from, length| (from..from + length).contains(&at);
                let before = c.grid;
                fill(c, |cx, cy| {
                    code(before[cy * CW + cx] == BLACK || within(cx, x, w) && within(cy, y, h))
                });
            }
        }
        4 => {
            let (step, down) = (2 + rng.below(4), rng.one_in(2));
            fill(c, |x, y| code((if down { y } else { x }) % step != 0));
        }
        5 => {
            let step = 2 + rng.below(2);
            fill(c, |x, y| code((x + y) % step == 0));
        }
        6 => {
            let step = 2 + rng.below(8);
            fill(c, |x, y| code(x % step != 0 && y % 2 != 0));
        }
        7 => sliver(c, rng.pick(&[0, 1, 2, 463, 464, 465, 466, 467])),
        _ => {
            let (dx, dy) = (1 + rng.below(CW - 2), 1 + rng.below(CH - 2));
            fill(c, |x, y| code(x != dx && y != dy));
        }
    }
}

/// So many black cells, row by row from the top, the rest claimed.
pub fn sliver(c: &mut Cutter, black: usize) {
    let mut left = black;
    fill(c, |_, _| {
        let code = if left > 0 { BLACK } else { CLAIMED };
        left = left.saturating_sub(1);
        code
    });
}

/// On claimed ground, or on a line: a path of its own or scattered cells.
fn place_player(c: &mut Cutter, rng: &mut Rng) {
    let black: Vec<usize> = (0..CN).filter(|&i| c.grid[i] == BLACK).collect();
    c.trailing = !black.is_empty() && rng.one_in(2);
    let cell = if c.trailing {
        let start = rng.pick(&black);
        let scattered = rng.one_in(3);
        let mut at = start;
        for _ in 0..rng.pick(&[1, 2, 10, 100]) {
            c.grid[at] = LINE;
            let next = if scattered { rng.pick(&black) } else { wander(at, rng) };
            if c.grid[next] == BLACK {
                at = next;
            }
        }
        c.grid[at] = LINE;
        if rng.one_in(3) { start } else { at }
    } else {
        let claimed: Vec<usize> = (0..CN).filter(|&i| c.grid[i] == CLAIMED).collect();
        rng.pick(&claimed)
    };
    (c.px, c.py) = (cell % CW, cell / CW);
    (c.dx, c.dy) = (0, 0);
    let claimed = |&dir: &u8| {
        beside(c.px, c.py, dir, CW, CH).is_some_and(|(x, y)| c.grid[y * CW + x] == CLAIMED)
    };
    let home = [UP, RIGHT, DOWN, LEFT].into_iter().find(claimed);
    match (home, rng.below(5)) {
        (Some(dir), 0..=2) => cutter::direction(c, dir),
        (_, 3) => {}
        _ => cutter::direction(c, rng.below(4) as u8),
    }
}

fn wander(at: usize, rng: &mut Rng) -> usize {
    let next = beside(at % CW, at / CW, rng.below(4) as u8, CW, CH);
    next.map_or(at, |(x, y)| y * CW + x)
}

/// Up to sixteen creatures on black, some on one cell, some next to the player.
pub(super) fn place_movers(c: &mut Cutter, rng: &mut Rng) {
    c.enemies = Default::default();
    c.count = 0;
    let black: Vec<usize> = (0..CN).filter(|&i| c.grid[i] == BLACK).collect();
    if black.is_empty() {
        return;
    }
    let number = rng.edge(MOVERS + 1);
    let few = black[..black.len().min(3)].to_vec();
    while c.count < number {
        let near = wander(c.py * CW + c.px, rng);
        let cell = match rng.below(4) {
            0 if c.grid[near] == BLACK => near,
            1 => rng.pick(&few),
            _ => rng.pick(&black),
        };
        let [vx, vy] = [rng.pick(&[-1, 1]), rng.pick(&[-1, 1])];
        c.enemies[c.count] = Mover { x: (cell % CW) as u8, y: (cell / CW) as u8, vx, vy };
        c.count += 1;
    }
}

/// A call that Cutter knows, legal more often than not.
pub fn call(c: &Cutter, pace: &Pace, rng: &mut Rng) -> Call {
    let player = CutterPlayer { start: 2, turn: 3, blind: 5, wary: 0 };
    let command = player.command(c, rng);
    match rng.below(20) {
        0..=2 => Call::Direction(command.unwrap_or(rng.below(4) as u8)),
        3 => Call::Direction(rng.pick(&[0, 1, 2, 3, 4, 5, 127, 128, 255])),
        4..=8 => Call::Step,
        9..=11 => Call::StepEnemies,
        12 => Call::Respawn,
        13 => {
            let draws = draws(c.level, rng);
            Call::NewLevel(spoiled(draws, rng))
        }
        14..=16 => pass(c, pace, rng, command),
        17 => Call::CutterPicture(super::frame_length(rng)),
        18 => Call::Ground,
        _ if rng.one_in(2) => who(c, rng),
        _ => super::common(rng),
    }
}

fn pass(c: &Cutter, pace: &Pace, rng: &mut Rng, command: Option<u8>) -> Call {
    let draws = if public::level_due(c) { draws(c.level + 1, rng) } else { Vec::new() };
    Call::CutterPass {
        time: readings::cutter(pace, rng),
        keys: mine_states::keys(command.unwrap_or(UP), rng),
        draws: spoiled(draws, rng),
    }
}

/// Draws as they are, or now and then with one too many, too few or out of range.
pub fn spoiled(mut draws: Vec<u8>, rng: &mut Rng) -> Vec<u8> {
    match rng.below(12) {
        0 => draws.push(0),
        1 => {
            draws.pop();
        }
        2 if !draws.is_empty() => {
            let i = rng.below(draws.len());
            draws[i] = rng.pick(&[DRAW_BOUNDS[i % 4], 255, 128, 64, 32]);
        }
        _ => {}
    }
    draws
}

/// The question on a list of any length, that holds the place or not.
fn who(c: &Cutter, rng: &mut Rng) -> Call {
    let (x, y) = (rng.pick(&[c.px, 0, 255, 256, usize::MAX]), rng.pick(&[c.py, 0, 255, 256]));
    let number = rng.pick(&[0, 1, 8, 9, 16, 17, 40, 100]);
    let mut list = Vec::new();
    for _ in 0..number {
        let [x, y] = [x, y].map(|v| (v as u8).wrapping_add(rng.pick(&[0, 0, 1])));
        list.push(Mover { x, y, vx: rng.byte() as i8, vy: rng.byte() as i8 });
    }
    Call::CutterWho { x, y, list }
}
