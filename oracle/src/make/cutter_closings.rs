//! Random well-formed Cutter states whose next step closes a cut.

use super::cutter_grounds::{chequerboard, chequers, snake, zigzagged};
use super::cutter_states::{fill, ground, inside, place_movers};
use super::cutter_walks::{about_to_close, on_ground};
use crate::games::cutter;
use crate::rng::Rng;
use crate::state::*;

/// Ground of any kind, often with many regions or with long corridors.
pub fn closing(rng: &mut Rng) -> Cutter {
    let mut c = match rng.below(20) {
        0..=4 => return about_to_close(on_ground(rng), rng),
        5 => chequers(rng.pick(&[0, 1, 2, 47, 48, 49, 50, 300])),
        6 => zigzagged(1 + rng.below(3)),
        7 => chequerboard(),
        8 if rng.one_in(4) => snake(rng.one_in(2)),
        9..=10 => maze(rng),
        _ => any(rng),
    };
    place_movers(&mut c, rng);
    c
}

/// The grounds of random play, with the player anywhere.
fn any(rng: &mut Rng) -> Cutter {
    let mut c = cutter::new_round(&[9, 9, 1, 1]);
    ground(&mut c, rng);
    enter_anywhere(c, rng)
}

/// Corridors that branch and turn, parted here and there.
fn maze(rng: &mut Rng) -> Cutter {
    let mut c = cutter::new_round(&[9, 9, 1, 1]);
    fill(&mut c, |_, _| CLAIMED);
    let mut way = vec![(1 + 2 * rng.below(31), 1 + 2 * rng.below(15))];
    while let Some(&(x, y)) = way.last() {
        c.grid[y * CW + x] = BLACK;
        let ahead = |dir| {
            let (x1, y1) = beside(x, y, dir, CW, CH)?;
            let (x2, y2) = beside(x1, y1, dir, CW, CH)?;
            let new = inside(y2 * CW + x2) && c.grid[y2 * CW + x2] == CLAIMED;
            new.then_some((y1 * CW + x1, (x2, y2)))
        };
        let ahead: Vec<_> = [UP, RIGHT, DOWN, LEFT].into_iter().filter_map(ahead).collect();
        if ahead.is_empty() {
            way.pop();
            continue;
        }
        let (between, next) = rng.pick(&ahead);
        c.grid[between] = BLACK;
        way.push(next);
    }
    for _ in 0..rng.pick(&[0, 0, 2, 80]) {
        c.grid[(1 + rng.below(CH - 2)) * CW + 1 + rng.below(CW - 2)] = CLAIMED;
    }
    enter_anywhere(c, rng)
}

fn enter_anywhere(c: Cutter, rng: &mut Rng) -> Cutter {
    let claimed: Vec<usize> = (0..CN).filter(|&i| c.grid[i] == CLAIMED).collect();
    let cell = rng.pick(&claimed);
    about_to_close(c.at((cell % CW, cell / CW)), rng)
}
