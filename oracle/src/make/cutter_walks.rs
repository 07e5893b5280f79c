//! Random Cutter states from which the walk to the border is long, tied or none.

use super::cutter_states::{fill, ground, inside, place_movers};
use crate::games::cutter;
use crate::nearest::{Place, STEPS};
use crate::rng::Rng;
use crate::state::*;

/// A well-formed state with no line, its player on claimed ground.
pub fn on_ground(rng: &mut Rng) -> Cutter {
    let mut c = cutter::new_round(&[9, 9, 1, 1]);
    let start = if rng.one_in(4) { (CW / 2, 0) } else { (rng.below(CW), rng.below(CH)) };
    match rng.below(6) {
        0 => ground(&mut c, rng),
        1 => specks(&mut c, start, false, rng),
        2 | 3 => specks(&mut c, start, true, rng),
        4 => {
            let one_in = rng.pick(&[16, 64, 256, 1024]);
            fill(&mut c, |_, _| if rng.one_in(one_in) { BLACK } else { CLAIMED });
        }
        _ => block(&mut c, start, rng),
    }
    c.grid[start.1 * CW + start.0] = CLAIMED;
    place_movers(&mut c, rng);
    c.at(start)
}

/// Claimed, with up to five black cells; where tied, each with an image of it about the start.
fn specks(c: &mut Cutter, start: Place, tied: bool, rng: &mut Rng) {
    fill(c, |_, _| CLAIMED);
    let far = rng.pick(&[3, 8, 20, 40]);
    let mut left = 1 + rng.below(5);
    while left > 0 {
        let [dx, dy] = [0; 2].map(|_| rng.below(2 * far + 1) as isize - far as isize);
        let images = [(-dx, dy), (dx, -dy), (dy, dx), (-dy, -dx), (dy, -dx)];
        let image = if tied { rng.pick(&images) } else { (dx, dy) };
        for (dx, dy) in [(dx, dy), image] {
            let (x, y) = (start.0.wrapping_add_signed(dx), start.1.wrapping_add_signed(dy));
            if x < CW && y < CH && inside(y * CW + x) {
                c.grid[y * CW + x] = BLACK;
                left = left.saturating_sub(1);
            }
        }
    }
}

/// Black, with a claimed block around the start, half of the time centred on it.
fn block(c: &mut Cutter, start: Place, rng: &mut Rng) {
    let most = rng.pick(&[2, 5, 15, 40]);
    let mut sides = [0; 4].map(|_| rng.below(most + 1));
    if rng.one_in(2) {
        sides = [sides[0]; 4];
    }
    let [left, right, up, down] = sides;
    fill(c, |x, y| {
        let across = x + left >= start.0 && x <= start.0 + right;
        if across && y + up >= start.1 && y <= start.1 + down { CLAIMED } else { BLACK }
    });
}

/// The same ground with line, the player on it and heading for where it stood: the next step
/// closes the cut there.
pub fn about_to_close(mut c: Cutter, rng: &mut Rng) -> Cutter {
    let (x, y) = (c.px, c.py);
    let near = STEPS.into_iter().filter_map(|dir| beside(x, y, dir, CW, CH));
    let near: Vec<Place> = near.filter(|&(x, y)| inside(y * CW + x)).collect();
    if near.is_empty() {
        // A corner of the ring: no step enters it.
        return about_to_close(c.at((CW / 2, 0)), rng);
    }
    let (lx, ly) = rng.pick(&near);
    let others = rng.pick(&[0, 0, 1, 5, 40]);
    let cells = (0..others).map(|_| (1 + rng.below(CW - 2), 1 + rng.below(CH - 2)));
    let mut cells: Vec<Place> = cells.filter(|&cell| cell != (x, y)).collect();
    cells.push((lx, ly));
    (c.dx, c.dy) = ((x as isize - lx as isize) as i8, (y as isize - ly as isize) as i8);
    c = c.line(&cells).at((lx, ly));
    place_movers(&mut c, rng);
    c
}
