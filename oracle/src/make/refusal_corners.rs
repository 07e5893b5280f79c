//! The corners of ill-formed states: every call on each.

use super::corners::{Corners, PICTURE, varied};
use super::variations::{Variation, causes};
use super::{battery, cutter_variations, mine_variations};
use crate::check::*;
use crate::state::*;

/// A frame for pictures that are refused anyway.
const SMALL: u16 = 4;

pub fn corners(out: &mut Corners) {
    mine_boundaries(out);
    cutter_boundaries(out);
    mine_creatures(out);
    cutter_creatures(out);
}

/// The first variation with each refusal of a state, in pairs.
fn pairs<S>(variations: &[Variation<S>]) -> Vec<[&Variation<S>; 2]> {
    let first = |numbers: &[u8]| variations.iter().find(|v| numbers.contains(&v.refusal.number));
    let creatures: Vec<u8> = (TOO_MANY..=SLOT_USED).collect();
    let each: Vec<_> = [&[1], &[2], creatures.as_slice(), &[4]]
        .into_iter()
        .map(|numbers| first(numbers).expect("a variation for each refusal"))
        .collect();
    let below = |j: usize| (0..j).map(move |i| (i, j));
    (0..each.len()).flat_map(below).map(|(i, j)| [each[i], each[j]]).collect()
}

fn mine_boundaries(out: &mut Corners) {
    let pace = Pace::default();
    let causes = causes(mine_variations::boundaries());
    for (name, m) in varied(mine_variations::base, &causes) {
        out.mine(&format!("Mine refused: {name}"), &m, battery::mine(&pace, SMALL));
    }
    for (i, [one, two]) in pairs(&causes).into_iter().enumerate() {
        let mut m = mine_variations::base();
        one.apply(&mut m);
        two.apply(&mut m);
        let name = format!("Mine order: {} and {}", one.name, two.name);
        out.mine(&name, &m, battery::mine(&pace, if i == 0 { PICTURE } else { SMALL }));
    }
}

fn cutter_boundaries(out: &mut Corners) {
    let pace = Pace::default();
    let base = causes(cutter_variations::boundaries());
    let mut drawing = causes(cutter_variations::drawing_variations());
    drawing.retain(|v| base.iter().all(|known| known.name != v.name));
    let on_base = varied(cutter_variations::base, &base);
    for (name, c) in on_base.chain(varied(cutter_variations::drawing, &drawing)) {
        out.cutter(&format!("Cutter refused: {name}"), &c, battery::cutter(&c, &pace, SMALL));
    }
    for (i, [one, two]) in pairs(&base).into_iter().enumerate() {
        let mut c = Cutter { won_level: true, level: LAST_LEVEL, ..cutter_variations::base() };
        one.apply(&mut c);
        two.apply(&mut c);
        let name = format!("Cutter order: {} and {}", one.name, two.name);
        out.cutter(&name, &c, battery::cutter(&c, &pace, if i == 0 { PICTURE } else { SMALL }));
    }
}

/// What is wrong with a creature, and how the one of an index comes by it.
type Fault<S> = (u8, fn(&mut S, usize));

/// Too many, and a slot past the count, of three creatures.
const MINE_SLOTS: [Fault<Mine>; 2] =
    [(TOO_MANY, |m, _| m.count = 9), (SLOT_USED, |m, i| m.enemies[i].dir = 1)];
const MINE_FAULTS: [Fault<Mine>; 4] = [
    (OFF_GRID, |m, i| m.enemies[i].x = W),
    (WRONG_CELL, |m, i| (m.enemies[i].x, m.enemies[i].y) = [(4, 5), (7, 6), (5, 6)][i % 3]),
    (TURN_BAD, |m, i| m.enemies[i].dir = 4),
    (SHARED, |m, i| (m.enemies[i].x, m.enemies[i].y) = (m.enemies[0].x, m.enemies[0].y)),
];

const CUTTER_SLOTS: [Fault<Cutter>; 2] =
    [(TOO_MANY, |c, _| c.count = 17), (SLOT_USED, |c, i| c.enemies[i].vy = 1)];
const CUTTER_FAULTS: [Fault<Cutter>; 3] = [
    (OFF_GRID, |c, i| c.enemies[i].x = 64),
    (WRONG_CELL, |c, i| (c.enemies[i].x, c.enemies[i].y) = (40 + i as u8 % 10, 10)),
    (TURN_BAD, |c, i| c.enemies[i].vx = 0),
];

/// Faults put on states: in one creature, in two in either order, with too many, with a slot.
fn faulty<S: Clone>(
    base: &S,
    [too_many, slot]: [Fault<S>; 2],
    faults: &[Fault<S>],
) -> Vec<(String, S)> {
    let mut states = Vec::new();
    let mut add = |name: String, changes: &[(Fault<S>, usize)]| {
        let mut state = base.clone();
        changes.iter().for_each(|&((_, change), i)| change(&mut state, i));
        states.push((name, state));
    };
    for &a in faults {
        // Two that share alone are among the boundaries.
        if a.0 != SHARED {
            add(format!("{} in creature 1 alone", a.0), &[(a, 1)]);
        }
        add(format!("{} in creature 1, and too many", a.0), &[(a, 1), (too_many, 0)]);
        add(format!("{} in creature 2, and slot 3", a.0), &[(a, 2), (slot, 3)]);
        for &b in faults {
            let name = format!("{} in creature 1, {} in creature 2", a.0, b.0);
            add(name, &[(b, 2), (a, 1)]);
        }
    }
    for two in faults.windows(2) {
        let name = format!("{} and {} in creature 1", two[0].0, two[1].0);
        add(name, &[(two[1], 1), (two[0], 1)]);
    }
    add("too many, and slots 3 and 5".into(), &[(too_many, 0), (slot, 3), (slot, 5)]);
    add("slots 5 and 7".into(), &[(slot, 5), (slot, 7)]);
    states
}

/// Which creature is wrong, and how (document 02, ix).
fn mine_creatures(out: &mut Corners) {
    let base = mine_variations::base();
    let mut states = faulty(&base, MINE_SLOTS, &MINE_FAULTS);
    let eight: [Enemy; ENEMIES] = std::array::from_fn(|i| Enemy { x: 10 + i, y: 10, dir: UP });
    let eight = Mine { enemies: eight, count: ENEMIES, ..base.clone() };
    let mut add = |name: &str, from: &Mine, change: &dyn Fn(&mut Mine)| {
        let mut m = from.clone();
        change(&mut m);
        states.push((name.to_string(), m));
    };
    for (number, change) in MINE_FAULTS {
        add(&format!("{number} in the last of eight"), &eight, &|m| change(m, 7));
    }
    add("all eight turned wrong", &eight, &|m| m.enemies.iter_mut().for_each(|e| e.dir = 4));
    add("all eight on one cell", &eight, &|m| m.enemies = [m.enemies[3]; ENEMIES]);
    add("creatures 3 and 5 of eight share, 6 and 7 too", &eight, &|m| {
        (m.enemies[5], m.enemies[7]) = (m.enemies[3], m.enemies[6]);
    });
    add("off the grid by a row, the next row's first cell a wall", &base, &|m| {
        m.enemies[1].x = W;
        m.grid[10 * W] = WALL;
    });
    add("two off the grid at one place", &base, &|m| {
        m.enemies[1] = Enemy { x: W, y: H, dir: 0 };
        m.enemies[2] = m.enemies[1];
    });
    add("two on one wall", &base, &|m| {
        m.enemies[1] = Enemy { x: 7, y: 6, dir: 0 };
        m.enemies[2] = m.enemies[1];
    });
    add("off the grid and turned wrong", &base, &|m| {
        m.enemies[1] = Enemy { x: 9, y: H, dir: 255 };
    });
    for count in [9, 255] {
        add(&format!("count {count}, rubbish behind"), &base, &|m| {
            m.enemies = [Enemy { x: usize::MAX, y: 99, dir: 255 }; ENEMIES];
            m.count = count;
        });
    }
    add("the player off the grid, and too many", &base, &|m| (m.px, m.count) = (W, 9));
    add("a slot, and needed 0", &base, &|m| (m.enemies[7].x, m.needed) = (1, 0));
    add("eight right ones in all directions, and needed 0", &eight, &|m| {
        m.enemies.iter_mut().zip([0, 1, 2, 3].repeat(2)).for_each(|(e, dir)| e.dir = dir);
        m.needed = 0;
    });
    for (name, m) in states {
        let calls = battery::mine(&Pace::default(), SMALL);
        out.mine(&format!("Mine: {name}"), &m, calls);
    }
}

/// The same of Cutter, where several may share a cell.
fn cutter_creatures(out: &mut Corners) {
    let base = cutter_variations::base();
    let mut states = faulty(&base, CUTTER_SLOTS, &CUTTER_FAULTS);
    let all = Cutter { enemies: [base.enemies[0]; MOVERS], count: MOVERS, ..base.clone() };
    let mut add = |name: &str, from: &Cutter, change: &dyn Fn(&mut Cutter)| {
        let mut c = from.clone();
        change(&mut c);
        states.push((name.to_string(), c));
    };
    for (number, change) in CUTTER_FAULTS {
        add(&format!("{number} in the last of sixteen"), &all, &|c| change(c, 15));
    }
    add("all sixteen still", &all, &|c| c.enemies.iter_mut().for_each(|e| e.vy = 0));
    for (x, y) in [(64, 31), (255, 20), (65, 9), (20, 32), (20, 255)] {
        add(&format!("one of three at ({x},{y})"), &base, &|c| {
            (c.enemies[1].x, c.enemies[1].y) = (x, y);
        });
    }
    add("off the grid and still", &base, &|c| {
        c.enemies[1] = Mover { x: 64, y: 32, vx: 0, vy: 0 };
    });
    for count in [17, 255] {
        add(&format!("count {count}, rubbish behind"), &base, &|c| {
            c.enemies = [Mover { x: 255, y: 255, vx: -128, vy: 127 }; MOVERS];
            c.count = count;
        });
    }
    add("the player off the grid, and too many", &base, &|c| (c.px, c.count) = (CW, 17));
    add("a slot, and no level", &base, &|c| (c.enemies[15].x, c.level) = (1, 0));
    add("sixteen right ones in all directions, and no level", &all, &|c| {
        let ways = [(1, 1), (1, -1), (-1, 1), (-1, -1)].repeat(4);
        c.enemies.iter_mut().zip(ways).for_each(|(e, way)| (e.vx, e.vy) = way);
        c.level = 0;
    });
    for (name, c) in states {
        let calls = battery::cutter(&c, &Pace::default(), SMALL);
        out.cutter(&format!("Cutter: {name}"), &c, calls);
    }
}
