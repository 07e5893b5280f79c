//! The states that are measured. Each list holds several, so that no branch is the same each time.

use oracle::check;
use oracle::games::mine;
use oracle::make::mine_play::MinePlayer;
use oracle::make::{cutter_grounds, cutter_states};
use oracle::rng::Rng;
use oracle::state::*;

/// States in a list: what stays in the nearest cache, with what a call makes of them.
const MINES: usize = 16;
const CUTS: usize = 8;

/// Loaded mines.
pub fn loaded() -> Vec<Mine> {
    vec![mine::load(); MINES]
}

/// States of a play, and the move that comes next.
pub fn moves() -> Vec<(Mine, u8)> {
    let mut rng = Rng::new(1);
    let player = MinePlayer { whim: 5, push: 2 };
    let mut m = mine::load();
    let mut out = Vec::new();
    while out.len() < MINES {
        let dir = player.command(&m, &mut rng);
        out.push((m.clone(), dir));
        mine::step_player(&mut m, dir);
        mine::gravity(&mut m);
        mine::move_enemies(&mut m);
        if m.dead || m.won {
            m = mine::load();
        }
    }
    out
}

/// Half empty, half boulders and coins, half of these falling, four creatures among them.
pub fn busy() -> Vec<Mine> {
    let mut rng = Rng::new(2);
    let one = |_| {
        let mut m = mine::load();
        m.grid = std::array::from_fn(|_| rng.pick(&[EMPTY, EMPTY, BOULDER, COIN]));
        m.falling = std::array::from_fn(|_| rng.one_in(2));
        (m.px, m.py) = (12, 7);
        m.grid[7 * W + 12] = EMPTY;
        m.enemies = Default::default();
        m.count = 0;
        let m = m.peopled(&[(3, 12, 0), (8, 9, 1), (15, 5, 2), (20, 11, 3)]);
        assert_eq!(check::mine(&m), Ok(()));
        m
    };
    (0..MINES).map(one).collect()
}

/// The level with its dirt dug out, and so many creatures that walk in it.
pub fn tunnels(creatures: usize) -> Vec<Mine> {
    let mut rng = Rng::new(3);
    let one = |_| {
        let mut m = mine::load();
        for cell in m.grid.iter_mut().filter(|cell| **cell == DIRT) {
            *cell = EMPTY;
        }
        m.enemies = Default::default();
        m.count = 0;
        while m.count < creatures {
            let (x, y) = (rng.below(W), rng.below(H));
            let there = m.enemies[..m.count].iter().any(|e| (e.x, e.y) == (x, y));
            if m.grid[y * W + x] == EMPTY && !there {
                m.enemies[m.count] = Enemy { x, y, dir: rng.below(4) as u8 };
                m.count += 1;
            }
        }
        assert_eq!(check::mine(&m), Ok(()));
        m
    };
    (0..MINES).map(one).collect()
}

/// Fresh ground with so many creatures.
pub fn fresh(creatures: u32) -> Vec<Cutter> {
    let mut rng = Rng::new(4);
    let one = |_| {
        let mut c = cutter_grounds::fresh();
        c.level = creatures;
        oracle::games::cutter::new_level(&mut c, &cutter_states::draws(creatures, &mut rng));
        c
    };
    (0..CUTS).map(one).collect()
}

/// Ground that was cut once, with line on it or not, and creatures on the right.
pub fn cut() -> Vec<Cutter> {
    let movers = [(40, 9, 1, 1), (50, 20, -1, 1), (60, 5, 1, -1), (45, 28, -1, -1)];
    let one = |i: usize| {
        let c = cutter_grounds::fresh().claimed(1..20 + i, 1..31).peopled(&movers);
        let line: Vec<_> = (1..=3 * i).map(|y| (36, y)).collect();
        let c =
            if i % 2 == 1 { c.line(&line).at((36, 3 * i)).heading(DOWN) } else { c.heading(RIGHT) };
        assert_eq!(check::cutter(&c), Ok(()));
        c
    };
    (0..CUTS).map(one).collect()
}

/// On the border, heading along it.
pub fn on_border() -> Vec<Cutter> {
    let place = |(i, c): (usize, Cutter)| match i % 4 {
        0 => c.at((5 + i, 0)).heading(RIGHT),
        1 => c.at((50 - i, 31)).heading(LEFT),
        2 => c.at((0, 9 + i)).heading(DOWN),
        _ => c.at((63, 25 - i)).heading(UP),
    };
    quiet().into_iter().enumerate().map(place).collect()
}

/// A line from the start, heading on into black.
pub fn laying() -> Vec<Cutter> {
    (0..CUTS).map(|i| cutter_grounds::drawing(3 + i).peopled(&FOUR)).collect()
}

/// One step before a straight cut through the middle is closed.
pub fn middle() -> Vec<Cutter> {
    (0..CUTS).map(|i| cutter_grounds::drawing(30).peopled(&FOUR[i % 3..])).collect()
}

/// One step before a closing that takes nothing but its line.
pub fn fresh_cut() -> Vec<Cutter> {
    vec![cutter_grounds::fresh().line(&[(32, 1)]).at((32, 1)).heading(UP); CUTS]
}

/// One step before a closing that leaves one corridor, the longest found. One state: its sweeps
/// take milliseconds, and a short batch is seldom disturbed.
pub fn snake() -> Vec<Cutter> {
    vec![cutter_grounds::longest_snake()]
}

/// One step before a closing that leaves this many regions of a cell each.
pub fn chequers(number: usize) -> Vec<Cutter> {
    (0..CUTS).map(|i| cutter_grounds::chequers(number - i).peopled_in_order(number - i)).collect()
}

/// One step before the closing of a zigzag with 63 pockets above it.
pub fn pockets() -> Vec<Cutter> {
    vec![cutter_grounds::zigzagged(3); CUTS]
}

/// All claimed but a cell in the far corner, the player in the near one.
pub fn far() -> Vec<Cutter> {
    let claimed = || cutter_grounds::fresh().claimed(1..63, 1..31).peopled(&[]).at((0, 0));
    (0..CUTS).map(|i| claimed().black(62 - i % 2, 30)).collect()
}

const FOUR: [(u8, u8, i8, i8); 4] =
    [(10, 10, 1, 1), (50, 20, -1, 1), (20, 25, 1, -1), (45, 15, -1, -1)];

fn quiet() -> Vec<Cutter> {
    vec![cutter_grounds::fresh().peopled(&FOUR); CUTS]
}
