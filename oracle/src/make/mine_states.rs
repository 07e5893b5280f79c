//! Random well-formed Mine states, and calls on them.

use super::mine_play::MinePlayer;
use super::readings;
use crate::calls::Call;
use crate::games::mine;
use crate::rng::Rng;
use crate::state::*;

const MOST_COINS: usize = 336;

/// Weights of the six codes, from crowded to open.
const GROUNDS: [[usize; 6]; 6] = [
    [1, 1, 1, 1, 1, 1],
    [6, 1, 1, 3, 3, 0],
    [12, 0, 1, 2, 1, 0],
    [4, 0, 0, 4, 4, 1],
    [2, 6, 1, 2, 2, 1],
    [1, 0, 0, 0, 0, 0],
];

/// A well-formed state of any kind.
pub fn state(rng: &mut Rng) -> Mine {
    let mut m = mine::load();
    if !rng.one_in(6) {
        let weights = rng.pick(&GROUNDS);
        m.grid = std::array::from_fn(|_| weighted(&weights, rng));
    }
    m.falling = marks(rng);
    place_player(&mut m, rng);
    place_enemies(&mut m, rng);

    let coins = m.count_of(COIN);
    m.needed = rng.pick(&[1, 2, 28, 335, 336]);
    let room = (MOST_COINS - coins) as u32;
    let near = [0, m.needed - 1, m.needed, room, rng.below(room as usize + 1) as u32];
    m.coins = rng.pick(&near).min(room);
    m.dead = rng.one_in(8);
    m.won = rng.one_in(8);
    m
}

fn weighted(weights: &[usize], rng: &mut Rng) -> u8 {
    let mut left = rng.below(weights.iter().sum());
    let at = weights.iter().position(|&w| {
        left < w || {
            left -= w;
            false
        }
    });
    at.expect("a code within the weights") as u8
}

fn marks(rng: &mut Rng) -> [bool; CELLS] {
    let of_four = rng.pick(&[0, 1, 2, 4]);
    std::array::from_fn(|_| rng.below(4) < of_four)
}

fn place_player(m: &mut Mine, rng: &mut Rng) {
    m.px = rng.edge(W);
    m.py = rng.edge(H);
    let cell = m.py * W + m.px;
    m.grid[cell] = EMPTY;
    if m.py > 0 && rng.one_in(3) {
        m.grid[cell - W] = rng.pick(&[BOULDER, COIN]);
    }
}

/// Up to eight creatures, often near the player, under something or in each other's way.
fn place_enemies(m: &mut Mine, rng: &mut Rng) {
    m.enemies = Default::default();
    m.count = 0;
    let number = rng.edge(ENEMIES + 1);
    while m.count < number {
        let mut near = |at: usize, bound| match rng.one_in(2) {
            true => (at + rng.below(5)).saturating_sub(2).min(bound - 1),
            false => rng.below(bound),
        };
        let (x, y) = (near(m.px, W), near(m.py, H));
        if m.enemies[..m.count].iter().any(|e| (e.x, e.y) == (x, y)) {
            continue;
        }
        m.grid[y * W + x] = EMPTY;
        let above = (x, y.wrapping_sub(1));
        if y > 0 && rng.one_in(3) && free_of_all(m, above) {
            m.grid[above.1 * W + above.0] = rng.pick(&[BOULDER, COIN]);
        }
        m.enemies[m.count] = Enemy { x, y, dir: rng.below(4) as u8 };
        m.count += 1;
    }
}

fn free_of_all(m: &Mine, place: (usize, usize)) -> bool {
    let enemy = m.enemies[..m.count].iter().any(|e| (e.x, e.y) == place);
    (m.px, m.py) != place && !enemy
}

/// A call that Mine knows, legal more often than not.
pub fn call(m: &Mine, pace: &Pace, rng: &mut Rng) -> Call {
    let player = MinePlayer { whim: 3, push: 2 };
    match rng.below(16) {
        0..=3 => Call::Move(player.command(m, rng)),
        4 => Call::Move(rng.pick(&[0, 1, 2, 3, 4, 5, 127, 128, 255])),
        5..=7 => Call::Gravity,
        8..=9 => Call::MoveEnemies,
        10..=12 => Call::MinePass {
            time: readings::mine(pace, rng),
            keys: keys(player.command(m, rng), rng),
        },
        13 => Call::MinePicture(super::frame_length(rng)),
        14 => who(m, rng),
        _ => super::common(rng),
    }
}

/// Keys of a pass: few or many, most of them moves, now and then the one that quits.
pub fn keys(command: u8, rng: &mut Rng) -> Vec<u8> {
    let number = rng.pick(&[0, 0, 1, 1, 1, 2, 5, 20]);
    let key = |rng: &mut Rng| match rng.below(12) {
        0 => rng.byte(),
        1 => rng.pick(&[0, 1, 2, 3, 4, 6, 9, 10, 11, 255]),
        2..=6 => KEYS[usize::from(command)],
        _ => rng.pick(&KEYS),
    };
    (0..number).map(|_| key(rng)).collect()
}

/// The question on a list of any length, that holds the place or not.
fn who(m: &Mine, rng: &mut Rng) -> Call {
    let (x, y) = (rng.pick(&[m.px, 0, usize::MAX]), rng.pick(&[m.py, 0, usize::MAX]));
    let number = rng.pick(&[0, 1, 8, 9, 16, 17, 40]);
    let mut list = Vec::new();
    for _ in 0..number {
        let [x, y] = [x, y].map(|v| v.wrapping_add(rng.pick(&[0, 0, 1, 1 << 32])));
        list.push(Enemy { x, y, dir: rng.byte() });
    }
    Call::MineWho { x, y, list }
}
