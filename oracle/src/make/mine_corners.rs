//! The corners of Block Mine.

use super::corners::{Corners, PICTURE};
use super::readings::{ENEMY, GRAVITY};
use crate::calls::Call;
use crate::games::mine;
use crate::state::*;

/// A mine without a creature: walls, and the cells given.
pub fn walled(player: (usize, usize), cells: &[(usize, usize, u8)]) -> Mine {
    let mut m = mine::load();
    m.grid = [WALL; CELLS];
    m.enemies = Default::default();
    m.count = 0;
    (m.px, m.py) = player;
    m.grid[player.1 * W + player.0] = EMPTY;
    for &(x, y, code) in cells {
        m.grid[y * W + x] = code;
    }
    m
}

impl Mine {
    /// With a mark on these cells.
    pub fn marked(mut self, cells: &[(usize, usize)]) -> Self {
        for &(x, y) in cells {
            self.falling[y * W + x] = true;
        }
        self
    }

    /// With these creatures, on cells made empty.
    pub fn peopled(mut self, enemies: &[(usize, usize, u8)]) -> Self {
        for &(x, y, dir) in enemies {
            self.grid[y * W + x] = EMPTY;
            self.enemies[self.count] = Enemy { x, y, dir };
            self.count += 1;
        }
        self
    }
}

const BOTH: [u8; 2] = [BOULDER, COIN];

pub fn corners(out: &mut Corners) {
    loaded(out);
    moves(out);
    falls(out);
    rolls(out);
    marks(out);
    creatures(out);
    passes(out);
    readings(out);
    pictures(out);
}

fn gravity(times: usize) -> Vec<Call> {
    vec![Call::Gravity; times]
}

fn loaded(out: &mut Corners) {
    let m = mine::load();
    let right = Call::Move(RIGHT);
    out.mine("P1, P2: load, right three times", &m, vec![Call::Load, right.clone(), right.clone()]);
    out.go_on(vec![right, Call::Load, Call::Load]);
    out.mine("P3: a creature tick on the loaded mine", &m, vec![Call::MoveEnemies]);
    let way = [DOWN, DOWN, RIGHT, RIGHT, RIGHT];
    out.mine("a boulder pushed onto a leftover mark kills", &m, way.map(Call::Move).to_vec());
    out.go_on(vec![Call::Gravity, Call::Move(LEFT), Call::Gravity]);
    out.go_on([UP, LEFT, LEFT, DOWN, RIGHT, DOWN, RIGHT].map(Call::Move).to_vec());
    out.go_on(gravity(2));
}

fn moves(out: &mut Corners) {
    let every = [UP, RIGHT, DOWN, LEFT].map(Call::Move).to_vec();
    for place in [(0, 0), (W - 1, 0), (0, H - 1), (W - 1, H - 1)] {
        out.mine("moves in a corner of the grid", &walled(place, &[]), every.clone());
    }
    let around = |code| walled((5, 5), &[(5, 4, code), (6, 5, code), (5, 6, code), (4, 5, code)]);
    for code in [EMPTY, DIRT, WALL, COIN] {
        out.mine("moves into each ground", &around(code), every.clone());
    }
    let exit = around(EXIT);
    for coins in [27, 28, 29] {
        let m = Mine { coins, ..exit.clone() };
        out.mine("the exit one coin short, at the number, above it", &m, every.clone());
    }
    let mut m = around(BOULDER);
    (m.grid[3 * W + 5], m.grid[7 * W + 5]) = (EMPTY, EMPTY);
    out.mine("boulders blocked and not pushed up or down", &m, every.clone());
    let open = |cells: &[(usize, usize, u8)]| walled((5, 5), cells);
    let row = [(3, 5, EMPTY), (4, 5, BOULDER), (6, 5, BOULDER), (7, 5, EMPTY)];
    out.mine("boulders pushed", &open(&row), vec![Call::Move(RIGHT), Call::Move(LEFT)]);
    out.go_on(vec![Call::Move(LEFT), Call::Move(LEFT)]);
    let m = open(&row).peopled(&[(3, 5, UP), (7, 5, UP)]);
    out.mine("boulders not pushed onto creatures", &m, every.clone());
    let m = walled((1, 5), &[(0, 5, BOULDER)]);
    out.mine("a boulder not pushed off the left", &m, vec![Call::Move(LEFT)]);
    let m = walled((22, 5), &[(23, 5, BOULDER)]);
    out.mine("a boulder not pushed off the right", &m, vec![Call::Move(RIGHT)]);
    let m = around(DIRT).peopled(&[(6, 5, UP)]);
    out.mine("a creature in the way", &m, vec![Call::Move(RIGHT), Call::Move(LEFT)]);
    let m = Mine { dead: true, won: true, ..around(DIRT) };
    let calls = vec![Call::Move(RIGHT), Call::Gravity, Call::MoveEnemies];
    out.mine("a dead and won state moves and ticks", &m, calls);
}

fn falls(out: &mut Corners) {
    for code in BOTH {
        let over = walled((5, 6), &[(5, 5, code)]);
        out.mine("P4: unmarked over the player", &over, gravity(1));
        out.mine("P4: marked over the player", &over.marked(&[(5, 5)]), gravity(2));
        let over = walled((1, 1), &[(5, 5, code)]).peopled(&[(5, 6, UP)]);
        out.mine("unmarked over a creature", &over, gravity(1));
        out.mine("marked over a creature", &over.marked(&[(5, 5)]), gravity(2));
        let m = walled((1, 1), &[(5, 5, code), (5, 6, EMPTY), (5, 7, EMPTY)]);
        out.mine("falls, lands, keeps its mark for a tick", &m, gravity(4));
        let m = walled((1, 1), &[(5, H - 1, code)]).marked(&[(5, H - 1)]);
        out.mine("loses its mark in the last row", &m, gravity(1));
        for ground in [DIRT, WALL, EXIT] {
            let around = [(4, 5, EMPTY), (4, 6, EMPTY), (6, 5, EMPTY), (6, 6, EMPTY)];
            let mut m = walled((1, 1), &around).marked(&[(5, 5)]);
            m.grid[5 * W + 5] = code;
            m.grid[6 * W + 5] = ground;
            out.mine("rests on what isn't round", &m, gravity(1));
        }
    }
    let crowd = [(7, 7, UP), (9, 7, RIGHT), (11, 7, DOWN)];
    let m = walled((1, 1), &[(7, 6, BOULDER)]).marked(&[(7, 6)]).peopled(&crowd);
    out.mine("P8: of A, B, C the first is squashed", &m, gravity(1));
    let m = walled((1, 1), &[(11, 6, COIN)]).marked(&[(11, 6)]).peopled(&crowd);
    out.mine("of A, B, C the last is squashed", &m, gravity(1));
    let m = walled((5, 6), &[(5, 5, BOULDER)]).marked(&[(5, 5)]).peopled(&[(5, 6, UP)]);
    out.mine("player and creature on one cell under a marked boulder", &m, gravity(1));
    for above in BOTH {
        let m = walled((5, 6), &[(5, 5, COIN), (5, 4, above)]).marked(&[(5, 5)]);
        out.mine("what was above a collected coin drops, marked", &m, gravity(2));
    }
    let stack = [(5, 3, BOULDER), (5, 4, COIN), (5, 5, BOULDER), (5, 6, EMPTY), (5, 7, EMPTY)];
    out.mine("a stack falls a cell each tick", &walled((1, 1), &stack), gravity(3));
}

fn rolls(out: &mut Corners) {
    let right = [(5, 5, BOULDER), (5, 6, BOULDER), (6, 5, EMPTY), (6, 6, EMPTY)];
    let left = [(5, 5, BOULDER), (5, 6, BOULDER), (4, 5, EMPTY), (4, 6, EMPTY)];
    out.mine("P5: a roll to the right falls in the same tick", &walled((1, 1), &right), gravity(2));
    out.mine("P6: a roll to the left does not", &walled((1, 1), &left), gravity(2));
    let both: Vec<_> = right.iter().chain(&left).copied().collect();
    out.mine("left before right", &walled((1, 1), &both), gravity(1));
    for (x, y) in [(6, 5), (6, 6)] {
        out.mine("no roll onto or over the player", &walled((x, y), &right), gravity(1));
        let m = walled((1, 1), &right).peopled(&[(x, y, UP)]);
        out.mine("no roll onto or over a creature", &m, gravity(1));
        let mut m = walled((1, 1), &right);
        m.grid[y * W + x] = DIRT;
        out.mine("no roll past dirt", &m, gravity(1));
    }
    let near = [0, 23].map(|x| [(x, 5, EMPTY), (x, 6, EMPTY)]).concat();
    let piles = [1, 22].map(|x| [(x, 5, BOULDER), (x, 6, COIN)]).concat();
    let m = walled((1, 1), &[near, piles].concat());
    out.mine("rolls into the first column and the last", &m, gravity(1));
    let edge = [(0, 5, COIN), (0, 6, COIN), (23, 5, COIN), (23, 6, BOULDER)];
    out.mine("no roll off the grid", &walled((1, 1), &edge), gravity(1));
    let m = walled((1, 1), &[(5, 5, COIN), (5, 6, COIN), (6, 5, EMPTY), (6, 6, EMPTY)]);
    out.mine("a coin rolls off a coin", &m.marked(&[(5, 5)]), gravity(1));
}

fn marks(out: &mut Corners) {
    let m = walled((4, 5), &[(5, 5, COIN)]).marked(&[(5, 5)]);
    out.mine("P7: a marked coin walked into leaves its mark", &m, vec![Call::Move(RIGHT)]);
    let cells = [(5, 5, BOULDER), (6, 5, EMPTY), (6, 6, EMPTY), (6, 7, EMPTY)];
    let m = walled((4, 5), &cells).marked(&[(5, 5)]);
    let push = vec![Call::Move(RIGHT), Call::Gravity, Call::Gravity];
    out.mine("a marked boulder that is pushed leaves its mark", &m, push);
}

fn creatures(out: &mut Corners) {
    let tick = vec![Call::MoveEnemies; 2];
    let cross = |walls: &[(usize, usize)]| {
        let open = [(5, 4, EMPTY), (6, 5, EMPTY), (5, 6, EMPTY), (4, 5, EMPTY)];
        let mut m = walled((1, 1), &open).peopled(&[(5, 5, UP)]);
        walls.iter().for_each(|&(x, y)| m.grid[y * W + x] = DIRT);
        m
    };
    let ways: [&[(usize, usize)]; 5] = [
        &[],
        &[(4, 5)],
        &[(4, 5), (5, 4)],
        &[(4, 5), (5, 4), (6, 5)],
        &[(4, 5), (5, 4), (6, 5), (5, 6)],
    ];
    for walls in ways {
        out.mine("left, straight, right, back, none", &cross(walls), tick.clone());
    }
    let m = walled((4, 5), &[]).peopled(&[(5, 5, LEFT), (6, 5, LEFT), (7, 5, LEFT)]);
    out.mine("a creature reaches the player, others follow; it walks off", &m, tick.clone());
    let m = walled((3, 5), &[(4, 5, EMPTY)]).peopled(&[(7, 5, LEFT), (6, 5, LEFT), (5, 5, LEFT)]);
    out.mine("the same row, the last in front", &m, tick.clone());
    let m = walled((1, 1), &[]).peopled(&[(5, 5, RIGHT), (6, 5, LEFT)]);
    out.mine("creatures head on", &m, tick.clone());
    let m = walled((5, 5), &[(5, 6, EMPTY)]).peopled(&[(5, 5, DOWN)]);
    out.mine("a creature on the player walks off", &m, tick.clone());
    for place in [(0, 0, LEFT), (W - 1, 0, UP), (0, H - 1, DOWN), (W - 1, H - 1, RIGHT)] {
        out.mine(
            "a creature in a corner of the grid",
            &walled((1, 1), &[]).peopled(&[place]),
            tick.clone(),
        );
    }
}

fn pass(time: u32, keys: &[u8]) -> Call {
    Call::MinePass { time, keys: keys.to_vec() }
}

fn passes(out: &mut Corners) {
    let row = walled((5, 5), &[(6, 5, DIRT), (7, 5, DIRT), (4, 5, EXIT), (8, 5, EMPTY)]);
    let m = Mine { coins: 28, ..row.clone() };
    let won = vec![pass(ENEMY, &[7, 9, 9]), pass(2 * ENEMY, &[10]), pass(2 * ENEMY, &[])];
    out.mine("a pass that wins goes on, the next answers won", &m, won);
    let hunted = row.clone().peopled(&[(6, 5, LEFT)]);
    let died = vec![pass(GRAVITY, &[9, 7, 9]), pass(2 * ENEMY, &[10, 9])];
    out.mine("a pass that dies goes on, the next answers dead", &hunted, died);
    let m = Mine { dead: true, won: true, ..row.clone() };
    out.mine("Mine won and dead: won", &m, vec![pass(ENEMY, &[9]), pass(ENEMY, &[10])]);
    let m = Mine { dead: true, ..row.clone() };
    out.mine("a dead state ends the round", &m, vec![pass(ENEMY, &[10])]);
    let quit = vec![pass(ENEMY, &[9, 10, 9]), pass(ENEMY, &[10])];
    out.mine("quitting: earlier moves stand, no ticks", &row, quit);
    let ignored = [0, 1, 2, 3, 4, 6, 11, 12, 127, 128, 255, b'9', 9];
    out.mine("keys that are ignored", &row, vec![pass(1, &ignored), pass(1, &[])]);
    let open = [(4, 5, EMPTY), (6, 5, EMPTY), (5, 4, EMPTY), (5, 6, EMPTY)];
    let each = ignored[..11].iter().map(|&key| pass(1, &[key])).collect();
    out.mine("keys that are ignored on open ground, each alone", &walled((5, 5), &open), each);
    out.go_on(vec![pass(1, &[5]), pass(1, &[8, 7])]);
    let many = [[9, 7]; 100].concat();
    out.mine("many keys", &row, vec![pass(1, &many)]);
    let m = walled((5, 6), &[(5, 5, BOULDER)]).marked(&[(5, 5)]).peopled(&[(9, 9, UP)]);
    out.mine("gravity kills and creatures still tick", &m, vec![pass(ENEMY, &[]), pass(0, &[])]);
    let m = walled((1, 1), &[(9, 8, BOULDER), (10, 9, EMPTY)]).marked(&[(9, 8)]);
    let m = m.peopled(&[(9, 9, RIGHT)]);
    out.mine("gravity before the creatures: one is squashed, not gone", &m, vec![pass(ENEMY, &[])]);
    let m = walled((5, 6), &[(5, 5, BOULDER), (6, 6, EMPTY)]).marked(&[(5, 5)]);
    out.mine("keys before gravity: the player is gone", &m, vec![pass(GRAVITY, &[9])]);
    let m = walled((4, 5), &[]).peopled(&[(6, 5, LEFT), (5, 5, LEFT)]);
    out.mine("the creatures' tick kills", &m, vec![pass(ENEMY, &[]), pass(2 * ENEMY, &[9])]);
}

/// The nearest reading on each side of each interval, also across the wrap.
fn readings(out: &mut Corners) {
    let m = walled((1, 1), &[(5, 5, BOULDER), (5, 6, EMPTY)]).peopled(&[(9, 9, UP), (10, 9, UP)]);
    let game = || Game::Mine(Box::new(m.clone()));
    for mark in [0, 4_294_967_000, u32::MAX] {
        for (name, interval) in [("gravity", GRAVITY), ("creatures", ENEMY)] {
            let name = format!("nearest readings of {name} from mark {mark}");
            let at = |add: u32| pass(mark.wrapping_add(add), &[]);
            out.paced(&name, game(), Pace::start(mark), vec![at(interval - 1)]);
            out.paced(&name, game(), Pace::start(mark), vec![at(interval)]);
        }
    }
    let back = Pace { first: 1, second: 1 };
    out.paced("a reading before the mark is due", game(), back, vec![pass(0, &[])]);
    let apart = Pace { first: 5, second: 10 };
    let one = vec![pass(5 + GRAVITY, &[]), pass(10 + ENEMY, &[])];
    out.paced("marks apart", game(), apart, one);
}

fn pictures(out: &mut Corners) {
    let picture = vec![Call::MinePicture(PICTURE)];
    let m = mine::load();
    out.mine("picture of the loaded mine", &m, picture.clone());
    let crowd = [(0, 0, UP), (W - 1, 0, UP), (0, H - 1, UP), (12, 7, UP), (8, 3, UP)];
    let windows = [(7, 2), (8, 3), (9, 4), (15, 9), (16, 10), (17, 11), (0, 0), (W - 1, H - 1)];
    for (x, y) in windows {
        let mut m = m.clone();
        (m.px, m.py) = (x, y);
        m.grid[y * W + x] = EMPTY;
        m.enemies = Default::default();
        m.count = 0;
        out.mine("picture from each edge of the window", &m.peopled(&crowd), picture.clone());
    }
    let edges = [(3, 5), (4, 6), (19, 5), (20, 6), (8, 2), (9, 3), (10, 9), (11, 10)];
    let m8 = walled((12, 6), &[]).peopled(&edges.map(|(x, y)| (x, y, UP)));
    out.mine("picture with creatures on both sides of each edge", &m8, picture.clone());
    for coins in [27, 28] {
        let mut m = Mine { coins, ..m.clone() };
        (m.px, m.py) = (21, 11);
        m.grid[11 * W + 21] = EMPTY;
        out.mine("picture of the exit, closed and open", &m, picture.clone());
    }
}
