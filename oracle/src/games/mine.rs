//! Block Mine: the original's functions on well-formed states, and one turn of its loop.

use super::screen::{FRAME, Frame, STALE};
use super::{Answer, ENEMY_CYCLES, GRAVITY_CYCLES, Game, dir_delta, heapless, render as paint};
use crate::stand_ins::device::CANCEL;
use crate::state::{ENEMIES, Enemy, Mine, Pace};

fn game(m: &Mine) -> Game {
    let mut enemies = heapless::Vec::new();
    for &Enemy { x, y, dir } in &m.enemies[..m.count] {
        assert!(enemies.push(super::Enemy { x, y, dir }).is_ok());
    }
    Game {
        grid: m.grid,
        falling: m.falling,
        px: m.px,
        py: m.py,
        enemies,
        coins: m.coins,
        needed: m.needed,
        dead: m.dead,
        won: m.won,
    }
}

fn mine(g: &Game) -> Mine {
    let mut enemies = [Enemy::default(); ENEMIES];
    for (slot, e) in enemies.iter_mut().zip(g.enemies.iter()) {
        *slot = Enemy { x: e.x, y: e.y, dir: e.dir };
    }
    Mine {
        grid: g.grid,
        falling: g.falling,
        px: g.px,
        py: g.py,
        enemies,
        count: g.enemies.len(),
        coins: g.coins,
        needed: g.needed,
        dead: g.dead,
        won: g.won,
    }
}

fn on(m: &mut Mine, act: impl FnOnce(&mut Game)) {
    let mut g = game(m);
    act(&mut g);
    *m = mine(&g);
}

pub fn load() -> Mine {
    mine(&Game::load())
}

pub fn step_player(m: &mut Mine, dir: u8) {
    let (dx, dy) = dir_delta(dir);
    on(m, |g| g.step_player(dx, dy));
}

pub fn gravity(m: &mut Mine) {
    on(m, Game::gravity);
}

pub fn move_enemies(m: &mut Mine) {
    on(m, Game::move_enemies);
}

pub fn enemy_at(m: &Mine, x: usize, y: usize) -> Option<usize> {
    game(m).enemy_at(x, y)
}

/// The picture, and the text that the original puts above it.
pub fn render(m: &Mine) -> ([u8; FRAME], Vec<String>) {
    let mut pixels = [STALE; FRAME];
    let mut texts = Vec::new();
    paint(&mut Frame::new(&mut pixels, &mut texts), &game(m));
    (pixels, texts)
}

/// One turn of `block_mine`'s loop, written out.
pub fn pass(m: &mut Mine, keys: &[u8], time: u32, pace: &mut Pace) -> Answer {
    let mut answer = Answer::GoingOn;
    on(m, |g| answer = turn(g, keys, time, pace));
    answer
}

fn turn(g: &mut Game, keys: &[u8], time: u32, pace: &mut Pace) -> Answer {
    if g.won {
        return Answer::Won;
    }
    if g.dead {
        return Answer::Dead;
    }
    for &key in keys {
        match key {
            CANCEL => return Answer::Quit,
            5 => g.step_player(0, -1),
            8 => g.step_player(0, 1),
            7 => g.step_player(-1, 0),
            9 => g.step_player(1, 0),
            _ => {}
        }
    }
    if time.wrapping_sub(pace.first) >= GRAVITY_CYCLES {
        g.gravity();
        pace.first = time;
    }
    if time.wrapping_sub(pace.second) >= ENEMY_CYCLES {
        g.move_enemies();
        pace.second = time;
    }
    Answer::GoingOn
}

/// The original's own game, held from call to call: what `bench` measures.
pub struct Held(Game);

impl Held {
    #[inline(never)]
    pub fn load() -> Self {
        Held(Game::load())
    }

    pub fn of(m: &Mine) -> Self {
        Held(game(m))
    }

    pub fn state(&self) -> Mine {
        mine(&self.0)
    }

    #[inline(never)]
    pub fn step_player(&mut self, dir: u8) {
        let (dx, dy) = dir_delta(dir);
        self.0.step_player(dx, dy);
    }

    #[inline(never)]
    pub fn gravity(&mut self) {
        self.0.gravity();
    }

    #[inline(never)]
    pub fn move_enemies(&mut self) {
        self.0.move_enemies();
    }

    #[inline(never)]
    pub fn enemy_at(&self, x: usize, y: usize) -> Option<usize> {
        self.0.enemy_at(x, y)
    }

    #[inline(never)]
    pub fn render(&self, pixels: &mut [u8; FRAME], texts: &mut Vec<String>) {
        paint(&mut Frame::new(pixels, texts), &self.0);
    }

    #[inline(never)]
    pub fn pass(&mut self, keys: &[u8], time: u32, pace: &mut Pace) -> Answer {
        turn(&mut self.0, keys, time, pace)
    }
}
