//! Block Cutter: the original's functions on well-formed states, and one turn of its loop.

use super::screen::{FRAME, Frame, STALE};
use super::{
    Answer, CLEAR_BLACK_PCT, CUT_ENEMY_CYCLES, CUT_MOVE_CYCLES, Cutter as Game, cutter_render,
    dir_delta, heapless,
};
use crate::stand_ins::device::{self, CANCEL};
use crate::state::{BLACK, CN, Cutter, INTERIOR, MOVERS, Mover, Pace};

/// Black cells below which a level is won.
const CLEAR_BELOW: usize = INTERIOR * CLEAR_BLACK_PCT / 100;

fn game(c: &Cutter) -> Game {
    let mut enemies = heapless::Vec::new();
    for &Mover { x, y, vx, vy } in &c.enemies[..c.count] {
        assert!(enemies.push(super::Mover { x, y, vx, vy }).is_ok());
    }
    Game {
        grid: c.grid,
        px: c.px,
        py: c.py,
        dx: c.dx,
        dy: c.dy,
        trailing: c.trailing,
        enemies,
        level: c.level,
        lives: c.lives,
        dead: c.dead,
        won_level: c.won_level,
    }
}

fn cutter(g: &Game) -> Cutter {
    let mut enemies = [Mover::default(); MOVERS];
    for (slot, e) in enemies.iter_mut().zip(g.enemies.iter()) {
        *slot = Mover { x: e.x, y: e.y, vx: e.vx, vy: e.vy };
    }
    Cutter {
        grid: g.grid,
        px: g.px,
        py: g.py,
        dx: g.dx,
        dy: g.dy,
        trailing: g.trailing,
        enemies,
        count: g.enemies.len(),
        level: g.level,
        lives: g.lives,
        dead: g.dead,
        won_level: g.won_level,
    }
}

fn on(c: &mut Cutter, act: impl FnOnce(&mut Game)) {
    let mut g = game(c);
    act(&mut g);
    *c = cutter(&g);
}

/// What `block_cutter` starts with: level 1, 3 lives, then the level's draws.
pub fn new_round(draws: &[u8]) -> Cutter {
    let mut c = Cutter {
        grid: [BLACK; CN],
        px: 0,
        py: 0,
        dx: 0,
        dy: 0,
        trailing: false,
        enemies: [Mover::default(); MOVERS],
        count: 0,
        level: 1,
        lives: 3,
        dead: false,
        won_level: false,
    };
    new_level(&mut c, draws);
    c
}

pub fn new_level(c: &mut Cutter, draws: &[u8]) {
    on(c, |g| level(g, draws));
}

/// `new_level` with these draws, all of them and no more.
fn level(g: &mut Game, draws: &[u8]) {
    let (_, left) = device::run(0, &[], draws, || g.new_level());
    assert_eq!(left, 0, "draws left over");
}

pub fn direction(c: &mut Cutter, dir: u8) {
    on(c, |g| head(g, dir));
}

fn head(g: &mut Game, dir: u8) {
    let (dx, dy) = dir_delta(dir);
    (g.dx, g.dy) = (dx as i8, dy as i8);
}

pub fn step_player(c: &mut Cutter) {
    on(c, Game::step_player);
}

pub fn step_enemies(c: &mut Cutter) {
    on(c, Game::step_enemies);
}

pub fn respawn(c: &mut Cutter) {
    on(c, Game::respawn);
}

pub fn black_count(c: &Cutter) -> usize {
    game(c).black_count()
}

pub fn on_border(c: &Cutter, x: usize, y: usize) -> bool {
    game(c).on_border(x, y)
}

pub fn render(c: &Cutter) -> [u8; FRAME] {
    let mut pixels = [STALE; FRAME];
    cutter_render(&mut Frame::new(&mut pixels, &mut Vec::new()), &game(c));
    pixels
}

/// One turn of `block_cutter`'s loop, written out.
pub fn pass(c: &mut Cutter, keys: &[u8], draws: &[u8], time: u32, pace: &mut Pace) -> Answer {
    let mut answer = Answer::GoingOn;
    on(c, |g| answer = turn(g, keys, draws, time, pace));
    answer
}

fn turn(g: &mut Game, keys: &[u8], draws: &[u8], time: u32, pace: &mut Pace) -> Answer {
    if g.dead {
        g.dead = false;
        g.lives = g.lives.saturating_sub(1);
        if g.lives == 0 {
            return Answer::Over;
        }
        g.respawn();
        return Answer::GoingOn;
    }
    if g.won_level {
        g.won_level = false;
        g.level += 1;
        level(g, draws);
        return Answer::GoingOn;
    }
    for &key in keys {
        match key {
            CANCEL => return Answer::Quit,
            5 => (g.dx, g.dy) = (0, -1),
            8 => (g.dx, g.dy) = (0, 1),
            7 => (g.dx, g.dy) = (-1, 0),
            9 => (g.dx, g.dy) = (1, 0),
            _ => {}
        }
    }
    if time.wrapping_sub(pace.first) >= CUT_MOVE_CYCLES {
        g.step_player();
        pace.first = time;
        if g.black_count() < CLEAR_BELOW {
            g.won_level = true;
        }
    }
    if time.wrapping_sub(pace.second) >= CUT_ENEMY_CYCLES {
        g.step_enemies();
        pace.second = time;
    }
    Answer::GoingOn
}

/// The original's own game, held from call to call: what `bench` measures.
pub struct Held(Game);

impl Held {
    pub fn of(c: &Cutter) -> Self {
        Held(game(c))
    }

    pub fn state(&self) -> Cutter {
        cutter(&self.0)
    }

    /// Its draws come from the device.
    #[inline(never)]
    pub fn new_level(&mut self) {
        self.0.new_level();
    }

    #[inline(never)]
    pub fn step_player(&mut self) {
        self.0.step_player();
    }

    #[inline(never)]
    pub fn step_enemies(&mut self) {
        self.0.step_enemies();
    }

    #[inline(never)]
    pub fn respawn(&mut self) {
        self.0.respawn();
    }

    #[inline(never)]
    pub fn move_to_border(&mut self) {
        self.0.move_to_border();
    }

    #[inline(never)]
    pub fn black_count(&self) -> usize {
        self.0.black_count()
    }

    #[inline(never)]
    pub fn render(&self, pixels: &mut [u8; FRAME]) {
        cutter_render(&mut Frame::new(pixels, &mut Vec::new()), &self.0);
    }

    #[inline(never)]
    pub fn pass(&mut self, keys: &[u8], draws: &[u8], time: u32, pace: &mut Pace) -> Answer {
        turn(&mut self.0, keys, draws, time, pace)
    }
}
