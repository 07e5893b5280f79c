//! The states as the port has them: the original's fields in its order, with a count behind
//! each creature array and zeros in the slots past it, laid out as in C. They may be ill formed.

use crate::bytes::{Field, fields};

pub const W: usize = 24;
pub const H: usize = 14;
pub const CELLS: usize = W * H;
pub const ENEMIES: usize = 8;

pub const CW: usize = 64;
pub const CH: usize = 32;
pub const CN: usize = CW * CH;
pub const MOVERS: usize = 16;
/// Cells of the Cutter's outer ring, and cells inside it.
pub const RING: usize = 188;
pub const INTERIOR: usize = CN - RING;

pub const EMPTY: u8 = 0;
pub const DIRT: u8 = 1;
pub const WALL: u8 = 2;
pub const BOULDER: u8 = 3;
pub const COIN: u8 = 4;
pub const EXIT: u8 = 5;

pub const BLACK: u8 = 0;
pub const CLAIMED: u8 = 1;
pub const LINE: u8 = 2;

/// Commands of a move and of the direction call.
pub const UP: u8 = 0;
pub const RIGHT: u8 = 1;
pub const DOWN: u8 = 2;
pub const LEFT: u8 = 3;
/// Their keys.
pub const KEYS: [u8; 4] = [5, 9, 8, 7];

/// The cell one step from (x, y), if it is on a grid of `w` by `h`.
pub fn beside(x: usize, y: usize, dir: u8, w: usize, h: usize) -> Option<(usize, usize)> {
    let (nx, ny) = match dir {
        UP => (x, y.wrapping_sub(1)),
        RIGHT => (x + 1, y),
        DOWN => (x, y + 1),
        _ => (x.wrapping_sub(1), y),
    };
    (nx < w && ny < h).then_some((nx, ny))
}

#[derive(Clone, Copy, Debug, Default, PartialEq, Eq)]
#[repr(C)]
pub struct Enemy {
    pub x: usize,
    pub y: usize,
    pub dir: u8,
}

#[derive(Clone, Debug, PartialEq, Eq)]
#[repr(C)]
pub struct Mine {
    pub grid: [u8; CELLS],
    pub falling: [bool; CELLS],
    pub px: usize,
    pub py: usize,
    pub enemies: [Enemy; ENEMIES],
    pub count: usize,
    pub coins: u32,
    pub needed: u32,
    pub dead: bool,
    pub won: bool,
}

#[derive(Clone, Copy, Debug, Default, PartialEq, Eq)]
#[repr(C)]
pub struct Mover {
    pub x: u8,
    pub y: u8,
    pub vx: i8,
    pub vy: i8,
}

#[derive(Clone, Debug, PartialEq, Eq)]
#[repr(C)]
pub struct Cutter {
    pub grid: [u8; CN],
    pub px: usize,
    pub py: usize,
    pub dx: i8,
    pub dy: i8,
    pub trailing: bool,
    pub enemies: [Mover; MOVERS],
    pub count: usize,
    pub level: u32,
    pub lives: u32,
    pub dead: bool,
    pub won_level: bool,
}

/// The pacing record: Mine's gravity and creatures, Cutter's step and creatures.
#[derive(Clone, Copy, Debug, Default, PartialEq, Eq)]
pub struct Pace {
    pub first: u32,
    pub second: u32,
}

impl Pace {
    /// A record started with a reading.
    pub fn start(time: u32) -> Self {
        Pace { first: time, second: time }
    }
}

fields!(Enemy { x, y, dir });
fields!(Mine { grid, falling, px, py, enemies, count, coins, needed, dead, won });
fields!(Mover { x, y, vx, vy });
fields!(Cutter { grid, px, py, dx, dy, trailing, enemies, count, level, lives, dead, won_level });
fields!(Pace { first, second });

impl Mine {
    pub fn count_of(&self, code: u8) -> usize {
        self.grid.iter().filter(|&&c| c == code).count()
    }
}

impl Cutter {
    pub fn count_of(&self, code: u8) -> usize {
        self.grid.iter().filter(|&&c| c == code).count()
    }
}

#[derive(Clone, Debug, PartialEq, Eq)]
pub enum Game {
    Mine(Box<Mine>),
    Cutter(Box<Cutter>),
}

/// The current game and its record: what a state in a trace holds.
#[derive(Clone, Debug, PartialEq, Eq)]
pub struct State {
    pub game: Game,
    pub pace: Pace,
}

impl State {
    pub const MINE_BYTES: usize = 850;
    pub const CUTTER_BYTES: usize = 2157;

    pub fn to_bytes(&self) -> Vec<u8> {
        let mut out = Vec::with_capacity(Self::CUTTER_BYTES);
        match &self.game {
            Game::Mine(m) => m.put(&mut out),
            Game::Cutter(c) => c.put(&mut out),
        }
        self.pace.put(&mut out);
        out
    }

    /// The length says which game.
    pub fn from_bytes(mut from: &[u8]) -> Option<Self> {
        let game = match from.len() {
            Self::MINE_BYTES => Game::Mine(Box::new(Mine::take(&mut from)?)),
            Self::CUTTER_BYTES => Game::Cutter(Box::new(Cutter::take(&mut from)?)),
            _ => return None,
        };
        let pace = Pace::take(&mut from)?;
        Some(State { game, pace })
    }
}
