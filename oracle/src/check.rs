//! Refusals. The original has none: these checks are written from document 01 alone, those of
//! creatures from document 02 (ix).

use std::fmt;

use crate::stand_ins::catcard_app::screen::FRAME;
use crate::state::*;

/// A refusal's number, and its place, 0 where the number has none.
#[derive(Clone, Copy, Debug, Default, PartialEq, Eq)]
pub struct Refusal {
    pub number: u8,
    pub at: usize,
}

impl Refusal {
    /// One without a place.
    pub const fn of(number: u8) -> Self {
        Refusal { number, at: 0 }
    }

    pub const fn at(number: u8, at: usize) -> Self {
        Refusal { number, at }
    }

    pub fn has_place(self) -> bool {
        (TOO_MANY..=SLOT_USED).contains(&self.number)
    }
}

/// The number and, where there is a place, that.
impl fmt::Display for Refusal {
    fn fmt(&self, f: &mut fmt::Formatter<'_>) -> fmt::Result {
        match self.has_place() {
            true => write!(f, "{} at {}", self.number, self.at),
            false => write!(f, "{}", self.number),
        }
    }
}

/// No refusal.
pub const NONE: Refusal = Refusal::of(0);
/// A cell code, the ring, or line cells against trailing.
pub const CELLS_BAD: Refusal = Refusal::of(1);
/// The player's place, or the Cutter direction.
pub const PLAYER_BAD: Refusal = Refusal::of(2);
/// Coins, needed, lives or level.
pub const NUMBERS_BAD: Refusal = Refusal::of(4);
/// A direction command above 3.
pub const COMMAND_BAD: Refusal = Refusal::of(5);
/// A frame that isn't 1,024 bytes.
pub const FRAME_BAD: Refusal = Refusal::of(6);
/// Draws: wrong number, or one out of range.
pub const DRAWS_BAD: Refusal = Refusal::of(7);
/// A new level is due and the level is 65,535.
pub const LEVEL_LAST: Refusal = Refusal::of(8);

/// Numbers with a place, which is a creature's index: too many, with index 0.
pub const TOO_MANY: u8 = 31;
/// Off the grid.
pub const OFF_GRID: u8 = 32;
/// On a wrong cell.
pub const WRONG_CELL: u8 = 33;
/// A direction, or a part of a velocity.
pub const TURN_BAD: u8 = 34;
/// A Mine cell shared with an earlier creature.
pub const SHARED: u8 = 35;
/// A slot past the count that isn't zeros.
pub const SLOT_USED: u8 = 36;

const MOST_COINS: u64 = 336;
const MOST_LIVES: u32 = 3;
pub const LAST_LEVEL: u32 = 65_535;
/// The bounds of the four draws that make a creature.
pub const DRAW_BOUNDS: [u8; 4] = [62, 30, 2, 2];

/// Checks stand one behind the other; the first that fails gives its refusal.
pub fn ensure(holds: bool, refusal: Refusal) -> Result<(), Refusal> {
    if holds { Ok(()) } else { Err(refusal) }
}

/// 1, 2, 31 to 36 or 4 for a Mine state.
pub fn mine(m: &Mine) -> Result<(), Refusal> {
    let player = m.px < W && m.py < H && m.grid[m.py * W + m.px] == EMPTY;
    let coins = u64::from(m.coins) + m.count_of(COIN) as u64;
    ensure(m.grid.iter().all(|&code| code <= EXIT), CELLS_BAD)?;
    ensure(player, PLAYER_BAD)?;
    enemies(m)?;
    ensure(coins <= MOST_COINS, NUMBERS_BAD)?;
    ensure((1..=MOST_COINS).contains(&m.needed.into()), NUMBERS_BAD)
}

/// 31 to 36: too many first, then creature by creature, slots past the count last.
fn enemies(m: &Mine) -> Result<(), Refusal> {
    let (used, rest) = split(&m.enemies, m.count)?;
    for (i, e) in used.iter().enumerate() {
        ensure(e.x < W && e.y < H, Refusal::at(OFF_GRID, i))?;
        ensure(m.grid[e.y * W + e.x] == EMPTY, Refusal::at(WRONG_CELL, i))?;
        ensure(e.dir <= LEFT, Refusal::at(TURN_BAD, i))?;
        let shares = used[..i].iter().any(|earlier| (earlier.x, earlier.y) == (e.x, e.y));
        ensure(!shares, Refusal::at(SHARED, i))?;
    }
    zeros(rest, m.count)
}

/// The creatures and the slots past them.
fn split<T>(slots: &[T], count: usize) -> Result<(&[T], &[T]), Refusal> {
    slots.split_at_checked(count).ok_or(Refusal::at(TOO_MANY, 0))
}

fn zeros<T: Default + PartialEq>(rest: &[T], count: usize) -> Result<(), Refusal> {
    let used = rest.iter().position(|slot| *slot != T::default());
    used.map_or(Ok(()), |i| Err(Refusal::at(SLOT_USED, count + i)))
}

/// 1, 2, 31 to 36 but 35, or 4 for a Cutter state.
pub fn cutter(c: &Cutter) -> Result<(), Refusal> {
    let on_ring = |i: usize| matches!(i % CW, 0 | 63) || matches!(i / CW, 0 | 31);
    let cell = |(i, &code): (usize, &u8)| code == CLAIMED || (code <= LINE && !on_ring(i));
    let ground = if c.trailing { LINE } else { CLAIMED };
    let player = c.px < CW && c.py < CH && c.grid[c.py * CW + c.px] == ground;
    let direction = matches!((c.dx, c.dy), (0, 0) | (0, -1) | (1, 0) | (0, 1) | (-1, 0));
    ensure(c.grid.iter().enumerate().all(cell), CELLS_BAD)?;
    ensure(c.grid.contains(&LINE) == c.trailing, CELLS_BAD)?;
    ensure(player, PLAYER_BAD)?;
    ensure(direction, PLAYER_BAD)?;
    movers(c)?;
    ensure(c.lives <= MOST_LIVES, NUMBERS_BAD)?;
    ensure((1..=LAST_LEVEL).contains(&c.level), NUMBERS_BAD)
}

/// The same of Cutter, where several may share a cell.
fn movers(c: &Cutter) -> Result<(), Refusal> {
    let (used, rest) = split(&c.enemies, c.count)?;
    let unit = |v: i8| v == -1 || v == 1;
    for (i, e) in used.iter().enumerate() {
        let (x, y) = (usize::from(e.x), usize::from(e.y));
        ensure(x < CW && y < CH, Refusal::at(OFF_GRID, i))?;
        ensure(c.grid[y * CW + x] == BLACK, Refusal::at(WRONG_CELL, i))?;
        ensure(unit(e.vx) && unit(e.vy), Refusal::at(TURN_BAD, i))?;
    }
    zeros(rest, c.count)
}

/// Draws a level needs: four for each of its creatures.
pub fn draws_for(level: u32) -> usize {
    DRAW_BOUNDS.len() * level.min(MOVERS as u32) as usize
}

/// 7 unless `draws` are `number` many, each in its range.
pub fn draws(draws: &[u8], number: usize) -> Result<(), Refusal> {
    let in_range = |(draw, bound): (&u8, &u8)| draw < bound;
    ensure(draws.len() == number, DRAWS_BAD)?;
    ensure(draws.iter().zip(DRAW_BOUNDS.iter().cycle()).all(in_range), DRAWS_BAD)
}

/// 5 for a direction command above 3.
pub fn command(dir: u8) -> Result<(), Refusal> {
    ensure(dir <= LEFT, COMMAND_BAD)
}

/// 6 for a frame that isn't 1,024 bytes.
pub fn frame(frame: &[u8]) -> Result<(), Refusal> {
    ensure(frame.len() == FRAME, FRAME_BAD)
}
