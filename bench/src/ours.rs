//! The port's functions, by the pointers of `calls.c`.

use oracle::state::{CELLS, CN, Cutter, ENEMIES, Enemy, MOVERS, Mine, Mover};

/// A refusal's number, and its place.
#[repr(C)]
#[derive(Clone, Debug, Default)]
pub struct Refusal {
    pub number: u8,
    pub at: usize,
}

/// The ground report.
#[repr(C)]
#[derive(Debug)]
pub struct Ground {
    pub refusal: Refusal,
    pub black: u16,
    pub claimed: u16,
    pub line: u16,
    pub share: u16,
}

/// What a Cutter step or respawn makes: the state, and the cells that its searches took, which the
/// original doesn't tell.
#[repr(C)]
#[derive(Clone, Debug)]
pub struct Made {
    pub game: Cutter,
    pub searched: u16,
    pub walked: u16,
}

impl Made {
    pub fn of(game: Cutter) -> Self {
        Made { game, searched: 0, walked: 0 }
    }
}

impl PartialEq for Made {
    fn eq(&self, other: &Self) -> bool {
        self.game == other.game
    }
}

/// What a Cutter call answers.
#[repr(C)]
pub struct Answer {
    pub refusal: Refusal,
    pub game: Cutter,
    pub searched: u16,
    pub walked: u16,
}

/// Cutter's creatures after a tick, and whether one met the line.
#[repr(C)]
#[derive(Clone)]
pub struct Moved {
    pub enemies: [Mover; MOVERS],
    pub met: bool,
}

/// The list of a question.
#[repr(C)]
#[derive(Clone)]
pub struct List<T, const N: usize> {
    pub creatures: [T; N],
    pub count: usize,
}

pub type Enemies = List<Enemy, ENEMIES>;
pub type Movers = List<Mover, MOVERS>;

/// Who is there.
#[repr(C)]
pub struct There {
    index: usize,
    number: usize,
}

impl There {
    pub fn first(&self) -> Option<usize> {
        (self.number != 0).then_some(self.index)
    }
}

macro_rules! calls {
    ($($name:ident: $call:ident($($word:ident: $type:ty),*) $(-> $result:ty)?;)*) => {
        unsafe extern "C" {
            $(safe fn $call($($word: $type),*) $(-> $result)?;)*
        }
        $(pub fn $name($($word: $type),*) $(-> $result)? {
            $call($($word),*)
        })*
    };
}

calls! {
    mine_copy: by_copy_mine(m: &Mine, out: &mut Mine);
    mine_check: by_check_mine(m: &Mine) -> Refusal;
    mine_load: by_rule_mine_load(out: &mut Mine);
    mine_gravity: by_rule_mine_gravity(m: &Mine, out: &mut Mine);
    mine_tick: by_rule_mine_tick(m: &Mine, out: &mut Mine);
    mine_step: by_rule_mine_step(m: &Mine, dir: u8, out: &mut Mine);
    cutter_copy: by_copy_cutter(c: &Cutter, out: &mut Cutter);
    cutter_check: by_check_cutter(c: &Cutter) -> Refusal;
    cutter_step: by_rule_cutter_step(c: &Cutter, out: &mut Made);
    cutter_step_by_sweeps: by_rule_cutter_step_by_sweeps(c: &Cutter, out: &mut Made);
    cutter_call_step: by_call_cutter_step(c: &Cutter, out: &mut Answer);
    cutter_call_step_by_sweeps: by_call_cutter_step_by_sweeps(c: &Cutter, out: &mut Answer);
    cutter_tick: by_rule_cutter_tick(c: &Cutter, out: &mut Cutter);
    cutter_tick_on: by_rule_cutter_tick_on(grid: &[u8; CN], enemies: &[Mover; MOVERS], count: usize, out: &mut Moved);
    cutter_respawn: by_rule_cutter_respawn(c: &Cutter, out: &mut Made);
    cutter_walk: by_rule_cutter_walk(c: &Cutter) -> usize;
    cutter_ground: by_call_cutter_ground(c: &Cutter) -> Ground;
    mine_who: by_call_mine_who(list: &Enemies, x: usize, y: usize) -> There;
    cutter_who: by_call_cutter_who(list: &Movers, x: usize, y: usize) -> There;
}

/// The player's part of a Cutter state after a step, as the port has it.
#[repr(C)]
#[derive(Default)]
struct Step {
    px: usize,
    py: usize,
    dx: i8,
    dy: i8,
    trailing: bool,
    dead: bool,
    closes: bool,
    at: usize,
    code: u8,
}

/// A step that closes nothing, in place.
pub fn cutter_step_on(c: &mut Cutter) {
    let mut to = Step::default();
    let Cutter { grid, px, py, dx, dy, trailing, enemies, count, dead, .. } = c;
    by_rule_cutter_step_on(grid, enemies, *count, *px, *py, *dx, *dy, *trailing, *dead, &mut to);
    (*px, *py, *dx, *dy, *trailing, *dead) = (to.px, to.py, to.dx, to.dy, to.trailing, to.dead);
}

unsafe extern "C" {
    safe fn by_rule_cutter_step_on(
        grid: &mut [u8; CN],
        movers: &[Mover; MOVERS],
        count: usize,
        px: usize,
        py: usize,
        dx: i8,
        dy: i8,
        trailing: bool,
        dead: bool,
        out: &mut Step,
    );
}

/// Cells in a row of the mine.
const W: usize = 24;

/// A mine whose creatures are taken apart, as the port's rules in place take them.
#[derive(Clone)]
pub struct Parts {
    pub mine: Mine,
    pub spots: [u16; ENEMIES],
    pub dirs: [u8; ENEMIES],
}

impl Parts {
    pub fn of(m: &Mine) -> Self {
        let mut spots = [CELLS as u16; ENEMIES];
        for (spot, e) in spots.iter_mut().zip(&m.enemies[..m.count]) {
            *spot = (e.y * W + e.x) as u16;
        }
        Parts { mine: m.clone(), spots, dirs: m.enemies.map(|e| e.dir) }
    }

    pub fn whole(&self) -> Mine {
        let mut whole = self.mine.clone();
        whole.enemies = std::array::from_fn(|_| Enemy { x: 0, y: 0, dir: 0 });
        for (i, e) in whole.enemies[..self.mine.count].iter_mut().enumerate() {
            let at = self.spots[i] as usize;
            *e = Enemy { x: at % W, y: at / W, dir: self.dirs[i] };
        }
        whole
    }
}

/// What a move changes beside the grid.
#[repr(C)]
struct Player {
    px: usize,
    py: usize,
    coins: u32,
    needed: u32,
    dead: bool,
    won: bool,
}

/// What a gravity tick changes beside the arrays.
#[repr(C)]
struct Fallen {
    count: usize,
    coins: u32,
    dead: bool,
}

unsafe extern "C" {
    safe fn by_rule_mine_step_on(
        grid: &mut [u8; CELLS],
        spots: &[u16; ENEMIES],
        p: &mut Player,
        dir: u8,
    );
    safe fn by_rule_mine_gravity_on(
        grid: &mut [u8; CELLS],
        falling: &mut [bool; CELLS],
        spots: &mut [u16; ENEMIES],
        dirs: &mut [u8; ENEMIES],
        s: &mut Fallen,
        px: usize,
        py: usize,
    );
    safe fn rule_mine_tick_on(
        grid: &[u8; CELLS],
        spots: &mut [u16; ENEMIES],
        dirs: &mut [u8; ENEMIES],
        count: usize,
        px: usize,
        py: usize,
    ) -> bool;
}

pub fn mine_step_on(Parts { mine: m, spots, .. }: &mut Parts, dir: u8) {
    let Mine { px, py, coins, needed, dead, won, .. } = *m;
    let mut p = Player { px, py, coins, needed, dead, won };
    by_rule_mine_step_on(&mut m.grid, spots, &mut p, dir);
    (m.px, m.py, m.coins, m.dead, m.won) = (p.px, p.py, p.coins, p.dead, p.won);
}

pub fn mine_gravity_on(Parts { mine: m, spots, dirs }: &mut Parts) {
    let mut s = Fallen { count: m.count, coins: m.coins, dead: m.dead };
    by_rule_mine_gravity_on(&mut m.grid, &mut m.falling, spots, dirs, &mut s, m.px, m.py);
    (m.count, m.coins, m.dead) = (s.count, s.coins, s.dead);
}

pub fn mine_tick_on(Parts { mine: m, spots, dirs }: &mut Parts) {
    m.dead |= rule_mine_tick_on(&m.grid, spots, dirs, m.count, m.px, m.py);
}

unsafe extern "C" {
    fn by_rule_mine_picture(m: &Mine, frame: *mut u8, length: usize);
    fn by_rule_cutter_picture(c: &Cutter, frame: *mut u8, length: usize);
    fn by_call_mine_pass(m: &Mine, keys: *const u8, n: usize, time: u32, out: &mut Mine);
    fn by_call_cutter_pass(c: &Cutter, keys: *const u8, n: usize, time: u32, out: &mut Cutter);
    fn by_rule_cutter_level(c: &Cutter, draws: *const u8, n: usize, out: &mut Cutter);
}

// SAFETY, of each below: a pointer goes with the length of its slice.

pub fn mine_picture(m: &Mine, frame: &mut [u8]) {
    unsafe { by_rule_mine_picture(m, frame.as_mut_ptr(), frame.len()) }
}

pub fn cutter_picture(c: &Cutter, frame: &mut [u8]) {
    unsafe { by_rule_cutter_picture(c, frame.as_mut_ptr(), frame.len()) }
}

pub fn mine_pass(m: &Mine, keys: &[u8], time: u32, out: &mut Mine) {
    unsafe { by_call_mine_pass(m, keys.as_ptr(), keys.len(), time, out) }
}

pub fn cutter_pass(c: &Cutter, keys: &[u8], time: u32, out: &mut Cutter) {
    unsafe { by_call_cutter_pass(c, keys.as_ptr(), keys.len(), time, out) }
}

pub fn cutter_level(c: &Cutter, draws: &[u8], out: &mut Cutter) {
    unsafe { by_rule_cutter_level(c, draws.as_ptr(), draws.len(), out) }
}
