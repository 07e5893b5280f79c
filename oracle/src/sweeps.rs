//! A cut closed by plain sweeps: the numbers from document 02 (xi), regions, winner and claim from
//! document 01. The original is not asked.

use crate::state::*;

/// Regions counted by document 01's closing.
pub const COUNTED: usize = 48;

/// One sweep over all cells: the numbers it changed, and the different ones it left.
#[derive(Clone, Copy, Debug, PartialEq, Eq)]
pub struct Sweep {
    pub changed: usize,
    pub numbers: usize,
}

#[derive(Clone, Copy, Debug, PartialEq, Eq)]
pub enum Fate {
    Kept,
    Taken,
    NotCounted,
}

/// Black cells with one number, row by row.
#[derive(Clone, Debug, PartialEq, Eq)]
pub struct Region {
    pub cells: Vec<usize>,
    pub creatures: usize,
    pub fate: Fate,
}

/// What a closing does, and how it was found.
pub struct Closing {
    pub sweeps: Vec<Sweep>,
    /// By their earliest cells.
    pub regions: Vec<Region>,
    pub grid: [u8; CN],
    /// Those that remain, in order.
    pub movers: Vec<Mover>,
}

/// Where the next step closes a cut, if it does: the claimed cell it enters.
pub fn closes_at(c: &Cutter) -> Option<(usize, usize)> {
    let x = c.px.wrapping_add_signed(c.dx.into());
    let y = c.py.wrapping_add_signed(c.dy.into());
    let enters = c.trailing && x < CW && y < CH && c.grid[y * CW + x] == CLAIMED;
    enters.then_some((x, y))
}

/// The closing of a well-formed state's line.
pub fn closing(c: &Cutter) -> Closing {
    let mut grid = c.grid.map(|code| if code == LINE { CLAIMED } else { code });
    let (sweeps, numbers) = settled(&grid);
    let regions = regions(&numbers, &c.enemies[..c.count]);
    for region in regions.iter().filter(|region| region.fate == Fate::Taken) {
        region.cells.iter().for_each(|&cell| grid[cell] = CLAIMED);
    }
    let kept = regions.iter().find(|region| region.fate == Fate::Kept);
    let stays = |e: &&Mover| kept.is_some_and(|region| region.cells.contains(&cell(e)));
    let movers = c.enemies[..c.count].iter().filter(stays).copied().collect();
    Closing { sweeps, regions, grid, movers }
}

fn cell(e: &Mover) -> usize {
    usize::from(e.y) * CW + usize::from(e.x)
}

/// Sweeps until one changes nothing, that one included, and the number of each black cell then.
fn settled(grid: &[u8; CN]) -> (Vec<Sweep>, Vec<Option<usize>>) {
    let own = |cell: usize| (grid[cell] == BLACK).then_some(cell);
    let mut numbers: Vec<Option<usize>> = (0..CN).map(own).collect();
    let mut sweeps = Vec::new();
    loop {
        let changed = sweep(&mut numbers);
        let mut left = [false; CN];
        numbers.iter().flatten().for_each(|&number| left[number] = true);
        sweeps.push(Sweep { changed, numbers: left.iter().filter(|&&is| is).count() });
        if changed == 0 {
            return (sweeps, numbers);
        }
    }
}

/// Row by row, in place: each number becomes the least of itself and its four neighbours'. How
/// many changed.
fn sweep(numbers: &mut [Option<usize>]) -> usize {
    let mut changed = 0;
    for cell in 0..CN {
        let Some(own) = numbers[cell] else { continue };
        let near = |dir| beside(cell % CW, cell / CW, dir, CW, CH);
        let near = [UP, RIGHT, DOWN, LEFT].into_iter().filter_map(near);
        let least = near.filter_map(|(x, y)| numbers[y * CW + x]).fold(own, usize::min);
        changed += usize::from(least < own);
        numbers[cell] = Some(least);
    }
    changed
}

/// The cells of each number, with their creatures, and what becomes of them.
fn regions(numbers: &[Option<usize>], movers: &[Mover]) -> Vec<Region> {
    let mut regions: Vec<Region> = Vec::new();
    for (cell, number) in numbers.iter().enumerate().filter(|(_, number)| number.is_some()) {
        match regions.iter_mut().find(|region| numbers[region.cells[0]] == *number) {
            Some(region) => region.cells.push(cell),
            None => {
                let fate = if regions.len() < COUNTED { Fate::Taken } else { Fate::NotCounted };
                regions.push(Region { cells: vec![cell], creatures: 0, fate });
            }
        }
    }
    for e in movers {
        let at = regions.iter_mut().find(|region| region.cells.contains(&cell(e)));
        at.expect("a creature on black").creatures += 1;
    }
    let counted = regions.iter_mut().take(COUNTED);
    // Of several best the first, so from the back.
    if let Some(best) = counted.rev().max_by_key(|region| (region.creatures, region.cells.len())) {
        best.fate = Fate::Kept;
    }
    regions
}
