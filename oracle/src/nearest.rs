//! Where the miner of lines reappears, from document 02 (viii) alone: walks over claimed cells by
//! layers of their length, each cell with its least spelling. The original is not asked.

use std::collections::BTreeMap;

use crate::state::{BLACK, CH, CLAIMED, CN, CW, DOWN, LEFT, RIGHT, UP, beside};

/// The steps of a walk, in the order of spellings.
pub const STEPS: [u8; 4] = [LEFT, RIGHT, UP, DOWN];

pub type Place = (usize, usize);
/// A walk's steps, each by its place in [`STEPS`]; of two as long, the lesser is the earlier.
pub type Spelling = Vec<u8>;

/// Whether one of the eight around is black; off the grid counts as claimed.
pub fn beside_black(grid: &[u8; CN], (x, y): Place) -> bool {
    let around = (0..9).filter(|&i| i != 4).map(|i| (x + i % 3, y + i / 3));
    let on_grid = around.filter(|&(x, y)| (1..=CW).contains(&x) && (1..=CH).contains(&y));
    on_grid.into_iter().any(|(x, y)| grid[(y - 1) * CW + x - 1] == BLACK)
}

/// The claimed cells that walks of one length reach and no shorter ones, each with its least
/// spelling, the earliest first.
type Layer = Vec<(Spelling, Place)>;

/// The layers of walks from `start`, to the first with a cell beside black, or to the last.
fn layers(grid: &[u8; CN], start: Place) -> Vec<Layer> {
    let mut reached = [false; CN];
    let mut layers: Vec<Layer> = Vec::new();
    let mut layer = vec![(Spelling::new(), start)];
    while !layer.is_empty() {
        layer.iter().for_each(|&(_, (x, y))| reached[y * CW + x] = true);
        let ends = layer.iter().any(|&(_, place)| beside_black(grid, place));
        let new = |(x, y): Place| !ends && grid[y * CW + x] == CLAIMED && !reached[y * CW + x];
        let next = longer(&layer, new);
        layers.push(layer);
        layer = next;
    }
    layers
}

/// The claimed cells beside black that have the shortest walk from `start`, each with its least
/// spelling, the earliest first: the place. None where no walk reaches one: the place stays.
pub fn nearest(grid: &[u8; CN], start: Place) -> Vec<(Spelling, Place)> {
    let last = layers(grid, start).pop().expect("the layer of the start");
    last.into_iter().filter(|&(_, place)| beside_black(grid, place)).collect()
}

/// The cells that the walk from `start` takes (document 02, x), in order: shorter walks first, of
/// as long ones the earlier spelling, to the place, or all where no walk reaches one. None where
/// the start is beside black.
pub fn taken(grid: &[u8; CN], start: Place) -> Vec<Place> {
    if beside_black(grid, start) {
        return Vec::new();
    }
    let mut cells: Vec<Place> =
        layers(grid, start).concat().into_iter().map(|(_, place)| place).collect();
    if let Some(end) = cells.iter().position(|&place| beside_black(grid, place)) {
        cells.truncate(end + 1);
    }
    cells
}

/// The walks of a layer with one step more, the least spelling for each new cell.
fn longer(layer: &Layer, new: impl Fn(Place) -> bool) -> Layer {
    let mut next: BTreeMap<Place, Spelling> = BTreeMap::new();
    for &(ref spelling, (x, y)) in layer {
        for (letter, dir) in (0..).zip(STEPS) {
            let Some(place) = beside(x, y, dir, CW, CH).filter(|&place| new(place)) else {
                continue;
            };
            let spelt = [spelling.as_slice(), &[letter]].concat();
            let least = next.entry(place).or_insert_with(|| spelt.clone());
            if spelt < *least {
                *least = spelt;
            }
        }
    }
    let mut next: Layer = next.into_iter().map(|(place, spelling)| (spelling, place)).collect();
    next.sort();
    next
}
