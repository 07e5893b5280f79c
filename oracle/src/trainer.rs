//! What the program `trainer` prints besides the lines of `cuts`: before the line of a step that
//! closes a cut, the sweeps and the regions they leave.

use crate::state::{CW, Cutter};
use crate::sweeps::{Fate, closes_at, closing};

/// What is taught of the step that comes next; nothing where it closes no cut.
pub fn lesson(c: &Cutter) -> String {
    if closes_at(c).is_none() {
        return String::new();
    }
    let closing = closing(c);
    let mut out = String::new();
    for (k, sweep) in (1..).zip(&closing.sweeps) {
        out += &format!("sweep {k}: {} changed, {} numbers\n", sweep.changed, sweep.numbers);
    }
    for region in &closing.regions {
        let (x, y) = (region.cells[0] % CW, region.cells[0] / CW);
        let (cells, creatures) = (region.cells.len(), region.creatures);
        let fate = match region.fate {
            Fate::Kept => "kept",
            Fate::Taken => "taken",
            Fate::NotCounted => "not counted",
        };
        out += &format!("region {x} {y}: {cells} cells, {creatures} creatures, {fate}\n");
    }
    out
}
