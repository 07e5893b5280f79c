//! Document 02 (xi): a cut closed by sweeps is closed as the original closes it.

use oracle::check;
use oracle::games::cutter;
use oracle::make::cutter_closings;
use oracle::make::cutter_grounds::*;
use oracle::nearest::nearest;
use oracle::rng::Rng;
use oracle::state::*;
use oracle::sweeps::{Closing, Fate, Region, closes_at, closing};

const STATES: usize = 20_000;

/// The step closed by sweeps, and whether the original's gives the same state.
fn compare(before: &Cutter) -> (Closing, bool) {
    let swept = closing(before);
    let at = closes_at(before).expect("a step that closes");
    let (px, py) = nearest(&swept.grid, at).first().map_or(at, |&(_, place)| place);
    let mut ours = Cutter { grid: swept.grid, px, py, trailing: false, ..before.clone() };
    ours.enemies = Default::default();
    ours.count = swept.movers.len();
    ours.enemies[..ours.count].copy_from_slice(&swept.movers);
    let mut after = before.clone();
    cutter::step_player(&mut after);
    (swept, ours == after)
}

/// What the closings of a run were like.
#[derive(Debug, Default)]
struct Tally {
    differ: usize,
    no_region: usize,
    one_cell: usize,
    more_than_48: usize,
    pockets: usize,
    most_regions: usize,
    ties: usize,
    bereft: usize,
    long: usize,
    most_sweeps: usize,
}

impl Tally {
    fn see(&mut self, c: &Cutter) {
        let (Closing { sweeps, regions, movers, .. }, same) = compare(c);
        let key = |region: &Region| (region.creatures, region.cells.len());
        let best = regions.iter().find(|region| region.fate == Fate::Kept).map(key);
        let as_good = regions.iter().take(48).filter(|region| Some(key(region)) == best);
        self.differ += usize::from(!same);
        self.no_region += usize::from(regions.is_empty());
        self.one_cell += usize::from(regions.iter().map(|r| r.cells.len()).sum::<usize>() == 1);
        self.more_than_48 += usize::from(regions.len() > 48);
        self.pockets += usize::from(regions.len() == 64);
        self.most_regions = self.most_regions.max(regions.len());
        self.ties += usize::from(as_good.count() > 1);
        self.bereft += usize::from(movers.len() < c.count);
        self.long += usize::from(sweeps.len() > 100);
        self.most_sweeps = self.most_sweeps.max(sweeps.len());
    }
}

#[test]
fn random_states_about_to_close() {
    let mut tally = Tally::default();
    let rng = &mut Rng::new(11);
    for _ in 0..STATES {
        let c = cutter_closings::closing(rng);
        assert_eq!(check::cutter(&c), Ok(()));
        tally.see(&c);
    }
    println!("{STATES} closings: {tally:?}");
    assert_eq!(tally.differ, 0);
    let Tally { no_region, one_cell, more_than_48, pockets, ties, bereft, long, .. } = tally;
    assert!([no_region, one_cell, more_than_48, pockets].iter().all(|&n| n > 100), "{tally:?}");
    assert!([ties, bereft, long].iter().all(|&n| n > 100), "{tally:?}");
    assert!(tally.most_regions == 930 && tally.most_sweeps > 400, "{tally:?}");
}

/// Sweeps, the last one included, regions, and black cells left.
#[test]
fn by_hand() {
    let no_black = chequers(0);
    let cases = [
        ("no region", no_black, (1, 0, 0)),
        ("one cell", chequers(1), (1, 1, 1)),
        ("48 regions", chequers(48), (1, 48, 1)),
        ("49 regions", chequers(49), (1, 49, 2)),
        ("a chequerboard", chequerboard(), (1, 930, 930 - 47)),
        ("63 pockets", zigzagged(3), (2, 64, 62 * 24 + 1 + 15)),
        ("a line of one cell", drawing(1).heading(UP), (3, 1, 1859)),
        ("P9, the middle", drawing(30), (2, 2, 930)),
        ("P10", drawing(30).peopled(&[(50, 10, 1, 1)]), (2, 2, 900)),
        ("P11", drawing(30).peopled(&[(50, 10, 1, 1), (10, 10, 1, 1)]), (2, 2, 930)),
        ("a tie", drawing(30).claimed(1..2, 1..31).peopled(&[]), (2, 2, 900)),
        ("a snake across", snake(false), (429, 1, 881)),
        ("a snake upright", snake(true), (407, 1, 898)),
        ("the longest snake found", longest_snake(), (596, 1, 1149)),
    ];
    for (name, c, expected) in cases {
        assert_eq!(check::cutter(&c), Ok(()), "{name}");
        let (Closing { sweeps, regions, grid, .. }, same) = compare(&c);
        let black = grid.iter().filter(|&&code| code == BLACK).count();
        println!("{name}: {} sweeps, {} regions", sweeps.len(), regions.len());
        assert!(same, "{name}");
        assert_eq!((sweeps.len(), regions.len(), black), expected, "{name}");
        assert_eq!(
            sweeps.last().map(|last| (last.changed, last.numbers)),
            Some((0, regions.len()))
        );
    }
}

#[test]
fn only_a_step_onto_claimed_ground_closes() {
    let closes = |c: &Cutter| {
        let mut after = c.clone();
        cutter::step_player(&mut after);
        assert_eq!(closes_at(c).is_some(), c.trailing && !after.trailing);
        closes_at(c)
    };
    assert_eq!(closes(&drawing(30)), Some((32, 31)));
    let up = drawing(1).heading(UP);
    let still = Cutter { dx: 0, dy: 0, ..up.clone() };
    let others = [drawing(29), drawing(4).heading(UP), fresh().heading(LEFT), still];
    assert!(closes(&up).is_some() && others.iter().all(|c| closes(c).is_none()));
}
