//! Document 02 (viii): where the original's walk to the border ends is the nearest so spelt.

use oracle::check;
use oracle::games::cutter::{self, Held};
use oracle::lines::{cuts_byte, cuts_end};
use oracle::make::cutter_grounds::fresh;
use oracle::make::cutter_walks::{about_to_close, on_ground};
use oracle::nearest::{Place, STEPS, Spelling, beside_black, nearest};
use oracle::rng::Rng;
use oracle::state::*;

const GROUNDS: usize = 100_000;
/// Walks of up to so many steps are looked for among all spellings, too.
const SHORT: usize = 4;
/// Where a respawn starts.
const TOP: Place = (CW / 2, 0);
/// The letters of a spelling.
const L: u8 = 0;
const R: u8 = 1;
const U: u8 = 2;
const D: u8 = 3;
const PAIRS: [(u8, u8); 6] = [(L, R), (L, U), (L, D), (R, U), (R, D), (U, D)];

/// What the walks of a run were like.
#[derive(Debug, Default)]
struct Tally {
    walks: usize,
    differ: usize,
    beside: usize,
    unreached: usize,
    longest: usize,
    spelt_out: usize,
    /// By the letters at which the place's spelling and that of a cell as near part.
    ties: [[usize; 4]; 4],
}

impl Tally {
    /// A walk of the original over `grid` from `start`, and where it ended.
    fn see(&mut self, grid: &[u8; CN], start: Place, end: Place) {
        assert!(!grid.contains(&LINE) && grid[start.1 * CW + start.0] == CLAIMED);
        let ends = nearest(grid, start);
        let steps = ends.first().map(|(spelling, _)| spelling.len());
        self.walks += 1;
        self.differ += usize::from(ends.first().map_or(start, |&(_, place)| place) != end);
        self.beside += usize::from(steps == Some(0));
        self.unreached += usize::from(steps.is_none());
        self.longest = self.longest.max(steps.unwrap_or(0));
        for (a, b) in parted(&ends) {
            self.ties[usize::from(a)][usize::from(b)] += 1;
        }
        if steps.is_some_and(|steps| (1..=SHORT).contains(&steps)) {
            self.spelt_out += 1;
            assert_eq!(spelt_out(grid, start), ends.first().cloned());
        }
    }

    fn tied(&self, (a, b): (u8, u8)) -> usize {
        self.ties[usize::from(a)][usize::from(b)]
    }
}

/// The letters at which the first spelling and each other one part.
fn parted(ends: &[(Spelling, Place)]) -> Vec<(u8, u8)> {
    let Some(((first, _), others)) = ends.split_first() else { return Vec::new() };
    let letters = |other: &Spelling| first.iter().copied().zip(other.clone()).find(|(a, b)| a != b);
    others.iter().map(|(other, _)| letters(other).expect("two cells, two spellings")).collect()
}

/// The first of all spellings, shorter ones before longer ones, that is a walk over claimed
/// cells to one beside black.
fn spelt_out(grid: &[u8; CN], start: Place) -> Option<(Spelling, Place)> {
    let all = (0..=SHORT).flat_map(|length| (0..1 << (2 * length)).map(move |n| (length, n)));
    all.into_iter().find_map(|(length, n): (usize, usize)| {
        let spelling: Spelling = (0..length).rev().map(|i| (n >> (2 * i) & 3) as u8).collect();
        let end = spelling.iter().try_fold(start, |place, &letter| {
            step(place, letter).filter(|&(x, y)| grid[y * CW + x] == CLAIMED)
        });
        end.filter(|&end| beside_black(grid, end)).map(|end| (spelling, end))
    })
}

fn step((x, y): Place, letter: u8) -> Option<Place> {
    beside(x, y, STEPS[usize::from(letter)], CW, CH)
}

/// Where the original's walk alone ends.
fn walked(c: &Cutter) -> Place {
    let mut held = Held::of(c);
    held.move_to_border();
    let c = held.state();
    (c.px, c.py)
}

/// Where a closing step enters claimed ground: the walk starts there.
fn entered(before: &Cutter) -> Place {
    let Cutter { px, py, dx, dy, .. } = *before;
    (px.wrapping_add_signed(dx.into()), py.wrapping_add_signed(dy.into()))
}

#[test]
fn random_grounds() {
    let [mut alone, mut respawned, mut closed] = [(); 3].map(|()| Tally::default());
    let rng = &mut Rng::new(8);
    for _ in 0..GROUNDS {
        let c = on_ground(rng);
        let before = about_to_close(c.clone(), rng);
        assert_eq!((check::cutter(&c), check::cutter(&before)), (Ok(()), Ok(())));
        alone.see(&c.grid, (c.px, c.py), walked(&c));

        let mut after = before.clone();
        cutter::step_player(&mut after);
        closed.see(&after.grid, entered(&before), (after.px, after.py));

        let mut after = if rng.one_in(2) { c } else { before };
        let grid = after.grid.map(|code| if code == LINE { BLACK } else { code });
        cutter::respawn(&mut after);
        respawned.see(&grid, TOP, (after.px, after.py));
    }
    for (name, tally) in [("alone", &alone), ("respawn", &respawned), ("closing step", &closed)] {
        println!("{name}: {tally:?}");
        assert_eq!((tally.walks, tally.differ), (GROUNDS, 0), "{name}");
        assert!(tally.beside > 1000 && tally.unreached > 500 && tally.longest > 50, "{name}");
    }
    for (a, b) in PAIRS {
        assert!(alone.tied((a, b)) > 50 && closed.tied((a, b)) > 50, "{a} {b}");
        // A respawn starts in the top row.
        assert_eq!(respawned.tied((a, b)) > 50, a != U && b != U, "{a} {b}");
    }
}

/// Claimed, with these cells black, and the player on `start`.
fn ground(start: Place, black: &[Place]) -> Cutter {
    let claimed = fresh().peopled(&[]).claimed(1..CW - 1, 1..CH - 1).at(start);
    black.iter().fold(claimed, |c, &(x, y)| c.black(x, y))
}

/// The place after a respawn.
fn respawned(mut c: Cutter) -> Place {
    cutter::respawn(&mut c);
    (c.px, c.py)
}

#[test]
fn a_tie_of_each_pair() {
    let straight = |start: Place, letter: u8, steps: usize| {
        (0..steps).try_fold(start, |place, _| step(place, letter))
    };
    for (a, b) in PAIRS {
        for start in [(20, 15), TOP] {
            // A black cell four steps away on either side; the ring stays claimed.
            let [Some(one), Some(two)] = [a, b].map(|letter| straight(start, letter, 4)) else {
                continue;
            };
            let c = ground(start, &[one, two].map(|(x, y)| (x, y.max(1))));
            let ends = nearest(&c.grid, start);
            let place = straight(start, a, 3).expect("on the grid");
            assert_eq!((parted(&ends), ends[0].clone()), (vec![(a, b)], (vec![a; 3], place)));
            assert_eq!(spelt_out(&c.grid, start).as_ref(), ends.first());
            assert_eq!(walked(&c), place);
            assert!(start != TOP || respawned(c) == place);
        }
    }
}

#[test]
fn beside_black_already() {
    for diagonal in [(19, 14), (21, 14), (19, 16), (21, 16)] {
        let c = ground((20, 15), &[diagonal, (20, 17)]);
        assert_eq!((walked(&c), nearest(&c.grid, (20, 15)).len()), ((20, 15), 1));
    }
    assert_eq!((respawned(fresh()), nearest(&fresh().grid, TOP)), (TOP, vec![(vec![], TOP)]));
}

#[test]
fn nothing_to_be_reached() {
    let c = ground((20, 15), &[]);
    assert_eq!((walked(&c), respawned(c.clone()), nearest(&c.grid, TOP)), ((20, 15), TOP, vec![]));
    let mut last = c.line(&[(32, 1)]).at((32, 1)).heading(UP);
    cutter::step_player(&mut last);
    assert_eq!(((last.px, last.py), last.trailing), (TOP, false));
}

/// In play: the last byte of each script is a closing step or a respawn whose walk finds two
/// cells as near.
#[test]
fn ties_in_play() {
    let scripts = [
        ((L, R), "8ss7ss5s9s5s"),
        ((L, U), "8sssssssssssssssssssssssssssss7ss8s9ss8s"),
        ((L, D), "8s7s5s7ss8s9s5s"),
        ((R, U), "8sss9ss5sss8ss9s8sss7sss5s9ss5s"),
        ((R, D), "8ss9sssss5s7ss5s"),
        ((U, D), "8ssss7ss5ssss8ssss7sssss5ss9ssss8s9s"),
        ((L, R), "7s8ss9ss5ssr"),
        ((L, D), "7s8s9sss5sr"),
        ((R, D), "9s8s7sss5sr"),
    ];
    let cases = include_str!("../cases/cuts.txt");
    for (pair, script) in scripts {
        let (&last, before) = script.as_bytes().split_last().expect("a byte");
        let before = cuts_end(before);
        let mut after = before.clone();
        assert!(cuts_byte(&mut after, last));
        assert!(last == b'r' || before.trailing && !after.trailing, "{script}");
        let start = if last == b'r' { TOP } else { entered(&before) };
        let ends = nearest(&after.grid, start);
        assert_eq!((parted(&ends), ends[0].1), (vec![pair], (after.px, after.py)), "{script}");
        assert!(cases.split('|').any(|case| case.trim_end() == script), "{script} is no case");
    }
}
