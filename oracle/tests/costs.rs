//! Document 02 (x): the cells that a closing's search and the walk to the border take.

use oracle::bytes::Field;
use oracle::calls::Call;
use oracle::check::{self, NONE};
use oracle::costs::{self, Cost, TOP};
use oracle::games::{counted, cutter};
use oracle::make::corners;
use oracle::make::cutter_closings::closing;
use oracle::make::cutter_grounds::*;
use oracle::make::cutter_states;
use oracle::make::cutter_walks::on_ground;
use oracle::make::readings::{MOVER, STEP};
use oracle::nearest::{Place, STEPS, beside_black, nearest, taken};
use oracle::replay::{Seen, replay_seen};
use oracle::rng::Rng;
use oracle::state::*;
use oracle::sweeps::{self, Fate, closes_at};

const STATES: usize = 8_000;
/// Walks of up to so many steps are looked for among all spellings, too.
const SHORT: u32 = 5;

fn numbers(cost: Cost) -> (usize, usize) {
    (cost.searched.into(), cost.walked.into())
}

fn step(c: &Cutter) -> (usize, usize) {
    assert_eq!(check::cutter(c), Ok(()));
    numbers(costs::step(c))
}

fn respawn(c: &Cutter) -> (usize, usize) {
    assert_eq!(check::cutter(c), Ok(()));
    numbers(costs::respawn(c))
}

/// The cells counted by spelling walks out, all of them, shorter ones first: each new end, to the
/// first that is beside black. None where that takes a longer walk.
fn spelt_out(grid: &[u8; CN], start: Place) -> Option<Vec<Place>> {
    let mut ends: Vec<Place> = Vec::new();
    let mut known = [false; CN];
    for length in 0..=SHORT {
        for n in 0..4usize.pow(length) {
            let letters = (0..length).rev().map(|i| n / 4usize.pow(i) % 4);
            let end = letters.into_iter().try_fold(start, |(x, y), letter| {
                let next = beside(x, y, STEPS[letter], CW, CH);
                next.filter(|&(x, y)| grid[y * CW + x] == CLAIMED)
            });
            let new = |&(x, y): &Place| !std::mem::replace(&mut known[y * CW + x], true);
            let Some(end) = end.filter(new) else { continue };
            ends.push(end);
            if beside_black(grid, end) {
                return Some(if length == 0 { Vec::new() } else { ends });
            }
        }
    }
    None
}

/// What the costs of a run were like.
#[derive(Debug, Default)]
struct Tally {
    uncounted: usize,
    walks: usize,
    unreached: usize,
    spelt_out: usize,
    most_searched: usize,
    most_walked: usize,
}

impl Tally {
    /// A walk over `grid` from `start`: claimed cells, each once, the last the place, or all that
    /// are claimed where there is none.
    fn see_walk(&mut self, grid: &[u8; CN], start: Place) {
        let cells = taken(grid, start);
        let mut once = [false; CN];
        for &(x, y) in &cells {
            assert_eq!(grid[y * CW + x], CLAIMED);
            assert!(!std::mem::replace(&mut once[y * CW + x], true), "taken twice");
        }
        let end = nearest(grid, start).first().map(|&(_, place)| place);
        assert_eq!(end.is_none(), !grid.contains(&BLACK), "where black is left it is reached");
        assert_eq!(
            cells.last(),
            end.filter(|&end| end != start).or(cells.last().copied()).as_ref()
        );
        self.walks += usize::from(!cells.is_empty());
        if end.is_none() {
            self.unreached += 1;
            assert_eq!(cells.len(), CN);
        }
        if let Some(spelt) = spelt_out(grid, start) {
            self.spelt_out += 1;
            assert_eq!(cells, spelt);
        }
        self.most_walked = self.most_walked.max(cells.len());
    }

    fn see_step(&mut self, c: &Cutter) {
        let regions = sweeps::closing(c).regions;
        let counted = regions.iter().filter(|region| region.fate != Fate::NotCounted);
        let cells: usize = counted.map(|region| region.cells.len()).sum();
        let cost = step(c);
        assert_eq!(cost.0, cells, "by sweeps");
        assert_eq!(cost, counted::step_player(c), "by the original's queues");
        assert_eq!(numbers(costs::step_by_sweeps(c)), (0, cost.1));
        self.uncounted += usize::from(regions.len() > 48);
        self.most_searched = self.most_searched.max(cost.0);
        let mut after = c.clone();
        cutter::step_player(&mut after);
        self.see_walk(&after.grid, closes_at(c).expect("a step that closes"));
    }

    fn see_respawn(&mut self, c: &Cutter) {
        assert_eq!(respawn(c), counted::respawn(c), "by the original's queue");
        let grid = c.grid.map(|code| if code == LINE { BLACK } else { code });
        self.see_walk(&grid, TOP);
    }
}

#[test]
fn random_states() {
    let [mut closings, mut respawns, mut alone] = [(); 3].map(|()| Tally::default());
    let rng = &mut Rng::new(10);
    for _ in 0..STATES {
        let c = closing(rng);
        closings.see_step(&c);
        respawns.see_respawn(&c);
        let c = on_ground(rng);
        respawns.see_respawn(&c);
        let walked = taken(&c.grid, (c.px, c.py)).len();
        assert_eq!((0, walked), counted::move_to_border(&c), "by the original's queue");
        alone.see_walk(&c.grid, (c.px, c.py));
    }
    println!("{STATES} closings: {closings:?}");
    println!("{} respawns: {respawns:?}", 2 * STATES);
    println!("{STATES} walks alone: {alone:?}");
    assert!(closings.uncounted > 1000 && closings.most_searched > 1800, "{closings:?}");
    for tally in [closings, respawns, alone] {
        assert!(tally.walks > 1000 && tally.unreached > 100, "{tally:?}");
        assert!(tally.spelt_out > 1000 && tally.most_walked == CN, "{tally:?}");
    }
}

/// Steps that close no cut have no search, whatever the state.
#[test]
fn other_steps_take_nothing() {
    let rng = &mut Rng::new(1);
    let mut others = 0;
    for _ in 0..STATES {
        let c = cutter_states::state(rng);
        assert_eq!(step(&c), counted::step_player(&c));
        assert_eq!(respawn(&c), counted::respawn(&c));
        if closes_at(&c).is_none() {
            others += 1;
            assert_eq!(step(&c), (0, 0));
        }
    }
    assert!(others > 1000, "{others}");
}

/// Cells searched: 1,860 inside the ring less the line and what was claimed, where all is counted.
#[test]
fn searched_by_hand() {
    let left = (10, 10, 1, 1);
    for (name, c, searched) in [
        ("fresh, down 31 steps", drawing(30).peopled(&[left]), 1860 - 30),
        ("a column claimed before", drawing(30).claimed(1..2, 1..31).peopled(&[]), 1860 - 60),
        ("a line of one cell", drawing(1).heading(UP), 1859),
        ("nothing black", chequers(0), 0),
        ("one cell", chequers(1), 1),
        ("48 cells", chequers(48), 48),
        ("49 cells, one not counted", chequers(49), 48),
        ("a chequerboard", chequerboard(), 48),
        ("42 pockets and the rest", zigzagged(2), 42 + 62 * 26),
        ("63 pockets, 15 of them and the rest not counted", zigzagged(3), 48),
        ("a snake across", snake(false), 881),
    ] {
        assert_eq!(step(&c).0, searched, "{name}");
    }
}

/// From fresh, by the calls: zeros for each step of the line, then both regions.
#[test]
fn fresh_down_31_steps() {
    let mut state = State { game: Game::Cutter(Box::new(fresh())), pace: Pace::default() };
    let mut costs = Vec::new();
    for call in std::iter::once(Call::Direction(DOWN)).chain(vec![Call::Step; 31]) {
        costs.push(state.make(&call).expect("a call of Cutter").result);
    }
    assert_eq!(costs[0], [], "a direction has no result");
    assert_eq!(costs[1..31], vec![vec![0; 4]; 30]);
    assert_eq!(costs[31], [(1830 % 256) as u8, (1830 / 256) as u8, 0, 0]);
}

/// Where nothing else is black, the cells nearer than the place and those as near and spelt earlier.
#[test]
fn walked_by_hand() {
    let at = |start: Place, black: &[Place]| taken(&claimed_but(black).grid, start);
    // The start, then one step.
    assert_eq!(at((20, 15), &[(18, 15), (30, 15)]), [(20, 15), (19, 15)]);
    // To the left, right, above, below: the first to the fourth of its layer.
    for (black, place) in
        [((17, 15), (18, 15)), ((23, 15), (22, 15)), ((20, 12), (20, 13)), ((20, 18), (20, 17))]
    {
        // One cell, four around it, then of eight: LL, LU, LD, RR, RU, RD, UU, DD.
        let rank = [(18, 15), (19, 14), (19, 16), (22, 15), (21, 14), (21, 16), (20, 13), (20, 17)];
        let before = rank.iter().position(|&cell| cell == place).expect("in the layer");
        let cells = at((20, 15), &[black]);
        assert_eq!((cells.len(), cells.last()), (5 + before + 1, Some(&place)));
    }
    // Beside black already, by a corner, and by line that was black.
    assert_eq!(at((20, 15), &[(21, 16)]), []);
    assert_eq!(respawn(&fresh()), (0, 0));
    assert_eq!(respawn(&drawing(9)), (0, 0));
    // Nothing black: all.
    assert_eq!((step(&chequers(0)), respawn(&claimed_but(&[]))), ((0, CN), (0, CN)));
}

/// The order of cells on open ground, by reasoning: nearer first, and of as near ones by the
/// spelling that has all its steps to the side before those up or down.
fn open_order(start: Place) -> Vec<Place> {
    let key = |&(x, y): &Place| {
        let letters = |letter: u8, steps: usize| std::iter::repeat_n(letter, steps);
        let side = letters(u8::from(x > start.0), x.abs_diff(start.0));
        let spelling: Vec<u8> =
            side.chain(letters(2 + u8::from(y > start.1), y.abs_diff(start.1))).collect();
        (spelling.len(), spelling)
    };
    let mut cells: Vec<Place> = (0..CN).map(|cell| (cell % CW, cell / CW)).collect();
    cells.sort_by_cached_key(key);
    cells
}

/// The most that a walk takes from `start` to a place, over all grounds, with the black cells that
/// make it. Before its end a walk meets no cell beside black, so it takes cells as on open ground:
/// further black cells only end it sooner, and one black cell is enough to look at.
fn most_walked(start: Place) -> (usize, Vec<Place>) {
    let mut rank = [0; CN];
    for ((x, y), number) in open_order(start).into_iter().zip(1..) {
        rank[y * CW + x] = number;
    }
    let walked = |&(x, y): &Place| {
        let around = (0..9).filter(|&i| i != 4);
        around.map(|i| rank[(y + i / 3 - 1) * CW + x + i % 3 - 1]).min().expect("eight")
    };
    let inside = (1..CH - 1).flat_map(|y| (1..CW - 1).map(move |x| (x, y)));
    let far = |&(x, y): &Place| x.abs_diff(start.0) > 1 || y.abs_diff(start.1) > 1;
    let black: Vec<Place> = inside.filter(far).collect();
    let most = black.iter().map(walked).max().expect("a black cell");
    (most, black.into_iter().filter(|cell| walked(cell) == most).collect())
}

/// 1,859 and 2,048 are the most, and where a place is chosen 2,036 after a step and 2,026 after a
/// respawn.
#[test]
fn the_most() {
    // A step that closes has line, the cell under the player at least, which isn't black any more.
    assert_eq!(step(&drawing(1).heading(UP)), (INTERIOR - 1, 0));
    // All claimed, so that none is chosen.
    assert_eq!(step(&chequers(0)), (0, CN));
    // Twelve aren't taken: the black cell and seven around it, (60,31) and (63,28) as far as those
    // next to the place, (60,30) and (59,31) as near as the place and spelt later.
    let all: Vec<_> = (0..CN).map(|i| most_walked((i % CW, i / CW)).0).collect();
    assert_eq!(all.iter().max(), Some(&(CN - 12)));
    assert_eq!(most_walked((1, 0)), (CN - 12, vec![(62, 30)]));
    let c = claimed_but(&[(62, 30)]).line(&[(1, 1)]).at((1, 1)).heading(UP);
    assert_eq!(step(&c), (1, CN - 12));
    let cells = taken(&claimed_but(&[(62, 30)]).grid, (1, 0));
    assert_eq!((cells.len(), cells.last()), (CN - 12, Some(&(61, 29))));
    assert_eq!(cells[..], open_order((1, 0))[..CN - 12]);
    // From the top, sixteen are further away, six as near and spelt later.
    assert_eq!(most_walked(TOP), (CN - 22, vec![(1, 30)]));
    assert_eq!(respawn(&claimed_but(&[(1, 30)])), (0, CN - 22));
}

/// A pass gives what its step or its respawn takes, and nothing where it has neither.
#[test]
fn passes() {
    let pass = |c: &Cutter, keys: &[u8], time: u32, draws: usize| {
        let mut state = State { game: Game::Cutter(Box::new(c.clone())), pace: Pace::default() };
        let call = Call::CutterPass { time, keys: keys.to_vec(), draws: vec![1; draws] };
        let outcome = state.make(&call).expect("a call of Cutter");
        let cost = Cost::take(&mut &outcome.result[..]).expect("two numbers");
        (outcome.refusal.number, numbers(cost))
    };
    let close = claimed_but(&[(20, 20), (40, 20)]).line(&[(1, 1)]).at((1, 1)).heading(UP);
    let cost = step(&close);
    assert!(cost.0 == 2 && cost.1 > 500, "{cost:?}");
    for (name, c, keys, time, draws, expected) in [
        ("a due step", close.clone(), &[][..], STEP, 0, (0, cost)),
        ("both ticks", close.clone(), &[0], MOVER, 0, (0, cost)),
        (
            "the last key's direction",
            close.clone(),
            &[9, 7],
            STEP,
            0,
            (0, step(&close.clone().heading(LEFT))),
        ),
        (
            "along the line of one cell",
            close.clone(),
            &[9],
            STEP,
            0,
            (0, step(&close.clone().heading(RIGHT))),
        ),
        ("no step due", close.clone(), &[], STEP - 1, 0, (0, (0, 0))),
        ("quit", close.clone(), &[5, 10], STEP, 0, (0, (0, 0))),
        ("draws", close.clone(), &[], STEP, 1, (7, (0, 0))),
        ("ill formed", Cutter { lives: 4, ..close.clone() }, &[], STEP, 0, (4, (0, 0))),
        (
            "won: a fresh level",
            Cutter { won_level: true, ..close.clone() },
            &[],
            STEP,
            8,
            (0, (0, 0)),
        ),
        ("dead: over", Cutter { dead: true, lives: 1, ..close.clone() }, &[], STEP, 0, (0, (0, 0))),
        (
            "dead: over again",
            Cutter { dead: true, lives: 0, ..close.clone() },
            &[],
            STEP,
            0,
            (0, (0, 0)),
        ),
        (
            "dead: a respawn",
            Cutter { dead: true, lives: 2, ..close.clone() },
            &[10],
            0,
            0,
            (0, respawn(&close)),
        ),
        (
            "dead before won",
            Cutter { dead: true, won_level: true, ..close.clone() },
            &[],
            0,
            0,
            (0, respawn(&close)),
        ),
    ] {
        assert_eq!(pass(&c, keys, time, draws), expected, "{name}");
    }
    assert!(respawn(&close).1 > 100);
}

/// The corners' numbers, by reasoning.
#[test]
fn the_corners_hold_what_they_name() {
    let corners = corners::closings();
    // The cost of each call, by its entry.
    let mut costs: Vec<(usize, Cost)> = Vec::new();
    let see = |seen: Seen| {
        let cost = Cost::take(&mut &seen.outcome.result[..]).expect("two numbers");
        assert_eq!(seen.outcome.result.len(), 4);
        assert!(seen.outcome.refusal == NONE || cost == Cost::default());
        costs.push((seen.entry, cost));
    };
    replay_seen(corners.trace.bytes.as_slice(), see).expect("in memory");
    let most = |name: &str| {
        let at = corners.names.iter().position(|(_, n)| n == name).expect(name);
        let next = corners.names.get(at + 1).map_or(usize::MAX, |&(entry, _)| entry);
        let within = costs.iter().filter(|(entry, _)| (corners.names[at].0..next).contains(entry));
        within.map(|&(_, cost)| numbers(cost)).max().expect("a call")
    };
    // Four steps away: 1, 4, 8 and 12 cells are nearer, and of 16 as near LLLL is the first, RRRR
    // the eighth, UUUU the fifteenth, DDDD the last.
    for (name, expected) in [
        ("P9: keeps the left", (1830, 0)),
        ("fresh, down 31 passes: 1,830 searched, no walk", (1830, 0)),
        ("a line of one cell: 1,859 searched, the most", (1859, 0)),
        ("the shortest walk on closing", (1860 - 6, 2)),
        ("the shortest walk on respawn", (0, 2)),
        ("respawn where no black is left: 2,048 walked", (0, 2048)),
        ("the last cut: no black left, 2,048 walked", (0, 2048)),
        ("as near on all sides: left", (2 * 11 + 2 * 9, 25 + 1)),
        ("as near to the right, above and below: right", (2 * 11 + 9, 25 + 8)),
        ("as near above and below: up", (2 * 19 + 9, 25 + 15)),
        ("black below alone: down", (11, 25 + 16)),
        ("a zigzag of 63 pockets, the large region uncounted", (48, 0)),
        ("a large region and 60 behind it, 13 uncounted", (620 + 47, 358)),
        ("60 regions of two cells, 12 uncounted", (96, 576)),
        ("from the upper left to the lower right: 2,036 walked, the most", (1, 2036)),
        ("from the lower right to the upper left", (1, 2036)),
        ("respawn far from black: 2,026 walked, the most", (0, 2026)),
        ("a large search and a long walk", (1860 - 31, 881)),
        ("a pass that closes", (1860 - 31, 881)),
        ("a pass before the step is due, one that quits, one refused", (0, 0)),
        ("a pass that starts a level", (0, 0)),
        ("dead far from black, 1 lives: a walk, or over", (0, 0)),
        ("dead far from black, 2 lives: a walk, or over", (0, 2026)),
    ] {
        assert_eq!(most(name), expected, "{name}");
    }
}
