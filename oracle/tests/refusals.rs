//! The checks, which are this crate's own and not the original's.

use oracle::calls::{Call, cutter, mine};
use oracle::check::{self, COMMAND_BAD, DRAWS_BAD, FRAME_BAD, NONE, Refusal};
use oracle::make::variations::Variation;
use oracle::make::{
    BAD_FRAMES, battery, cutter_states, cutter_variations, mine_states, mine_variations,
};
use oracle::rng::Rng;
use oracle::state::*;

const STATES: usize = 5000;

/// What a check gives.
type Checked = Result<(), Refusal>;

fn refusal(checked: Checked) -> Refusal {
    checked.err().unwrap_or(NONE)
}

fn number(checked: Checked) -> u8 {
    refusal(checked).number
}

fn earns<S>(base: fn() -> S, variations: &[Variation<S>], check: fn(&S) -> Checked) {
    for v in variations {
        let mut state = base();
        v.apply(&mut state);
        assert_eq!(refusal(check(&state)), v.refusal, "{}", v.name);
    }
}

#[test]
fn each_variation_earns_its_refusal() {
    earns(mine_variations::base, &mine_variations::boundaries(), check::mine);
    earns(cutter_variations::base, &cutter_variations::boundaries(), check::cutter);
    earns(cutter_variations::drawing, &cutter_variations::drawing_variations(), check::cutter);
}

#[test]
fn the_ring_has_188_cells() {
    let mut ring = 0;
    for cell in 0..CN {
        let mut c = Cutter { count: 0, enemies: Default::default(), ..cutter_variations::base() };
        let before = std::mem::replace(&mut c.grid[cell], BLACK);
        let on_ring = check::cutter(&c).is_err();
        assert_eq!(on_ring, cell / CW == 0 || cell / CW == 31 || cell % CW == 0 || cell % CW == 63);
        ring += usize::from(on_ring);
        c.grid[cell] = if before == CLAIMED { LINE } else { CLAIMED };
        assert_eq!(number(check::cutter(&c)), u8::from(before == CLAIMED), "cell {cell}");
    }
    assert_eq!(ring, RING);
}

#[test]
fn random_states_are_well_formed() {
    let rng = &mut Rng::new(1);
    for _ in 0..STATES {
        assert_eq!(check::mine(&mine_states::state(rng)), Ok(()));
        assert_eq!(check::cutter(&cutter_states::state(rng)), Ok(()));
    }
}

/// Every call on a refused state gives the state's refusal, whatever its arguments, and
/// changes neither state nor record nor frame.
fn all_refused(game: Game, calls: Vec<Call>, refusal: Refusal, name: &str) {
    let before = State { game, pace: Pace { first: 3, second: 4 } };
    for call in calls {
        let mut state = before.clone();
        let outcome = state.make(&call).expect("a call of this game");
        assert_eq!(outcome.refusal, refusal, "{name}, {call:?}");
        assert_eq!(outcome.answer as u8, 0, "{name}, {call:?}");
        assert_eq!(state, before, "{name}, {call:?}");
        let picture = matches!(call, Call::MinePicture(_) | Call::CutterPicture(_));
        let byte = if picture { 165 } else { 0 };
        assert!(outcome.result.iter().all(|&b| b == byte), "{name}, {call:?}");
    }
}

#[test]
fn a_refused_call_changes_nothing() {
    let pace = Pace { first: 3, second: 4 };
    for v in mine_variations::variations().iter().filter(|v| v.refusal != NONE) {
        let mut m = mine_variations::base();
        v.apply(&mut m);
        all_refused(Game::Mine(Box::new(m)), battery::mine(&pace, 1024), v.refusal, &v.name);
    }
    for v in cutter_variations::variations().iter().filter(|v| v.refusal != NONE) {
        for won_level in [false, true] {
            let mut c = Cutter { won_level, ..cutter_variations::base() };
            v.apply(&mut c);
            let calls = battery::cutter(&c, &pace, 1024);
            all_refused(Game::Cutter(Box::new(c)), calls, v.refusal, &v.name);
        }
    }
}

/// The first of two causes in the order 1, 2, 31 to 36, 4 is given, whichever came first.
#[test]
fn states_with_two_causes() {
    type Change<S> = (u8, fn(&mut S));
    let mine: [Change<Mine>; 5] = [
        (1, |m| m.grid[335] = 6),
        (2, |m| m.px = 24),
        (31, |m| m.count = 9),
        (36, |m| m.enemies[7].x = 1),
        (4, |m| m.needed = 0),
    ];
    let cutter: [Change<Cutter>; 5] = [
        (1, |c| c.grid[0] = BLACK),
        (2, |c| c.dx = -128),
        (34, |c| c.enemies[0].vx = 0),
        (36, |c| c.enemies[15].x = 1),
        (4, |c| c.lives = 4),
    ];
    for i in 0..5 {
        for j in 0..5 {
            let mut m = mine_variations::base();
            (mine[i].1)(&mut m);
            (mine[j].1)(&mut m);
            assert_eq!(number(check::mine(&m)), mine[i.min(j)].0);
            let mut c = cutter_variations::base();
            (cutter[i].1)(&mut c);
            (cutter[j].1)(&mut c);
            assert_eq!(number(check::cutter(&c)), cutter[i.min(j)].0);
        }
    }
}

#[test]
fn commands_and_frames() {
    for dir in 0..=255 {
        let expected = if dir < 4 { Ok(()) } else { Err(COMMAND_BAD) };
        assert_eq!(mine::step_player(&mut mine_variations::base(), dir), expected);
        assert_eq!(cutter::direction(&mut cutter_variations::base(), dir), expected);
    }
    for length in BAD_FRAMES {
        let mut frame = vec![7; length.into()];
        assert_eq!(mine::render(&mine_variations::base(), &mut frame), Err(FRAME_BAD));
        assert_eq!(cutter::render(&cutter_variations::base(), &mut frame), Err(FRAME_BAD));
        assert_eq!(frame, vec![7; length.into()]);
    }
}

#[test]
fn draws_of_a_new_round() {
    assert!(cutter::new_round(&[61, 29, 1, 1]).is_ok());
    let bad: [&[u8]; 7] =
        [&[62, 0, 0, 0], &[0, 30, 0, 0], &[0, 0, 2, 0], &[0, 0, 0, 2], &[0; 3], &[0; 5], &[]];
    for draws in bad {
        assert_eq!(cutter::new_round(draws), Err(DRAWS_BAD));
    }
}

fn pass(c: &Cutter, draws: usize) -> u8 {
    let before = c.clone();
    let (mut after, mut pace) = (c.clone(), Pace::default());
    let answer = cutter::pass(&mut after, &[10], &vec![0; draws], 4_000_000, &mut pace);
    if answer.is_err() {
        assert_eq!((after, pace), (before, Pace::default()));
    }
    answer.err().unwrap_or(NONE).number
}

#[test]
fn draws_of_a_pass() {
    for (level, draws) in [(1, 8), (2, 12), (14, 60), (15, 64), (16, 64), (65_534, 64)] {
        let due = Cutter { level, won_level: true, ..cutter_variations::base() };
        assert_eq!([draws, 0, draws - 1, draws + 1].map(|n| pass(&due, n)), [0, 7, 7, 7]);
        let dead = Cutter { dead: true, ..due };
        assert_eq!([draws, 0].map(|n| pass(&dead, n)), [7, 0], "a dead pass takes none");
    }
    assert_eq!([0, 1, 4].map(|n| pass(&cutter_variations::base(), n)), [0, 7, 7]);
}

#[test]
fn the_last_level() {
    let last = Cutter { level: 65_535, won_level: true, ..cutter_variations::base() };
    assert_eq!([64, 0, 63].map(|draws| pass(&last, draws)), [8, 8, 8], "8 before 7");
    let ill = Cutter { lives: 4, ..last.clone() };
    assert_eq!(pass(&ill, 64), 4, "4 before 8");
    let dead = Cutter { dead: true, ..last.clone() };
    assert_eq!(pass(&dead, 0), 0, "a respawn comes first");
    assert_eq!(cutter::new_level(&mut last.clone(), &[0; 64]), Ok(()));
    assert_eq!(cutter::new_level(&mut last.clone(), &[0; 60]), Err(DRAWS_BAD));
}
