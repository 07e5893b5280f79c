//! What was found about Block Cutter, line by line.

use oracle::games::{Answer, cutter};
use oracle::lines::cuts_end;
use oracle::make::cutter_grounds::{chequers, drawing, fresh, zigzagged};
use oracle::make::cutter_states::sliver;
use oracle::make::readings::{MOVER, STEP};
use oracle::state::*;

fn stepped(mut c: Cutter) -> Cutter {
    cutter::step_player(&mut c);
    c
}

fn ticked(mut c: Cutter) -> Cutter {
    cutter::step_enemies(&mut c);
    c
}

/// A pass from marks of zero with as many draws as asked.
fn pass(c: &mut Cutter, keys: &[u8], draws: usize, time: u32) -> (Answer, Pace) {
    let mut pace = Pace::default();
    let answer = cutter::pass(c, keys, &vec![1; draws], time, &mut pace);
    (answer, pace)
}

fn with_black(black: usize) -> Cutter {
    let mut c = fresh().peopled(&[]).at((0, 30));
    sliver(&mut c, black);
    c
}

#[test]
fn closing_keeps_the_direction() {
    let c = cuts_end(b"8s5s");
    assert_eq!((c.dx, c.dy, c.trailing), (0, -1, false));
    let down = ["8", &"s".repeat(31)].concat();
    let c = cuts_end(down.as_bytes());
    assert_eq!((c.dx, c.dy, c.py), (0, 1, 31));
    assert_eq!((stepped(c.clone()).dx, stepped(c).dy), (0, 0));
    // Also after a walk to the border.
    let c = cuts_end(b"8ss7ss5s9s5s");
    assert_eq!((c.px, c.py, c.dx, c.dy), (30, 0, 0, -1));
}

#[test]
fn walks_to_the_border() {
    let place = |script: &[u8]| (cuts_end(script).px, cuts_end(script).py);
    assert_eq!(place(b"8ss9ss5s7s5s"), (32, 0));
    assert_eq!(place(b"9s8s7ss5s9sr"), (31, 0));
    assert_eq!(place(b"7s8s9ss5sr"), (31, 0));
}

#[test]
fn ties_keep_the_earliest() {
    let tied = drawing(30).claimed(1..2, 1..31).peopled(&[]);
    let after = stepped(tied);
    assert_eq!((after.grid[CW + 2], after.grid[CW + 33]), (BLACK, CLAIMED));
    assert_eq!(after.count_of(BLACK), 900);
}

#[test]
fn from_the_49th_on_regions_stay_black_and_lose_their_creatures() {
    for (number, black) in [(47, 1), (48, 1), (49, 2), (50, 3)] {
        let after = stepped(chequers(number));
        assert_eq!(after.count_of(BLACK), black, "{number} regions");
        let crowded = stepped(chequers(number).peopled_in_order(number));
        let kept = if number <= 48 { 2 } else { 1 };
        assert_eq!((crowded.count, crowded.count_of(BLACK)), (kept, black), "{number} regions");
    }
}

#[test]
fn the_largest_region_can_be_an_uncounted_one() {
    let before = zigzagged(3);
    let after = stepped(before.clone());
    // 63 pockets of one cell come before the large region: 47 of them are claimed, one is
    // kept, 15 and the large region stay black, and the only creature is gone.
    assert_eq!((before.count, after.count), (1, 0));
    let large = 62 * (30 - 6);
    assert_eq!((before.count_of(BLACK), after.count_of(BLACK)), (large + 63, large + 1 + 15));
    assert_eq!((after.grid[CW + 2], after.grid[CW + 5]), (BLACK, CLAIMED));
    assert_eq!(after.grid[10 * CW + 10], BLACK);
    let all_counted = stepped(zigzagged(2));
    assert_eq!((all_counted.count, all_counted.count_of(BLACK)), (1, 62 * (30 - 4)));
}

#[test]
fn no_black_left_means_no_walk() {
    let last = fresh().claimed(1..63, 1..31).peopled(&[]);
    let c = stepped(last.clone().line(&[(32, 1)]).at((32, 1)).heading(UP));
    assert_eq!((c.count_of(BLACK), c.px, c.py), (0, 32, 0));
    let mut c = last.at((9, 9));
    cutter::respawn(&mut c);
    assert_eq!((c.px, c.py), (32, 0));
}

#[test]
fn won_below_465_and_only_where_a_step_was_due() {
    let won = |mut c: Cutter, time| {
        pass(&mut c, &[], 0, time);
        c.won_level
    };
    assert_eq!([465, 464].map(|black| won(with_black(black), STEP)), [false, true]);
    assert!(!won(with_black(464), STEP - 1), "no step due");
    let open = |black: usize| with_black(black + 1).line(&[(1, 1)]).at((1, 1));
    assert_eq!([465, 464].map(|black| open(black).count_of(BLACK)), [465, 464]);
    assert_eq!([465, 464].map(|black| won(open(black), STEP)), [false, true]);
    let killed = open(463).line(&[(2, 1)]).heading(RIGHT);
    assert!(won(killed.clone(), STEP) && stepped(killed).dead, "a step that kills");
    assert!(!stepped(with_black(464)).won_level, "the step call never sets it");
}

#[test]
fn dead_comes_before_won() {
    let both = Cutter { dead: true, won_level: true, ..drawing(4) };
    let mut c = both.clone();
    assert_eq!(pass(&mut c, &[], 0, MOVER), (Answer::GoingOn, Pace::default()));
    assert_eq!((c.dead, c.won_level, c.lives, c.level), (false, true, 2, 1));
    assert_eq!(pass(&mut c, &[], 8, MOVER), (Answer::GoingOn, Pace::default()));
    assert_eq!((c.won_level, c.level, c.count), (false, 2, 2));
    let mut c = Cutter { lives: 1, ..both };
    assert_eq!(pass(&mut c, &[], 0, MOVER).0, Answer::Over);
    assert_eq!((c.lives, c.won_level, c.level), (0, true, 1));
}

#[test]
fn over_leaves_all_but_dead_and_lives() {
    let before = Cutter { lives: 1, dead: true, won_level: true, ..drawing(4) };
    let mut c = before.clone();
    assert_eq!(pass(&mut c, &[], 0, MOVER).0, Answer::Over);
    assert_eq!(c, Cutter { lives: 0, dead: false, ..before });
    // A later pass plays on, and a later death is over again.
    let mut c = Cutter { won_level: false, ..c }.heading(UP);
    assert_eq!((pass(&mut c, &[], 0, STEP).0, c.dead), (Answer::GoingOn, true));
    assert_eq!((pass(&mut c, &[], 0, STEP).0, c.lives), (Answer::Over, 0));
}

#[test]
fn respawn_and_level_up_read_neither_keys_nor_clock() {
    let c = Cutter { dead: true, ..drawing(4) };
    let mut after = c.clone();
    assert_eq!(pass(&mut after, &[10, 9], 0, MOVER), (Answer::GoingOn, Pace::default()));
    assert_eq!((after.dx, after.dy, after.py, after.count_of(LINE)), (0, 0, 0, 0));
    let mut after = Cutter { dead: false, won_level: true, ..c };
    assert_eq!(pass(&mut after, &[10, 9], 8, MOVER), (Answer::GoingOn, Pace::default()));
    assert_eq!((after.level, after.dx, after.dy), (2, 0, 0));
}

#[test]
fn respawn_and_fresh_level_leave_the_flags() {
    let c = Cutter { dead: true, won_level: true, lives: 2, level: 2, ..drawing(4) };
    let mut respawned = c.clone();
    cutter::respawn(&mut respawned);
    let mut fresh = c.clone();
    cutter::new_level(&mut fresh, &[0; 8]);
    for after in [respawned, fresh] {
        assert_eq!((after.dead, after.won_level, after.lives, after.level), (true, true, 2, 2));
    }
    assert!(cuts_end(b"8ss5sr").dead);
}

#[test]
fn a_step_that_kills_keeps_place_and_direction() {
    let mut c = drawing(4).heading(UP);
    let creature = c.enemies[0];
    assert_eq!(pass(&mut c, &[], 0, MOVER), (Answer::GoingOn, Pace::start(MOVER)));
    assert_eq!((c.dead, c.px, c.py, c.dx, c.dy), (true, 32, 4, 0, -1));
    assert_ne!(c.enemies[0], creature, "the creatures still tick");
}

#[test]
fn a_creature_tick_that_kills_stops_there() {
    let movers = [(9, 9, 1, 1), (31, 3, 1, 1), (20, 20, 1, 1)];
    let before = drawing(4).peopled(&movers);
    let after = ticked(before.clone());
    assert!(after.dead);
    assert_eq!(after.enemies[0], Mover { x: 10, y: 10, vx: 1, vy: 1 });
    assert_eq!(after.enemies[1..3], before.enemies[1..3]);
}

#[test]
fn line_at_the_new_diagonal_is_fatal_one_tick_later() {
    // Claimed to the right; line where the flipped velocity leads.
    let c = fresh().line(&[(20, 22)]).at((20, 22)).claimed(22..23, 20..24);
    let before = c.peopled(&[(21, 23, 1, -1)]);
    let once = ticked(before.clone());
    assert_eq!((once.dead, once.enemies[0]), (false, Mover { x: 21, y: 23, vx: -1, vy: -1 }));
    assert!(ticked(once).dead);
}

#[test]
fn the_border_test_looks_at_the_cell_itself() {
    let lone = fresh().claimed(1..63, 1..31).peopled(&[]).black(20, 20);
    assert!(cutter::on_border(&lone, 20, 20));
    assert!(cutter::on_border(&lone, 21, 21) && !cutter::on_border(&lone, 22, 20));
}

#[test]
fn other_keys_are_ignored() {
    for key in (0..=255).filter(|key| !matches!(key, 5 | 7 | 8 | 9 | 10)) {
        let mut c = drawing(4);
        assert_eq!(pass(&mut c, &[key, key], 0, 0).0, Answer::GoingOn);
        assert_eq!(c, drawing(4), "key {key}");
    }
}

#[test]
fn one_cell_claimed() {
    let c = cuts_end(b"8s5s");
    assert_eq!((c.count_of(CLAIMED), c.count_of(BLACK)), (189, 1859));
}

#[test]
fn the_level_goes_on_past_65_535_in_the_original() {
    let mut c = Cutter { level: 65_535, won_level: true, ..fresh() };
    assert_eq!(pass(&mut c, &[], 64, 0).0, Answer::GoingOn);
    assert_eq!((c.level, c.count), (65_536, 16));
}

#[test]
fn sixteen_creatures_at_most() {
    for (level, number) in [(1, 1), (15, 15), (16, 16), (17, 16)] {
        let mut c = Cutter { level, ..fresh() };
        cutter::new_level(&mut c, &vec![0; 4 * number]);
        assert_eq!(c.count, number);
    }
}

#[test]
fn the_players_pixels_are_dark_wherever_it_stands() {
    let dark = |c: &Cutter| {
        let frame = cutter::render(c);
        let lit = |x: usize, y: usize| frame[y / 8 * 128 + x] >> (y % 8) & 1 == 1;
        (0..4).all(|i| !lit(c.px * 2 + i % 2, c.py * 2 + i / 2))
    };
    for x in 0..CW {
        assert!(dark(&fresh().at((x, 0))) && dark(&fresh().at((x, 31))));
    }
    assert!((1..31).all(|length| dark(&drawing(length))));
}

#[test]
fn a_pip_under_the_player_cannot_be_seen() {
    let with = cutter::render(&Cutter { lives: 1, ..fresh().at((1, 0)) });
    let without = cutter::render(&Cutter { lives: 0, ..fresh().at((1, 0)) });
    assert_eq!(with, without);
}

#[test]
fn a_creature_is_never_on_a_well_formed_drawing_player() {
    // Creatures go to black cells only, and a drawing player stands on line.
    let before = drawing(4).peopled(&[(33, 5, -1, -1)]);
    let after = ticked(before);
    assert_eq!((after.dead, after.enemies[0].x, after.enemies[0].y), (true, 33, 5));
}
