//! P1 to P14 of document 01, run on the original.

use oracle::calls::cutter as public;
use oracle::games::{cutter, mine};
use oracle::lines::{cuts_end, mines_end};
use oracle::make::cutter_grounds::{drawing, fresh};
use oracle::make::mine_corners::walled;
use oracle::state::*;

fn cell(m: &Mine, x: usize, y: usize) -> u8 {
    m.grid[y * W + x]
}

fn mark(m: &Mine, x: usize, y: usize) -> bool {
    m.falling[y * W + x]
}

fn after_gravity(mut m: Mine) -> Mine {
    mine::gravity(&mut m);
    m
}

#[test]
fn p1_load() {
    let m = mine::load();
    assert_eq!((m.px, m.py), (1, 1));
    let enemies = [Enemy { x: 20, y: 1, dir: RIGHT }, Enemy { x: 21, y: 9, dir: RIGHT }];
    assert_eq!(m.enemies[..m.count], enemies);
    assert_eq!(m.enemies[m.count..], [Enemy::default(); 6]);
    assert_eq!(m.grid.iter().position(|&code| code == EXIT), Some(12 * W + 21));
    assert_eq!([EXIT, COIN, BOULDER].map(|code| m.count_of(code)), [1, 38, 17]);
    assert_eq!((m.coins, m.needed, m.dead, m.won), (0, 28, false, false));
    assert_eq!(m.falling, [false; CELLS]);
}

#[test]
fn p2_right_three_times() {
    let m = mines_end(b"999");
    assert_eq!((m.px, m.py, m.coins), (4, 1, 1));
}

#[test]
fn p3_a_creature_tick_changes_nothing() {
    assert_eq!(mines_end(b"c"), mine::load());
}

#[test]
fn p4_a_boulder_over_the_player() {
    let unmarked = walled((5, 6), &[(5, 5, BOULDER)]);
    assert_eq!(after_gravity(unmarked.clone()), unmarked);
    let after = after_gravity(unmarked.clone().marked(&[(5, 5)]));
    assert_eq!(after, Mine { dead: true, ..unmarked });
}

#[test]
fn p5_a_roll_to_the_right() {
    let cells = [(5, 5, BOULDER), (5, 6, BOULDER), (6, 5, EMPTY), (6, 6, EMPTY)];
    let m = after_gravity(walled((1, 1), &cells));
    assert_eq!([(5, 5), (6, 5), (6, 6)].map(|(x, y)| cell(&m, x, y)), [EMPTY, EMPTY, BOULDER]);
    assert_eq!([(5, 5), (6, 5), (6, 6)].map(|(x, y)| mark(&m, x, y)), [false, false, true]);
}

#[test]
fn p6_a_roll_to_the_left() {
    let cells = [(5, 5, BOULDER), (5, 6, BOULDER), (4, 5, EMPTY), (4, 6, EMPTY)];
    let m = after_gravity(walled((1, 1), &cells));
    assert_eq!([(5, 5), (4, 5), (4, 6)].map(|(x, y)| cell(&m, x, y)), [EMPTY, BOULDER, EMPTY]);
    assert_eq!([(5, 5), (4, 5), (4, 6)].map(|(x, y)| mark(&m, x, y)), [false, true, false]);
}

#[test]
fn p7_a_marked_coin_walked_into() {
    let mut m = walled((4, 5), &[(5, 5, COIN)]).marked(&[(5, 5)]);
    mine::step_player(&mut m, RIGHT);
    assert_eq!((m.px, m.coins, cell(&m, 5, 5), mark(&m, 5, 5)), (5, 1, EMPTY, true));
}

#[test]
fn p8_of_three_the_first_is_squashed() {
    let crowd = [(7, 7, UP), (9, 7, RIGHT), (11, 7, DOWN)];
    let m = walled((1, 1), &[(7, 6, BOULDER)]).marked(&[(7, 6)]).peopled(&crowd);
    let after = after_gravity(m.clone());
    let [_, b, c] = [m.enemies[0], m.enemies[1], m.enemies[2]];
    assert_eq!((after.enemies[..3].to_vec(), after.count), (vec![c, b, Enemy::default()], 2));
    assert_eq!((cell(&after, 7, 7), mark(&after, 7, 7)), (BOULDER, true));
}

/// Claimed and black after a cut down the middle, with these creatures.
fn middle_cut(movers: &[(u8, u8, i8, i8)]) -> (usize, usize) {
    let mut c = fresh().peopled(movers).heading(DOWN);
    for _ in 0..31 {
        cutter::step_player(&mut c);
    }
    assert_eq!((c.px, c.py, c.trailing), (32, 31, false));
    (c.count_of(CLAIMED), c.count_of(BLACK))
}

#[test]
fn p9_to_p11_a_cut_down_the_middle() {
    for (vx, vy) in [(1, 1), (1, -1), (-1, 1), (-1, -1)] {
        let (left, right) = ((10, 10, vx, vy), (50, 10, vx, vy));
        assert_eq!(middle_cut(&[left]), (1118, 930));
        assert_eq!(middle_cut(&[right]), (1148, 900));
        assert_eq!(middle_cut(&[left, right]), (1118, 930));
        assert_eq!(middle_cut(&[right, left]), (1118, 930));
    }
    let script = ["8", &"s".repeat(31)].concat();
    let c = cuts_end(script.as_bytes());
    assert_eq!((c.count_of(CLAIMED), c.count_of(BLACK)), (1118, 930));
}

#[test]
fn p12_turned_back_at_the_side() {
    let mut c = fresh().peopled(&[(62, 10, 1, 1)]);
    cutter::step_enemies(&mut c);
    assert_eq!(c.enemies[0], Mover { x: 61, y: 11, vx: -1, vy: 1 });
}

#[test]
fn p13_only_the_diagonal_claimed() {
    let c = fresh().claimed(21..22, 21..22).peopled(&[(20, 20, 1, 1)]);
    let mut after = c.clone();
    cutter::step_enemies(&mut after);
    assert_eq!(after, c);
}

#[test]
fn p14_the_step_across_the_wrap() {
    for (time, due) in [(2_399_704, true), (2_399_703, false)] {
        let mut c = drawing(2);
        let mut pace = Pace::start(4_294_967_000);
        public::pass(&mut c, &[], &[], time, &mut pace).expect("a well-formed state");
        assert_eq!(c.py, if due { 3 } else { 2 });
        assert_eq!(pace.first, if due { time } else { 4_294_967_000 });
    }
}
