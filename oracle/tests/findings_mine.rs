//! What was found about Block Mine, line by line.

use oracle::games::{Answer, mine};
use oracle::lines::mines_end;
use oracle::make::mine_corners::walled;
use oracle::make::readings::{ENEMY, GRAVITY};
use oracle::state::*;

fn cell(m: &Mine, x: usize, y: usize) -> u8 {
    m.grid[y * W + x]
}

fn mark(m: &Mine, x: usize, y: usize) -> bool {
    m.falling[y * W + x]
}

fn pass(m: &mut Mine, keys: &[u8], time: u32) -> (Answer, Pace) {
    let mut pace = Pace::default();
    (mine::pass(m, keys, time, &mut pace), pace)
}

/// What the last byte of a script changes, as cells before and after.
fn last_byte(script: &[u8], cells: [(usize, usize); 3]) -> ([u8; 3], [u8; 3]) {
    let before = mines_end(&script[..script.len() - 1]);
    let after = mines_end(script);
    (cells.map(|(x, y)| cell(&before, x, y)), cells.map(|(x, y)| cell(&after, x, y)))
}

#[test]
fn a_roll_to_the_right_falls_in_the_same_tick_and_one_to_the_left_does_not() {
    let right = last_byte(b"9978899ggg78g", [(2, 2), (3, 2), (3, 3)]);
    assert_eq!(right, ([COIN, EMPTY, EMPTY], [EMPTY, EMPTY, COIN]));
    let left = last_byte(b"8889599gg", [(3, 3), (2, 3), (2, 4)]);
    assert_eq!(left.0[..2], [BOULDER, EMPTY]);
    assert_eq!(left.1[..2], [EMPTY, BOULDER]);
    assert_eq!(left.0[2], left.1[2], "it has not fallen on");
}

#[test]
fn a_marked_coin_squashes_a_creature() {
    let mut m = walled((1, 1), &[(5, 5, COIN)]).marked(&[(5, 5)]).peopled(&[(5, 6, UP)]);
    mine::gravity(&mut m);
    assert_eq!((m.count, m.enemies[0], cell(&m, 5, 6)), (0, Enemy::default(), COIN));
}

#[test]
fn a_boulder_pushed_onto_a_leftover_mark_kills_without_having_fallen() {
    let m = mines_end(b"88999g7g5778989");
    assert_eq!((m.px, m.py, m.dead), (3, 4, false));
    assert_eq!((cell(&m, 3, 3), mark(&m, 3, 3)), (BOULDER, true));
    assert!(mines_end(b"88999g7g5778989g").dead);
    assert!(mines_end(b"88999g75778989g").dead, "the shortest");
}

#[test]
fn a_marked_boulder_that_is_pushed_is_harmless_for_a_tick() {
    let cells = [(5, 5, BOULDER), (6, 5, EMPTY), (5, 6, EMPTY)];
    let mut m = walled((4, 5), &cells).marked(&[(5, 5)]);
    mine::step_player(&mut m, RIGHT);
    assert_eq!((cell(&m, 6, 5), mark(&m, 6, 5), mark(&m, 5, 5)), (BOULDER, false, true));
    (m.px, m.py) = (6, 6);
    m.grid[6 * W + 6] = EMPTY;
    mine::gravity(&mut m);
    assert_eq!((m.dead, cell(&m, 6, 5)), (false, BOULDER));
}

#[test]
fn a_landed_object_stays_marked_until_the_next_gravity() {
    let mut m = walled((1, 1), &[(5, 5, BOULDER), (5, 6, EMPTY)]);
    mine::gravity(&mut m);
    assert_eq!((cell(&m, 5, 6), mark(&m, 5, 6)), (BOULDER, true));
    mine::gravity(&mut m);
    assert_eq!((cell(&m, 5, 6), mark(&m, 5, 6)), (BOULDER, false));
}

#[test]
fn the_player_comes_before_a_creature_on_the_same_cell() {
    let m = walled((5, 6), &[(5, 5, BOULDER)]).peopled(&[(5, 6, UP)]);
    let mut after = m.clone().marked(&[(5, 5)]);
    mine::gravity(&mut after);
    assert_eq!(after, Mine { dead: true, ..m });
}

#[test]
fn what_was_above_a_collected_coin_drops_in_the_same_tick() {
    let mut m = walled((5, 6), &[(5, 5, COIN), (5, 4, BOULDER)]).marked(&[(5, 5)]);
    mine::gravity(&mut m);
    assert_eq!(
        (m.coins, cell(&m, 5, 4), cell(&m, 5, 5), mark(&m, 5, 5)),
        (1, EMPTY, BOULDER, true)
    );
    mine::gravity(&mut m);
    assert!(m.dead);
}

#[test]
fn the_same_in_play() {
    let script = b"888888999999958gg";
    let before = mines_end(&script[..script.len() - 1]);
    let after = mines_end(script);
    assert_eq!((after.px, after.py, after.coins - before.coins), (8, 7, 1));
    assert_eq!((cell(&before, 8, 5), cell(&after, 8, 5)), (COIN, EMPTY));
    assert_eq!((cell(&after, 8, 6), mark(&after, 8, 6)), (COIN, true));
}

#[test]
fn unmarked_objects_rest() {
    for code in [BOULDER, COIN] {
        let on_player = walled((5, 6), &[(5, 5, code)]);
        let on_creature = walled((1, 1), &[(5, 5, code)]).peopled(&[(5, 6, UP)]);
        let sides = [(4, 5, EMPTY), (4, 6, EMPTY), (6, 5, EMPTY), (6, 6, EMPTY)];
        let on = |ground| {
            let mut m = walled((1, 1), &sides);
            (m.grid[5 * W + 5], m.grid[6 * W + 5]) = (code, ground);
            m
        };
        for m in [on_player, on_creature, on(EXIT), on(WALL), on(DIRT)] {
            let mut after = m.clone();
            mine::gravity(&mut after);
            assert_eq!(after, m);
        }
        for ground in [BOULDER, COIN] {
            let mut after = on(ground);
            mine::gravity(&mut after);
            assert_eq!(cell(&after, 5, 5), EMPTY, "rolls off what is round");
        }
    }
}

#[test]
fn moves_and_ticks_work_on_dead_and_won_states() {
    let m = walled((5, 5), &[(6, 5, DIRT), (9, 8, BOULDER), (9, 9, EMPTY), (2, 1, EMPTY)])
        .peopled(&[(2, 2, UP), (2, 3, UP)]);
    for (dead, won) in [(true, false), (false, true), (true, true)] {
        let mut after = Mine { dead, won, ..m.clone() };
        mine::step_player(&mut after, RIGHT);
        mine::gravity(&mut after);
        mine::move_enemies(&mut after);
        assert_eq!((after.px, cell(&after, 9, 9)), (6, BOULDER));
        assert_eq!(after.enemies[0], Enemy { x: 2, y: 1, dir: UP });
        assert_eq!((after.dead, after.won), (dead, won));
    }
}

#[test]
fn a_pass_that_ends_the_round_goes_on() {
    // The creature on the right kills; the keys behind it and both ticks still act.
    let cells = [(4, 5, DIRT), (9, 8, BOULDER), (9, 9, EMPTY)];
    let m = walled((5, 5), &cells).peopled(&[(6, 5, UP), (2, 2, UP), (2, 3, RIGHT)]);
    let mut after = m.clone();
    let (answer, pace) = pass(&mut after, &[9, 7], ENEMY);
    assert_eq!((answer, after.dead, after.px), (Answer::GoingOn, true, 4));
    assert_eq!((cell(&after, 9, 9), pace), (BOULDER, Pace::start(ENEMY)));
    assert_ne!(after.enemies, m.enemies);
    let (answer, pace) = pass(&mut after.clone(), &[10, 9], ENEMY);
    assert_eq!((answer, pace), (Answer::Dead, Pace::default()));

    let m = Mine { coins: 28, ..walled((5, 5), &[(4, 5, EXIT), (6, 5, DIRT)]) };
    let mut after = m.clone();
    let (answer, pace) = pass(&mut after, &[7, 9], GRAVITY);
    assert_eq!((answer, after.won, after.px), (Answer::GoingOn, true, 6));
    assert_eq!(pace, Pace { first: GRAVITY, second: 0 });
    let before = after.clone();
    assert_eq!(pass(&mut after, &[10], ENEMY), (Answer::Won, Pace::default()));
    assert_eq!(after, before);
}

#[test]
fn other_keys_are_ignored() {
    for key in (0..=255).filter(|key| !matches!(key, 5 | 7 | 8 | 9 | 10)) {
        let mut m = walled((5, 5), &[(4, 5, DIRT), (6, 5, DIRT), (5, 4, DIRT), (5, 6, DIRT)]);
        let before = m.clone();
        assert_eq!(pass(&mut m, &[key, key], 0).0, Answer::GoingOn);
        assert_eq!(m, before, "key {key}");
    }
}

#[test]
fn won_comes_before_dead() {
    let mut m = Mine { dead: true, won: true, ..mine::load() };
    let before = m.clone();
    assert_eq!(pass(&mut m, &[9], ENEMY), (Answer::Won, Pace::default()));
    assert_eq!(m, before);
}

#[test]
fn a_creature_that_reached_the_player_walks_off() {
    let mut m = walled((4, 5), &[]).peopled(&[(5, 5, LEFT)]);
    mine::move_enemies(&mut m);
    assert_eq!((m.dead, m.enemies[0]), (true, Enemy { x: 4, y: 5, dir: LEFT }));
    m.dead = false;
    mine::move_enemies(&mut m);
    assert_eq!((m.dead, m.enemies[0]), (false, Enemy { x: 5, y: 5, dir: RIGHT }));
}

#[test]
fn an_object_that_moves_is_always_marked() {
    let m = walled((1, 1), &[(5, 5, BOULDER), (5, 6, EMPTY)]);
    let mut after = m.clone();
    mine::gravity(&mut after);
    assert_eq!([mark(&m, 5, 5), mark(&after, 5, 5), mark(&after, 5, 6)], [false, false, true]);
}

#[test]
fn no_coin_is_ever_lost() {
    let script = "88999g7g5778989gcg5555ggcc9999ggg8888gggccc7777ggg";
    let m = mines_end(script.repeat(20).as_bytes());
    assert_eq!((m.coins as usize + m.count_of(COIN), m.count_of(BOULDER)), (38, 17));
}
