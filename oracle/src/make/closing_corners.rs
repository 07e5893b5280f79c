//! The corners of closings and of walks to the border: what they leave, and how many cells they
//! take.

use super::corners::Corners;
use super::cutter_corners::{pass, step};
use super::cutter_grounds::*;
use super::readings::STEP;
use crate::calls::Call;
use crate::check::{LAST_LEVEL, TURN_BAD};
use crate::state::*;

pub fn corners(out: &mut Corners) {
    closings(out);
    walks(out);
    regions(out);
    the_most(out);
    passes(out);
    refused(out);
}

fn closings(out: &mut Corners) {
    let (left, right) = ((10, 10, 1, 1), (50, 10, -1, 1));
    out.cutter("P9: keeps the left", &drawing(30).peopled(&[left]), step(2));
    out.cutter("P10: keeps the right", &drawing(30).peopled(&[right]), step(1));
    out.cutter("P11: one on each, the larger", &drawing(30).peopled(&[right, left]), step(1));
    let three = [right, left, right, left, right];
    out.cutter("most creatures, in order", &drawing(30).peopled(&three), step(1));
    out.cutter("no creature: the larger", &drawing(30).peopled(&[]), step(1));
    let tied = drawing(30).claimed(1..2, 1..31);
    out.cutter("a tie: the earlier", &tied.clone().peopled(&[]), step(1));
    out.cutter("a tie with creatures", &tied.peopled(&[(50, 9, 1, 1), (9, 9, 1, 1)]), step(1));
    let back = drawing(1).heading(UP);
    out.cutter("a line of one cell: 1,859 searched, the most", &back, step(2));
    let cells = [(32, 1), (32, 2), (33, 2), (34, 2), (34, 1), (33, 1)];
    let ring = fresh().line(&cells).at((33, 1)).heading(UP);
    out.cutter("the shortest walk on closing", &ring, step(2));
    let pocket = fresh().claimed(31..34, 1..2).at((31, 0));
    out.cutter("the shortest walk on respawn", &pocket, vec![Call::Respawn]);
    let far = fresh().claimed(1..60, 1..30).at((0, 30)).peopled(&[]);
    out.cutter("a long walk on respawn", &far, vec![Call::Respawn]);
    let mut last = claimed_but(&[]);
    out.cutter("respawn where no black is left: 2,048 walked", &last, vec![Call::Respawn]);
    last = last.line(&[(32, 1)]).at((32, 1)).heading(UP);
    out.cutter("the last cut: no black left, 2,048 walked", &last, step(2));
}

fn regions(out: &mut Corners) {
    for number in [48, 49] {
        let name = format!("{number} regions of one cell");
        out.cutter(&name, &chequers(number), step(1));
        let last = chequers(number).peopled_in_order(number);
        let name = format!("{name}, the last with creatures");
        out.cutter(&name, &last, step(1));
    }
    out.cutter("one region of one cell", &chequers(1), step(1));
    out.cutter("a chequerboard: 930 regions", &chequerboard(), step(1));
    out.cutter("a snake across: 429 sweeps", &snake(false), step(1));
    out.cutter("a snake upright: 407 sweeps", &snake(true), step(1));
    out.cutter("the longest snake found: 596 sweeps", &longest_snake(), step(1));
    let pockets = zigzagged(3);
    out.cutter("a zigzag of 63 pockets, the large region uncounted", &pockets, step(1));
    let c = pockets.peopled(&[(10, 10, 1, 1), (2, 1, 1, 1), (5, 1, 1, 1), (2, 1, -1, 1)]);
    out.cutter("the same with creatures in pockets", &c, step(1));
    out.cutter("a zigzag of 42 pockets, all counted", &zigzagged(2), step(1));
    let mut large = fresh().claimed(1..63, 11..31).peopled(&[]);
    let mut twos = claimed_but(&[]);
    for i in 0..60 {
        large = large.black(2 + 2 * (i % 30), 13 + 2 * (i / 30));
        twos = twos
            .black(2 + 3 * (i % 20), 3 + 2 * (i / 20))
            .black(3 + 3 * (i % 20), 3 + 2 * (i / 20));
    }
    let closing = |c: Cutter| c.line(&[(32, 30)]).at((32, 30)).heading(DOWN);
    out.cutter("a large region and 60 behind it, 13 uncounted", &closing(large), step(1));
    out.cutter("60 regions of two cells, 12 uncounted", &closing(twos), step(1));
}

/// One step before a closing at (32,15) in the middle of claimed ground, around which black lies four
/// steps away above and below, and to the left and to the right where told so.
fn hemmed(left: bool, right: bool) -> Cutter {
    let mut c = claimed_but(&[]);
    let far = if right { 37 } else { 45 };
    for x in 27..=far {
        c = c.black(x, 10).black(x, 20);
    }
    for y in 11..20 {
        c = c.black(far, y);
        if left {
            c = c.black(27, y);
        }
    }
    c.line(&[(32, 14)]).at((32, 14)).heading(DOWN)
}

/// Which of two cells as near the walk to the border takes: left before right before up before down.
fn walks(out: &mut Corners) {
    for (name, left, right) in [
        ("as near on all sides: left", true, true),
        ("as near to the right, above and below: right", false, true),
        ("as near above and below: up", false, false),
    ] {
        out.cutter(name, &hemmed(left, right), step(1));
    }
    let below: Vec<_> = (27..38).map(|x| (x, 20)).collect();
    let below = claimed_but(&below).line(&[(32, 14)]).at((32, 14)).heading(DOWN);
    out.cutter("black below alone: down", &below, step(1));
    let shut = fresh().claimed(31..34, 1..2).line(&[(32, 1)]).at((32, 1)).heading(RIGHT);
    out.cutter("respawn beside what was line: no walk", &shut, vec![Call::Respawn]);
}

/// A ground with two regions, the smaller kept, and the player far from it: one step before a
/// closing that searches both and walks.
fn far_apart() -> Cutter {
    let line: Vec<_> = (1..31).map(|y| (20, y)).chain([(62, 30)]).collect();
    fresh().line(&line).at((62, 30)).heading(DOWN)
}

/// Walks that take as many cells as can be.
fn the_most(out: &mut Corners) {
    for (name, line, dir, black) in [
        ("from the upper left to the lower right: 2,036 walked, the most", (1, 1), UP, (62, 30)),
        ("from the upper right to the lower left", (62, 1), UP, (1, 30)),
        ("from the lower left to the upper right", (1, 30), DOWN, (62, 1)),
        ("from the lower right to the upper left", (62, 30), DOWN, (1, 1)),
        ("from the left side to the upper right", (1, 30), LEFT, (62, 1)),
    ] {
        let c = claimed_but(&[black]).line(&[line]).at(line).heading(dir);
        out.cutter(name, &c, step(1));
    }
    let name = "respawn far from black: 2,026 walked, the most";
    out.cutter(name, &claimed_but(&[(1, 30)]), vec![Call::Respawn]);
    let right = claimed_but(&[(62, 30)]).line(&[(62, 29)]).at((62, 29));
    out.cutter("respawn far from black to the right", &right, vec![Call::Respawn]);
    out.cutter("a large search and a long walk", &far_apart(), step(1));
}

/// A pass gives what its step or its respawn takes.
fn passes(out: &mut Corners) {
    let turns = (1..32).map(|turn| pass(turn * STEP, if turn == 1 { &[8] } else { &[] }, 0));
    out.cutter("fresh, down 31 passes: 1,830 searched, no walk", &fresh(), turns.collect());
    let close = far_apart();
    let early = [pass(STEP - 1, &[], 0), pass(STEP, &[9, 10], 0), pass(STEP, &[], 1)];
    out.cutter(
        "a pass before the step is due, one that quits, one refused",
        &close,
        early.to_vec(),
    );
    out.cutter("a pass that closes", &close, vec![pass(STEP, &[], 0), pass(2 * STEP, &[], 0)]);
    let aside = Cutter { dx: -1, dy: 0, ..close.clone() };
    out.cutter("a pass whose last key closes", &aside, vec![pass(STEP, &[5, 9], 0)]);
    let won = Cutter { won_level: true, ..close.clone() };
    out.cutter("a pass that starts a level", &won, vec![pass(STEP, &[], 8)]);
    for lives in 0..4 {
        let c = Cutter { dead: true, won_level: lives == 3, lives, ..claimed_but(&[(1, 30)]) };
        let name = format!("dead far from black, {lives} lives: a walk, or over");
        out.cutter(&name, &c, vec![pass(STEP, &[10], 0)]);
    }
}

/// Refused where a closing and a walk would take cells.
fn refused(out: &mut Corners) {
    let last = Cutter { won_level: true, level: LAST_LEVEL, ..far_apart() };
    out.cutter("a level due at 65,535 and a line about to close", &last, vec![pass(STEP, &[], 64)]);
    let calls = vec![Call::Step, Call::Respawn, pass(STEP, &[], 0)];
    let spoils: [fn(&mut Cutter); 4] =
        [|c| c.grid[0] = BLACK, |c| c.px = CW, |c| c.enemies[0].vx = 0, |c| c.lives = 4];
    for (spoil, number) in spoils.into_iter().zip([1, 2, TURN_BAD, 4]) {
        let mut c = far_apart();
        spoil(&mut c);
        out.cutter(&format!("a line about to close, refused by {number}"), &c, calls.clone());
        let mut c =
            Cutter { dead: true, ..claimed_but(&[(1, 30), (9, 9)]).peopled(&[(9, 9, 1, 1)]) };
        spoil(&mut c);
        out.cutter(&format!("dead far from black, refused by {number}"), &c, calls[1..].to_vec());
    }
}
