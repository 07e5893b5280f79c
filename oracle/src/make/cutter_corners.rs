//! The corners of Block Cutter, but for closings and walks.

use super::corners::{Corners, PICTURE};
use super::cutter_grounds::*;
use super::cutter_states::sliver;
use super::readings::{MOVER, STEP};
use crate::calls::Call;
use crate::check::{DRAW_BOUNDS, LAST_LEVEL, draws_for};
use crate::state::*;

/// Black cells of the last level that isn't won.
const NOT_CLEAR: usize = 465;

pub fn corners(out: &mut Corners) {
    rounds(out);
    steps(out);
    along_the_border(out);
    flags(out);
    creatures(out);
    wins(out);
    both_ticks(out);
    lives(out);
    levels(out);
    quits(out);
    readings(out);
    pictures(out);
}

pub(super) fn step(times: usize) -> Vec<Call> {
    vec![Call::Step; times]
}

pub(super) fn pass(time: u32, keys: &[u8], draws: usize) -> Call {
    Call::CutterPass { time, keys: keys.to_vec(), draws: vec![1; draws] }
}

fn rounds(out: &mut Corners) {
    let good = DRAW_BOUNDS.map(|bound| bound - 1);
    let mut draws = vec![vec![0; 4], good.to_vec(), Vec::new(), vec![0; 3], vec![0; 5], vec![0; 8]];
    draws.extend([vec![3, 5, 0, 1], vec![3, 5, 1, 0]]);
    for i in 0..4 {
        for draw in [DRAW_BOUNDS[i], 255] {
            let mut bad = good;
            bad[i] = draw;
            draws.push(bad.to_vec());
        }
    }
    let rounds = draws.into_iter().map(Call::NewRound).collect();
    out.cutter("new rounds: lowest, highest, wrong number, each out of range", &fresh(), rounds);
    let respawn = vec![Call::Direction(DOWN), Call::Step, Call::Respawn];
    out.cutter("respawn: line back to black", &fresh(), respawn);
    for level in [1, 15, 16, LAST_LEVEL] {
        let c = Cutter { level, lives: 0, dead: true, won_level: true, ..fresh() };
        let right = draws_for(level);
        let [mut first, mut last] = [vec![0; right], vec![0; right]];
        (first[0], last[right - 1]) = (62, 2);
        let bad = [vec![0; right - 1], vec![0; right + 1], vec![0; right + 4], first, last];
        out.cutter("fresh level keeps dead, won, lives and level", &c, Vec::new());
        out.go_on(bad.map(Call::NewLevel).to_vec());
        let each = (0..right).map(|i| (i * 7 % 9 % usize::from(DRAW_BOUNDS[i % 4])) as u8);
        out.go_on(vec![Call::NewLevel(each.collect())]);
    }
}

fn steps(out: &mut Corners) {
    let up = fresh().heading(UP);
    out.cutter("no direction: nothing", &fresh(), step(1));
    out.cutter("off the grid clears the direction", &up, step(2));
    for (place, dir) in [((0, 9), LEFT), ((63, 9), RIGHT), ((9, 31), DOWN)] {
        out.cutter("off each side of the grid", &fresh().at(place).heading(dir), step(1));
    }
    out.cutter("along the border, round a corner", &fresh().at((1, 0)).heading(LEFT), step(2));
    let inner = fresh().at((32, 0)).heading(DOWN).claimed(30..35, 1..4);
    out.cutter("claimed away from black clears the direction", &inner, step(1));
    let creature = fresh().peopled(&[(32, 1, 1, 1)]).heading(DOWN);
    out.cutter("from the border into a creature: dead", &creature, step(1));
    let creature = drawing(4).peopled(&[(32, 5, 1, 1)]);
    out.cutter("drawing into a creature: dead", &creature, step(1));
    out.cutter("onto the own line: dead", &drawing(4).heading(UP), step(1));
    let lone = fresh().line(&[(9, 9)]).at((9, 9)).heading(RIGHT);
    out.cutter("a line cell of its own, away from everything", &lone, step(1));
    let mut scattered = fresh().line(&[(9, 9), (12, 9), (20, 20)]).at((9, 9)).heading(RIGHT);
    out.cutter("scattered line", &scattered, step(3));
    scattered.enemies[0] = Mover { x: 30, y: 5, vx: 1, vy: 1 };
    out.cutter("respawn from scattered line", &scattered, vec![Call::Respawn]);
}

/// Round one black cell, so that each of the eight neighbours in turn is the one that is black; onto
/// the way from a cell away from black, and off it again. A pass takes a key and makes a step.
fn along_the_border(out: &mut Corners) {
    let c = fresh().claimed(1..63, 1..19).black(10, 10).peopled(&[]).at((8, 9));
    let keys = [9, 9, 9, 8, 8, 7, 7, 5, 5, 7];
    let passes = (1..).zip(keys).map(|(turn, key)| pass(turn * STEP, &[key], 0)).collect();
    out.cutter("round one black cell, from away from black and back", &c, passes);
}

/// Flags that no call but a pass changes.
fn flags(out: &mut Corners) {
    let c = Cutter { dead: true, won_level: true, lives: 0, ..drawing(4) };
    let calls = vec![Call::Step, Call::StepEnemies, Call::Respawn];
    out.cutter("a dead and won state steps, ticks and respawns", &c, calls);
}

fn creatures(out: &mut Corners) {
    let tick = vec![Call::StepEnemies; 2];
    let edge = [(62, 10, 1, 1), (1, 10, -1, -1), (10, 1, 1, -1), (10, 30, -1, 1)];
    out.cutter("P12: turned back at each side", &fresh().peopled(&edge), tick.clone());
    let corner = [(1, 1, -1, -1), (62, 1, 1, -1), (1, 30, -1, 1), (62, 30, 1, 1)];
    out.cutter("turned back in each corner", &fresh().peopled(&corner), tick.clone());
    let diagonal = fresh().claimed(21..22, 21..22).peopled(&[(20, 20, 1, 1)]);
    out.cutter("P13: only the diagonal claimed: stays", &diagonal, tick.clone());
    let boxed = fresh().claimed(19..22, 19..22).black(20, 20).peopled(&[(20, 20, 1, -1)]);
    out.cutter("shut in: flips both and stays", &boxed, tick.clone());
    for killer in [(31, 4, 1, 1), (32, 5, 1, -1), (31, 5, 1, -1)] {
        let c = drawing(4).peopled(&[(9, 9, 1, 1), killer, (20, 20, 1, 1)]);
        let name = "line at the side, above, diagonal: earlier ones moved, later ones not";
        out.cutter(name, &c, vec![Call::StepEnemies]);
    }
    let away = drawing(4).peopled(&[(31, 3, -1, 1)]);
    out.cutter("line behind a creature", &away, tick.clone());
    let c = fresh().line(&[(20, 22)]).at((20, 22)).claimed(22..23, 20..24);
    let c = c.peopled(&[(21, 23, 1, -1)]);
    out.cutter("line at the new diagonal isn't fatal until the next tick", &c, tick.clone());
    let one = [(10, 10, 1, 1); MOVERS];
    out.cutter("sixteen on one cell", &fresh().peopled(&one), tick);
}

fn wins(out: &mut Corners) {
    let sliver = |black| {
        let mut c = fresh().peopled(&[]);
        sliver(&mut c, black);
        c.at((0, 30))
    };
    let plain = vec![pass(STEP, &[], 0), pass(2 * STEP, &[], 8)];
    out.cutter("a pass at black 465: not won", &sliver(NOT_CLEAR), plain[..1].to_vec());
    out.cutter(
        "a pass at black 464: won, then the next level",
        &sliver(NOT_CLEAR - 1),
        plain.clone(),
    );
    let open = |black| sliver(black).line(&[(1, 1)]).at((1, 1));
    out.cutter("465 with an open line: not won", &open(NOT_CLEAR + 1), plain[..1].to_vec());
    out.cutter("464 with an open line: won", &open(NOT_CLEAR), plain);
    let lay = sliver(NOT_CLEAR).at((1, 0)).heading(DOWN).peopled(&[(20, 3, 1, 1)]);
    let name = "from 465 a step lays line: won, and creatures still tick";
    out.cutter(name, &lay, vec![pass(MOVER, &[], 0)]);
    let early = vec![pass(STEP - 1, &[], 0), Call::Step, Call::StepEnemies];
    out.cutter("464, no step due: not won; the step call neither", &sliver(464), early);
    let killed = open(NOT_CLEAR - 1).line(&[(2, 1)]).heading(RIGHT);
    let respawned = vec![pass(STEP, &[], 0), pass(0, &[], 0), pass(0, &[], 8)];
    out.cutter("a step that kills wins too: respawn, then the level", &killed, respawned);
    let last = Cutter { lives: 1, ..killed };
    let over = vec![pass(STEP, &[], 0), pass(0, &[10], 0), pass(0, &[], 8)];
    out.cutter("the same with one life left: over", &last, over);
}

/// Both ticks in one pass: the step comes first.
fn both_ticks(out: &mut Corners) {
    let c = drawing(4).peopled(&[(33, 6, -1, -1)]);
    out.cutter(
        "a step lays line before a creature, which then meets it",
        &c,
        vec![pass(MOVER, &[], 0)],
    );
}

fn lives(out: &mut Corners) {
    for lives in [0, 1, 2, 3] {
        let c = Cutter { lives, dead: true, ..drawing(4) };
        let late = vec![pass(MOVER, &[10, 9], 0), pass(0, &[7], 0)];
        out.cutter("dead: one life less, over at none", &c, late);
    }
    let c = Cutter { lives: 0, ..drawing(4).heading(UP) };
    let again = vec![pass(STEP, &[], 0), pass(STEP, &[], 0), pass(2 * STEP, &[], 0)];
    out.cutter("after over a later death is over again", &c, again);
    let c = drawing(4).heading(UP).peopled(&[(9, 9, 1, 1)]);
    out.cutter("a step that kills, and creatures still tick", &c, vec![pass(MOVER, &[], 0)]);
}

fn levels(out: &mut Corners) {
    for level in [1, 15, 16, LAST_LEVEL - 1] {
        let c = Cutter { level, won_level: true, ..drawing(2) };
        let right = draws_for(level + 1);
        let bad =
            vec![pass(MOVER, &[], right - 1), pass(MOVER, &[], right + 1), pass(MOVER, &[], 0)];
        out.cutter("a level due: wrong draws, then right", &c, bad);
        out.go_on(vec![pass(MOVER, &[10, 9], right)]);
    }
    let c = Cutter { level: LAST_LEVEL, won_level: true, ..fresh() };
    let draws = [64, 0, 63].map(|draws| pass(MOVER, &[10], draws));
    out.cutter("a level due at 65,535: 8 before 7", &c, draws.to_vec());
    let c = Cutter { dead: true, ..c };
    let draws = vec![pass(MOVER, &[], 64), pass(MOVER, &[], 0), pass(MOVER, &[], 0)];
    out.cutter("dead and won at 65,535: respawns, then 8", &c, draws);
    let draws = vec![pass(0, &[], 1), pass(0, &[10], 4), pass(0, &[10], 0)];
    out.cutter("draws where none are due, also when quitting", &drawing(2), draws);
    let c = Cutter { dead: true, ..drawing(2) };
    out.cutter("draws on a dead pass", &c, vec![pass(0, &[], 4)]);
}

fn quits(out: &mut Corners) {
    let quit = vec![pass(MOVER, &[9, 10, 7], 0), pass(MOVER, &[10], 0)];
    out.cutter("quitting: the direction stands, no ticks", &drawing(2), quit);
    let ignored = [0, 1, 2, 3, 4, 6, 11, 12, 127, 128, 255];
    let mut each: Vec<_> = ignored.iter().map(|&key| pass(1, &[key], 0)).collect();
    each.push(pass(1, &[[7, 9].as_slice(), &ignored].concat(), 0));
    out.cutter("keys that are ignored, each alone and behind two that aren't", &fresh(), each);
    let each = [5, 8, 7, 9].map(|key| pass(1, &[key], 0)).to_vec();
    out.cutter("each direction key", &fresh(), each);
    out.go_on([UP, RIGHT, DOWN, LEFT].map(Call::Direction).to_vec());
}

/// The nearest reading on each side of each interval, also across the wrap.
fn readings(out: &mut Corners) {
    let c = drawing(2);
    let game = || Game::Cutter(Box::new(c.clone()));
    for mark in [0, 4_294_967_000, u32::MAX] {
        for (name, interval) in [("the step", STEP), ("creatures", MOVER)] {
            let name = format!("nearest readings of {name} from mark {mark} (P14)");
            let at = |add: u32| pass(mark.wrapping_add(add), &[], 0);
            out.paced(&name, game(), Pace::start(mark), vec![at(interval - 1)]);
            out.paced(&name, game(), Pace::start(mark), vec![at(interval)]);
        }
    }
    let back = Pace { first: 1, second: 1 };
    out.paced("a reading before the mark is due", game(), back, vec![pass(0, &[], 0)]);
}

fn pictures(out: &mut Corners) {
    let see = vec![Call::CutterPicture(PICTURE), Call::Ground];
    for lives in 0..4 {
        let c = Cutter { lives, ..drawing(9).peopled(&[(10, 10, 1, 1), (11, 30, 1, 1)]) };
        out.cutter("picture while drawing, with each number of lives", &c, see.clone());
    }
    for place in [(1, 0), (4, 0), (0, 0), (63, 31)] {
        out.cutter("picture with the player over the pips", &fresh().at(place), see.clone());
    }
    for black in [1860, 1859, 1842, 1841, 465, 464, 18, 1, 0] {
        let mut c = fresh().peopled(&[]);
        sliver(&mut c, black);
        out.cutter("ground reports on each side of a hundredth", &c, vec![Call::Ground]);
    }
    for line in [18, 19] {
        let name =
            "ground reports with an open line, which is in no share, and after the line is lost";
        out.cutter(name, &drawing(line), vec![Call::Ground, Call::Respawn, Call::Ground]);
    }
    let close = vec![Call::Ground, Call::Step, Call::Ground];
    out.cutter("ground reports before a closing and after it", &drawing(30), close);
}
