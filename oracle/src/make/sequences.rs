//! Sequences of calls for a trace: each starts from a state of its own.

use super::cutter_play::{CutterPlayer, zigzag};
use super::mine_play::MinePlayer;
use super::readings::{self, ENEMY, GRAVITY, MOVER, STEP};
use super::variations::Variation;
use super::{battery, cutter_states, cutter_variations, mine_states, mine_variations};
use crate::calls::{Call, cutter as public};
use crate::games::{Answer, mine};
use crate::rng::Rng;
use crate::stand_ins::catcard_app::screen::FRAME;
use crate::state::*;
use crate::trace::Trace;

const PLAY_TURNS: usize = 300;
const STATE_CALLS: usize = 20;
const PICTURE: u16 = FRAME as u16;
const KINDS: usize = 8;

/// A trace that the first sequence can start from.
pub fn start() -> Trace {
    let game = Game::Mine(Box::new(mine::load()));
    Trace::new(State { game, pace: Pace::default() })
}

/// Writes sequence `index` of `seed`.
pub fn sequence(trace: &mut Trace, seed: u64, index: usize) {
    let rng = &mut Rng::new(Rng::new(seed).word() ^ index as u64);
    match index % KINDS {
        0 => play_mine(trace, rng),
        1 => play_cutter(trace, rng),
        2 | 3 => try_mine(trace, rng),
        4 | 5 => try_cutter(trace, rng),
        6 => spoil_mine(trace, rng),
        _ => spoil_cutter(trace, rng),
    }
}

fn current_mine(trace: &Trace) -> &Mine {
    match &trace.state().game {
        Game::Mine(m) => m,
        Game::Cutter(_) => panic!("a Mine sequence"),
    }
}

fn current_cutter(trace: &Trace) -> &Cutter {
    match &trace.state().game {
        Game::Cutter(c) => c,
        Game::Mine(_) => panic!("a Cutter sequence"),
    }
}

/// A round from the loaded mine to its end and a little beyond.
fn play_mine(trace: &mut Trace, rng: &mut Rng) {
    let mut time = rng.word() as u32;
    trace.call(Call::Load);
    trace.call(Call::Start(time));
    let player = MinePlayer::new(rng);
    let by_pass = rng.one_in(2);
    let (gravity, enemies) = (rng.pick(&[1, 2, 4, 10]), rng.pick(&[2, 3, 10, 40]));
    let mut beyond = 5;
    for turn in 1..=PLAY_TURNS {
        let command = player.command(current_mine(trace), rng);
        if by_pass {
            time = time.wrapping_add(rng.pick(&[GRAVITY, ENEMY]) / gravity + 1);
            let keys = vec![KEYS[usize::from(command)]];
            trace.call(Call::MinePass { time, keys });
        } else {
            trace.call(Call::Move(command));
            if turn % gravity as usize == 0 {
                trace.call(Call::Gravity);
            }
            if turn % enemies == 0 {
                trace.call(Call::MoveEnemies);
            }
        }
        if rng.one_in(40) {
            trace.call(Call::MinePicture(PICTURE));
        }
        let m = current_mine(trace);
        beyond -= i32::from(m.dead || m.won);
        if beyond == 0 {
            break;
        }
    }
}

/// A round of Cutter, by passes or by the calls themselves; some start with a zigzag.
fn play_cutter(trace: &mut Trace, rng: &mut Rng) {
    let mut time = rng.word() as u32;
    trace.call(Call::NewRound(cutter_states::draws(1, rng)));
    trace.call(Call::Start(time));
    if rng.one_in(4) {
        draw_zigzag(trace, rng);
    }
    let player = CutterPlayer::new(rng);
    let by_pass = rng.one_in(2);
    let enemies = rng.pick(&[1, 2, 5, 50]);
    for turn in 1..=PLAY_TURNS {
        let c = current_cutter(trace);
        let command = player.command(c, rng);
        if by_pass {
            time = time.wrapping_add(rng.pick(&[STEP, STEP, STEP + 1, STEP / 2, MOVER]));
            let due = public::level_due(c);
            let draws = if due { cutter_states::draws(c.level + 1, rng) } else { Vec::new() };
            let keys = command.map(|dir| KEYS[usize::from(dir)]).into_iter().collect();
            if trace.call(Call::CutterPass { time, keys, draws }).answer == Answer::Over {
                break;
            }
        } else {
            if c.dead {
                // Only a pass clears the flag.
                trace.call(Call::Respawn);
                trace.call(Call::CutterPass { time, keys: Vec::new(), draws: Vec::new() });
            }
            if let Some(dir) = command {
                trace.call(Call::Direction(dir));
            }
            trace.call_both_ways(Call::Step);
            if turn % enemies == 0 {
                trace.call(Call::StepEnemies);
            }
        }
        if rng.one_in(40) {
            trace.call(Call::Ground);
            trace.call(Call::CutterPicture(PICTURE));
        }
    }
}

/// From the start along the border to the corner, then pockets by the dozen.
fn draw_zigzag(trace: &mut Trace, rng: &mut Rng) {
    let mut way = vec![LEFT; CW / 2 - 1];
    way.extend(zigzag(1 + rng.below(3)));
    for dir in way {
        trace.call(Call::Direction(dir));
        trace.call_both_ways(Call::Step);
    }
}

fn try_mine(trace: &mut Trace, rng: &mut Rng) {
    let game = Game::Mine(Box::new(mine_states::state(rng)));
    trace.set(State { game, pace: readings::pace(rng) });
    for _ in 0..STATE_CALLS {
        let call = mine_states::call(current_mine(trace), &trace.state().pace, rng);
        trace.call(call);
    }
}

fn try_cutter(trace: &mut Trace, rng: &mut Rng) {
    let game = Game::Cutter(Box::new(cutter_states::state(rng)));
    trace.set(State { game, pace: readings::pace(rng) });
    for _ in 0..STATE_CALLS {
        let next = cutter_states::call(current_cutter(trace), &trace.state().pace, rng);
        trace.call_both_ways(next);
    }
}

/// One to three things changed at once.
fn spoil<S: 'static>(state: &mut S, variations: &[Variation<S>], rng: &mut Rng) {
    for _ in 0..1 + rng.below(3) {
        variations[rng.below(variations.len())].apply(state);
    }
}

fn spoil_mine(trace: &mut Trace, rng: &mut Rng) {
    let mut m = if rng.one_in(2) { mine_variations::base() } else { mine_states::state(rng) };
    spoil(&mut m, &mine_variations::variations(), rng);
    let pace = readings::pace(rng);
    let calls = battery::mine(&pace, PICTURE);
    trace.set(State { game: Game::Mine(Box::new(m)), pace });
    calls.into_iter().for_each(|call| {
        trace.call(call);
    });
}

fn spoil_cutter(trace: &mut Trace, rng: &mut Rng) {
    let (mut c, variations) = match rng.below(3) {
        0 => (cutter_variations::base(), cutter_variations::variations()),
        1 => (cutter_variations::drawing(), cutter_variations::drawing_variations()),
        _ => (cutter_states::state(rng), cutter_variations::variations()),
    };
    spoil(&mut c, &variations, rng);
    let pace = readings::pace(rng);
    let calls = battery::cutter(&c, &pace, PICTURE);
    trace.set(State { game: Game::Cutter(Box::new(c)), pace });
    calls.into_iter().for_each(|call| {
        trace.call_both_ways(call);
    });
}
