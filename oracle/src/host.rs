//! What `hosts/c/round.c` prints of a script of calls, by the original. That a byte which is
//! no flag is refused is the port's own (docs/DECISIONS.md): here it is written from there, in
//! document 01's order.

use std::fmt::Write;

use crate::bytes::Field;
use crate::calls::{Call, Outcome, page};
use crate::check::{self, CELLS_BAD, NONE, NUMBERS_BAD, Refusal, ensure};
use crate::costs::Cost;
use crate::lines::text;
use crate::state::{Cutter, Game, Mine, Pace, State};

/// The numbers of a line, and those behind its `/`.
struct Numbers {
    list: Vec<u64>,
    draws: Vec<u8>,
}

impl Numbers {
    fn read(words: &str) -> Self {
        let (list, draws) = words.split_once('/').unwrap_or((words, ""));
        let numbers = |words: &str| words.split_whitespace().map(|w| w.parse().unwrap()).collect();
        let draws: Vec<u64> = numbers(draws);
        Numbers { list: numbers(list), draws: low(&draws) }
    }

    fn size(&self, index: usize) -> usize {
        self.list[index] as usize
    }
}

fn low(numbers: &[u64]) -> Vec<u8> {
    numbers.iter().map(|&n| n as u8).collect()
}

/// The lines that `script` prints.
pub fn played(script: &str) -> String {
    let mut state =
        State { game: Game::Mine(Box::new(crate::calls::mine::load())), pace: Pace::default() };
    let mut out = String::new();
    for line in script.lines().filter(|line| !line.starts_with('#')) {
        let (times, call) = match line.split_once(' ') {
            Some((n, call)) if n.parse::<u32>().is_ok() => (n.parse().unwrap(), call),
            _ => (1, line),
        };
        let (name, words) = call.split_once(' ').unwrap_or((call, ""));
        for _ in 0..times {
            out += name;
            play(&mut state, name, &Numbers::read(words), &mut out);
            out.push('\n');
        }
    }
    out
}

fn play(state: &mut State, name: &str, n: &Numbers, out: &mut String) {
    let call = match name {
        "page" => return put(out, &part(n.size(0), n.size(1))),
        "mine_try" | "cutter_try" => {
            put(out, &[tried(state, n)]);
            return put(out, &[1]);
        }
        _ => call_of(state, name, n),
    };
    let before = if let Call::NewRound(_) = call { zeros() } else { state.clone() };
    let outcome = state.make(&call).expect("a call of the current game");
    let after = if outcome.refusal == NONE { &*state } else { &before };
    match call {
        Call::Start(_) => put(out, &[state.pace.first, state.pace.second]),
        Call::Load => put_state(out, after),
        Call::MinePass { .. } | Call::CutterPass { .. } => {
            put(out, &[outcome.refusal]);
            put(out, &[outcome.answer as u8]);
            put_cost(out, after, &outcome);
            put(out, &[after.pace.first, after.pace.second]);
            put_state(out, after);
        }
        Call::MinePicture(_) | Call::CutterPicture(_) => put_frame(out, &outcome),
        Call::MineWho { .. } | Call::CutterWho { .. } => {
            match <[u64; 2]>::take(&mut &outcome.result[..]) {
                Some([index, number]) => put(out, &[1, index, number]),
                None => put(out, &[0, 0]),
            }
        }
        Call::Ground => {
            put(out, &[outcome.refusal]);
            let report = <[u16; 4]>::take(&mut &outcome.result[..]);
            put(out, &report.expect("four numbers"));
        }
        _ => {
            put(out, &[outcome.refusal]);
            put_cost(out, after, &outcome);
            put_state(out, after);
        }
    }
}

/// Of Block Cutter: cells searched and walked, zeros for a call that has no such search.
fn put_cost(out: &mut String, state: &State, outcome: &Outcome) {
    if let Game::Cutter(_) = state.game {
        let Cost { searched, walked } = Cost::take(&mut &outcome.result[..]).unwrap_or_default();
        put(out, &[searched, walked]);
    }
}

fn call_of(state: &State, name: &str, n: &Numbers) -> Call {
    let list = low(&n.list);
    match (name, &state.game) {
        ("start", _) => Call::Start(n.list[0] as u32),
        ("mine_load", _) => Call::Load,
        ("mine_step_player", _) => Call::Move(list[0]),
        ("mine_gravity", _) => Call::Gravity,
        ("mine_move_enemies", _) => Call::MoveEnemies,
        ("mine_pass", _) => Call::MinePass { time: n.list[0] as u32, keys: list[1..].to_vec() },
        ("mine_render", _) => Call::MinePicture(n.list[0] as u16),
        ("mine_who", Game::Mine(m)) => {
            Call::MineWho { x: n.size(0), y: n.size(1), list: m.enemies[..m.count].to_vec() }
        }
        ("cutter_new_round", _) => Call::NewRound(list),
        ("cutter_new_level", _) => Call::NewLevel(list),
        ("cutter_direction", _) => Call::Direction(list[0]),
        ("cutter_step_player", _) => Call::Step,
        ("cutter_step_by_sweeps", _) => Call::StepBySweeps,
        ("cutter_step_enemies", _) => Call::StepEnemies,
        ("cutter_respawn", _) => Call::Respawn,
        ("cutter_pass", _) => {
            let (keys, draws) = (list[1..].to_vec(), n.draws.clone());
            Call::CutterPass { time: n.list[0] as u32, keys, draws }
        }
        ("cutter_render", _) => Call::CutterPicture(n.list[0] as u16),
        ("cutter_ground_report", _) => Call::Ground,
        ("cutter_who", Game::Cutter(c)) => {
            Call::CutterWho { x: n.size(0), y: n.size(1), list: c.enemies[..c.count].to_vec() }
        }
        _ => panic!("no call {name}"),
    }
}

/// The state that a refused new round gives.
fn zeros() -> State {
    State::from_bytes(&[0; State::CUTTER_BYTES]).expect("zeros are a state's bytes")
}

/// Start and length of a page of a frame of so many bytes.
fn part(size: usize, number: usize) -> [usize; 2] {
    let frame = vec![0; size];
    let part = page(&frame, number);
    match part.len() {
        0 => [0, 0],
        length => [part.as_ptr() as usize - frame.as_ptr() as usize, length],
    }
}

/// The refusal of a state with bad fields; every byte has to come back. The first number is a
/// flag of cause 1, the next two are of cause 4.
fn tried(state: &State, n: &Numbers) -> Refusal {
    let own = match &state.game {
        Game::Mine(m) => {
            let mut m = m.clone();
            m.grid[0] = n.list[3] as u8;
            (m.px, m.count, m.needed) = (n.size(4), n.size(5), n.list[6] as u32);
            check::mine(&m)
        }
        Game::Cutter(c) => {
            let mut c = c.clone();
            (c.trailing, c.grid[0]) = (n.list[0] == 1, n.list[3] as u8);
            (c.px, c.count, c.lives) = (n.size(4), n.size(5), n.list[6] as u32);
            check::cutter(&c)
        }
    };
    let flags = |from: usize, to: usize| n.list[from..to].iter().all(|&byte| byte <= 1);
    let refusal = ensure(flags(0, 1), CELLS_BAD)
        .and(own.or_else(|no| ensure(no == NUMBERS_BAD, no)))
        .and(ensure(flags(1, 3), NUMBERS_BAD))
        .and(own);
    refusal.expect_err("the script tries bad states alone")
}

fn put<T: ToString>(out: &mut String, numbers: &[T]) {
    numbers.iter().for_each(|n| write!(out, " {}", n.to_string()).unwrap());
}

fn put_state(out: &mut String, state: &State) {
    let mut bytes = Vec::new();
    match &state.game {
        Game::Mine(m) => {
            let Mine { px, py, coins, needed, count, dead, won, .. } = **m;
            write!(out, " {px} {py} {coins} {needed} {count} {} {}", dead as u8, won as u8)
                .unwrap();
            m.put(&mut bytes);
        }
        Game::Cutter(c) => {
            let Cutter { px, py, dx, dy, count, level, lives, .. } = **c;
            let [trailing, dead, won] = [c.trailing, c.dead, c.won_level].map(u8::from);
            write!(out, " {px} {py} {dx} {dy} {trailing} {count} {level} {lives} {dead} {won}")
                .unwrap();
            c.put(&mut bytes);
        }
    }
    put(out, &[sum(&bytes)]);
}

fn put_frame(out: &mut String, outcome: &Outcome) {
    put(out, &[outcome.refusal]);
    put(out, &[sum(&outcome.result)]);
    if outcome.refusal == NONE {
        let frame = outcome.result[..].try_into().expect("a whole frame");
        write!(out, "\n{}", text(frame).trim_end_matches('\n')).unwrap();
    }
}

/// FNV-1a, 64 bits.
fn sum(bytes: &[u8]) -> u64 {
    let step = |sum: u64, &byte: &u8| (sum ^ u64::from(byte)).wrapping_mul(1_099_511_628_211);
    bytes.iter().fold(14_695_981_039_346_656_037, step)
}
