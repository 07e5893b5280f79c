//! Writes traces: calls with their answers.

use crate::bytes::Field;
use crate::calls::{Call, Outcome};
use crate::check::Refusal;
use crate::state::State;

/// Entry 0 sets the current state.
const SET: u8 = 0;

/// A trace as it grows. It starts from a state given by entry 0.
pub struct Trace {
    /// What was written and not yet taken away.
    pub bytes: Vec<u8>,
    pub entries: usize,
    pub calls: usize,
    state: State,
}

impl Trace {
    pub fn new(state: State) -> Self {
        let mut trace = Trace { bytes: Vec::new(), entries: 0, calls: 0, state: state.clone() };
        trace.set(state);
        trace
    }

    pub fn state(&self) -> &State {
        &self.state
    }

    pub fn set(&mut self, state: State) {
        self.entry([SET, 0, 0], 0, &[], &state.to_bytes(), &[]);
        self.state = state;
    }

    /// Makes a call on the current state and writes it down.
    pub fn call(&mut self, call: Call) -> Outcome {
        let before = self.state.clone();
        let outcome = self.state.make(&call).expect("a call of the current game");
        let changed = self.state != before;
        let after = if changed { self.state.to_bytes() } else { Vec::new() };
        let Refusal { number: refusal, at } = outcome.refusal;
        let head = [number(&call), refusal, outcome.answer as u8];
        self.entry(head, at, &arguments(&call), &after, &outcome.result);
        self.calls += 1;
        outcome
    }

    /// The same; a step is made by sweeps as well, from the same state.
    pub fn call_both_ways(&mut self, call: Call) -> Outcome {
        let before = (call == Call::Step).then(|| self.state.clone());
        let outcome = self.call(call);
        if let Some(before) = before {
            self.by_sweeps(before);
        }
        outcome
    }

    /// A step from this state, by sweeps.
    pub fn by_sweeps(&mut self, before: State) {
        if self.state != before {
            self.set(before);
        }
        self.call(Call::StepBySweeps);
    }

    fn entry(&mut self, head: [u8; 3], at: usize, arguments: &[u8], state: &[u8], result: &[u8]) {
        let length = |part: &[u8]| u16::try_from(part.len()).expect("a part below 64 KiB");
        head.put(&mut self.bytes);
        0u8.put(&mut self.bytes);
        for part in [arguments, state, result] {
            length(part).put(&mut self.bytes);
        }
        u16::try_from(at).unwrap_or(u16::MAX).put(&mut self.bytes);
        for part in [arguments, state, result] {
            self.bytes.extend(part);
        }
        self.entries += 1;
    }
}

fn number(call: &Call) -> u8 {
    match call {
        Call::Load => 1,
        Call::Move(_) => 2,
        Call::Gravity => 3,
        Call::MoveEnemies => 4,
        Call::MinePass { .. } => 5,
        Call::MinePicture(_) => 6,
        Call::MineWho { .. } => 7,
        Call::NewRound(_) => 17,
        Call::Direction(_) => 18,
        Call::Step => 19,
        Call::StepEnemies => 20,
        Call::Respawn => 21,
        Call::NewLevel(_) => 22,
        Call::CutterPass { .. } => 23,
        Call::CutterPicture(_) => 24,
        Call::Ground => 25,
        Call::CutterWho { .. } => 26,
        Call::StepBySweeps => 29,
        Call::Start(_) => 32,
        Call::Page { .. } => 33,
    }
}

fn arguments(call: &Call) -> Vec<u8> {
    let mut out = Vec::new();
    match call {
        Call::Load | Call::Gravity | Call::MoveEnemies => {}
        Call::Step | Call::StepBySweeps | Call::StepEnemies | Call::Respawn | Call::Ground => {}
        Call::Move(dir) | Call::Direction(dir) => dir.put(&mut out),
        Call::MinePass { time, keys } => {
            time.put(&mut out);
            out.extend(keys);
        }
        Call::CutterPass { time, keys, draws } => {
            time.put(&mut out);
            (keys.len() as u16).put(&mut out);
            out.extend(keys);
            out.extend(draws);
        }
        Call::MinePicture(length) | Call::CutterPicture(length) => length.put(&mut out),
        Call::NewRound(draws) | Call::NewLevel(draws) => out.extend(draws),
        Call::MineWho { x, y, list } => {
            [*x, *y].put(&mut out);
            list.iter().for_each(|e| e.put(&mut out));
        }
        Call::CutterWho { x, y, list } => {
            [*x, *y].put(&mut out);
            list.iter().for_each(|e| e.put(&mut out));
        }
        Call::Start(time) => time.put(&mut out),
        Call::Page { number, frame } => {
            number.put(&mut out);
            out.extend(frame);
        }
    }
    out
}
