//! The public calls of documents 01 and 02 on a current state: refused by [`check`], answered by
//! the original. The question, the page, the ground report and the start of the record are not
//! in the original and are written from document 01, the question's number from document 02 (iii),
//! the cells that searches take from document 02 (x).
//!
//! [`check`]: crate::check

pub mod cutter;
pub mod mine;

use crate::bytes::Field;
use crate::check::{NONE, Refusal};
use crate::costs::{self, Cost};
use crate::games::Answer;
use crate::stand_ins::catcard_app::screen::{FRAME, STALE, WIDTH};
use crate::state::{Cutter, Enemy, Game, Mine, Mover, Pace, State};

#[derive(Clone, Debug, PartialEq, Eq)]
pub enum Call {
    Load,
    Move(u8),
    Gravity,
    MoveEnemies,
    MinePass { time: u32, keys: Vec<u8> },
    MinePicture(u16),
    MineWho { x: usize, y: usize, list: Vec<Enemy> },
    NewRound(Vec<u8>),
    Direction(u8),
    Step,
    StepBySweeps,
    StepEnemies,
    Respawn,
    NewLevel(Vec<u8>),
    CutterPass { time: u32, keys: Vec<u8>, draws: Vec<u8> },
    CutterPicture(u16),
    Ground,
    CutterWho { x: usize, y: usize, list: Vec<Mover> },
    Start(u32),
    Page { number: usize, frame: Vec<u8> },
}

/// What a call gives besides the state and the record.
#[derive(Clone, Debug, PartialEq, Eq)]
pub struct Outcome {
    pub refusal: Refusal,
    pub answer: Answer,
    pub result: Vec<u8>,
}

impl Outcome {
    fn new(answer: Result<Answer, Refusal>, result: Vec<u8>) -> Self {
        Outcome {
            refusal: answer.err().unwrap_or(NONE),
            answer: answer.unwrap_or(Answer::GoingOn),
            result,
        }
    }

    fn done(done: Result<(), Refusal>) -> Self {
        Self::new(done.map(|()| Answer::GoingOn), Vec::new())
    }

    fn read(result: Vec<u8>) -> Self {
        Self::new(Ok(Answer::GoingOn), result)
    }

    /// With the cells that the call's searches took; zeros where it was refused.
    fn costing(self, cost: impl FnOnce() -> Cost) -> Self {
        let cost = if self.refusal == NONE { cost() } else { Cost::default() };
        let mut result = Vec::new();
        cost.put(&mut result);
        Outcome { result, ..self }
    }

    /// A picture into a lent frame of this length.
    fn picture(length: u16, render: impl FnOnce(&mut [u8]) -> Result<(), Refusal>) -> Self {
        let mut frame = vec![STALE; usize::from(length)];
        let done = render(&mut frame);
        Outcome { result: frame, ..Self::done(done) }
    }
}

impl State {
    /// Makes a call; `None` where it belongs to the other game.
    pub fn make(&mut self, call: &Call) -> Option<Outcome> {
        Some(match call {
            Call::Load => {
                self.game = Game::Mine(Box::new(mine::load()));
                Outcome::done(Ok(()))
            }
            Call::NewRound(draws) => Outcome::done(
                cutter::new_round(draws).map(|c| self.game = Game::Cutter(Box::new(c))),
            ),
            Call::MineWho { x, y, list } => found(list, |e| (e.x, e.y) == (*x, *y)),
            Call::CutterWho { x, y, list } => {
                found(list, |e| (usize::from(e.x), usize::from(e.y)) == (*x, *y))
            }
            Call::Start(time) => {
                self.pace = Pace::start(*time);
                Outcome::done(Ok(()))
            }
            Call::Page { number, frame } => Outcome::read(page(frame, *number).to_vec()),
            _ => match &mut self.game {
                Game::Mine(m) => on_mine(m, &mut self.pace, call)?,
                Game::Cutter(c) => on_cutter(c, &mut self.pace, call)?,
            },
        })
    }
}

fn on_mine(m: &mut Mine, pace: &mut Pace, call: &Call) -> Option<Outcome> {
    Some(match call {
        Call::Move(dir) => Outcome::done(mine::step_player(m, *dir)),
        Call::Gravity => Outcome::done(mine::gravity(m)),
        Call::MoveEnemies => Outcome::done(mine::move_enemies(m)),
        Call::MinePass { time, keys } => Outcome::new(mine::pass(m, keys, *time, pace), Vec::new()),
        Call::MinePicture(length) => Outcome::picture(*length, |f| mine::render(m, f)),
        _ => return None,
    })
}

fn on_cutter(c: &mut Cutter, pace: &mut Pace, call: &Call) -> Option<Outcome> {
    let (before, marks) = (c.clone(), *pace);
    Some(match call {
        Call::Direction(dir) => Outcome::done(cutter::direction(c, *dir)),
        // Both ways of closing a cut give the same (tests/sweeps.rs), and one has no queue.
        Call::Step => Outcome::done(cutter::step_player(c)).costing(|| costs::step(&before)),
        Call::StepBySweeps => {
            Outcome::done(cutter::step_player(c)).costing(|| costs::step_by_sweeps(&before))
        }
        Call::StepEnemies => Outcome::done(cutter::step_enemies(c)),
        Call::Respawn => Outcome::done(cutter::respawn(c)).costing(|| costs::respawn(&before)),
        Call::NewLevel(draws) => Outcome::done(cutter::new_level(c, draws)),
        Call::CutterPass { time, keys, draws } => {
            let answer = cutter::pass(c, keys, draws, *time, pace);
            let cost = || costs::pass(&before, keys, *time, &marks);
            Outcome::new(answer, Vec::new()).costing(cost)
        }
        Call::CutterPicture(length) => Outcome::picture(*length, |f| cutter::render(c, f)),
        Call::Ground => {
            let report = cutter::ground_report(c);
            let mut result = Vec::new();
            report.unwrap_or_default().map(|n| n as u16).put(&mut result);
            Outcome { result, ..Outcome::done(report.map(|_| ())) }
        }
        _ => return None,
    })
}

/// The index of the first that is there and the number of all that are, eight bytes each; nothing
/// for nobody.
fn found<T>(list: &[T], is_there: impl Fn(&T) -> bool) -> Outcome {
    let there: Vec<usize> = (0..list.len()).filter(|&i| is_there(&list[i])).collect();
    let mut result = Vec::new();
    if let Some(&first) = there.first() {
        [first, there.len()].put(&mut result);
    }
    Outcome::read(result)
}

/// A page of a whole frame; anything else has the empty part.
pub fn page(frame: &[u8], number: usize) -> &[u8] {
    if frame.len() == FRAME && number < FRAME / WIDTH {
        &frame[number * WIDTH..][..WIDTH]
    } else {
        &[]
    }
}
