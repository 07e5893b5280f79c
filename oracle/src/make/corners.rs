//! The corners: short traces with every call, every refusal and every case that was ever in
//! doubt, each under a name. A program of the gate replays each trace.

use super::variations::{FINE, Variation};
use super::{
    BAD_FRAMES, battery, closing_corners, cutter_corners, cutter_variations, mine_corners,
    mine_variations, question_corners, refusal_corners, sequences,
};
use crate::calls::Call;
use crate::stand_ins::catcard_app::screen::FRAME;
use crate::state::*;
use crate::trace::Trace;

pub const PICTURE: u16 = FRAME as u16;
/// A command that is refused, the last of the refusals before a picture's own.
const BAD_COMMAND: u8 = 4;

/// A trace with a name for each stretch of it.
pub struct Corners {
    pub trace: Trace,
    /// Where not in the trace itself: the steps of it that change the state, made by sweeps, and
    /// one by sweeps from each state with a field at a boundary.
    pub swept: Option<Trace>,
    /// The first entry of each corner, and its name.
    pub names: Vec<(usize, String)>,
}

impl Corners {
    /// Each step has its step by sweeps behind it.
    fn both_ways() -> Self {
        Corners { trace: sequences::start(), swept: None, names: Vec::new() }
    }

    /// Steps by sweeps that change the state are in a trace of their own.
    fn swept_apart() -> Self {
        Corners { swept: Some(sequences::start()), ..Self::both_ways() }
    }

    /// Calls from this state and record.
    pub fn paced(&mut self, name: &str, game: Game, pace: Pace, calls: Vec<Call>) {
        self.names.push((self.trace.entries, name.to_string()));
        self.trace.set(State { game, pace });
        self.go_on(calls);
    }

    pub fn mine(&mut self, name: &str, m: &Mine, calls: Vec<Call>) {
        self.paced(name, Game::Mine(Box::new(m.clone())), Pace::default(), calls);
    }

    pub fn cutter(&mut self, name: &str, c: &Cutter, calls: Vec<Call>) {
        self.paced(name, Game::Cutter(Box::new(c.clone())), Pace::default(), calls);
    }

    pub fn go_on(&mut self, calls: Vec<Call>) {
        for call in calls {
            let before = (call == Call::Step).then(|| self.trace.state().clone());
            self.trace.call(call);
            if let Some(before) = before {
                self.by_sweeps(before);
            }
        }
    }

    /// The step just made, by sweeps: a state that changes takes 4 KB more.
    fn by_sweeps(&mut self, before: State) {
        let changed = *self.trace.state() != before;
        let apart = self.swept.as_mut().filter(|_| changed);
        apart.unwrap_or(&mut self.trace).by_sweeps(before);
    }
}

/// The programs that replay corners, each with its own. One of [`corners`]' traces is for another
/// program, `replay_swept`.
pub fn all() -> [(&'static str, Corners); 3] {
    [("replay", corners()), ("replay_closings", closings()), ("replay_refused", refused())]
}

/// All but those of closings and walks, and of ill-formed states.
pub fn corners() -> Corners {
    let mut out = Corners::swept_apart();
    mine_corners::corners(&mut out);
    cutter_corners::corners(&mut out);
    common(&mut out);
    question_corners::corners(&mut out);
    mine_accepted(&mut out);
    cutter_edges(out.swept.as_mut().expect("a trace apart"));
    out
}

/// Closings and walks.
pub fn closings() -> Corners {
    let mut out = Corners::both_ways();
    closing_corners::corners(&mut out);
    out
}

/// Ill-formed states.
pub fn refused() -> Corners {
    let mut out = Corners::both_ways();
    refusal_corners::corners(&mut out);
    out
}

/// The calls that belong to neither game.
fn common(out: &mut Corners) {
    let mine = mine_variations::base();
    let cutter = cutter_variations::base();
    let pages = [(0, FRAME), (7, FRAME), (8, FRAME), (usize::MAX, FRAME), (1 << 32, FRAME)];
    let short = [(0, 0), (0, 128), (7, FRAME - 1), (7, FRAME + 1)];
    let page = |&(number, length): &(usize, usize)| {
        let frame = (0..length).map(|i| (i / 128 * 16 + i % 16) as u8).collect();
        Call::Page { number, frame }
    };
    out.mine("pages", &mine, pages.iter().chain(&short).map(page).collect());

    let start = [0, u32::MAX, u32::MAX, 4_294_967_000];
    out.mine("start of the record", &mine, start.map(Call::Start).to_vec());

    let frames = BAD_FRAMES;
    out.mine("Mine frames refused", &mine, frames.map(Call::MinePicture).to_vec());
    out.cutter("Cutter frames refused", &cutter, frames.map(Call::CutterPicture).to_vec());
    let commands = [4, 5, 127, 128, 255];
    out.mine("Mine commands refused", &mine, commands.map(Call::Move).to_vec());
    out.cutter("Cutter commands refused", &cutter, commands.map(Call::Direction).to_vec());
}

/// The state that each variation makes of a base, with its name.
pub(super) fn varied<S>(
    base: fn() -> S,
    variations: &[Variation<S>],
) -> impl Iterator<Item = (&str, S)> {
    variations.iter().map(move |v| {
        let mut state = base();
        v.apply(&mut state);
        (v.name.as_str(), state)
    })
}

fn mine_accepted(out: &mut Corners) {
    let mut fine = mine_variations::boundaries();
    fine.retain(|v| v.refusal == FINE);
    let mut made: Vec<Mine> = Vec::new();
    for (name, m) in varied(mine_variations::base, &fine) {
        // Some values are those of the base.
        if !made.contains(&m) {
            out.mine(&format!("Mine accepted: {name}"), &m, vec![Call::Move(BAD_COMMAND)]);
            made.push(m);
        }
    }
}

/// Every variation with a step by sweeps, in the trace of those: a state of Cutter takes 2 KB.
fn cutter_edges(swept: &mut Trace) {
    let base = cutter_variations::boundaries();
    let drawing = cutter_variations::drawing_variations();
    let on_base = varied(cutter_variations::base, &base);
    for (_, c) in on_base.chain(varied(cutter_variations::drawing, &drawing)) {
        swept.by_sweeps(State { game: Game::Cutter(Box::new(c)), pace: Pace::default() });
    }
}

/// Every variation with every call on it, each from the same state.
pub fn edges() -> Trace {
    let mut trace = sequences::start();
    let pace = Pace { first: 4_294_967_000, second: 7 };
    let mut each = |game: Game, calls: Vec<Call>| {
        let state = State { game, pace };
        trace.set(state.clone());
        for call in calls {
            if *trace.state() != state {
                trace.set(state.clone());
            }
            trace.call_both_ways(call);
        }
    };
    for (_, m) in varied(mine_variations::base, &mine_variations::variations()) {
        each(Game::Mine(Box::new(m)), battery::mine(&pace, PICTURE));
    }
    let base = cutter_variations::variations();
    let drawing = cutter_variations::drawing_variations();
    let on_base = varied(cutter_variations::base, &base);
    for (_, c) in on_base.chain(varied(cutter_variations::drawing, &drawing)) {
        let calls = battery::cutter(&c, &pace, PICTURE);
        each(Game::Cutter(Box::new(c)), calls);
    }
    trace
}
