//! What the program `console script WORD` prints: a script of bytes, one to a turn, played over
//! the public calls. The program's own part (keys, head line, draws of a word) is written here
//! from its definitions: crates/console_keys, heads and turns, specs/.

use crate::calls::{cutter, mine};
use crate::check::DRAW_BOUNDS;
use crate::games::Answer;
use crate::lines::{SEPARATOR, text};
use crate::stand_ins::catcard_app::screen::FRAME;
use crate::state::{Cutter, Mine, Pace};

/// Cycles to a turn.
const STEP: u32 = 1_200_000;
const SHOW: u8 = b'=';
const QUIT: u8 = 10;
const NEW: u8 = 11;
const ROUND_DRAWS: usize = 4;

/// Block Mine up to the separator, then Block Cutter, with draws of `word`.
pub fn play(script: &[u8], word: &[u8]) -> String {
    let mut parts = script.splitn(2, |&byte| byte == SEPARATOR);
    let mut part = || parts.next().unwrap_or_default();
    let draws = draws_of(word);
    turns(MineRound::start(&draws, 0), part(), &draws)
        + &turns(CutterRound::start(&draws, 0), part(), &draws)
}

/// 64 draws: the word's bytes, then zeros, each byte's rest by its bound.
fn draws_of(word: &[u8]) -> Vec<u8> {
    let bytes = word.iter().copied().chain(std::iter::repeat(0)).take(64);
    bytes.zip(DRAW_BOUNDS.iter().cycle()).map(|(byte, bound)| byte % bound).collect()
}

/// A round as the console keeps it.
trait Round: Sized {
    fn start(draws: &[u8], time: u32) -> Self;
    fn pass(&mut self, key: u8, draws: &[u8], time: u32) -> Answer;
    fn head(&self) -> String;
    fn frame(&self) -> [u8; FRAME];
}

fn turns<R: Round>(mut round: R, script: &[u8], draws: &[u8]) -> String {
    let (mut out, mut time, mut open, mut ended) = (String::new(), 0u32, Open::Nothing, None);
    for &byte in script {
        if byte == SHOW {
            out += &format!("{}   {}\n", round.head(), standing(ended));
            out += &text(&round.frame());
            continue;
        }
        time = time.wrapping_add(STEP);
        let key = open.key(byte);
        match (ended, key) {
            (None, _) => {
                let answer = round.pass(key, draws, time);
                ended = (answer != Answer::GoingOn).then_some(answer);
            }
            (Some(_), QUIT) => ended = Some(Answer::Quit),
            (Some(_), NEW) => (round, ended) = (R::start(draws, time), None),
            _ => {}
        }
    }
    out
}

fn standing(ended: Option<Answer>) -> String {
    let word = match ended {
        None | Some(Answer::GoingOn) => return "5 8 7 9 or the arrows move, q quits".into(),
        Some(Answer::Quit) => return "quit".into(),
        Some(Answer::Won) => "won",
        Some(Answer::Dead) => "dead",
        Some(Answer::Over) => "over",
    };
    format!("{word}: n plays another round, q quits")
}

/// What the bytes before left open.
enum Open {
    Nothing,
    Escape,
    Sequence,
}

impl Open {
    /// The key of a pass that a byte is, 0 for none.
    fn key(&mut self, byte: u8) -> u8 {
        let key = match (&self, byte) {
            (Open::Sequence, b'A') => 5,
            (Open::Sequence, b'B') => 8,
            (Open::Sequence, b'C') => 9,
            (Open::Sequence, b'D') => 7,
            (Open::Sequence, _) => 0,
            (_, b'5' | b'7' | b'8' | b'9') => byte - b'0',
            (_, b'q' | b'x' | 4) => QUIT,
            (_, b'n') => NEW,
            _ => 0,
        };
        *self = match (&self, byte) {
            (_, 27) => Open::Escape,
            (Open::Escape, b'[' | b'O') | (Open::Sequence, ..64) => Open::Sequence,
            _ => Open::Nothing,
        };
        key
    }
}

struct MineRound(Mine, Pace);

impl Round for MineRound {
    fn start(_: &[u8], time: u32) -> Self {
        MineRound(mine::load(), Pace::start(time))
    }

    fn pass(&mut self, key: u8, _: &[u8], time: u32) -> Answer {
        mine::pass(&mut self.0, &[key], time, &mut self.1).expect("a state in play is well formed")
    }

    fn head(&self) -> String {
        format!("Block Mine   coins {} of {}", self.0.coins, self.0.needed)
    }

    fn frame(&self) -> [u8; FRAME] {
        let mut frame = [0; FRAME];
        mine::render(&self.0, &mut frame).expect("a state in play is well formed");
        frame
    }
}

struct CutterRound(Cutter, Pace);

impl Round for CutterRound {
    fn start(draws: &[u8], time: u32) -> Self {
        let game = cutter::new_round(&draws[..ROUND_DRAWS]).expect("draws are below their bounds");
        CutterRound(game, Pace::start(time))
    }

    fn pass(&mut self, key: u8, draws: &[u8], time: u32) -> Answer {
        let draws = &draws[..cutter::pass_draws(&self.0)];
        cutter::pass(&mut self.0, &[key], draws, time, &mut self.1)
            .expect("a state in play is well formed")
    }

    fn head(&self) -> String {
        let [.., share] = cutter::ground_report(&self.0).expect("a state in play is well formed");
        let Cutter { level, lives, .. } = self.0;
        format!("Block Cutter   level {level}   lives {lives}   share {share} %")
    }

    fn frame(&self) -> [u8; FRAME] {
        let mut frame = [0; FRAME];
        cutter::render(&self.0, &mut frame).expect("a state in play is well formed");
        frame
    }
}
