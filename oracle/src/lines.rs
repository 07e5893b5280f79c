//! What the programs `mines`, `cuts` and `trainer` do with their input, byte by byte, and the
//! picture as text.

use std::env;
use std::io::{self, Read, Write};

use crate::games::{cutter, mine};
use crate::stand_ins::catcard_app::screen::{FRAME, HEIGHT, WIDTH};
use crate::state::{BLACK, CLAIMED, Cutter, DOWN, LEFT, LINE, Mine, RIGHT, UP};
use crate::trainer::lesson;

/// Parts scripts that each run from the start; no script uses it.
pub const SEPARATOR: u8 = b'|';
const REFUSED: &str = "refused 5\n";
/// One creature at (10,10), velocity (1,1).
const CUTS_DRAWS: [u8; 4] = [9, 9, 1, 1];

#[derive(Clone, Copy, Debug, PartialEq, Eq)]
pub enum Program {
    Mines,
    Cuts,
    Trainer,
}

impl Program {
    /// The lines that `script` prints, from the start.
    pub fn lines(self, script: &[u8]) -> String {
        match self {
            Program::Mines => play(mine_start(), script, mine_byte, mine_line).1,
            Program::Cuts => play(cuts_start(), script, cuts_byte, cuts_line).1,
            Program::Trainer => {
                play((cuts_start(), String::new()), script, trainer_byte, trainer_line).1
            }
        }
    }

    /// The lines of each script in turn, one output behind the other.
    pub fn cases(self, scripts: &[u8]) -> String {
        let each = scripts.split(|&byte| byte == SEPARATOR);
        each.map(|script| self.lines(script)).collect()
    }

    /// The frame after `script`.
    pub fn frame(self, script: &[u8]) -> [u8; FRAME] {
        match self {
            Program::Mines => mine::render(&mines_end(script)).0,
            Program::Cuts | Program::Trainer => cutter::render(&cuts_end(script)),
        }
    }
}

/// The state that `mines` ends in.
pub fn mines_end(script: &[u8]) -> Mine {
    play(mine_start(), script, mine_byte, mine_line).0
}

/// The state that `cuts` ends in.
pub fn cuts_end(script: &[u8]) -> Cutter {
    play(cuts_start(), script, cuts_byte, cuts_line).0
}

fn mine_start() -> Mine {
    mine::load()
}

fn cuts_start() -> Cutter {
    cutter::new_round(&CUTS_DRAWS)
}

/// A line for each byte but newlines; `act` tells whether it knows the byte.
fn play<S>(
    mut state: S,
    script: &[u8],
    act: fn(&mut S, u8) -> bool,
    line: fn(&S) -> String,
) -> (S, String) {
    let mut out = String::new();
    for &byte in script.iter().filter(|&&byte| byte != b'\n') {
        if act(&mut state, byte) {
            out += &line(&state);
        } else {
            out += REFUSED;
        }
    }
    (state, out)
}

fn command(byte: u8) -> Option<u8> {
    match byte {
        b'5' => Some(UP),
        b'8' => Some(DOWN),
        b'7' => Some(LEFT),
        b'9' => Some(RIGHT),
        _ => None,
    }
}

/// What `mines` does with a byte; false for one it doesn't know.
pub fn mine_byte(m: &mut Mine, byte: u8) -> bool {
    match (byte, command(byte)) {
        (_, Some(dir)) => mine::step_player(m, dir),
        (b'L', _) => *m = mine::load(),
        (b'g', _) => mine::gravity(m),
        (b'c', _) => mine::move_enemies(m),
        _ => return false,
    }
    true
}

fn mine_line(m: &Mine) -> String {
    let flags = (u8::from(m.dead), u8::from(m.won));
    format!("{} {} {} {} {} {} {}\n", m.px, m.py, m.coins, m.needed, m.count, flags.0, flags.1)
}

/// What `cuts` does with a byte; false for one it doesn't know.
pub fn cuts_byte(c: &mut Cutter, byte: u8) -> bool {
    match (byte, command(byte)) {
        (_, Some(dir)) => cutter::direction(c, dir),
        (b's', _) => cutter::step_player(c),
        (b'e', _) => cutter::step_enemies(c),
        (b'r', _) => cutter::respawn(c),
        _ => return false,
    }
    true
}

fn cuts_line(c: &Cutter) -> String {
    let [black, claimed, line] = [BLACK, CLAIMED, LINE].map(|code| c.count_of(code));
    format!("{} {} {black} {claimed} {line} {} {}\n", c.px, c.py, c.count, u8::from(c.dead))
}

/// A game, and what its last byte taught.
type Taught = (Cutter, String);

fn trainer_byte((c, taught): &mut Taught, byte: u8) -> bool {
    *taught = if byte == b's' { lesson(c) } else { String::new() };
    cuts_byte(c, byte)
}

fn trainer_line((c, taught): &Taught) -> String {
    [taught.as_str(), &cuts_line(c)].concat()
}

/// A frame as text: 32 lines of 128 columns, two rows of pixels to a line.
pub fn text(frame: &[u8; FRAME]) -> String {
    let lit = |x: usize, y: usize| frame[y / 8 * WIDTH + x] >> (y % 8) & 1 == 1;
    let block = |x, y| match (lit(x, y), lit(x, y + 1)) {
        (false, false) => ' ',
        (true, false) => '▀',
        (false, true) => '▄',
        (true, true) => '█',
    };
    let line = |y| (0..WIDTH).map(move |x| block(x, y)).chain(['\n']);
    (0..HEIGHT).step_by(2).flat_map(line).collect()
}

/// The whole program, from standard input to standard output.
pub fn run(program: Program) -> io::Result<()> {
    let out = match env::args().nth(1).as_deref() {
        None => program.lines(&read_input()?),
        Some("--cases") => program.cases(&read_input()?),
        Some(_) => return Err(io::Error::other("usage: [--cases] < commands")),
    };
    io::stdout().write_all(out.as_bytes())
}

pub fn read_input() -> io::Result<Vec<u8>> {
    let mut input = Vec::new();
    io::stdin().read_to_end(&mut input)?;
    Ok(input)
}
