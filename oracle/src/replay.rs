//! Reads traces and replays them against the original.

use std::fmt;
use std::io::{self, Read};

use crate::bytes::{Field, take_all};
use crate::calls::{Call, Outcome};
use crate::state::State;

const HEADER: usize = 12;
const RECORD: usize = 8;

/// One entry as it stands in the trace.
struct Entry {
    call: u8,
    refusal: u8,
    at: u16,
    answer: u8,
    arguments: Vec<u8>,
    state: Vec<u8>,
    result: Vec<u8>,
}

impl Entry {
    fn length(&self) -> usize {
        HEADER + self.arguments.len() + self.state.len() + self.result.len()
    }
}

/// The part of an entry that differs, with the first byte where it has several.
#[derive(Clone, Copy, Debug, PartialEq, Eq)]
pub enum Part {
    Unreadable,
    Refusal,
    Place,
    Answer,
    State(usize),
    Record(usize),
    Result(usize),
}

impl fmt::Display for Part {
    fn fmt(&self, f: &mut fmt::Formatter<'_>) -> fmt::Result {
        match self {
            Part::Unreadable => write!(f, "cannot be read"),
            Part::Refusal => write!(f, "refusal differs"),
            Part::Place => write!(f, "place differs"),
            Part::Answer => write!(f, "answer differs"),
            Part::State(byte) => write!(f, "state differs at byte {byte}"),
            Part::Record(byte) => write!(f, "record differs at byte {byte}"),
            Part::Result(byte) => write!(f, "result differs at byte {byte}"),
        }
    }
}

#[derive(Clone, Copy, Debug, PartialEq, Eq)]
pub struct Difference {
    pub entry: usize,
    pub offset: usize,
    pub call: u8,
    pub part: Part,
}

#[derive(Clone, Debug, Default, PartialEq, Eq)]
pub struct Report {
    pub entries: usize,
    pub calls: usize,
    pub differ: usize,
    pub first: Option<Difference>,
}

impl fmt::Display for Difference {
    fn fmt(&self, f: &mut fmt::Formatter<'_>) -> fmt::Result {
        write!(f, "entry {} at {}, call {}: {}", self.entry, self.offset, self.call, self.part)
    }
}

impl fmt::Display for Report {
    fn fmt(&self, f: &mut fmt::Formatter<'_>) -> fmt::Result {
        if self.entries == 0 {
            return writeln!(f, "no entry: the input is empty or can't be read");
        }
        if let Some(d) = self.first {
            writeln!(f, "{d}")?;
        }
        writeln!(f, "{} calls, {} differ", self.calls, self.differ)
    }
}

/// Replays a whole trace; an entry that can't be read ends the run.
pub fn replay(input: impl Read) -> io::Result<Report> {
    replay_seen(input, |_| {})
}

/// A call as it was replayed.
pub struct Seen<'a> {
    pub entry: usize,
    pub call: &'a Call,
    pub outcome: &'a Outcome,
    pub before: &'a State,
    pub after: &'a State,
}

/// The same, showing each call.
pub fn replay_seen(input: impl Read, see: impl FnMut(Seen)) -> io::Result<Report> {
    run(input, see, |_| {})
}

/// The same, telling each difference.
pub fn replay_each(input: impl Read, tell: impl FnMut(Difference)) -> io::Result<Report> {
    run(input, |_| {}, tell)
}

fn run(
    mut input: impl Read,
    mut see: impl FnMut(Seen),
    mut tell: impl FnMut(Difference),
) -> io::Result<Report> {
    let mut report = Report::default();
    let mut state = None;
    let mut offset = 0;
    for number in 0.. {
        let header = take(&mut input, HEADER)?;
        let Some(&call) = header.first() else { break };
        report.entries += 1;
        let entry = read_entry(&header, &mut input)?;
        report.calls += usize::from(call != 0 && entry.is_some());

        let differs = match &entry {
            Some(entry) => replay_entry(number, entry, &mut state, &mut see),
            None => Err(Part::Unreadable),
        };
        if let Err(part) = differs {
            let difference = Difference { entry: number, offset, call, part };
            report.differ += 1;
            report.first.get_or_insert(difference);
            tell(difference);
        }
        if differs == Err(Part::Unreadable) {
            break;
        }
        offset += entry.map_or(0, |entry| entry.length());
    }
    Ok(report)
}

/// Up to `length` bytes, fewer at the end of the input.
fn take(input: &mut impl Read, length: usize) -> io::Result<Vec<u8>> {
    let mut bytes = Vec::with_capacity(length);
    input.take(length as u64).read_to_end(&mut bytes)?;
    Ok(bytes)
}

/// The entry with this header; `None` where the input ends early or the reserved byte is set.
fn read_entry(header: &[u8], input: &mut impl Read) -> io::Result<Option<Entry>> {
    let &[call, refusal, answer, 0, a, b, c, d, e, f, g, h] = header else {
        return Ok(None);
    };
    let at = u16::from_le_bytes([g, h]);
    let mut part = |low, high| {
        let length = usize::from(u16::from_le_bytes([low, high]));
        take(input, length).map(|bytes| (bytes.len() == length).then_some(bytes))
    };
    let (arguments, state, result) = (part(a, b)?, part(c, d)?, part(e, f)?);
    let (Some(arguments), Some(state), Some(result)) = (arguments, state, result) else {
        return Ok(None);
    };
    Ok(Some(Entry { call, refusal, at, answer, arguments, state, result }))
}

/// Makes the entry's call on the current state, which becomes the trace's, and compares.
fn replay_entry(
    number: usize,
    entry: &Entry,
    current: &mut Option<State>,
    see: &mut impl FnMut(Seen),
) -> Result<(), Part> {
    let given = match entry.state.as_slice() {
        [] => None,
        bytes => Some(State::from_bytes(bytes).ok_or(Part::Unreadable)?),
    };
    if entry.call == 0 {
        let bare = (entry.refusal, entry.at, entry.answer) == (0, 0, 0);
        let alone = entry.arguments.is_empty() && entry.result.is_empty();
        *current = (bare && alone).then_some(given).flatten();
        return current.as_ref().map(|_| ()).ok_or(Part::Unreadable);
    }
    let call = call(entry.call, &entry.arguments).ok_or(Part::Unreadable)?;
    let before = current.clone().ok_or(Part::Unreadable)?;
    let mut after = before.clone();
    let outcome = after.make(&call).ok_or(Part::Unreadable)?;
    see(Seen { entry: number, call: &call, outcome: &outcome, before: &before, after: &after });
    let differs = compare(entry, &outcome, &before, &after);
    *current = Some(given.unwrap_or(before));
    differs
}

fn compare(entry: &Entry, ours: &Outcome, before: &State, after: &State) -> Result<(), Part> {
    if entry.refusal != ours.refusal.number {
        return Err(Part::Refusal);
    }
    // A place that two bytes don't hold is written as their last number.
    if usize::from(entry.at) != ours.refusal.at.min(65_535) {
        return Err(Part::Place);
    }
    if entry.answer != ours.answer as u8 {
        return Err(Part::Answer);
    }
    // No state stands for an unchanged one, and an unchanged one is not written.
    let (before, after) = (before.to_bytes(), after.to_bytes());
    let theirs = if entry.state.is_empty() { &before } else { &entry.state };
    if let Some(byte) = first_difference(theirs, &after) {
        let record = after.len() - RECORD;
        return Err(match byte.checked_sub(record) {
            None => Part::State(byte),
            Some(byte) => Part::Record(byte),
        });
    }
    if entry.state == before {
        return Err(Part::State(0));
    }
    match first_difference(&entry.result, &ours.result) {
        Some(byte) => Err(Part::Result(byte)),
        None => Ok(()),
    }
}

/// The first place where two runs of bytes differ; the shorter's end where it is cut off.
fn first_difference(a: &[u8], b: &[u8]) -> Option<usize> {
    let at = a.iter().zip(b).position(|(x, y)| x != y);
    at.or_else(|| (a.len() != b.len()).then_some(a.len().min(b.len())))
}

fn call(number: u8, arguments: &[u8]) -> Option<Call> {
    let from = &mut &*arguments;
    let call = match number {
        1 => Call::Load,
        2 => Call::Move(u8::take(from)?),
        3 => Call::Gravity,
        4 => Call::MoveEnemies,
        5 => Call::MinePass { time: u32::take(from)?, keys: rest(from)? },
        6 => Call::MinePicture(u16::take(from)?),
        7 => Call::MineWho { x: usize::take(from)?, y: usize::take(from)?, list: rest(from)? },
        17 => Call::NewRound(rest(from)?),
        18 => Call::Direction(u8::take(from)?),
        19 => Call::Step,
        20 => Call::StepEnemies,
        21 => Call::Respawn,
        22 => Call::NewLevel(rest(from)?),
        23 => {
            let time = u32::take(from)?;
            let number = usize::from(u16::take(from)?);
            let (keys, draws) = from.split_at_checked(number)?;
            *from = &[];
            Call::CutterPass { time, keys: keys.to_vec(), draws: draws.to_vec() }
        }
        24 => Call::CutterPicture(u16::take(from)?),
        25 => Call::Ground,
        26 => Call::CutterWho { x: usize::take(from)?, y: usize::take(from)?, list: rest(from)? },
        29 => Call::StepBySweeps,
        32 => Call::Start(u32::take(from)?),
        33 => Call::Page { number: usize::take(from)?, frame: rest(from)? },
        _ => return None,
    };
    from.is_empty().then_some(call)
}

/// What is left, as values to its end.
fn rest<T: Field>(from: &mut &[u8]) -> Option<Vec<T>> {
    take_all(std::mem::take(from))
}
