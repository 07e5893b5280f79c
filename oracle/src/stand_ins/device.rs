//! The scripted device: keys, clock readings and draws go in, what the games do with it
//! comes out as a list of events. One device for each thread.

use std::cell::RefCell;
use std::collections::VecDeque;

use super::catcard_app::screen::FRAME;

/// The key that quits; every other number is a digit.
pub const CANCEL: u8 = 10;

/// What one turn of a loop finds: the keys waiting, then the clock.
#[derive(Clone, Debug, Default)]
pub struct Turn {
    pub keys: Vec<u8>,
    pub time: u32,
}

#[derive(Debug, PartialEq, Eq)]
pub enum Event {
    /// A picture drawn, and its texts.
    Picture(Box<[u8; FRAME]>, Vec<String>),
    Message(String),
    /// A draw below this bound was asked for.
    Drawn(u32),
    Rest,
}

#[derive(Default)]
struct Device {
    start: Option<u32>,
    turns: VecDeque<Turn>,
    draws: VecDeque<u8>,
    events: Vec<Event>,
}

thread_local! {
    static DEVICE: RefCell<Device> = RefCell::default();
}

/// Run `play` on a device with this script; gives the events and what was not drawn.
/// Once the turns are used up the quitting key is pressed.
pub fn run(start: u32, turns: &[Turn], draws: &[u8], play: impl FnOnce()) -> (Vec<Event>, usize) {
    DEVICE.set(Device {
        start: Some(start),
        turns: turns.iter().cloned().collect(),
        draws: draws.iter().copied().collect(),
        events: Vec::new(),
    });
    play();
    let used = DEVICE.take();
    (used.events, used.draws.len())
}

pub(super) fn note(event: Event) {
    DEVICE.with_borrow_mut(|d| d.events.push(event));
}

/// The next key of this turn. After a message any key ends the wait; with no turn left the
/// quitting key is held out.
pub(super) fn key() -> Option<u8> {
    DEVICE.with_borrow_mut(|d| {
        if matches!(d.events.last(), Some(Event::Message(_))) {
            return Some(0);
        }
        match d.turns.front_mut() {
            None => Some(CANCEL),
            Some(turn) if turn.keys.is_empty() => None,
            Some(turn) => Some(turn.keys.remove(0)),
        }
    })
}

/// The first reading is the start, each later one ends the turn.
pub(super) fn reading() -> u32 {
    DEVICE.with_borrow_mut(|d| {
        let turn = |d: &mut Device| d.turns.pop_front().expect("a turn for each reading").time;
        d.start.take().unwrap_or_else(|| turn(d))
    })
}

pub(super) fn draw(bound: u32) -> u32 {
    DEVICE.with_borrow_mut(|d| {
        d.events.push(Event::Drawn(bound));
        u32::from(d.draws.pop_front().expect("a draw for each asked for"))
    })
}
