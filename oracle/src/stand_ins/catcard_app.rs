//! `catcard_app`: keys, screen and system calls, answered by the scripted [`device`].
//!
//! [`device`]: super::device

use super::device;

pub enum Key {
    Digit(u8),
    Cancel,
}

pub mod screen {
    use super::device::{self, Event};
    use crate::stand_ins::catcard_ui::canvas::{Canvas, INK, PAPER};

    pub const WIDTH: usize = 128;
    pub const HEIGHT: usize = 64;
    /// Eight pages of 128 bytes; byte x of page p holds rows 8p to 8p+7 of column x, lowest
    /// bit topmost.
    pub const FRAME: usize = WIDTH * HEIGHT / 8;
    /// What a frame holds before it is drawn on.
    pub const STALE: u8 = 165;

    pub enum Font {
        Tiny,
    }

    /// The panel as the module draws on it. Text is kept apart: it lights no pixel.
    pub struct Frame<'a> {
        pixels: &'a mut [u8; FRAME],
        texts: &'a mut Vec<String>,
    }

    impl<'a> Frame<'a> {
        pub fn new(pixels: &'a mut [u8; FRAME], texts: &'a mut Vec<String>) -> Self {
            Frame { pixels, texts }
        }

        pub fn text(&mut self, _font: Font, _x: usize, _y: usize, text: &str) {
            self.texts.push(text.to_string());
        }
    }

    /// The byte and the bit of a pixel. The module draws inside the panel only.
    fn place(x: usize, y: usize) -> (usize, u8) {
        assert!(x < WIDTH && y < HEIGHT, "pixel ({x},{y}) is outside the panel");
        (y / 8 * WIDTH + x, 1 << (y % 8))
    }

    impl Canvas for Frame<'_> {
        fn clear(&mut self) {
            self.pixels.fill(0);
        }

        fn get(&self, x: usize, y: usize) -> u8 {
            let (byte, bit) = place(x, y);
            if self.pixels[byte] & bit != 0 { INK } else { PAPER }
        }

        fn put(&mut self, x: usize, y: usize, value: u8) {
            let (byte, bit) = place(x, y);
            match value {
                INK => self.pixels[byte] |= bit,
                PAPER => self.pixels[byte] &= !bit,
                _ => panic!("{value} is neither INK nor PAPER"),
            }
        }
    }

    pub fn draw(paint: impl FnOnce(&mut Frame<'_>)) {
        let mut pixels = [STALE; FRAME];
        let mut texts = Vec::new();
        paint(&mut Frame::new(&mut pixels, &mut texts));
        device::note(Event::Picture(Box::new(pixels), texts));
    }
}

pub mod sys {
    use super::Key;
    use super::device::{self, Event};

    pub fn key() -> Option<Key> {
        device::key().map(|k| match k {
            device::CANCEL => Key::Cancel,
            digit => Key::Digit(digit),
        })
    }

    /// No key stays pressed here.
    pub fn keys_held() -> u32 {
        0
    }

    pub fn cycles() -> u32 {
        device::reading()
    }

    pub fn below(bound: u32) -> u32 {
        device::draw(bound)
    }

    pub fn sleep_ms(_ms: u32) {
        device::note(Event::Rest);
    }

    pub fn message(head: &str, line: &str, _foot: &str) {
        device::note(Event::Message(format!("{head}: {line}")));
    }
}
