//! The stand-ins, and the sum that guards the module's text.

#[path = "../build/sha256.rs"]
mod sha256;

use std::fmt::Write;

use oracle::stand_ins::catcard_app::screen::{FRAME, Font, Frame, STALE};
use oracle::stand_ins::catcard_ui::canvas::{Canvas, INK, PAPER};
use oracle::stand_ins::heapless;

#[test]
fn sums_of_known_texts() {
    let empty = "e3b0c44298fc1c149afbf4c8996fb92427ae41e4649b934ca495991b7852b855";
    let abc = "ba7816bf8f01cfea414140de5dae2223b00361a396177a9cb410ff61f20015ad";
    let long = "cdc76e5c9914fb9281a1c7e284d73e67f1809a48a497200e046d39ccc7112cd0";
    assert_eq!(sha256::hex(b""), empty);
    assert_eq!(sha256::hex(b"abc"), abc);
    assert_eq!(sha256::hex(&vec![b'a'; 1_000_000]), long);
}

#[test]
fn the_module_is_built_as_it_is() {
    let built = include_str!(concat!(env!("OUT_DIR"), "/games.rs"));
    let mut turned = 0;
    let mut original = String::new();
    for line in built.lines() {
        let inner =
            line.strip_prefix("// ").filter(|l| l.starts_with("#![") || l.starts_with("//!"));
        turned += usize::from(inner.is_some());
        original += inner.unwrap_or(line);
        original.push('\n');
    }
    let sum = "7660499e8f4cadeb1d9b179e044e3e1d9b9e8fbefb787be3b975f1ba29360b17";
    assert_eq!((sha256::hex(original.as_bytes()).as_str(), turned), (sum, 18));
}

#[test]
fn a_bounded_list() {
    let mut list = heapless::Vec::<u8, 3>::new();
    assert_eq!([1, 2, 3].map(|n| list.push(n)), [Ok(()); 3]);
    assert_eq!((list.push(4), list.capacity(), list.len()), (Err(4), 3, 3));
    assert_eq!((list.swap_remove(0), list[..].to_vec()), (1, vec![3, 2]));
    list.retain(|&n| n == 2);
    assert_eq!(list[..], [2]);
    list.clear();
    assert!(list.is_empty());
}

#[test]
fn a_bounded_text() {
    let mut text = heapless::String::<8>::new();
    assert!(write!(text, "{}/{}", 336, 336).is_ok());
    assert!(write!(text, "xy").is_err());
    assert_eq!(&*text, "336/336");
}

#[test]
fn pixels_and_no_text() {
    let (mut pixels, mut texts) = ([STALE; FRAME], Vec::new());
    let mut frame = Frame::new(&mut pixels, &mut texts);
    frame.clear();
    frame.put(127, 63, INK);
    frame.fill_rect(2, 7, 2, 2, INK);
    frame.put(3, 8, PAPER);
    assert_eq!([frame.get(127, 63), frame.get(3, 8), frame.get(2, 8)], [INK, PAPER, INK]);
    frame.text(Font::Tiny, 1, 1, "BTC");
    let lit: Vec<_> = (0..FRAME).filter(|&i| pixels[i] != 0).map(|i| (i, pixels[i])).collect();
    assert_eq!(lit, [(2, 128), (3, 128), (130, 1), (1023, 128)]);
    assert_eq!(texts, ["BTC"]);
}
