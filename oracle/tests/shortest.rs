//! The scripts that docs/DIFFERENCES.md calls shortest are: every shorter one is tried.

use std::collections::HashSet;
use std::hash::{DefaultHasher, Hash, Hasher};

use oracle::bytes::Field;
use oracle::lines::{cuts_byte, cuts_end, mine_byte, mines_end};
use oracle::state::*;

/// A script, and what its last byte shows of the states before and after.
type Shown<S> = (&'static str, fn(&S, u8, &S) -> bool);

/// Tries all scripts in order of length, each state once, up to the longest that is claimed.
fn all_are_shortest<S: Clone>(
    start: S,
    bytes: &[u8],
    act: fn(&mut S, u8),
    key: fn(&S) -> Vec<u8>,
    shown: &[Shown<S>],
) {
    let hash = |state: &S| {
        let mut hasher = DefaultHasher::new();
        key(state).hash(&mut hasher);
        hasher.finish()
    };
    let longest = shown.iter().map(|(script, _)| script.len()).max().unwrap_or(0);
    let mut lengths = vec![None; shown.len()];
    let mut seen = HashSet::from([hash(&start)]);
    let mut states = vec![start.clone()];
    for length in 1..=longest {
        let mut next = Vec::new();
        for before in &states {
            for &byte in bytes {
                let mut after = before.clone();
                act(&mut after, byte);
                for (found, (_, shows)) in lengths.iter_mut().zip(shown) {
                    if found.is_none() && shows(before, byte, &after) {
                        *found = Some(length);
                    }
                }
                if seen.insert(hash(&after)) {
                    next.push(after);
                }
            }
        }
        states = next;
    }
    for ((script, shows), found) in shown.iter().zip(lengths) {
        assert_eq!(found, Some(script.len()), "{script}");
        let (&last, before) = script.as_bytes().split_last().expect("a byte");
        let mut state = start.clone();
        before.iter().for_each(|&byte| act(&mut state, byte));
        let was = state.clone();
        act(&mut state, last);
        assert!(shows(&was, last, &state), "{script}");
    }
}

/// A mine, and the marked cell that a boulder was pushed onto since the last gravity.
type Pushed = (Mine, Option<usize>);

fn mine_act((m, onto): &mut Pushed, byte: u8) {
    let before = m.clone();
    mine_byte(m, byte);
    let cell = m.py * W + m.px;
    if byte == b'g' {
        *onto = None;
    } else if m.px != before.px && before.grid[cell] == BOULDER {
        let beyond = if m.px > before.px { cell + 1 } else { cell - 1 };
        *onto = before.falling[beyond].then_some(beyond);
    }
}

fn mine_key((m, onto): &Pushed) -> Vec<u8> {
    let mut key = Vec::new();
    m.put(&mut key);
    onto.unwrap_or(CELLS).put(&mut key);
    key
}

fn round(code: u8) -> bool {
    code == BOULDER || code == COIN
}

/// Whether an object that lay on a round one is gone from a cell, both cells to that side
/// having been free, and `then` holds of the cell.
fn rolled(b: &Mine, a: &Mine, side: isize, then: impl Fn(usize) -> bool) -> bool {
    let free = |i: usize| b.grid[i.wrapping_add_signed(side)] == EMPTY;
    (1..CELLS - W - 1).any(|i| {
        let gone = round(b.grid[i]) && round(b.grid[i + W]) && a.grid[i] == EMPTY;
        gone && a.grid[i + W] == b.grid[i + W] && free(i) && free(i + W) && then(i)
    })
}

#[test]
fn scripts_of_mines() {
    let shown: [Shown<Pushed>; 7] = [
        // An unmarked object falls and is marked.
        ("88897g", |(b, _), k, (a, _)| k == b'g' && a.falling != b.falling),
        // The mark of a coin walked into stays.
        ("88897g9", |(b, _), _, (a, _)| a.coins > b.coins && a.falling[a.py * W + a.px]),
        // A marked boulder is pushed.
        ("88999g7", |(b, _), k, (a, _)| {
            let cell = a.py * W + a.px;
            k != b'g' && a.px != b.px && b.grid[cell] == BOULDER && b.falling[cell]
        }),
        // A dead player moves.
        ("88998gg7", |(b, _), _, (a, _)| b.dead && (a.px, a.py) != (b.px, b.py)),
        // A roll to the left, which stays beside for this tick.
        ("8889599gg", |(b, _), k, (a, _)| k == b'g' && rolled(b, a, -1, |i| round(a.grid[i - 1]))),
        // A roll to the right and down in one tick.
        ("9978899ggg78g", |(b, _), k, (a, _)| {
            let down = |i: usize| round(a.grid[i + 1 + W]) && a.grid[i + 1] == EMPTY;
            k == b'g' && rolled(b, a, 1, down)
        }),
        // A boulder pushed onto a leftover mark kills without having fallen.
        ("88999g75778989g", |(b, onto), k, (a, _)| {
            k == b'g' && a.dead && !b.dead && *onto == Some((b.py - 1) * W + b.px)
        }),
    ];
    all_are_shortest((mines_end(b""), None), b"5879gc", mine_act, mine_key, &shown);
}

fn closes(b: &Cutter, byte: u8, a: &Cutter) -> bool {
    byte == b's' && b.trailing && !a.trailing
}

#[test]
fn scripts_of_cuts() {
    let shown: [Shown<Cutter>; 7] = [
        // Off the grid clears the direction.
        ("5s", |b, k, a| k == b's' && (b.dx, b.dy) != (0, 0) && (a.dx, a.dy) == (0, 0)),
        // A closing keeps the direction.
        ("8s5s", |b, k, a| closes(b, k, a) && (a.dx, a.dy) == (b.dx, b.dy)),
        // The own line kills.
        ("8ss5s", |b, k, a| k == b's' && a.dead && !b.dead),
        // A respawn leaves dead set.
        ("8ss5sr", |_, k, a| k == b'r' && a.dead),
        // A closing that takes a region.
        ("8ss7ss5ss", |b, k, a| closes(b, k, a) && a.count_of(BLACK) < b.count_of(BLACK)),
        // A walk on respawn.
        ("7s8s9ss5sr", |_, k, a| k == b'r' && (a.px, a.py) != (CW / 2, 0)),
        // A walk on closing.
        ("8ss7ss5s9s5s", |b, k, a| {
            let x = b.px.wrapping_add_signed(b.dx.into());
            let y = b.py.wrapping_add_signed(b.dy.into());
            closes(b, k, a) && (a.px, a.py) != (x, y)
        }),
    ];
    let key = |c: &Cutter| {
        let mut key = Vec::new();
        c.put(&mut key);
        key
    };
    let act = |c: &mut Cutter, byte| assert!(cuts_byte(c, byte));
    all_are_shortest(cuts_end(b""), b"5879ser", act, key, &shown);
}
