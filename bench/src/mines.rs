//! Block Mine.

use std::hint::black_box;

use oracle::games::{cutter, mine::Held};
use oracle::stand_ins::catcard_app::screen::FRAME;
use oracle::state::{Cutter, Mine, Pace};

use crate::ours::{Enemies, Parts};
use crate::table::{Aim, Table};
use crate::{EARLY, KEYS, LATE, ours, states};

pub fn rows(table: &Table) {
    let copies = copies(table);
    check(table);
    load(table);
    let moves = states::moves();
    table.in_parts(
        "move",
        Aim::More(copies),
        &moves,
        (
            |s: &(Mine, u8)| Held::of(&s.0),
            |s: &(Mine, u8), g: &mut Held| g.step_player(s.1),
            Held::state,
        ),
        (Parts::of, |s: &(Mine, u8), p: &mut Parts| ours::mine_step_on(p, s.1), Parts::whole),
    );
    table.rule(
        "move, by value",
        Aim::More(copies),
        &moves,
        |s| Held::of(&s.0),
        |s, g| g.step_player(s.1),
        Held::state,
        |s, out| ours::mine_step(&s.0, s.1, out),
    );
    for (what, states) in [("gravity, loaded", states::loaded()), ("gravity, busy", states::busy())]
    {
        let rust = |g: &mut Held| g.gravity();
        in_place(table, what, Aim::Times(0.8), &states, rust, ours::mine_gravity_on);
        by_value(table, what, copies, &states, rust, ours::mine_gravity);
    }
    for (n, most) in [(2, 1.15), (8, 1.0)] {
        let what = format!("Mine creature tick, {n}");
        let states = states::tunnels(n);
        let rust = |g: &mut Held| g.move_enemies();
        in_place(table, &what, Aim::Times(most), &states, rust, ours::mine_tick_on);
        by_value(table, &what, copies, &states, rust, ours::mine_tick);
    }
    picture(table);
    for (what, most, states) in [
        ("Mine pass, both ticks, loaded", 1.1, states::loaded()),
        ("Mine pass, both ticks, 8 creatures in tunnels", 0.9, states::tunnels(8)),
    ] {
        pass(table, what, Aim::Times(most), &KEYS, LATE, &states);
    }
    pass(
        table,
        "Mine pass, no key, nothing due",
        Aim::Within(120.0),
        &[],
        EARLY,
        &states::loaded(),
    );
    who(table, "who is there, of 8 in Mine: nobody", |_| (0, 0));
    who(table, "who is there, of 8 in Mine: the first", |m| (m.enemies[0].x, m.enemies[0].y));
}

/// The question, at a place that is picked for each state; the original tells no number.
fn who(table: &Table, what: &str, place: fn(&Mine) -> (usize, usize)) {
    let asked = |m: Mine| {
        let list = Enemies { creatures: m.enemies.clone(), count: m.count };
        (place(&m), list, m)
    };
    let states: Vec<_> = states::tunnels(8).into_iter().map(asked).collect();
    table.answer(
        what,
        Aim::None,
        &states,
        |((x, y), _, m)| (*x, *y, Held::of(m)),
        |(x, y, g)| g.enemy_at(*x, *y),
        |((x, y), list, _)| ours::mine_who(list, *x, *y).first(),
    );
}

fn in_place(
    table: &Table,
    what: &str,
    aim: Aim,
    states: &[Mine],
    rust: fn(&mut Held),
    ours: fn(&mut Parts),
) {
    let held = (Held::of, |_: &Mine, g: &mut Held| rust(g), Held::state);
    let parts = (Parts::of, |_: &Mine, p: &mut Parts| ours(p), Parts::whole);
    table.in_parts(what, aim, states, held, parts);
}

fn by_value(
    table: &Table,
    what: &str,
    copies: f64,
    states: &[Mine],
    rust: fn(&mut Held),
    ours: fn(&Mine, &mut Mine),
) {
    let what = format!("{what}, by value");
    table.rule(&what, Aim::More(copies), states, Held::of, |_, g| rust(g), Held::state, ours);
}

/// The copies of a state in and out, in nanoseconds.
fn copies(table: &Table) -> f64 {
    let states = states::loaded();
    let mut out = states[0].clone();
    let pair = table.clock.pair(
        &states,
        Mine::clone,
        |s, g| g.clone_from(s),
        |s| {
            ours::mine_copy(s, &mut out);
            black_box(&mut out);
        },
    );
    table.row("a Mine state copied once; in and out of a call", pair, Aim::None);
    pair.ours
}

fn check(table: &Table) {
    let mines = states::moves().into_iter().map(|(m, _)| m);
    let states: Vec<(Mine, Cutter)> = mines.zip(states::cut()).collect();
    let hold = |s: &(Mine, Cutter)| cutter::Held::of(&s.1);
    let rust = |_: &_, g: &mut cutter::Held| _ = black_box(g.black_count());
    let pair = table.clock.pair(&states, hold, rust, |s| {
        black_box(ours::mine_check(&s.0));
    });
    table.row("check of Mine states, against black_count", pair, Aim::Times(0.08));
}

fn load(table: &Table) {
    let rust = |_: &(), g: &mut Held| *g = Held::load();
    let ours = |_: &(), out: &mut Mine| ours::mine_load(out);
    table.rule("load", Aim::Times(1.3), &[(); 16], |_| Held::load(), rust, Held::state, ours);
}

/// The original also writes the text above its picture, which is not drawn.
fn picture(table: &Table) {
    let states: Vec<Mine> = states::moves().into_iter().map(|(m, _)| m).collect();
    let mut texts = Vec::new();
    let rust = |g: &mut Held| {
        let mut frame = [0; FRAME];
        texts.clear();
        g.render(&mut frame, &mut texts);
        frame
    };
    let ours = |m: &Mine| {
        let mut frame = [0; FRAME];
        ours::mine_picture(m, &mut frame);
        frame
    };
    table.answer("Mine picture", Aim::Times(1.0), &states, Held::of, rust, ours);
}

fn pass(table: &Table, what: &str, aim: Aim, keys: &[u8], time: u32, states: &[Mine]) {
    let (keys, time) = black_box((keys, time));
    let rust = |_: &Mine, g: &mut Held| _ = black_box(g.pass(keys, time, &mut Pace::start(0)));
    let ours = |m: &Mine, out: &mut Mine| ours::mine_pass(m, keys, time, out);
    table.rule(what, aim, states, Held::of, rust, Held::state, ours);
}
