//! Block Cutter.

use std::hint::black_box;

use oracle::games::cutter::Held;
use oracle::make::cutter_states;
use oracle::rng::Rng;
use oracle::stand_ins::catcard_app::{screen::FRAME, sys};
use oracle::stand_ins::device;
use oracle::state::{CW, Cutter, Mover, Pace};

use crate::clock::Pair;
use crate::ours::{Made, Moved, Movers};
use crate::table::{Aim, Table};
use crate::{EARLY, KEYS, LATE, ours, states};

pub fn rows(table: &Table) {
    let copies = copies(table);
    let counted = |what: &str, aim, ours: fn(&Cutter)| {
        let rust = |_: &_, g: &mut Held| _ = black_box(g.black_count());
        table.row(what, table.clock.pair(&states::cut(), Held::of, rust, ours), aim);
    };
    counted("check of Cutter states, against black_count", Aim::Times(1.0), |c| {
        black_box(ours::cutter_check(c));
    });
    for n in [2, 8, 16] {
        let states = states::fresh(n);
        let what = format!("Cutter creature tick, {n}");
        tick(table, &what, &states);
        let what = format!("{what}, by value");
        let ours = |c: &Cutter, out: &mut Made| ours::cutter_tick(c, &mut out.game);
        rule(table, &what, Aim::More(copies), &states, Held::step_enemies, ours);
    }
    let step = |what: &str, aim, states: &[Cutter]| {
        rule(table, what, aim, states, Held::step_player, ours::cutter_step);
    };
    for (what, states) in
        [("step on the border", states::on_border()), ("step laying line", states::laying())]
    {
        let (rust, ours) =
            (|_: &_, g: &mut Held| g.step_player(), |_: &_, c: &mut _| ours::cutter_step_on(c));
        table.in_place(what, Aim::More(copies), &states, Held::of, rust, Held::state, ours);
        step(&format!("{what}, by value"), Aim::More(copies), &states);
    }
    step("closing a middle cut", Aim::Times(1.0), &states::middle());
    step("closing with 63 pockets and a large region", Aim::Times(1.0), &states::pockets());
    step("closing with 400 regions of a cell", Aim::Times(1.0), &states::chequers(400));
    let swept = |what: &str, states: &[Cutter]| {
        rule(table, what, Aim::None, states, Held::step_player, ours::cutter_step_by_sweeps);
    };
    swept("closing on a fresh ground, by 3 sweeps", &states::fresh_cut());
    swept("closing a middle cut, by 2 sweeps", &states::middle());
    swept("closing with the longest snake found, by 596 sweeps", &states::snake());
    step("closing on a fresh ground", Aim::Times(1.0), &states::fresh_cut());
    step("closing with the longest snake found", Aim::Times(1.0), &states::snake());
    walk(table);
    rule(table, "respawn", Aim::None, &states::laying(), Held::respawn, ours::cutter_respawn);
    fresh_level(table, 1);
    fresh_level(table, 16);
    picture(table);
    for n in [2, 8, 16] {
        let what = format!("Cutter pass, both ticks, {n} creatures");
        pass(table, &what, Aim::Times(1.0), &KEYS, LATE, &states::fresh(n));
    }
    pass(table, "Cutter pass, no key, nothing due", Aim::None, &[], EARLY, &states::fresh(2));
    counted("ground report, against black_count", Aim::None, |c| {
        black_box(ours::cutter_ground(c));
    });
    who(table, "who is there, of 16 in Cutter: nobody", |_| (0, 0));
    who(table, "who is there, of 16 in Cutter: the first", |list| {
        (list.creatures[0].x.into(), list.creatures[0].y.into())
    });
}

/// The question, at a place that is picked for each list. The original has none: a search such as
/// its Mine has, on the same list.
fn who(table: &Table, what: &str, place: fn(&Movers) -> (usize, usize)) {
    let asked = |c: Cutter| {
        let list = Movers { creatures: c.enemies, count: c.count };
        (place(&list), list)
    };
    let states: Vec<_> = states::fresh(16).into_iter().map(asked).collect();
    table.answer(
        what,
        Aim::None,
        &states,
        |((x, y), list)| (*x, *y, list.clone()),
        |(x, y, list)| position(&list.creatures[..list.count], *x, *y),
        |((x, y), list)| ours::cutter_who(list, *x, *y).first(),
    );
}

#[inline(never)]
fn position(list: &[Mover], x: usize, y: usize) -> Option<usize> {
    list.iter().position(|e| usize::from(e.x) == x && usize::from(e.y) == y)
}

fn rule(
    table: &Table,
    what: &str,
    aim: Aim,
    states: &[Cutter],
    rust: fn(&mut Held),
    ours: fn(&Cutter, &mut Made),
) {
    table.rule(what, aim, states, Held::of, |_, g| rust(g), |g| Made::of(g.state()), ours);
}

/// The tick on the ground as it lies; the creatures go in by value, and come out beside it.
fn tick(table: &Table, what: &str, states: &[Cutter]) {
    let held = (Held::of, |_: &Cutter, g: &mut Held| g.step_enemies(), Held::state);
    let apart = |c: &Cutter| (c.clone(), Moved { enemies: c.enemies.clone(), met: false });
    let ours = |_: &Cutter, (c, out): &mut (Cutter, Moved)| {
        ours::cutter_tick_on(&c.grid, &c.enemies, c.count, out);
    };
    let whole = |(c, out): &(Cutter, Moved)| Cutter {
        enemies: out.enemies.clone(),
        dead: c.dead | out.met,
        ..c.clone()
    };
    table.in_parts(what, Aim::Times(1.0), states, held, (apart, ours, whole));
}

/// The copies of a state in and out, in nanoseconds.
fn copies(table: &Table) -> f64 {
    let states = states::cut();
    let mut out = states[0].clone();
    let pair = table.clock.pair(
        &states,
        Cutter::clone,
        |s, g| g.clone_from(s),
        |s| {
            ours::cutter_copy(s, &mut out);
            black_box(&mut out);
        },
    );
    table.row("a Cutter state copied once; in and out of a call", pair, Aim::None);
    pair.ours
}

fn walk(table: &Table) {
    let rust = |g: &mut Held| g.move_to_border();
    let ours = |c: &Cutter| ours::cutter_walk(c);
    let states = states::far();
    for c in &states {
        let mut held = Held::of(c);
        rust(&mut held);
        let Cutter { px, py, .. } = held.state();
        assert_eq!(py * CW + px, ours(c), "walk");
    }
    let pair = table.clock.pair(&states, Held::of, |_, g| rust(g), |c| _ = black_box(ours(c)));
    table.row("the walk at its worst", pair, Aim::Times(1.0));
}

/// The original's draws come from the scripted device; what they take there is left out.
fn fresh_level(table: &Table, n: u32) {
    let states = states::fresh(n);
    let draws = cutter_states::draws(n, &mut Rng::new(5));
    let all = draws.repeat(states.len());
    let mut out = states[0].clone();
    let mut held = Held::of(&states[0]);
    device::run(0, &[], &draws, || held.new_level());
    ours::cutter_level(&states[0], &draws, &mut out);
    assert_eq!(held.state(), out, "fresh level");

    let hold = |_: &()| states.iter().map(Held::of).collect::<Vec<_>>();
    let levels = |_: &(), games: &mut Vec<Held>| {
        device::run(0, &[], &all, || games.iter_mut().for_each(|g| black_box(g).new_level()));
    };
    let with = table.clock.pair(&[()], hold, levels, |_| {
        for c in &states {
            ours::cutter_level(black_box(c), &draws, &mut out);
            black_box(&mut out);
        }
    });
    let drawn = |_: &(), _: &mut ()| {
        device::run(0, &[], &all, || {
            for _ in 0..all.len() {
                black_box(sys::below(black_box(2)));
            }
        });
    };
    let without = table.clock.pair(&[()], |_| (), drawn, |_| ());
    let each = |batch: f64| batch / states.len() as f64;
    let pair = Pair { rust: each(with.rust - without.rust), ours: each(with.ours) };
    table.row(&format!("fresh level, {n} creatures"), pair, Aim::None);
}

fn picture(table: &Table) {
    let rust = |g: &mut Held| {
        let mut frame = [0; FRAME];
        g.render(&mut frame);
        frame
    };
    let ours = |c: &Cutter| {
        let mut frame = [0; FRAME];
        ours::cutter_picture(c, &mut frame);
        frame
    };
    table.answer("Cutter picture", Aim::Times(1.0), &states::cut(), Held::of, rust, ours);
}

fn pass(table: &Table, what: &str, aim: Aim, keys: &[u8], time: u32, states: &[Cutter]) {
    let (keys, time) = black_box((keys, time));
    let rust =
        |_: &Cutter, g: &mut Held| _ = black_box(g.pass(keys, &[], time, &mut Pace::start(0)));
    let ours = |c: &Cutter, out: &mut Cutter| ours::cutter_pass(c, keys, time, out);
    table.rule(what, aim, states, Held::of, rust, Held::state, ours);
}
