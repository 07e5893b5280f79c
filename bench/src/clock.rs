//! The least time of many short batches, the original's and ours by turns, so that other work on
//! the machine meets both.

use std::hint::black_box;
use std::time::{Duration, Instant};

/// Nanoseconds of one call.
#[derive(Clone, Copy)]
pub struct Pair {
    pub rust: f64,
    pub ours: f64,
}

/// How long each pair is measured.
pub struct Clock {
    span: Duration,
    empty: f64,
}

impl Clock {
    pub fn new(span: Duration) -> Self {
        let mut empty = f64::INFINITY;
        for _ in 0..100_000 {
            empty = empty.min(batch(|| {}));
        }
        Clock { span, empty }
    }

    /// `hold` makes what the original changes, anew for each batch and outside the time. Each batch
    /// goes once over all of `states`, after one that isn't timed.
    pub fn pair<S, G>(
        &self,
        states: &[S],
        hold: impl Fn(&S) -> G,
        rust: impl FnMut(&S, &mut G),
        mut ours: impl FnMut(&S),
    ) -> Pair {
        self.both(states, (hold, rust), (|_: &S| (), |s: &S, _: &mut ()| ours(s)))
    }

    /// The same where ours changes something too: each side comes with what makes that.
    pub fn both<S, G, O>(
        &self,
        states: &[S],
        (hold, mut rust): (impl Fn(&S) -> G, impl FnMut(&S, &mut G)),
        (own, mut ours): (impl Fn(&S) -> O, impl FnMut(&S, &mut O)),
    ) -> Pair {
        let mut least = Pair { rust: f64::INFINITY, ours: f64::INFINITY };
        let begun = Instant::now();
        while begun.elapsed() < self.span {
            for _ in 0..2 {
                least.rust = least.rust.min(held(states, &hold, &mut rust));
            }
            for _ in 0..2 {
                least.ours = least.ours.min(held(states, &own, &mut ours));
            }
        }
        let each = |batch: f64| (batch - self.empty) / states.len() as f64;
        Pair { rust: each(least.rust), ours: each(least.ours) }
    }
}

/// One batch over what `hold` makes of the states.
fn held<S, G>(states: &[S], hold: impl Fn(&S) -> G, mut play: impl FnMut(&S, &mut G)) -> f64 {
    let mut games: Vec<G> = states.iter().map(hold).collect();
    let took = batch(|| {
        for (s, g) in states.iter().zip(&mut games) {
            play(black_box(s), black_box(g));
        }
    });
    black_box(games);
    took
}

#[inline(never)]
fn batch(run: impl FnOnce()) -> f64 {
    let begun = Instant::now();
    run();
    begun.elapsed().as_nanos() as f64
}
