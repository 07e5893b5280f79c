//! The rows of the table, each with what it may take at most.

use std::fmt::Debug;
use std::hint::black_box;

use crate::clock::{Clock, Pair};

/// What a row is held to.
#[derive(Clone, Copy)]
pub enum Aim {
    None,
    /// So many times the original's time.
    Times(f64),
    /// The original's time and these nanoseconds.
    More(f64),
    /// These nanoseconds.
    Within(f64),
}

pub struct Table {
    pub clock: Clock,
    /// Digits past the point of each time.
    pub digits: usize,
}

impl Table {
    pub fn head(&self) {
        println!("| what | Rust, ns | ours, ns | ours / Rust's | at most, ns | |");
        println!("|---|---|---|---|---|---|");
    }

    pub fn row(&self, what: &str, Pair { rust, ours }: Pair, aim: Aim) {
        let most = match aim {
            Aim::None => None,
            Aim::Times(times) => Some(rust * times),
            Aim::More(more) => Some(rust + more),
            Aim::Within(most) => Some(most),
        };
        let ratio = ours / rust;
        let (most, met) = match most {
            None => (String::new(), ""),
            Some(most) => (format!("{most:.0}"), if ours <= most { "met" } else { "above" }),
        };
        let digits = self.digits;
        println!("| {what} | {rust:.digits$} | {ours:.digits$} | {ratio:.2} | {most} | {met} |");
    }

    /// A rule that the original plays in place and the port by value. Both must give the same.
    #[expect(clippy::too_many_arguments, reason = "each is one word of a row")]
    pub fn rule<S, G, T: Clone + PartialEq + Debug>(
        &self,
        what: &str,
        aim: Aim,
        states: &[S],
        hold: impl Fn(&S) -> G,
        rust: impl Fn(&S, &mut G),
        after: impl Fn(&G) -> T,
        ours: impl Fn(&S, &mut T),
    ) {
        let mut out = after(&hold(&states[0]));
        for s in states {
            let mut held = hold(s);
            rust(s, &mut held);
            ours(s, &mut out);
            assert_eq!(after(&held), out, "{what}");
        }
        let ours = |s: &S| {
            ours(s, &mut out);
            black_box(&mut out);
        };
        self.row(what, self.clock.pair(states, hold, rust, ours), aim);
    }

    /// A rule that both play in place, ours on a state of its own. Both must give the same.
    #[expect(clippy::too_many_arguments, reason = "each is one word of a row")]
    pub fn in_place<S, G, T: Clone + PartialEq + Debug>(
        &self,
        what: &str,
        aim: Aim,
        states: &[S],
        hold: impl Fn(&S) -> G,
        rust: impl Fn(&S, &mut G),
        after: impl Fn(&G) -> T,
        ours: impl Fn(&S, &mut T),
    ) {
        self.in_parts(what, aim, states, (hold, rust, after), (T::clone, ours, T::clone));
    }

    /// The same, ours on what a state is taken apart into and put together from, outside the time.
    pub fn in_parts<S, G, O, T: PartialEq + Debug>(
        &self,
        what: &str,
        aim: Aim,
        states: &[S],
        (hold, rust, after): (impl Fn(&S) -> G, impl Fn(&S, &mut G), impl Fn(&G) -> T),
        (apart, ours, whole): (impl Fn(&T) -> O, impl Fn(&S, &mut O), impl Fn(&O) -> T),
    ) {
        let own = |s: &S| apart(&after(&hold(s)));
        for s in states {
            let (mut held, mut owned) = (hold(s), own(s));
            rust(s, &mut held);
            ours(s, &mut owned);
            assert_eq!(after(&held), whole(&owned), "{what}");
        }
        self.row(what, self.clock.both(states, (&hold, rust), (own, ours)), aim);
    }

    /// What is asked of a state and changes nothing. Both must answer the same.
    pub fn answer<S, G, T: PartialEq + Debug>(
        &self,
        what: &str,
        aim: Aim,
        states: &[S],
        hold: impl Fn(&S) -> G,
        mut rust: impl FnMut(&mut G) -> T,
        mut ours: impl FnMut(&S) -> T,
    ) {
        for s in states {
            assert_eq!(rust(&mut hold(s)), ours(s), "{what}");
        }
        let rust = |_: &S, g: &mut G| _ = black_box(rust(g));
        let ours = |s: &S| _ = black_box(ours(s));
        self.row(what, self.clock.pair(states, hold, rust, ours), aim);
    }
}
