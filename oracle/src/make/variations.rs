//! One thing changed in a well-formed state, with the refusal it earns: every field at its
//! boundaries, on both sides of them.

use crate::check::{NONE, Refusal};

/// The refusal of a change that leaves the state well formed.
pub const FINE: Refusal = NONE;

pub struct Variation<S> {
    /// What is changed.
    pub cause: String,
    /// That, with the value it gets.
    pub name: String,
    pub refusal: Refusal,
    change: Box<dyn Fn(&mut S)>,
}

impl<S> Variation<S> {
    pub fn apply(&self, state: &mut S) {
        (self.change)(state);
    }
}

/// A list of variations as it grows.
pub struct Variations<S>(pub Vec<Variation<S>>);

impl<S: 'static> Variations<S> {
    pub fn add(&mut self, refusal: Refusal, cause: &str, change: impl Fn(&mut S) + 'static) {
        self.named(refusal, cause, cause, change);
    }

    /// The same change with each of several values.
    pub fn each<T: Copy + std::fmt::Debug + 'static>(
        &mut self,
        refusal: Refusal,
        cause: &str,
        values: &[T],
        change: fn(&mut S, T),
    ) {
        for &value in values {
            let name = format!("{cause} {value:?}");
            self.named(refusal, cause, &name, move |s| change(s, value));
        }
    }

    /// The same where each value is the refusal's place.
    pub fn each_at(
        &mut self,
        number: u8,
        cause: &str,
        places: &[usize],
        change: fn(&mut S, usize),
    ) {
        for &at in places {
            self.each(Refusal::at(number, at), cause, &[at], change);
        }
    }

    fn named(
        &mut self,
        refusal: Refusal,
        cause: &str,
        name: &str,
        change: impl Fn(&mut S) + 'static,
    ) {
        let (cause, name) = (cause.to_string(), name.to_string());
        self.0.push(Variation { cause, name, refusal, change: Box::new(change) });
    }
}

/// One variation for each cause of a refusal, the first.
pub fn causes<S>(variations: Vec<Variation<S>>) -> Vec<Variation<S>> {
    let mut causes: Vec<Variation<S>> = Vec::new();
    for v in variations {
        let known = causes.iter().any(|c| (&c.cause, c.refusal) == (&v.cause, v.refusal));
        if v.refusal != FINE && !known {
            causes.push(v);
        }
    }
    causes
}

/// Places off a grid of this size: the first, ones that a narrower width would wrap to
/// `fine`, the last.
pub fn off(size: usize, fine: usize) -> [usize; 6] {
    [size, size + 1, (1 << 8) + fine, (1 << 32) + fine, (1 << 63) + fine, usize::MAX]
}
