//! What a table call must answer and leave in the table, and where the library's does not.

use std::ptr;

use source::entry::alloc_buf;

use super::requests::{Junk, Request};
use super::split::{Split, needed};
use super::{Answer, Call};
use crate::comparing::{Comparable, Difference};

/// Slots on either side of a table that are not lent.
pub const MARGIN: usize = 8;

/// A lent table and the slots around it.
#[derive(Clone, Default)]
pub struct Lent {
    pub slots: Vec<f64>,
    pub length: usize,
    /// Whether the call is given a null pointer. The length is then 0.
    pub is_null: bool,
}

impl Lent {
    /// Lends as many slots as `length`, with junk in those that were not there before. There are as
    /// many as the order needs also where fewer are lent, so that a call that does not test the
    /// length stays within them.
    pub fn lend(&mut self, length: usize, needed: usize, junk: Junk) {
        let (there, many) = (self.slots.len(), length.max(needed) + 2 * MARGIN);
        self.slots.extend((there..many).map(|k| junk.slot(k)));
        self.length = length;
    }

    /// The table's first slot, for a call that may go beyond the table.
    pub fn first_slot(&mut self) -> *mut f64 {
        if self.is_null {
            return ptr::null_mut();
        }
        self.slots.as_mut_ptr().wrapping_add(MARGIN)
    }
}

/// What a call must answer, and what it must leave in each slot: None where the slot stays as
/// found. The slots beyond the list stay as found too.
pub struct Expected {
    pub answer: Answer,
    pub slots: Vec<Option<f64>>,
}

impl Call {
    /// By the reference on the zeroed buffer.
    pub fn expected(&self, v: f64, x: f64, length: usize) -> Expected {
        let refused = |refusal| Expected {
            answer: Answer::refused(refusal),
            slots: vec![],
        };
        if v.is_nan() || x.is_nan() {
            return refused(1);
        }
        let Some((mut buffer, num)) = alloc_buf(v) else {
            return refused(2);
        };
        if length < buffer.len() {
            return refused(3);
        }
        let pair = (self.reference)(x, v, &mut buffer, num);
        let split = Split::of(v);
        let written = |(k, slot)| split.writes(self.kind, k).then_some(slot);
        Expected {
            answer: Answer::pair(pair),
            slots: buffer.into_iter().enumerate().map(written).collect(),
        }
    }

    /// The request and the first difference between the library's call and what is expected.
    pub fn difference(
        &self,
        request: &Request,
        library: impl FnOnce(f64, f64, &mut Lent) -> Answer,
    ) -> Option<Difference> {
        let mut found = Lent::default();
        found.lend(request.length, needed(request.v), request.junk);
        found.is_null = request.is_null;
        let mut left = found.clone();
        let answer = library(request.v, request.x, &mut left);
        let expected = self.expected(request.v, request.x, request.length);
        let difference = answer_difference(&answer, &expected.answer)
            .or_else(|| slot_difference(&found.slots, &left.slots, &expected.slots))?;
        Some((request.show(), difference))
    }
}

impl Comparable for Answer {
    fn alike(&self, other: &Self) -> bool {
        answer_difference(self, other).is_none()
    }

    fn show(&self) -> String {
        let pair = (self.value, self.derivative).show();
        format!("refusal {}, pair {pair}", self.refusal)
    }
}

fn answer_difference(ours: &Answer, rust: &Answer) -> Option<String> {
    let numbers = [
        ("value", ours.value, rust.value),
        ("derivative", ours.derivative, rust.derivative),
    ];
    whole_difference("refusal", ours.refusal, rust.refusal).or_else(|| number_difference(numbers))
}

pub fn whole_difference(name: &str, ours: u32, rust: u32) -> Option<String> {
    (ours != rust).then(|| format!("{name}: library {ours}, Rust {rust}"))
}

/// The first number that is wrong, of names with the library's number and the Rust's.
pub fn number_difference<N: AsRef<str>>(
    numbers: impl IntoIterator<Item = (N, f64, f64)>,
) -> Option<String> {
    let (name, ours, rust) = numbers.into_iter().find(|(_, a, b)| !a.alike(b))?;
    Some(sides(name.as_ref(), ours, "Rust", rust))
}

/// The first slot that is wrong. A slot that must stay as found has to have the same bits. Slots
/// before the table have numbers below 0.
pub fn slot_difference(found: &[f64], left: &[f64], expected: &[Option<f64>]) -> Option<String> {
    for (i, (found, left)) in found.iter().zip(left).enumerate() {
        let place = i.checked_sub(MARGIN);
        let written = place.and_then(|k| expected.get(k).copied().flatten());
        let slot = || format!("slot {}", i as i64 - MARGIN as i64);
        match written {
            Some(rust) if !left.alike(&rust) => return Some(sides(&slot(), *left, "Rust", rust)),
            None if left.to_bits() != found.to_bits() => {
                return Some(sides(&slot(), *left, "before the call", *found));
            }
            _ => {}
        }
    }
    None
}

fn sides(name: &str, ours: f64, other: &str, theirs: f64) -> String {
    format!("{name}: library {}, {other} {}", ours.show(), theirs.show())
}
