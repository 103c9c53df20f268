//! The state that a ladder is given and hands back.

use crate::comparing::Comparable;
use crate::tables::{number_difference, whole_difference};

/// What a ladder holds: `gozhnerim_ladder` of the C interface.
#[repr(C)]
#[derive(Clone, Copy, Debug)]
pub struct State {
    /// The number of D or V. With any other number the state counts as empty.
    pub function: u32,
    /// 1 where the order is below 0, else 0. Above 1 it counts as 1.
    pub below_zero: u32,
    pub n: u32,
    /// 0 from every accepted request. What it holds plays no part in a request.
    pub reserved: [u32; 3],
    pub x: f64,
    pub f: f64,
    /// Rung n − 1.
    pub value_below: f64,
    /// Rung n.
    pub value_top: f64,
}

impl State {
    pub const EMPTY: State = State {
        function: 0,
        below_zero: 0,
        n: 0,
        reserved: [0; 3],
        x: 0.0,
        f: 0.0,
        value_below: 0.0,
        value_top: 0.0,
    };

    pub fn show(&self) -> String {
        let [function, below_zero, n, r, s, t] = self.wholes();
        let [x, f, below, top] = self.numbers().map(|number| number.show());
        format!(
            "function {function}, below zero {below_zero}, n {n}, reserved {r:#x} {s:#x} {t:#x}, \
             x {x}, f {f}, values {below} and {top}"
        )
    }

    fn wholes(&self) -> [u32; 6] {
        let [r, s, t] = self.reserved;
        [self.function, self.below_zero, self.n, r, s, t]
    }

    fn numbers(&self) -> [f64; 4] {
        [self.x, self.f, self.value_below, self.value_top]
    }

    /// The first field that is wrong, as the state that an accepted request hands back.
    pub fn difference(&self, rust: &Self) -> Option<String> {
        const WHOLES: [&str; 6] = [
            "function",
            "below_zero",
            "n",
            "reserved[0]",
            "reserved[1]",
            "reserved[2]",
        ];
        const NUMBERS: [&str; 4] = ["x", "f", "value_below", "value_top"];
        let (ours, theirs) = (self.wholes(), rust.wholes());
        let whole = |i| whole_difference(WHOLES[i], ours[i], theirs[i]);
        let (ours, theirs) = (self.numbers(), rust.numbers());
        let number = |i| (NUMBERS[i], ours[i], theirs[i]);
        let wholes = (0..WHOLES.len()).find_map(whole);
        let field = wholes.or_else(|| number_difference((0..NUMBERS.len()).map(number)))?;
        Some(format!("state's {field}"))
    }

    /// The state as a refusal hands it back, if it has not the bits of the one `given`.
    pub fn change(&self, given: &Self) -> Option<String> {
        let bits = |state: &Self| (state.wholes(), state.numbers().map(f64::to_bits));
        let differs = bits(self) != bits(given);
        differs.then(|| format!("state: library {}; given {}", self.show(), given.show()))
    }
}
