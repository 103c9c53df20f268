//! What the tests have in common: numbers by their bits, marked slots, and a generator.

#![allow(dead_code)]

use gozhnerim::{Function, Pair, RawState, Refusal, d_table, v_table};

/// So many slots do for every order that is not refused.
pub const TABLE_SLOTS: usize = 2004;
pub const VALUE_SLOTS: usize = 1001;
pub const DERIVATIVE_SLOTS: usize = 1000;

/// The order next below 1, 1 - 2^-53.
pub const BELOW_ONE: f64 = f64::from_bits(0x3fef_ffff_ffff_ffff);

/// Alike: the same bits, or both NaN.
pub fn alike(a: f64, b: f64) -> bool {
    a.to_bits() == b.to_bits() || (a.is_nan() && b.is_nan())
}

pub fn all_alike(a: &[f64], b: &[f64]) -> bool {
    a.len() == b.len() && a.iter().zip(b).all(|(&a, &b)| alike(a, b))
}

/// A NaN with the slot's number in it, so that a slot that is written, or moved, is seen.
pub fn mark(slot: usize) -> f64 {
    f64::from_bits(0x7ff8_0000_00ab_c000 + slot as u64)
}

pub fn marked(len: usize) -> Vec<f64> {
    (0..len).map(mark).collect()
}

/// The slots that no longer have their mark.
pub fn written(slots: &[f64]) -> Vec<usize> {
    let differs = |&slot: &usize| slots[slot].to_bits() != mark(slot).to_bits();
    (0..slots.len()).filter(differs).collect()
}

pub fn table(function: Function, v: f64, x: f64, table: &mut [f64]) -> Result<Pair, Refusal> {
    match function {
        Function::D => d_table(v, x, table),
        Function::V => v_table(v, x, table),
    }
}

/// Every field of a state, by its bits.
pub fn bits(raw: &RawState) -> ([u32; 6], [u64; 4]) {
    let [r, s, t] = raw.reserved;
    let numbers = [raw.x, raw.f, raw.value_below, raw.value_top];
    (
        [raw.function, raw.below_zero, raw.n, r, s, t],
        numbers.map(f64::to_bits),
    )
}

/// A generator of numbers: xor with shifts by 13, 7 and 17.
pub struct Generator(u64);

impl Generator {
    pub fn new(seed: u64) -> Self {
        Generator(seed.max(1))
    }

    pub fn next(&mut self) -> u64 {
        self.0 ^= self.0 << 13;
        self.0 ^= self.0 >> 7;
        self.0 ^= self.0 << 17;
        self.0
    }

    pub fn below(&mut self, limit: u64) -> u64 {
        self.next() % limit
    }

    pub fn function(&mut self) -> Function {
        match self.below(2) {
            0 => Function::D,
            _ => Function::V,
        }
    }

    /// One of the numbers given.
    pub fn one_of(&mut self, numbers: &[f64]) -> f64 {
        numbers[self.below(numbers.len() as u64) as usize]
    }
}
