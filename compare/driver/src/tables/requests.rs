//! The requests for the table calls: edge requests, then drawn ones.

use super::edges;
use super::split::needed;
use crate::comparing::Comparable;
use crate::inputs::{Draw, mixed};

/// An order, an argument, and the length and the slots of the table lent.
#[derive(Clone, Copy, Debug)]
pub struct Request {
    pub v: f64,
    pub x: f64,
    pub length: usize,
    /// Whether the table is a null pointer. The length is then 0.
    pub is_null: bool,
    pub junk: Junk,
}

impl Request {
    pub fn show(&self) -> String {
        let Request { v, x, length, .. } = self;
        let null = if self.is_null { ", null pointer" } else { "" };
        format!("v {}, x {}, length {length}{null}", v.show(), x.show())
    }
}

/// What the slots hold before the call. An odd number stands for slots of all kinds, an even one
/// for slots of one kind.
#[derive(Clone, Copy, Debug, PartialEq)]
pub struct Junk(pub u64);

impl Junk {
    pub fn slot(self, k: usize) -> f64 {
        let bits = mixed(self.0.wrapping_add(k as u64));
        let is_odd = self.0 % 2 == 1;
        let kind = if is_odd { bits } else { self.0 >> 1 };
        let sign = bits & (1 << 63);
        match kind % 8 {
            // NaNs of both signs, quiet and signalling
            0..2 => f64::from_bits(bits | 0x7ff0_0000_0000_0001),
            2 => f64::from_bits(f64::INFINITY.to_bits() | sign),
            // zeros
            3 => f64::from_bits(sign),
            // subnormal numbers
            4 => f64::from_bits(bits & 0x800f_ffff_ffff_ffff),
            5 => f64::from_bits(bits),
            // of a size below 1024
            _ => (bits as i64) as f64 / 9007199254740992.0,
        }
    }
}

/// `count` requests: all edge requests, then drawn ones.
pub fn requests(count: usize, seed: u64) -> impl Iterator<Item = Request> {
    edges::requests().into_iter().chain(drawn(seed)).take(count)
}

/// Drawn requests without end.
pub fn drawn(seed: u64) -> impl Iterator<Item = Request> {
    let mut draw = Draw::new(seed);
    let (orders, arguments) = (edges::orders(), edges::arguments());
    std::iter::repeat_with(move || {
        let v = order(&mut draw, &orders);
        let x = argument(&mut draw, &arguments, v);
        let (length, junk) = (length(&mut draw, v), Junk(draw.bits()));
        Request {
            v,
            x,
            length,
            is_null: length == 0 && junk.0 >> 63 == 1,
            junk,
        }
    })
}

/// Mostly small, so that the tables are short.
fn order(draw: &mut Draw, edges: &[f64]) -> f64 {
    match draw.below(32) {
        0 => draw.number(),
        1..4 => draw.close_to_one_of(edges),
        4 => draw.tiny(),
        5..11 => draw.uniform(3.0),
        11..17 => draw.uniform(12.0),
        17..21 => draw.uniform(60.0),
        21 => draw.uniform(999.99),
        22..24 => draw.half_whole(12.0, 0.0),
        24..26 => draw.close_to_whole(13.0),
        26..31 => draw.uniform(13.0).trunc(),
        _ => draw.uniform(61.0).trunc(),
    }
}

pub fn argument(draw: &mut Draw, edges: &[f64], v: f64) -> f64 {
    match draw.below(16) {
        0 => draw.number(),
        1..3 => draw.close_to_one_of(edges),
        3 => draw.zero(),
        4 => draw.tiny(),
        5..7 => draw.uniform(2.0),
        7..9 => draw.uniform(5.8),
        9 => draw.uniform(7.5),
        10..12 => draw.beyond(7.5, 10.0),
        12 => {
            let root = edges::square_at_order(v);
            let x = draw.close(root);
            if draw.below(2) == 0 { x } else { -x }
        }
        13 => draw.uniform(20.0),
        _ => draw.beyond(5.8, 40.0),
    }
}

fn length(draw: &mut Draw, v: f64) -> usize {
    let needed = needed(v);
    match draw.below(16) {
        0 => draw.below(needed),
        1 => needed - 1,
        2 => needed + 1,
        3..6 => needed + draw.below(8),
        6 => needed + draw.below(300),
        _ => needed,
    }
}
