//! Lists from states that no ladder handed out.

use super::State;
use super::drawn::Walk;
use super::edges::{ARGUMENTS, SEED, list};
use super::lists::List;
use super::machine::LARGEST;
use super::rungs::Branch;
use crate::inputs::Draw;
use crate::tables::{Junk, Kind, arguments};

/// Makes a state that a request does not meet, one that counts as empty, or one with a field that
/// no request hands back. The bits are drawn.
type Change = fn(&mut State, u64);

const CHANGES: [Change; 30] = [
    |state, _| state.function ^= 3,
    |state, _| state.function = 0,
    |state, _| state.function = 3,
    |state, _| state.function = 1 << 31,
    |state, _| state.function = u32::MAX,
    |state, bits| state.function = bits as u32,
    |state, _| state.below_zero ^= 1,
    |state, _| state.below_zero = 2,
    |state, _| state.below_zero = u32::MAX,
    |state, bits| state.below_zero = bits as u32,
    |state, _| state.x = -state.x,
    |state, _| state.x = state.x.next_up(),
    |state, bits| state.x = nan(bits),
    // −0.0 for 0.0
    |state, _| state.f = -state.f,
    |state, _| state.f = state.f.next_up(),
    |state, _| state.f = state.f.next_down(),
    |state, bits| state.f = nan(bits),
    |state, bits| state.f = signed(f64::INFINITY, bits),
    |state, bits| state.f = signed(1.0, bits),
    |state, bits| state.f = signed(1.0 + (bits >> 1) as f64, bits),
    // the same n + f
    |state, _| (state.n, state.f) = (state.n.wrapping_sub(1), state.f + 1.0),
    |state, _| (state.n, state.f) = (state.n.wrapping_add(1), state.f - 1.0),
    |state, _| state.n = state.n.wrapping_sub(1),
    |state, _| state.n = state.n.wrapping_add(1),
    |state, _| state.n = 0,
    |state, _| state.n = 1,
    |state, _| state.n = 1000,
    |state, _| state.n = 1001,
    |state, _| state.n = state.n.wrapping_add(1 << 16),
    |state, _| state.n = u32::MAX,
];

/// With the sign and the payload of the bits, quiet or signalling.
fn nan(bits: u64) -> f64 {
    let number = f64::from_bits(bits | f64::INFINITY.to_bits());
    if number.is_nan() { number } else { f64::NAN }
}

/// With the sign of the bits.
fn signed(size: f64, bits: u64) -> f64 {
    size.copysign(f64::from_bits(bits))
}

/// Half of the states have any bits in `reserved`.
fn fill_reserved(draw: &mut Draw, state: &mut State) {
    if draw.below(2) == 0 {
        state.reserved = [0; 3].map(|_| draw.bits() as u32);
    }
}

/// States of each branch, as they are and with each change, and a request with the same n or one
/// close to it. A second request goes on from the first.
pub fn edges() -> Vec<List> {
    let mut draw = Draw::new(SEED);
    let unchanged: Change = |_, _| {};
    let mut lists = vec![];
    for branch in branches() {
        for n in [1, 2, 3, LARGEST] {
            for next in (n - 1).max(1)..=(n + 2).min(LARGEST) {
                for change in [unchanged].iter().chain(&CHANGES) {
                    let mut state = branch.state(n, values(draw.bits()));
                    change(&mut state, draw.bits());
                    fill_reserved(&mut draw, &mut state);
                    let step = [0, 1, 2, 100 + draw.below(900)][draw.below(4)];
                    let points = [next, next + step].map(|n| branch.point(n.min(LARGEST)));
                    lists.push(list(&mut draw, state, &points));
                }
            }
        }
    }
    lists
}

fn branches() -> Vec<Branch> {
    let mut branches = vec![];
    for kind in Kind::BOTH {
        for (below_zero, f) in [(false, 0.0), (false, 0.5), (true, 0.0), (true, -0.5)] {
            branches.extend(ARGUMENTS.map(|x| Branch {
                kind,
                below_zero,
                x,
                f,
            }));
        }
    }
    branches
}

/// Values n − 1 and n: half of them of a size below 1024, half of any kind.
fn values(bits: u64) -> [f64; 2] {
    const BELOW_1024: Junk = Junk(12);
    let junk = match bits % 2 {
        0 => Junk(bits >> 1),
        _ => Junk(BELOW_1024.0 + (bits & !0xf)),
    };
    [junk.slot(0), junk.slot(1)]
}

/// Drawn states without end, half of them changed, a quarter of these in two ways.
pub fn drawn(seed: u64) -> impl Iterator<Item = List> {
    let mut draw = Draw::new(seed);
    let arguments = arguments();
    std::iter::repeat_with(move || {
        let length = 1 + draw.below(4);
        let changes = [1, 1, 1, 2, 0, 0, 0, 0][draw.below(8)];
        let values = values(draw.bits());
        let mut walk = Walk::new(&mut draw, &arguments);
        let mut state = walk.branch.state(walk.n, values);
        let requests = (0..length).map(|_| walk.request()).collect();
        for _ in 0..changes {
            CHANGES[draw.below(CHANGES.len())](&mut state, draw.bits());
        }
        fill_reserved(&mut draw, &mut state);
        List { state, requests }
    })
}
