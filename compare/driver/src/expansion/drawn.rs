//! Draws inputs of the calls.

use super::calls::Polynomial;
use super::edges::{self, BARS, CLAMP, LAST_OF_SOURCE, LIMITS, SHORT};
use super::own::LARGEST;
use crate::inputs::{Draw, power_of_two};

/// Close to an edge input.
fn close<const N: usize>(draw: &mut Draw, edges: &[[f64; N]]) -> [f64; N] {
    let one = edges[draw.below(edges.len())];
    one.map(|number| draw.close(number))
}

pub fn polynomial(draw: &mut Draw, edges: &[Polynomial]) -> Polynomial {
    let edge = edges[draw.below(edges.len())];
    let bar = match draw.below(8) {
        0 => draw.bits() as u32,
        _ => BARS[draw.below(BARS.len())],
    };
    Polynomial {
        bar,
        t: match draw.below(4) {
            0 => draw.number(),
            1 => draw.close(edge.t),
            _ => ratio(draw),
        },
        ..edge
    }
}

/// The ratio t = x/(2·√a).
fn ratio(draw: &mut Draw) -> f64 {
    match draw.below(8) {
        0 => draw.tiny(),
        1..4 => draw.uniform(1.0),
        4..6 => draw.uniform(10.0),
        6 => draw.uniform(1000.0),
        _ => draw.uniform(1.0) * power_of_two(draw.below(60) as i32),
    }
}

pub fn sums(draw: &mut Draw, edges: &[[f64; 2]]) -> [f64; 2] {
    match draw.below(8) {
        0..2 => [draw.number(), draw.number()],
        2..4 => close(draw, edges),
        4 => [ratio(draw), draw.uniform(0.03)],
        5 => [ratio(draw), draw.tiny()],
        _ => {
            let (t, a) = (ratio(draw), -order(draw) - 0.5);
            let q = t * t + 1.0;
            [t, 1.0 / (q * q.sqrt() * (2.0 * a))]
        }
    }
}

/// Mostly an order that is accepted.
fn order(draw: &mut Draw) -> f64 {
    let size = match draw.below(16) {
        0..4 => draw.beyond(20.0, 30.0),
        4..6 => draw.beyond(20.0, 120.0),
        6..8 => draw.beyond(20.0, 1001.0),
        8 => draw.beyond(20.0, 2147483648.0),
        9..11 => draw.beyond(20.0, 40.0) * power_of_two(draw.below(26) as i32),
        11..13 => draw.beyond(20.0, 200.0).trunc(),
        13 => draw.beyond(20.0, 200.0).trunc() + 0.5,
        14 => draw.close_to_whole(200.0),
        _ => draw.beyond(13.0, 20.0),
    };
    -size.abs()
}

/// Half of them at which most answers are finite.
fn argument(draw: &mut Draw, v: f64) -> f64 {
    match draw.below(16) {
        0 => draw.zero(),
        1 => draw.tiny(),
        2..6 => draw.uniform(3.0),
        6..9 => draw.uniform(20.0),
        9..11 => draw.uniform(60.0),
        11 => draw.uniform(1000.0),
        12 => draw.uniform(1.0) * power_of_two(draw.below(31) as i32),
        13 => draw.uniform(2.0 * CLAMP),
        14 => (2.0 * ratio(draw)) * (-v - 0.5).sqrt(),
        _ => {
            let limit = edges::at_limit(v, draw.below(LIMITS));
            draw.close(limit.unwrap_or(CLAMP))
        }
    }
}

pub fn request(draw: &mut Draw, edges: &[[f64; 2]]) -> [f64; 2] {
    match draw.below(8) {
        0 => [draw.number(), draw.number()],
        1..3 => close(draw, edges),
        3 => [order(draw), draw.number()],
        _ => {
            let v = order(draw).min(LAST_OF_SOURCE);
            [v, argument(draw, v)]
        }
    }
}

/// The same with orders at which the source can be called, or NaN.
pub fn mantissas(draw: &mut Draw, edges: &[[f64; 2]]) -> [f64; 2] {
    let [v, x] = request(draw, edges);
    if v > LAST_OF_SOURCE {
        return [LAST_OF_SOURCE - v.abs(), x];
    }
    [v, x]
}

/// Half of them ordinary, the others with two or five numbers of other kinds.
pub fn series(draw: &mut Draw, edges: &[[f64; 5]]) -> [f64; 5] {
    match draw.below(8) {
        0 => [0; 5].map(|_| draw.number()),
        1..3 => close(draw, edges),
        3 => {
            let mut input = ordinary_series(draw);
            for _ in 0..2 {
                input[draw.below(5)] = draw.number();
            }
            input
        }
        _ => ordinary_series(draw),
    }
}

fn ordinary_series(draw: &mut Draw) -> [f64; 5] {
    let a = parameter(draw);
    let x = series_argument(draw, a);
    let (c0, c1) = (mantissa(draw), mantissa(draw));
    [a, x, c0, c1, exponent(draw)]
}

/// −v − 0.5 for whole orders, and others.
pub fn parameter(draw: &mut Draw) -> f64 {
    match draw.below(8) {
        0..2 => draw.uniform(30.0).trunc() - 0.5,
        2 => draw.uniform(1e4).trunc() - 0.5,
        3..5 => draw.uniform(30.0),
        5 => draw.uniform(1000.0),
        6 => draw.uniform(2147483648.0),
        _ => draw.tiny(),
    }
}

/// Half of them where |x|·√|a| is below 1, as in the source's calls.
pub fn series_argument(draw: &mut Draw, a: f64) -> f64 {
    match draw.below(16) {
        0 => draw.zero(),
        1..3 => draw.tiny(),
        3 => draw.close(SHORT),
        4..6 => draw.uniform(3.0),
        6 => draw.uniform(20.0),
        7 => draw.uniform(100.0),
        _ => draw.uniform(1.0) / a.abs().sqrt().max(1.0),
    }
}

fn mantissa(draw: &mut Draw) -> f64 {
    match draw.below(8) {
        0..2 => draw.zero(),
        2..6 => draw.uniform(2.0),
        6 => draw.tiny(),
        _ => draw.uniform(1.0) * power_of_two(draw.below(1024) as i32),
    }
}

fn exponent(draw: &mut Draw) -> f64 {
    match draw.below(8) {
        0 => draw.zero(),
        1..3 => draw.uniform(10.0),
        3..5 => draw.uniform(750.0),
        5 => draw.uniform(LARGEST),
        6 => draw.beyond(LARGEST - 20.0, LARGEST + 120.0),
        _ => draw.uniform(3000.0),
    }
}
