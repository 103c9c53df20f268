//! The rungs of an order: the source's, or those carried on from two values.

use super::{Point, State};
use crate::inputs::power_of_two;
use crate::tables::{Kind, Split, call, needed};

/// Values `first` to n and derivatives `first` to n − 1.
#[derive(Debug)]
pub struct Rungs {
    first: usize,
    values: Vec<f64>,
    derivatives: Vec<f64>,
}

/// What recurrence and derivative formula depend on.
#[derive(Clone, Copy, Debug)]
pub struct Branch {
    pub kind: Kind,
    pub below_zero: bool,
    pub x: f64,
    pub f: f64,
}

impl Rungs {
    /// All rungs by the source, on the zeroed buffer.
    pub fn of_source(point: &Point) -> Self {
        let &Point { kind, v, x } = point;
        let Split { n, num, .. } = Split::of(v);
        let slots = call(kind).expected(v, x, needed(v)).slots;
        let written = |slot: &Option<f64>| slot.expect("it is written");
        Rungs {
            first: 0,
            values: slots[..=n].iter().map(written).collect(),
            derivatives: slots[num..num + n].iter().map(written).collect(),
        }
    }

    /// The rungs from `held` − 1 on, with the values `held` − 1 and `held`.
    pub fn carried_on(point: &Point, held: usize, [mut below, mut top]: [f64; 2]) -> Self {
        let n = Split::of(point.v).n;
        let branch = Branch::of(point);
        let mut values = vec![below, top];
        for k in held + 1..=n {
            (below, top) = (top, branch.value(k, below, top));
            values.push(top);
        }
        let first = held - 1;
        let pairs = values.windows(2).zip(first..);
        Rungs {
            first,
            derivatives: pairs
                .map(|(pair, k)| branch.derivative(k, pair[0], pair[1]))
                .collect(),
            values,
        }
    }

    pub fn value(&self, k: usize) -> f64 {
        self.values[k - self.first]
    }

    pub fn derivative(&self, k: usize) -> f64 {
        self.derivatives[k - self.first]
    }
}

impl Branch {
    pub fn of(point: &Point) -> Self {
        Branch {
            kind: point.kind,
            below_zero: point.v < 0.0,
            x: point.x,
            f: Split::of(point.v).f,
        }
    }

    /// The point with this n. It is on the branch if f has few enough binary places for the order.
    pub fn point(&self, n: usize) -> Point {
        let steps = n as f64 - 1.0;
        let v = if !self.below_zero {
            self.f + steps
        } else if steps - self.f > 0.0 {
            self.f - steps
        } else {
            // 0 is on the other side.
            -power_of_two(-60)
        };
        Point {
            kind: self.kind,
            v,
            x: self.x,
        }
    }

    /// The state with this n and the values n − 1 and n.
    pub fn state(&self, n: usize, [value_below, value_top]: [f64; 2]) -> State {
        State {
            function: self.kind as u32,
            below_zero: u32::from(self.below_zero),
            n: n as u32,
            reserved: [0; 3],
            x: self.x,
            f: self.f,
            value_below,
            value_top,
        }
    }

    /// Value k of a forward branch from the values k − 2 and k − 1.
    pub fn value(&self, k: usize, below: f64, top: f64) -> f64 {
        let (x, f, k) = (self.x, self.f, k as f64);
        match (self.kind, self.below_zero) {
            (Kind::D, false) => x * top - (k + f - 1.0) * below,
            (Kind::D, true) => (-x * top + below) / (k - 1.0 - f),
            (Kind::V, true) => x * top + (k - f - 2.0) * below,
            (Kind::V, false) => (x * top - below) / (k + f),
        }
    }

    /// Derivative k from the values k and k + 1.
    pub fn derivative(&self, k: usize, value: f64, next: f64) -> f64 {
        let (x, f, k) = (self.x, self.f, k as f64);
        match (self.kind, self.below_zero) {
            (Kind::D, false) => 0.5 * x * value - next,
            (Kind::D, true) => -0.5 * x * value - (f.abs() + k) * next,
            (Kind::V, true) => -0.5 * x * value + next,
            (Kind::V, false) => 0.5 * x * value - (f + k + 1.0) * next,
        }
    }
}
