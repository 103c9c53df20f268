//! Rungs by 02, #102: the start rungs from function, side, x and f, each later value from the two
//! slots before it, each derivative from the values beside it.

use source::entry::{dvla, dvsa, vvla, vvsa};

use crate::comparing::Comparable;
use crate::ladder::rungs::Branch;
use crate::tables::Kind;

/// The source's constant of this name.
const SQRT_FRAC_2_PI: f64 = 0.7978845608028654;

/// A forward branch with its values 0 and 1.
pub struct Steps {
    branch: Branch,
    start: [f64; 2],
}

impl Steps {
    pub fn of(branch: Branch) -> Self {
        let start = start(&branch);
        Steps { branch, start }
    }

    /// Values 0 to n and derivatives 0 to n − 1.
    pub fn rungs(&self, n: usize) -> [Vec<f64>; 2] {
        let mut values = self.start.to_vec();
        carry_on(&self.branch, 2, n, &mut values);
        let derivatives = derivatives(&self.branch, &values);
        [values, derivatives]
    }

    /// Whether all values and derivatives are alike with what is worked out for their places.
    pub fn hold(&self, [values, derivatives]: [&[f64]; 2]) -> bool {
        let value = |k: usize| match self.start.get(k) {
            Some(&start) => start,
            None => step(&self.branch, k, values),
        };
        let derivative = |k: usize| self.branch.derivative(k, values[k], values[k + 1]);
        (0..values.len()).all(|k| values[k].alike(&value(k)))
            && (0..derivatives.len()).all(|k| derivatives[k].alike(&derivative(k)))
    }
}

/// Whether value 2 is x times value 1.
pub fn has_its_own_rung_2(branch: &Branch) -> bool {
    branch.kind == Kind::V && branch.below_zero && branch.f == 0.0
}

/// Value k, from 2 on, from the slots below it.
pub fn step(branch: &Branch, k: usize, values: &[f64]) -> f64 {
    if k == 2 && has_its_own_rung_2(branch) {
        branch.x * values[1]
    } else {
        branch.value(k, values[k - 2], values[k - 1])
    }
}

/// Works out values `from` to n from those below them, of which there are two or more.
pub fn carry_on(branch: &Branch, from: usize, n: usize, values: &mut Vec<f64>) {
    values.truncate(from);
    for k in from..=n {
        values.push(step(branch, k, values));
    }
}

/// All derivatives that the values give.
pub fn derivatives(branch: &Branch, values: &[f64]) -> Vec<f64> {
    let pairs = values.windows(2).enumerate();
    pairs
        .map(|(k, pair)| branch.derivative(k, pair[0], pair[1]))
        .collect()
}

/// Values 0 and 1, as the source begins its forward branches.
fn start(branch: &Branch) -> [f64; 2] {
    let &Branch {
        kind,
        below_zero,
        x,
        f,
    } = branch;
    match (kind, below_zero) {
        (Kind::D, false) if f == 0.0 => {
            let gaussian = stand_ins::exp(-0.25 * x * x);
            [gaussian, x * gaussian]
        }
        (Kind::D, false) => [f, f + 1.0].map(|order| d(x, order)),
        (Kind::D, true) => [f, f - 1.0].map(|order| d(x, order)),
        (Kind::V, true) if f == 0.0 => [v(x, f), SQRT_FRAC_2_PI * stand_ins::exp(0.25 * x * x)],
        (Kind::V, true) => [f, f - 1.0].map(|order| v(x, order)),
        (Kind::V, false) => [f, f + 1.0].map(|order| v(x, order)),
    }
}

fn d(x: f64, order: f64) -> f64 {
    let sum = if x.abs() <= 5.8 { dvsa } else { dvla };
    sum(x, order)
}

fn v(x: f64, order: f64) -> f64 {
    let sum = if x.abs() <= 7.5 { vvsa } else { vvla };
    sum(x, order)
}
