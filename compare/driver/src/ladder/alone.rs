//! The scope paper's ladder from empty, over the source: what a right ladder answers and writes.

use super::Point;
use super::machine::{Case, Machine};
use super::rungs::Rungs;
use crate::tables::{Answer, Split};

/// The machine; a ladder that was empty at first needs nothing else.
#[derive(Default)]
pub struct Alone {
    machine: Machine,
}

impl Alone {
    /// The written count, none with a refusal, and the answer. Writes to value table and derivative
    /// table.
    pub fn request(
        &mut self,
        point: &Point,
        tables: &mut [Vec<f64>; 2],
    ) -> (Option<usize>, Answer) {
        let case = self.machine.feed(point, [tables[0].len(), tables[1].len()]);
        if let Case::Refused(refusal) = case {
            return (None, Answer::refused(refusal));
        }
        let n = Split::of(point.v).n;
        let rungs = Rungs::of_source(point);
        for k in case.values(n) {
            tables[0][k] = rungs.value(k);
        }
        for k in case.derivatives(n) {
            tables[1][k] = rungs.derivative(k);
        }
        let pair = (rungs.value(n - 1), rungs.derivative(n - 1));
        (Some(case.written(n)), Answer::pair(pair))
    }
}
