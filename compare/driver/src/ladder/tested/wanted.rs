//! What a reading must answer, by 02, #102.

use super::Part;
use super::steps::Steps;
use crate::comparing::Comparable;
use crate::ladder::machine::{Machine, Record};
use crate::ladder::rungs::{Branch, Rungs};
use crate::ladder::{Point, State};

/// What the tables lent with a state must hold.
pub enum Wanted {
    /// Whatever they hold, the state counts as empty or its branch does not run forward.
    NotForward,
    /// Values 0 to n and derivatives 0 to n − 1 of the table call.
    OfTheTable([Vec<f64>; 2]),
    /// Rungs to this n by steps over the slots.
    BySteps(Steps, usize),
}

impl Wanted {
    /// For a state that ladder calls handed out: by the machine, and by the table call for the
    /// request that was last accepted.
    pub fn of_requests(machine: &Machine, last: &Point) -> Self {
        match forward(machine) {
            None => Wanted::NotForward,
            Some(record) => Wanted::OfTheTable(of_the_table(last, record.n)),
        }
    }

    /// For any state, by its fields.
    pub fn of_fields(state: &State) -> Self {
        match forward(&Machine::of(state)) {
            None => Wanted::NotForward,
            Some(record) => Wanted::BySteps(Steps::of(branch(&record)), record.n),
        }
    }

    /// What the reader answers on value table and derivative table.
    pub fn part(&self, [values, derivatives]: [&[f64]; 2], which: u32) -> Part {
        let n = match self {
            Wanted::NotForward => return Part::refused(6),
            Wanted::OfTheTable([_, derivatives]) => derivatives.len(),
            Wanted::BySteps(_, n) => *n,
        };
        if values.len() < n + 1 || derivatives.len() < n {
            return Part::refused(3);
        }
        if !self.is_met([&values[..=n], &derivatives[..n]]) {
            return Part::refused(7);
        }
        let length = match which {
            1 => n + 1,
            2 => n,
            _ => 0,
        };
        Part { refusal: 0, length }
    }

    fn is_met(&self, columns: [&[f64]; 2]) -> bool {
        match self {
            Wanted::NotForward => false,
            Wanted::OfTheTable(rungs) => {
                let mut pairs = (0..2).flat_map(|i| columns[i].iter().zip(&rungs[i]));
                pairs.all(|(slot, rung)| slot.alike(rung))
            }
            Wanted::BySteps(steps, _) => steps.hold(columns),
        }
    }
}

fn forward(machine: &Machine) -> Option<Record> {
    machine.held.filter(Record::is_forward)
}

/// Values 0 to n and derivatives 0 to n − 1 by the source, n being the point's.
pub fn of_the_table(point: &Point, n: usize) -> [Vec<f64>; 2] {
    let rungs = Rungs::of_source(point);
    [
        (0..=n).map(|k| rungs.value(k)).collect(),
        (0..n).map(|k| rungs.derivative(k)).collect(),
    ]
}

pub fn branch(record: &Record) -> Branch {
    Branch {
        kind: record.kind,
        below_zero: record.below_zero,
        x: f64::from_bits(record.x),
        f: f64::from_bits(record.f),
    }
}
