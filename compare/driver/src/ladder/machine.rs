//! The scope paper's ladder machine: which requests are refused, and which of the three cases the
//! others are.

use std::ops::Range;

use super::{Point, State};
use crate::tables::{Kind, Split};

/// The largest n that an accepted order has.
pub const LARGEST: usize = 1000;

/// What the machine knows of an accepted request.
#[derive(Clone, Copy, Debug, PartialEq)]
pub struct Record {
    pub kind: Kind,
    pub below_zero: bool,
    /// The bits of x.
    pub x: u64,
    /// The bits of f.
    pub f: u64,
    pub n: usize,
}

/// What becomes of a request.
#[derive(Clone, Copy, Debug, PartialEq)]
pub enum Case {
    StartOver,
    /// From this n.
    Climb(usize),
    Repeat,
    /// With this number.
    Refused(u32),
}

/// The record held, none in an empty machine.
#[derive(Clone, Copy, Debug, Default, PartialEq)]
pub struct Machine {
    pub held: Option<Record>,
}

impl Record {
    /// Of an order that is not refused.
    fn of(point: &Point) -> Self {
        let Split { f, n, .. } = Split::of(point.v);
        Record {
            kind: point.kind,
            below_zero: point.v < 0.0,
            x: point.x.to_bits(),
            f: f.to_bits(),
            n,
        }
    }

    /// Whether the rungs run upward, so that they do not depend on n.
    pub fn is_forward(&self) -> bool {
        let (x, f) = (f64::from_bits(self.x), f64::from_bits(self.f));
        match (self.kind, self.below_zero) {
            (Kind::D, false) | (Kind::V, true) => true,
            (Kind::D, true) => x <= 0.0,
            (Kind::V, false) => {
                let u = self.n as f64 + f;
                x < 0.0 && !(x.abs() <= 10.0 && u <= 0.5 * x * x)
            }
        }
    }
}

impl Case {
    /// The cases in the lines printed.
    pub const NAMES: [&str; 6] = [
        "start-overs",
        "climbs",
        "repeats",
        "refusals 1",
        "refusals 2",
        "refusals 3",
    ];

    /// The place of the case among the names.
    pub fn number(self) -> usize {
        match self {
            Case::StartOver => 0,
            Case::Climb(_) => 1,
            Case::Repeat => 2,
            Case::Refused(refusal) => 2 + refusal as usize,
        }
    }

    /// The number of the case in the C interface.
    pub fn number_in_c(self) -> u32 {
        match self {
            Case::Refused(_) => 0,
            Case::Repeat => 1,
            Case::Climb(_) => 2,
            Case::StartOver => 3,
        }
    }

    /// The written count of a request with this n.
    pub fn written(self, n: usize) -> usize {
        match self {
            Case::StartOver => n + 1,
            Case::Climb(held) => n - held,
            Case::Repeat | Case::Refused(_) => 0,
        }
    }

    /// The slots of the value table that are written.
    pub fn values(self, n: usize) -> Range<usize> {
        match self {
            Case::StartOver => 0..n + 1,
            Case::Climb(held) => held + 1..n + 1,
            Case::Repeat | Case::Refused(_) => 0..0,
        }
    }

    /// The slots of the derivative table that are written.
    pub fn derivatives(self, n: usize) -> Range<usize> {
        match self {
            Case::StartOver => 0..n,
            Case::Climb(held) => held..n,
            Case::Repeat | Case::Refused(_) => 0..0,
        }
    }
}

impl Machine {
    /// Begun with the fields of a state, its two values left out.
    pub fn of(state: &State) -> Self {
        let counts_as_empty = state.n == 0
            || state.n > LARGEST as u32
            || state.x.is_nan()
            || state.f.is_nan()
            || state.f.abs() >= 1.0;
        let is_of = |kind: &Kind| *kind as u32 == state.function;
        let kind = Kind::BOTH.into_iter().find(is_of);
        let record = |kind| Record {
            kind,
            below_zero: state.below_zero != 0,
            x: state.x.to_bits(),
            f: state.f.to_bits(),
            n: state.n as usize,
        };
        Machine {
            held: kind.filter(|_| !counts_as_empty).map(record),
        }
    }

    /// The case of the next request, with the lengths of value table and derivative table. It is
    /// then held, if it is not refused.
    pub fn feed(&mut self, point: &Point, lengths: [usize; 2]) -> Case {
        if point.v.is_nan() || point.x.is_nan() {
            return Case::Refused(1);
        }
        if point.v.abs() >= 1000.0 {
            return Case::Refused(2);
        }
        let request = Record::of(point);
        if lengths[0] < request.n + 1 || lengths[1] < request.n {
            return Case::Refused(3);
        }
        self.held
            .replace(request)
            .map_or(Case::StartOver, |held| case(&held, &request))
    }
}

fn case(held: &Record, request: &Record) -> Case {
    let (n, new) = (held.n, request.n);
    let same_but_n = Record { n, ..*request } == *held;
    if same_but_n && new == n {
        Case::Repeat
    } else if same_but_n && new > n && n >= 2 && held.is_forward() {
        Case::Climb(n)
    } else {
        Case::StartOver
    }
}
