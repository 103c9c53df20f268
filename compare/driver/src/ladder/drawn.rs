//! Drawn requests and drawn lists.

use super::edges::REFUSED;
use super::lists::{Lending, List, Request};
use super::machine::LARGEST;
use super::rungs::Branch;
use super::{Point, State};
use crate::inputs::Draw;
use crate::tables::{Junk, Kind, argument, arguments};

/// Which tables a list lends.
#[derive(Clone, Copy, PartialEq)]
enum Tables {
    /// The same ones, of these lengths.
    Steady([usize; 2]),
    /// The same ones, never shorter than before.
    Growing,
    Any,
}

/// The branch and the n that a list is at. The next request is drawn from them.
pub struct Walk<'a> {
    draw: &'a mut Draw,
    arguments: &'a [f64],
    pub branch: Branch,
    pub n: usize,
    /// The largest n drawn.
    limit: usize,
    tables: Tables,
    /// The lengths before.
    lengths: [usize; 2],
}

/// Drawn lists from an empty ladder, without end.
pub fn lists(seed: u64) -> impl Iterator<Item = List> {
    let mut draw = Draw::new(seed);
    let arguments = arguments();
    std::iter::repeat_with(move || {
        let longest = [2, 8, 40, 300][draw.below(4)];
        let length = 1 + draw.below(longest);
        let mut walk = Walk::new(&mut draw, &arguments);
        List {
            state: State::EMPTY,
            requests: (0..length).map(|_| walk.request()).collect(),
        }
    })
}

/// 0 and a half are most frequent. The others have few enough binary places for all orders, but for
/// one in sixteen.
fn fraction(draw: &mut Draw) -> f64 {
    match draw.below(16) {
        0..6 => 0.0,
        6..9 => 0.5,
        9..15 => (draw.bits() >> 21) as f64 / 8796093022208.0,
        _ => draw.uniform(1.0).abs(),
    }
}

fn branch(draw: &mut Draw, arguments: &[f64], n: usize) -> Branch {
    let below_zero = draw.below(2) == 0;
    let f = fraction(draw);
    let mut branch = Branch {
        kind: Kind::BOTH[draw.below(2)],
        below_zero,
        x: f64::NAN,
        f: if below_zero { 0.0 - f } else { f },
    };
    while branch.x.is_nan() {
        branch.x = argument(draw, arguments, branch.point(n).v);
    }
    branch
}

/// Half of the lists have any tables. Steady ones may be too short for the largest n.
fn tables(draw: &mut Draw, limit: usize) -> Tables {
    match draw.below(4) {
        0 => {
            let n = [limit, 1 + draw.below(limit)][draw.below(2)];
            Tables::Steady([n + 2, n + 1])
        }
        1 => Tables::Growing,
        _ => Tables::Any,
    }
}

impl<'a> Walk<'a> {
    pub fn new(draw: &'a mut Draw, arguments: &'a [f64]) -> Self {
        let limit = match draw.below(24) {
            0 => LARGEST,
            1..4 => 60,
            _ => 12,
        };
        let n = 1 + draw.below(limit);
        Walk {
            branch: branch(draw, arguments, n),
            tables: tables(draw, limit),
            draw,
            arguments,
            n,
            limit,
            lengths: [0, 0],
        }
    }

    pub fn request(&mut self) -> Request {
        let point = self.point();
        self.lengths = self.lengths(point.needed());
        let lending = match self.draw.below(8) {
            _ if self.tables != Tables::Any => Lending::Kept,
            0 => Lending::Exchanged,
            1 => Lending::Overwritten,
            2 => Lending::Other,
            _ => Lending::Kept,
        };
        let junk = Junk(self.draw.bits());
        let lengths = self.lengths;
        Request {
            point,
            lengths,
            nulls: lengths.map(|length| length == 0 && junk.0 >> 63 == 1),
            lending,
            junk,
        }
    }

    /// A refused point, or one close to the point of this n, leaves the walk as it is.
    fn point(&mut self) -> Point {
        match self.draw.below(32) {
            0 => self.refused(),
            1 => {
                let point = self.branch.point(self.n);
                let v = self.draw.close(point.v);
                Point { v, ..point }
            }
            2..7 => self.branch.point(self.n),
            _ => {
                self.step();
                self.branch.point(self.n)
            }
        }
    }

    fn refused(&mut self) -> Point {
        let point = self.branch.point(self.n);
        match self.draw.below(4) {
            0 => Point {
                v: f64::NAN,
                ..point
            },
            1 => Point {
                x: f64::NAN,
                ..point
            },
            _ => {
                let v = REFUSED[self.draw.below(REFUSED.len())];
                Point { v, ..point }
            }
        }
    }

    /// Most often upward on the same branch.
    fn step(&mut self) {
        let Branch { kind, x, .. } = self.branch;
        match self.draw.below(32) {
            0..16 => self.n += 1,
            16..20 => self.n += 1 + self.draw.below(8),
            20 => self.n += 1 + self.draw.below(self.limit),
            21..24 => self.n = 1 + self.draw.below(self.n),
            24..26 => self.branch.kind = if kind == Kind::D { Kind::V } else { Kind::D },
            26..28 => {
                self.branch.below_zero ^= true;
                self.branch.f = 0.0 - self.branch.f;
            }
            28 => self.branch.x = -x,
            29 => self.branch.x = [x.next_up(), x.next_down()][self.draw.below(2)],
            _ => self.branch = branch(self.draw, self.arguments, self.n),
        }
        if self.n > self.limit {
            self.n = 1 + self.draw.below(self.limit);
        }
    }

    fn lengths(&mut self, needed: [usize; 2]) -> [usize; 2] {
        let before = self.lengths;
        match self.tables {
            Tables::Steady(lengths) => lengths,
            Tables::Growing => [0, 1].map(|i| before[i].max(needed[i]) + self.draw.below(2)),
            Tables::Any => [0, 1].map(|i| self.length(before[i], needed[i])),
        }
    }

    /// One in sixteen is too short.
    fn length(&mut self, before: usize, needed: usize) -> usize {
        match self.draw.below(32) {
            0 => self.draw.below(needed),
            1 => needed - 1,
            2..6 => needed + self.draw.below(8),
            6 => needed + self.draw.below(300),
            7..16 => needed.max(before),
            _ => needed,
        }
    }
}
