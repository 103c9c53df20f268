//! The calls that take more than two numbers or answer more than one.

use source::entry::{U_POLY, V_POLY};

use super::reference::{self, over_platform};
use super::{drawn, edges, library};
use crate::comparing::{Comparable, Line, Tally, difference};
use crate::functions::Pair;
use crate::inputs::Draw;
use crate::tables::Answer;

/// N numbers, as the fields of a struct in C.
#[repr(C)]
pub struct Numbers<const N: usize>(pub [f64; N]);

/// A call of the library with its reference.
pub struct Call<I: 'static, A> {
    /// Its number in the stored answers, which do not have `uv_poly`.
    pub number: u64,
    pub name: &'static str,
    pub sides: Pair<fn(I) -> A>,
    /// The Rust without the tests for refusals, over the stand-ins and over the platform's
    /// functions, for the times.
    pub timed: [fn(I) -> A; 2],
    /// A few edge inputs. All of them are stored.
    pub limits: fn() -> Vec<I>,
    /// The other edge inputs.
    pub edges: fn() -> Vec<I>,
    /// Draws an input, given all edge inputs.
    pub drawn: fn(&mut Draw, &[I]) -> I,
    /// Inputs that are timed one by one, with the form that they take if there are several.
    pub points: &'static [(&'static str, I)],
}

/// A polynomial at t: its row, u_0 to u_10 and then v_0 to v_10. Any bar but 0 is true.
#[derive(Clone, Copy, Debug)]
pub struct Polynomial {
    pub row: usize,
    pub bar: u32,
    pub t: f64,
}

impl Polynomial {
    pub const ROWS: usize = U_POLY.len() + V_POLY.len();

    /// The index s of u_s or v_s.
    pub fn s(&self) -> usize {
        self.row % U_POLY.len()
    }

    pub fn coefficients(&self) -> &'static [f64] {
        let table = [U_POLY, V_POLY][self.row / U_POLY.len()];
        table[self.s()]
    }
}

impl Comparable for Polynomial {
    fn alike(&self, other: &Self) -> bool {
        (self.row, self.bar) == (other.row, other.bar) && self.t.alike(&other.t)
    }

    fn show(&self) -> String {
        format!("row {}, bar {}, t {}", self.row, self.bar, self.t.show())
    }
}

pub const UV_POLY: Call<Polynomial, f64> = Call {
    number: 34,
    name: "uv_poly",
    sides: Pair {
        library: |input| {
            let (p, s) = (input.coefficients(), input.s() as u32);
            // SAFETY: p has `p.len()` numbers.
            unsafe { library::compared_uv_poly(p.as_ptr(), p.len(), s, input.t, input.bar) }
        },
        reference: reference::uv_poly,
    },
    timed: [reference::uv_poly, over_platform::uv_poly],
    limits: Vec::new,
    edges: edges::polynomials,
    drawn: drawn::polynomial,
    points: &[],
};

pub const UV_SUMS: Call<[f64; 2], [f64; 2]> = Call {
    number: 30,
    name: "uv_sums",
    sides: Pair {
        library: |[t, w]| library::compared_uv_sums(t, w).0,
        reference: reference::uv_sums,
    },
    timed: [reference::uv_sums, over_platform::uv_sums],
    limits: edges::limits_of_sums,
    edges: edges::sums,
    drawn: drawn::sums,
    points: &[("", [0.3, 0.018])],
};

pub const PBDV_ELEMENTARY: Call<[f64; 2], [f64; 3]> = Call {
    number: 31,
    name: "pbdv_elementary",
    sides: Pair {
        library: |[v, x]| library::compared_pbdv_elementary(v, x).0,
        reference: reference::pbdv_elementary,
    },
    timed: [reference::pbdv_elementary, over_platform::pbdv_elementary],
    limits: edges::limits_of_mantissas,
    edges: edges::mantissas,
    drawn: drawn::mantissas,
    points: &[("", [-25.0, 3.0]), ("", [-500.25, -40.0])],
};

pub const D_EXPANSION: Call<[f64; 2], Answer> = Call {
    number: 32,
    name: "d_expansion",
    sides: Pair {
        library: |[v, x]| library::gozhnerim_d_expansion(v, x),
        reference: reference::d_expansion,
    },
    timed: [reference::d_pair, over_platform::d_pair],
    limits: edges::limits_of_requests,
    edges: edges::requests,
    drawn: drawn::request,
    points: &[
        ("", [-20.0, 0.0]),
        ("", [-25.0, 3.0]),
        ("", [-100.5, 20.0]),
        ("", [-150.25, -0.5]),
        ("", [-500.25, -40.0]),
    ],
};

pub const MACLAURIN: Call<[f64; 5], Answer> = Call {
    number: 33,
    name: "maclaurin",
    sides: Pair {
        library: |[a, x, c0, c1, e]| library::gozhnerim_maclaurin(a, x, c0, c1, e),
        reference: reference::maclaurin,
    },
    timed: [reference::maclaurin_pair, over_platform::maclaurin_pair],
    limits: Vec::new,
    edges: edges::series,
    drawn: drawn::series,
    points: &[
        (" series", [-20.5, 0.1, 1.0, 0.5, 0.0]),
        (" series", [-20.5, 2.0, 1.0, 0.5, 10.0]),
        (" series", [20.25, 5.0, 1.0, 0.5, -100.0]),
        (" short form", [-20.5, 1e-160, 1.0, 0.5, 0.0]),
    ],
};

impl<I: Copy + Comparable, A: Comparable> Call<I, A> {
    /// A seed of its own, so that its inputs do not depend on the other calls.
    pub fn seed(&self, seed: u64) -> u64 {
        seed ^ (self.number << 32)
    }

    pub fn all_edges(&self) -> Vec<I> {
        let mut edges = (self.limits)();
        edges.extend((self.edges)());
        edges
    }

    /// Drawn inputs without end.
    pub fn drawn(&self, seed: u64) -> impl Iterator<Item = I> + use<I, A> {
        let (mut draw, edges) = (Draw::new(self.seed(seed)), self.all_edges());
        let drawn = self.drawn;
        std::iter::repeat_with(move || drawn(&mut draw, &edges))
    }

    /// All edge inputs, then drawn ones.
    pub fn inputs(&self, count: usize, seed: u64) -> impl Iterator<Item = I> + use<I, A> {
        let edges = self.all_edges().into_iter();
        edges.chain(self.drawn(seed)).take(count)
    }

    /// Compares both sides over `count` inputs.
    pub fn compare(&self, tally: &mut Tally, count: usize, seed: u64) {
        let Pair { library, reference } = self.sides;
        let inputs = self.inputs(count, seed);
        tally.compare(self.name, inputs, |&i| library(i), |&i| reference(i));
    }

    /// Compares both sides over `count` drawn inputs.
    pub fn compare_drawn(&self, line: &mut Line, count: usize, seed: u64) {
        let Pair { library, reference } = self.sides;
        let inputs = self.drawn(seed).take(count);
        line.count_all(inputs, difference(|&i| library(i), |&i| reference(i)));
    }
}
