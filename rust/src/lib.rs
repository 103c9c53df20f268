//! The parabolic cylinder functions D and V with their derivatives, and a ladder over them: a safe
//! interface to the proved library `libgozhnerim.a`.
//!
//! D and V are those of [DLMF 12.1](https://dlmf.nist.gov/12.1) and
//! [DLMF 12.2](https://dlmf.nist.gov/12.2), as functions of an order v and an argument x:
//! D of order v at x is U(−v − ½, x), and V of order v at x is V(−v − ½, x) there.
//!
//! A request works out rungs. With f the fraction of v + 1 (v ≥ 0) or of v − 1 (v < 0), both
//! rounded, rung k is the function at order f + k or at order f − k ([`rung_order`]). The top rung
//! is n ([`rungs_needed`]), and the answer is rung n − 1, which is the function at order v.
//!
//! - [`d_table`] and [`v_table`] work out all rungs of one request into a table.
//! - A [`Ladder`] holds its rungs between requests. When a higher order comes it climbs: it works out
//!   only the rungs that are new. [`State`] is the same over tables that the caller lends.
//! - [`Ladder::tested`] and [`State::tested`] lend a column only where every rung in the tables is the
//!   right one, whoever wrote to them.
//! - [`d_expansion`] is D at large negative orders, [`maclaurin`] the series at 0.
//! - [`unmirrored`] compares tables of D at x and at −x.
//!
//! A call answers, or gives a [`Refusal`] and changes nothing. A ladder answers as single table
//! calls would, with the same bits or both NaN: of the library this is proved, for every list of
//! requests; of this package over it, it is tested.
//!
//! ```
//! use gozhnerim::{Case, Ladder};
//!
//! let mut ladder = Ladder::new();
//! let first = ladder.d(2.5, 1.0)?;
//! assert_eq!((first.written, first.case), (4, Case::StartOver));
//! let next = ladder.d(4.5, 1.0)?;
//! assert_eq!((next.written, next.case), (2, Case::Climb));
//! assert_eq!(next.value, ladder.values()[4]);
//!
//! let refusal = ladder.d(1000.0, 1.0).unwrap_err();
//! assert_eq!(refusal.number(), 2);
//! println!("{refusal}");
//! # Ok::<(), gozhnerim::Refusal>(())
//! ```
//!
//! The library takes the processor in its usual mode: rounding to nearest, subnormal numbers kept.
//! It allocates nothing and keeps nothing between calls, so calls may run at the same time.
//!
//! To build the package, set `GOZHNERIM_LIBRARY` to the full path of `libgozhnerim.a`. Without it,
//! `rt lib` is run in crates/gozhnerim of the repository. x86-64 Linux.

#![forbid(unsafe_op_in_unsafe_fn)]
#![deny(unsafe_code)]
#![deny(missing_docs)]

mod answer;
#[allow(unsafe_code)]
mod c;
mod column;
mod function;
mod ladder;
mod mirror;
mod order;
mod refusal;
mod reply;
mod state;

pub use answer::{Pair, d_expansion, d_table, maclaurin, v_table};
pub use c::RawState;
pub use column::{Column, column};
pub use function::Function;
pub use ladder::Ladder;
pub use mirror::{is_mirrored, unmirrored};
pub use order::{rung_order, rungs_needed, slots_needed};
pub use refusal::Refusal;
pub use reply::{Case, Reply};
pub use state::{Held, State};

/// The version of the library linked, as `GOZHNERIM_VERSION` of `include/gozhnerim.h` has it: 10000
/// times the first number, 100 times the second, and the third. build.rs holds it to the package's.
///
/// ```
/// assert!(gozhnerim::library_version() >= 200);
/// ```
#[must_use]
pub fn library_version() -> u32 {
    c::version()
}
