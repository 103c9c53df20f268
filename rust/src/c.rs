//! The C interface, `include/gozhnerim.h`. All the `unsafe` of the package is here.

use crate::Function;

/// The fields of a [`State`](crate::State) as they stand in C: `gozhnerim_ladder` of
/// `include/gozhnerim.h`.
///
/// A state from elsewhere (a file, a C caller) is handed in by [`State::from_raw`] and handed out
/// by [`State::to_raw`]. Any bits in any field are safe. The default is an empty state.
///
/// [`State::from_raw`]: crate::State::from_raw
/// [`State::to_raw`]: crate::State::to_raw
///
/// ```
/// use gozhnerim::{Case, Function, RawState, State};
///
/// // D at x = 2 with rungs 2 and 3 given: rung 4 is 2 * 7 - 3 * 5.
/// let raw = RawState {
///     function: 1,
///     n: 3,
///     x: 2.0,
///     value_below: 5.0,
///     value_top: 7.0,
///     ..RawState::default()
/// };
/// let mut state = State::from_raw(raw);
/// let (mut values, mut derivatives) = ([0.0; 5], [0.0; 4]);
/// let reply = state.request(Function::D, 3.0, 2.0, &mut values, &mut derivatives)?;
/// assert_eq!((reply.case, reply.written, values[4]), (Case::Climb, 1, -1.0));
/// # Ok::<(), gozhnerim::Refusal>(())
/// ```
#[repr(C)]
#[derive(Clone, Copy, Debug, Default)]
pub struct RawState {
    /// 1 is D, 2 is V; with any other number the state is empty.
    pub function: u32,
    /// 1 where v < 0, else 0. Above 1 it counts as 1.
    pub below_zero: u32,
    /// The top rung.
    pub n: u32,
    /// 0 in an empty state and from every accepted request. Hand it back as received.
    pub reserved: [u32; 3],
    /// The argument.
    pub x: f64,
    /// The fraction of v + 1 (v ≥ 0) or v − 1 (v < 0), with its sign.
    pub f: f64,
    /// Rung n − 1.
    pub value_below: f64,
    /// Rung n.
    pub value_top: f64,
}

/// `gozhnerim_order`.
#[repr(C)]
#[derive(Clone, Copy)]
pub struct Order {
    pub refusal: u32,
    pub below_zero: u32,
    pub n: u32,
    pub num: u32,
    pub table_slots: usize,
    pub value_slots: usize,
    pub derivative_slots: usize,
    pub f: f64,
}

/// `gozhnerim_answer`.
#[repr(C)]
#[derive(Clone, Copy)]
pub struct Answer {
    pub refusal: u32,
    pub value: f64,
    pub derivative: f64,
}

/// `gozhnerim_reply`.
#[repr(C)]
#[derive(Clone, Copy)]
pub struct Reply {
    pub state: RawState,
    pub refusal: u32,
    pub written: u32,
    pub value: f64,
    pub derivative: f64,
}

/// `gozhnerim_part`.
#[repr(C)]
#[derive(Clone, Copy)]
pub struct Part {
    pub refusal: u32,
    pub length: usize,
}

unsafe extern "C" {
    safe fn gozhnerim_version() -> u32;
    safe fn gozhnerim_split(v: f64) -> Order;
    fn gozhnerim_d_table(v: f64, x: f64, table: *mut f64, len: usize) -> Answer;
    fn gozhnerim_v_table(v: f64, x: f64, table: *mut f64, len: usize) -> Answer;
    safe fn gozhnerim_d_expansion(v: f64, x: f64) -> Answer;
    safe fn gozhnerim_maclaurin(a: f64, x: f64, c0: f64, c1: f64, e: f64) -> Answer;
    fn gozhnerim_ladder_d(
        held: RawState,
        v: f64,
        x: f64,
        values: *mut f64,
        values_len: usize,
        derivatives: *mut f64,
        derivatives_len: usize,
    ) -> Reply;
    fn gozhnerim_ladder_v(
        held: RawState,
        v: f64,
        x: f64,
        values: *mut f64,
        values_len: usize,
        derivatives: *mut f64,
        derivatives_len: usize,
    ) -> Reply;
    safe fn gozhnerim_case(reply: Reply) -> u32;
    fn gozhnerim_column(
        values: *const f64,
        values_len: usize,
        derivatives: *const f64,
        derivatives_len: usize,
        which: u32,
        c: usize,
    ) -> usize;
    fn gozhnerim_tested_column(
        held: RawState,
        values: *const f64,
        values_len: usize,
        derivatives: *const f64,
        derivatives_len: usize,
        which: u32,
    ) -> Part;
}

/// The version of the library.
pub fn version() -> u32 {
    gozhnerim_version()
}

/// What a request for an order needs.
pub fn split(v: f64) -> Order {
    gozhnerim_split(v)
}

/// Which case a reply is.
pub fn case(reply: Reply) -> u32 {
    gozhnerim_case(reply)
}

/// The table call of a function.
pub fn table(function: Function, v: f64, x: f64, table: &mut [f64]) -> Answer {
    let call = match function {
        Function::D => gozhnerim_d_table,
        Function::V => gozhnerim_v_table,
    };
    // SAFETY: pointer and length are those of a slice that is lent to this call alone.
    unsafe { call(v, x, table.as_mut_ptr(), table.len()) }
}

/// D by the expansion.
pub fn d_expansion(v: f64, x: f64) -> Answer {
    gozhnerim_d_expansion(v, x)
}

/// The series at 0.
pub fn maclaurin(a: f64, x: f64, c0: f64, c1: f64, e: f64) -> Answer {
    gozhnerim_maclaurin(a, x, c0, c1, e)
}

/// A request on a state, with value table and derivative table.
pub fn request(
    held: RawState,
    function: Function,
    (v, x): (f64, f64),
    values: &mut [f64],
    derivatives: &mut [f64],
) -> Reply {
    let call = match function {
        Function::D => gozhnerim_ladder_d,
        Function::V => gozhnerim_ladder_v,
    };
    let (values_len, derivatives_len) = (values.len(), derivatives.len());
    let (values, derivatives) = (values.as_mut_ptr(), derivatives.as_mut_ptr());
    // SAFETY: pointers and lengths are those of two slices that are lent to this call alone. Being
    // lent at the same time, they do not overlap.
    unsafe { call(held, v, x, values, values_len, derivatives, derivatives_len) }
}

/// How many slots of the column numbered `which` are lent back.
pub fn column(values: &[f64], derivatives: &[f64], which: u32, c: usize) -> usize {
    let (values_len, derivatives_len) = (values.len(), derivatives.len());
    let (values, derivatives) = (values.as_ptr(), derivatives.as_ptr());
    // SAFETY: pointers and lengths are those of two slices, which are only read.
    unsafe { gozhnerim_column(values, values_len, derivatives, derivatives_len, which, c) }
}

/// How many slots of the column numbered `which` the tested reader lends back.
pub fn tested_column(held: RawState, values: &[f64], derivatives: &[f64], which: u32) -> Part {
    let (values_len, derivatives_len) = (values.len(), derivatives.len());
    let (values, derivatives) = (values.as_ptr(), derivatives.as_ptr());
    // SAFETY: pointers and lengths are those of two slices, which are only read.
    unsafe {
        gozhnerim_tested_column(
            held,
            values,
            values_len,
            derivatives,
            derivatives_len,
            which,
        )
    }
}

#[cfg(test)]
mod tests {
    use super::*;
    use std::mem::offset_of;
    use std::path::{Path, PathBuf};
    use std::process::Command;

    /// A line for each struct: its name and size, and its fields' names and offsets.
    macro_rules! layout {
        ($name:literal, $type:ty, $($field:ident $c:literal),+) => {
            [format!("{} {}", $name, size_of::<$type>())]
                .into_iter()
                .chain([$(format!("{} {}", $c, offset_of!($type, $field))),+])
                .collect::<Vec<_>>()
                .join(" ")
        };
    }

    /// The structs as they are declared here.
    fn declared() -> Vec<String> {
        vec![
            layout!(
                "gozhnerim_order", Order,
                refusal "refusal", below_zero "below_zero", n "n", num "num",
                table_slots "table_slots", value_slots "value_slots",
                derivative_slots "derivative_slots", f "f"
            ),
            layout!(
                "gozhnerim_answer", Answer,
                refusal "refusal", value "value", derivative "derivative"
            ),
            layout!(
                "gozhnerim_ladder", RawState,
                function "function", below_zero "below_zero", n "n", reserved "reserved", x "x", f "f",
                value_below "value_below", value_top "value_top"
            ),
            layout!(
                "gozhnerim_reply", Reply,
                state "ladder", refusal "refusal", written "written", value "value",
                derivative "derivative"
            ),
            layout!("gozhnerim_part", Part, refusal "refusal", length "length"),
        ]
    }

    #[test]
    fn structs_are_laid_out_as_the_header_has_them() {
        let package = Path::new(env!("CARGO_MANIFEST_DIR"));
        let program = PathBuf::from(env!("OUT_DIR")).join("layout");
        let compiled = Command::new("cc")
            .arg("-I")
            .arg(package.join("../include"))
            .arg(package.join("tests/layout.c"))
            .arg("-o")
            .arg(&program)
            .status()
            .expect("the test needs a C compiler, cc");
        assert!(compiled.success());
        let printed = Command::new(&program).output().unwrap().stdout;
        let printed = String::from_utf8(printed).unwrap();
        assert_eq!(printed.lines().collect::<Vec<_>>(), declared());
    }
}
