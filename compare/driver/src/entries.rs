//! Calls each entry of the compared Rust, so that a break in the extraction is seen.

use crate::comparing::Comparable;

/// How far apart the answers over the stand-ins and over the platform's functions may be.
const TOLERANCE: f64 = 1e-8;
/// How many numbers of an answer are printed. All are tested.
const PRINTED: usize = 3;

type Allocate = fn(f64) -> Option<(Vec<f64>, usize)>;
type Table = fn(f64, f64, &mut [f64], usize) -> (f64, f64);

/// Prints each entry's answer, over the stand-ins and over the platform's functions, and the scope
/// paper's examples. Gives whether none is off.
pub fn run() -> bool {
    let faults = functions() + tables() + examples();
    println!("entries: {faults} faults");
    faults == 0
}

/// An entry's answer as a list of numbers.
trait Values {
    fn values(self) -> Vec<f64>;
}

impl Values for f64 {
    fn values(self) -> Vec<f64> {
        vec![self]
    }
}

impl Values for (f64, f64) {
    fn values(self) -> Vec<f64> {
        vec![self.0, self.1]
    }
}

impl Values for ([f64; 2], f64) {
    fn values(self) -> Vec<f64> {
        vec![self.0[0], self.0[1], self.1]
    }
}

macro_rules! both {
    ($($name:ident($($argument:expr),*);)*) => {
        0 $(+ near(
            concat!(stringify!($name), stringify!(($($argument),*))),
            &source::entry::$name($($argument),*).values(),
            &platform::entry::$name($($argument),*).values(),
        ))*
    };
}

fn functions() -> usize {
    use source::entry::{U_POLY, V_POLY};
    both! {
        mul_exp(-1.5, 3.25);
        mul_exp(1e307, -1402.0);
        gamma2(5.5);
        gamma2(-2.25);
        polevl(0.5, &[1.0, -2.0, 3.0]);
        lgam_stirling_corr(20.0);
        dvsa(1.25, -0.75);
        dvla(8.5, 0.25);
        dvla(-8.5, 0.25);
        vvla(8.5, 0.25);
        vvla(-8.5, 0.25);
        vvla_qe(8.5, 0.25, 1.0);
        vvsa(1.25, -0.75);
        uv_poly(U_POLY[3], 3, 0.75, true);
        uv_poly(V_POLY[4], 4, 0.75, false);
        ln_gamma_ratio(30.0);
        pbdv_elementary(-25.5, 1.25);
        pbdv_elementary(-25.5, -1.25);
        pb_maclaurin(-25.5, 0.125, 1.0, -0.5, 2.0);
        pb_maclaurin(-25.5, 1e-160, 1.0, -0.5, 2.0);
    }
}

fn tables() -> usize {
    let rows = [
        (4.75, 1.25),
        (4.75, -8.25),
        (-4.75, 1.25),
        (-4.75, 9.25),
        (-4.75, -8.25),
    ];
    let mut faults = 0;
    for (v, x) in rows {
        faults += near(
            &format!("pbdv_impl, v = {v:?}, x = {x:?}"),
            &table(source::entry::alloc_buf, source::entry::pbdv_impl, v, x),
            &table(platform::entry::alloc_buf, platform::entry::pbdv_impl, v, x),
        );
        faults += near(
            &format!("pbvv_impl, v = {v:?}, x = {x:?}"),
            &table(source::entry::alloc_buf, source::entry::pbvv_impl, v, x),
            &table(platform::entry::alloc_buf, platform::entry::pbvv_impl, v, x),
        );
    }
    faults
}

/// The pair, then all slots of the table.
fn table(allocate: Allocate, table: Table, v: f64, x: f64) -> Vec<f64> {
    let (mut slots, num) = allocate(v).expect("the size of v is below 1000");
    let pair = table(x, v, &mut slots, num);
    slots.splice(0..0, [pair.0, pair.1]);
    slots
}

/// The scope paper's examples P1 to P10 that the Rust has, over the stand-ins.
fn examples() -> usize {
    use source::entry::{LARGE_V, U_POLY, V_POLY, alloc_buf, dvsa, gamma2, pbdv_impl, pbvv_impl};
    let d = |v, x| table(alloc_buf, pbdv_impl, v, x);
    let v = |v, x| table(alloc_buf, pbvv_impl, v, x);
    let slots =
        |v| alloc_buf(v).map_or(vec![], |(slots, num)| vec![slots.len() as f64, num as f64]);
    let coefficients: usize = U_POLY.iter().chain(&V_POLY).map(|row| row.len()).sum();
    exact("P1 exp 0", &[stand_ins::exp(0.0)], &[1.0])
        + exact("P2 gamma2(5)", &[gamma2(5.0)], &[24.0])
        + exact("P3 gamma2(-3)", &[gamma2(-3.0)], &[1e300])
        + exact("P4 dvsa(0, 1)", &[dvsa(0.0, 1.0)], &[0.0])
        + exact("P4 dvsa(0, 0)", &[dvsa(0.0, 0.0)], &[1.0])
        + exact("P5 D, v = 0, x = 0", &d(0.0, 0.0)[..2], &[1.0, 0.0])
        + exact("P5 slots, v = 0", &slots(0.0), &[6.0, 3.0])
        + exact("P6 D, v = 1, x = 0", &d(1.0, 0.0)[..2], &[0.0, 1.0])
        + exact(
            "P7 D, v = 2, x = 0",
            &d(2.0, 0.0)[..6],
            &[-1.0, 0.0, 1.0, 0.0, -1.0, -0.0],
        )
        + exact(
            "P8 V, v = -1, x = 0",
            &v(-1.0, 0.0)[..2],
            &[0.7978845608028654, 0.0],
        )
        + exact("P9 slots, v = 1000", &slots(LARGE_V), &[])
        + exact("P10 slots, v = 999.5", &slots(999.5), &[2004.0, 1002.0])
        + exact("coefficients of U and V", &[coefficients as f64], &[172.0])
}

/// Prints the first numbers of both answers; gives 1 if they are not near each other, else 0.
fn near(name: &str, stand_ins: &[f64], platform: &[f64]) -> usize {
    let first = |answer: &[f64]| format!("{:?}", &answer[..answer.len().min(PRINTED)]);
    println!(
        "{name}: stand-ins {}, platform {}",
        first(stand_ins),
        first(platform)
    );
    let near = |(&a, &b): (&f64, &f64)| a == b || (a - b).abs() <= TOLERANCE * b.abs();
    let all_near = stand_ins.len() == platform.len() && stand_ins.iter().zip(platform).all(near);
    fault(name, all_near)
}

/// Prints the answer; gives 1 if it is not the expected one, else 0.
fn exact(name: &str, answer: &[f64], expected: &[f64]) -> usize {
    println!("{name}: {answer:?}");
    let alike = |(a, b): (&f64, &f64)| a.alike(b);
    let all_alike = answer.len() == expected.len() && answer.iter().zip(expected).all(alike);
    fault(name, all_alike)
}

fn fault(name: &str, right: bool) -> usize {
    if !right {
        println!("{name}: FAULT");
    }
    usize::from(!right)
}
