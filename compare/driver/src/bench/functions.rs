//! The times of the functions of one or two numbers, over many inputs and at single ones.

use platform::entry;

use super::report::{Report, SIDES, Times};
use super::timing::times;
use crate::functions::{Function, Pair, Sides};
use crate::inputs::{Draw, Input};
use crate::{all_functions, floats};

const INPUTS: usize = 4096;
const SEED: u64 = 1;

type OfOne = extern "C" fn(f64) -> f64;
type OfTwo = extern "C" fn(f64, f64) -> f64;

/// Functions of the platform, or of the Rust over it, by the names of the library's.
macro_rules! platform {
    ($name:ident: $type:ty, $($function:ident($($argument:ident),*) => $call:path,)*) => {
        fn $name(name: &str) -> Option<$type> {
            $(extern "C" fn $function($($argument: f64),*) -> f64 {
                $call($($argument),*)
            })*
            match name {
                $(stringify!($function) => Some($function),)*
                _ => None,
            }
        }
    };
}

platform! {
    of_one: OfOne,
    exp(x) => f64::exp,
    exp2(x) => f64::exp2,
    exp_m1(x) => f64::exp_m1,
    ln(x) => f64::ln,
    sin(x) => f64::sin,
    cos(x) => f64::cos,
    gamma2(x) => entry::gamma2,
    lgam_stirling_corr(x) => entry::lgam_stirling_corr,
    ln_gamma_ratio(x) => entry::ln_gamma_ratio,
}

platform! {
    of_two: OfTwo,
    pow(x, y) => f64::powf,
    dvsa(x, y) => entry::dvsa,
    dvla(x, y) => entry::dvla,
    vvsa(x, y) => entry::vvsa,
    vvla(x, y) => entry::vvla,
    mul_exp(x, y) => entry::mul_exp,
}

pub fn run(report: &mut Report) {
    report.table("Functions below the calls", "function", SIDES);
    for function in all_functions() {
        let name = function.name;
        report.row(name, function_times(function, &ordinary_inputs(function)));
        for &(x, y) in points(function) {
            let name = format!("{name}({x:?}, {y:?})");
            report.row(&name, function_times(function, &[(x, y)]));
        }
    }
}

/// All sides are called through a pointer.
fn function_times(function: &Function, inputs: &[Input]) -> Times {
    let name = function.name;
    match &function.sides {
        Sides::Number(f) => times(inputs, sides(function, f, of_one(name)), |f, (x, _)| f(x)),
        Sides::NumberOfTwo(f) => times(inputs, sides(function, f, of_two(name)), |f, (x, y)| {
            f(x, y)
        }),
        Sides::Truth(f) => times(inputs, sides(function, f, None), |f, (x, _)| f(x)),
        Sides::TruthOfTwo(f) => times(inputs, sides(function, f, None), |f, (x, y)| f(x, y)),
        Sides::Whole(f) => times(inputs, sides(function, f, None), |f, (x, _)| f(x)),
    }
}

/// A reference that does not go to the stand-ins is the platform's.
fn sides<F: Copy>(function: &Function, pair: &Pair<F>, platform: Option<F>) -> [Option<F>; 3] {
    let Pair { library, reference } = pair;
    if is_platform_s(function) {
        [Some(*library), None, Some(*reference)]
    } else {
        [Some(*library), Some(*reference), platform]
    }
}

/// Whether the reference is f64's own.
fn is_platform_s(function: &Function) -> bool {
    let mut floats = floats::FUNCTIONS.iter();
    floats.any(|own| own.number == function.number) || function.name == "square_root"
}

fn points(function: &Function) -> &'static [Input] {
    function.own.map_or(&[], |own| own.points)
}

/// A function's own inputs for the times, else numbers below 1000, every fourth a whole one.
fn ordinary_inputs(function: &Function) -> Vec<Input> {
    let mut draw = Draw::new(SEED);
    if let Some(own) = function.own {
        return (0..INPUTS).map(|_| (own.timed)(&mut draw)).collect();
    }
    let mut number = |i: usize| {
        let x = draw.uniform(1000.0);
        if i.is_multiple_of(4) { x.trunc() } else { x }
    };
    (0..INPUTS).map(|i| (number(i), number(i + 1))).collect()
}

#[cfg(test)]
mod tests {
    use super::{INPUTS, is_platform_s, of_one, of_two, ordinary_inputs, points};
    use crate::{all_functions, start_sums};

    #[test]
    fn answers_at_the_inputs_are_finite_and_not_zero() {
        for function in all_functions().filter(|function| function.own.is_some()) {
            let inputs = ordinary_inputs(function);
            assert_eq!(inputs.len(), INPUTS);
            for (x, y) in inputs.into_iter().chain(points(function).iter().copied()) {
                let answer = function.reference(x, y);
                let ordinary = answer.is_finite() && answer != 0.0;
                assert!(ordinary, "{} {x:?} {y:?}", function.name);
            }
        }
    }

    #[test]
    fn the_platform_s_functions_are_near_the_references() {
        let mut without = vec![];
        for function in all_functions().filter(|function| !is_platform_s(function)) {
            let (one, two) = (of_one(function.name), of_two(function.name));
            if one.is_none() && two.is_none() {
                without.push(function.name);
                continue;
            }
            assert_eq!(two.is_some(), function.takes_two(), "{}", function.name);
            for (x, y) in ordinary_inputs(function).into_iter().take(100) {
                let rust = function.reference(x, y);
                let platform = one.map(|f| f(x)).or(two.map(|f| f(x, y)));
                let platform = platform.expect("one of them is there");
                let is_near = (platform - rust).abs() <= 1e-8 * rust.abs().max(1e-300);
                assert!(
                    is_near,
                    "{} {x:?} {y:?} {platform:?} {rust:?}",
                    function.name
                );
            }
        }
        assert_eq!(without, ["log1pmx"]);
    }

    #[test]
    fn known_points() {
        let mut all = vec![];
        for function in &start_sums::FUNCTIONS {
            all.extend(points(function).iter().map(|&(x, y)| (function.name, x, y)));
        }
        let expected = [
            ("dvsa", 2.0, 0.3),
            ("dvsa", 4.0, 0.5),
            ("dvsa", 1.0, -51.5),
            ("dvla", -12.0, 4.25),
            ("vvsa", 3.0, 0.25),
        ];
        assert_eq!(all, expected);
    }
}
