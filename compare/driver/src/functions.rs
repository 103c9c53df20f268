//! Functions of one or two numbers: the library's side and the Rust's, and what is done with them.

use crate::comparing::Tally;
use crate::inputs::{self, Input, OwnInputs};

/// A function by its number, the kind of its sides, its name and its own inputs: `library` and
/// `reference` are modules where it is used.
macro_rules! function {
    ($number:literal, $sides:ident, $name:ident, $library:ident, $own:expr) => {
        Function::new(
            $number,
            stringify!($name),
            Sides::$sides(Pair {
                library: library::$library,
                reference: reference::$name,
            }),
            $own,
        )
    };
}
pub(crate) use function;

/// A function of the library with its reference.
pub struct Function {
    /// Its number in the stored answers.
    pub number: u64,
    pub name: &'static str,
    pub sides: Sides,
    pub own: Option<OwnInputs>,
}

/// Both sides of a function. A truth value is a byte, so that one other than 0 and 1 would show.
pub enum Sides {
    Number(Pair<extern "C" fn(f64) -> f64>),
    NumberOfTwo(Pair<extern "C" fn(f64, f64) -> f64>),
    Truth(Pair<extern "C" fn(f64) -> u8>),
    TruthOfTwo(Pair<extern "C" fn(f64, f64) -> u8>),
    Whole(Pair<extern "C" fn(f64) -> i32>),
}

pub struct Pair<F> {
    pub library: F,
    pub reference: F,
}

impl Function {
    pub const fn new(
        number: u64,
        name: &'static str,
        sides: Sides,
        own: Option<OwnInputs>,
    ) -> Self {
        Function {
            number,
            name,
            sides,
            own,
        }
    }

    /// Whether it takes two numbers.
    pub fn takes_two(&self) -> bool {
        matches!(self.sides, Sides::NumberOfTwo(_) | Sides::TruthOfTwo(_))
    }

    /// A seed of its own, so that its inputs do not depend on the other functions.
    pub fn seed(&self, seed: u64) -> u64 {
        seed ^ (self.number << 32)
    }

    /// Its inputs for a comparison.
    pub fn inputs(&self, count: usize, seed: u64) -> impl Iterator<Item = Input> {
        inputs::inputs(self.takes_two(), self.own, count, self.seed(seed))
    }

    /// Compares both sides over `count` inputs.
    pub fn compare(&self, tally: &mut Tally, count: usize, seed: u64) {
        let name = self.name;
        let pairs = self.inputs(count, seed);
        match &self.sides {
            Sides::Number(f) => {
                let numbers = pairs.map(|(x, _)| x);
                tally.compare(name, numbers, |&x| (f.library)(x), |&x| (f.reference)(x));
            }
            Sides::Truth(f) => {
                let numbers = pairs.map(|(x, _)| x);
                tally.compare(name, numbers, |&x| (f.library)(x), |&x| (f.reference)(x));
            }
            Sides::Whole(f) => {
                let numbers = pairs.map(|(x, _)| x);
                tally.compare(name, numbers, |&x| (f.library)(x), |&x| (f.reference)(x));
            }
            Sides::NumberOfTwo(f) => {
                let library = |&(x, y): &Input| (f.library)(x, y);
                tally.compare(name, pairs, library, |&(x, y)| (f.reference)(x, y));
            }
            Sides::TruthOfTwo(f) => {
                let library = |&(x, y): &Input| (f.library)(x, y);
                tally.compare(name, pairs, library, |&(x, y)| (f.reference)(x, y));
            }
        }
    }

    /// The reference's answer as a number; `y` is left out by functions of one number.
    pub fn reference(&self, x: f64, y: f64) -> f64 {
        match &self.sides {
            Sides::Number(f) => (f.reference)(x),
            Sides::NumberOfTwo(f) => (f.reference)(x, y),
            Sides::Truth(f) => f64::from((f.reference)(x)),
            Sides::TruthOfTwo(f) => f64::from((f.reference)(x, y)),
            Sides::Whole(f) => f64::from((f.reference)(x)),
        }
    }
}

#[cfg(test)]
mod tests {
    use crate::all_functions;

    /// Enough for all edge inputs and many drawn ones.
    const COUNT: usize = 300_000;

    #[test]
    fn numbers_and_names() {
        let functions: Vec<_> = all_functions().map(|f| (f.number, f.name)).collect();
        let names = "abs is_nan is_infinite to_i32 trunc fract min max signum alike \
                     exp exp2 exp_m1 ln pow sin cos square_root gamma2 dvsa dvla vvsa vvla \
                     log1pmx lgam_stirling_corr ln_gamma_ratio mul_exp";
        // 24 and 25 are the table calls.
        let numbers = (1..=23).chain(26..);
        let expected: Vec<_> = numbers.zip(names.split(' ')).collect();
        assert_eq!(functions, expected);
    }

    #[test]
    fn the_seed_fixes_the_inputs_and_the_count_is_kept() {
        for function in all_functions() {
            let bits = |seed| -> Vec<(u64, u64)> {
                let inputs = function.inputs(COUNT, seed);
                inputs.map(|(x, y)| (x.to_bits(), y.to_bits())).collect()
            };
            let first = bits(1);
            assert_eq!(first.len(), COUNT, "{}", function.name);
            assert!(first == bits(1) && first != bits(2), "{}", function.name);
            assert_eq!(function.inputs(7, 1).count(), 7, "{}", function.name);
        }
    }
}
