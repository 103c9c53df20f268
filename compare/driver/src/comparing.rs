//! The comparing loop, and the count of what was compared.

/// How many differences of a function are shown.
const SHOWN: usize = 5;

/// An argument, an answer, or several of them.
pub trait Comparable {
    /// The same bits, or both NaN.
    fn alike(&self, other: &Self) -> bool;
    /// In decimal, and the bits.
    fn show(&self) -> String;
}

impl Comparable for f64 {
    fn alike(&self, other: &Self) -> bool {
        self.to_bits() == other.to_bits() || (self.is_nan() && other.is_nan())
    }

    fn show(&self) -> String {
        format!("{self:?} ({:#018x})", self.to_bits())
    }
}

impl Comparable for (f64, f64) {
    fn alike(&self, other: &Self) -> bool {
        self.0.alike(&other.0) && self.1.alike(&other.1)
    }

    fn show(&self) -> String {
        format!("{}, {}", self.0.show(), self.1.show())
    }
}

impl<const N: usize> Comparable for [f64; N] {
    fn alike(&self, other: &Self) -> bool {
        self.iter().zip(other).all(|(a, b)| a.alike(b))
    }

    fn show(&self) -> String {
        let numbers: Vec<_> = self.iter().map(f64::show).collect();
        numbers.join(", ")
    }
}

impl Comparable for i32 {
    fn alike(&self, other: &Self) -> bool {
        self == other
    }

    fn show(&self) -> String {
        format!("{self} ({self:#010x})")
    }
}

impl Comparable for u8 {
    fn alike(&self, other: &Self) -> bool {
        self == other
    }

    fn show(&self) -> String {
        format!("{self} ({self:#04x})")
    }
}

/// A difference: the input and both sides as text.
pub type Difference = (String, String);

/// Gives the difference of two sides at an input, if they are not alike.
pub fn difference<I: Comparable, A: Comparable>(
    library: impl Fn(&I) -> A,
    reference: impl Fn(&I) -> A,
) -> impl Fn(&I) -> Option<Difference> {
    move |input| {
        let (ours, rust) = (library(input), reference(input));
        let sides = || format!("library {}, Rust {}", ours.show(), rust.show());
        (!ours.alike(&rust)).then(|| (input.show(), sides()))
    }
}

/// What a line is about, and its numbers.
pub struct Line<'a> {
    name: &'a str,
    pub inputs: usize,
    pub differences: usize,
}

impl<'a> Line<'a> {
    pub fn new(name: &'a str) -> Self {
        Line {
            name,
            inputs: 0,
            differences: 0,
        }
    }

    /// Counts the inputs, and those at which there is a difference.
    pub fn count_all<I>(
        &mut self,
        inputs: impl Iterator<Item = I>,
        difference: impl Fn(&I) -> Option<Difference>,
    ) {
        for input in inputs {
            self.count(difference(&input));
        }
    }

    /// Counts an input, and prints its difference if it is among the first.
    pub fn count(&mut self, difference: Option<Difference>) {
        self.inputs += 1;
        if let Some((input, sides)) = difference {
            self.differences += 1;
            if self.differences <= SHOWN {
                println!("{} differs at {input}:", self.name);
                println!("  {sides}");
            }
        }
    }
}

/// What was compared so far.
pub struct Tally {
    /// What is compared, and at what, in the lines printed.
    words: [&'static str; 2],
    functions: usize,
    inputs: usize,
    differences: usize,
}

impl Tally {
    pub fn of_functions(functions: usize) -> Self {
        Self::new(["functions", "inputs"], functions)
    }

    pub fn of_calls(calls: usize) -> Self {
        Self::new(["calls", "requests"], calls)
    }

    fn new(words: [&'static str; 2], functions: usize) -> Self {
        Tally {
            words,
            functions,
            inputs: 0,
            differences: 0,
        }
    }

    /// Compares one function over `inputs` and prints its line.
    pub fn compare<I: Comparable, A: Comparable>(
        &mut self,
        name: &str,
        inputs: impl Iterator<Item = I>,
        library: impl Fn(&I) -> A,
        reference: impl Fn(&I) -> A,
    ) {
        self.count(name, inputs, difference(library, reference));
    }

    /// Counts the inputs at which there is a difference, and prints the line of what is compared.
    pub fn count<I>(
        &mut self,
        name: &str,
        inputs: impl Iterator<Item = I>,
        difference: impl Fn(&I) -> Option<Difference>,
    ) {
        let mut line = Line::new(name);
        line.count_all(inputs, difference);
        self.add(&line);
    }

    /// Prints a line and adds its numbers.
    pub fn add(&mut self, line: &Line) {
        let Line {
            name,
            inputs,
            differences,
        } = line;
        let words = self.words[1];
        println!("{name}: {inputs} {words}, {differences} differences");
        self.inputs += inputs;
        self.differences += differences;
    }

    /// Prints the line of a library crate, and gives whether there was no difference.
    pub fn finish(&self, name: &str) -> bool {
        println!("{name}: {}", self.line());
        self.differences == 0
    }

    fn line(&self) -> String {
        let [functions, inputs] = self.words;
        format!(
            "{} {functions}, {} {inputs}, {} differences",
            self.functions, self.inputs, self.differences
        )
    }
}

#[cfg(test)]
mod tests {
    use super::{Comparable, Tally};

    #[test]
    fn alike_is_the_same_bits_or_both_nan() {
        assert!(f64::NAN.alike(&-f64::NAN));
        assert!(!0.0.alike(&-0.0));
        assert!(!f64::NAN.alike(&1.0) && !1.0.alike(&f64::NAN));
        assert!(!1.0.alike(&1.0_f64.next_up()));
        assert!(!(1.0, 0.0).alike(&(1.0, -0.0)) && !(0.0, 1.0).alike(&(-0.0, 1.0)));
    }

    #[test]
    fn differences_are_counted() {
        let mut tally = Tally::of_functions(2);
        let inputs = || [0.0, -0.0, 1.0, -2.0].into_iter();
        tally.compare("abs", inputs(), |x| x.abs(), |x| x.abs());
        assert!(tally.finish("none differ"));
        tally.compare("abs", inputs(), |&x| x, |x| x.abs());
        assert!(!tally.finish("two differ"));
        assert_eq!(tally.line(), "2 functions, 8 inputs, 2 differences");
    }

    #[test]
    fn calls_are_counted() {
        let mut tally = Tally::of_calls(2);
        tally.count("none", 0..3, |_| None);
        assert!(tally.finish("none differ"));
        let odd = |i: &i32| (i % 2 == 1).then(|| (i.to_string(), "odd".into()));
        tally.count("odd", 0..13, odd);
        assert!(!tally.finish("six differ"));
        assert_eq!(tally.line(), "2 calls, 16 requests, 6 differences");
    }
}
