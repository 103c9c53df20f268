//! The stored answers: what the references answer at fixed inputs, for the library's own tests.

use std::fs;
use std::io::Error;
use std::path::Path;

use crate::functions::Function;
use crate::inputs::{self, Input};

/// Records of each function, and how many of them may be edge inputs.
const RECORDS: usize = 400;
const EDGES: usize = 300;
/// All pairs of this many edge inputs are at most `EDGES`.
const EDGES_IN_PAIRS: usize = 17;
/// As many where the function has edge inputs of its own: about half of `EDGES` are left for them.
const EDGES_IN_PAIRS_BESIDE_OWN: usize = 12;
pub const SEED: u64 = 1;
const NAN: u64 = 0x7ff8_0000_0000_0000;

/// Four words: a number, the bits of two inputs and of the answer.
pub type Record = [u64; 4];

/// Writes the records to the file `name` in `folder`.
///
/// # Errors
/// If the folder cannot be made or the file not written.
pub fn write(folder: &Path, name: &str, records: &[Record]) -> Result<(), Error> {
    let words = records.as_flattened().iter();
    let bytes: Vec<u8> = words.flat_map(|word| word.to_le_bytes()).collect();
    fs::create_dir_all(folder)?;
    let path = folder.join(name);
    fs::write(&path, bytes)?;
    println!("{}: {} records", path.display(), records.len());
    Ok(())
}

/// The bits of an answer, the same for every NaN.
pub fn answer_bits(answer: f64) -> u64 {
    if answer.is_nan() {
        NAN
    } else {
        answer.to_bits()
    }
}

/// The records of all functions, one after another.
pub fn all_records(functions: &[Function]) -> Vec<Record> {
    functions.iter().flat_map(records).collect()
}

/// The function's number, the bits of x, of y (0 for a function of one number) and of the answer.
fn records(function: &Function) -> Vec<Record> {
    let record = |(x, y): Input| {
        let answer = answer_bits(function.reference(x, y));
        [function.number, x.to_bits(), y.to_bits(), answer]
    };
    inputs(function).into_iter().map(record).collect()
}

/// Edge inputs, then drawn ones; none stands twice.
fn inputs(function: &Function) -> Vec<Input> {
    let seed = function.seed(SEED);
    let drawn = inputs::drawn(function.takes_two(), function.own, seed);
    let mut inputs = edges(function);
    add_new(&mut inputs, drawn, RECORDS, bits);
    inputs
}

/// Edge inputs of all functions, then the function's own, evenly sampled where they are too many.
fn edges(function: &Function) -> Vec<Input> {
    let all = if !function.takes_two() {
        inputs::edges().into_iter().map(|x| (x, 0.0)).collect()
    } else if function.own.is_none() {
        inputs::edge_pairs(EDGES_IN_PAIRS)
    } else {
        inputs::edge_pairs(EDGES_IN_PAIRS_BESIDE_OWN)
    };
    let mut edges = sampled(&all, EDGES);
    if let Some(own) = function.own {
        add_new(&mut edges, (own.limits)(), EDGES, bits);
        let left = EDGES - edges.len();
        add_new(&mut edges, sampled(&(own.edges)(), left), EDGES, bits);
    }
    edges
}

/// Adds those of `more` that are not there yet, until there are `limit`. Two of the same `bits` are
/// the same.
pub fn add_new<T: Copy, B: PartialEq>(
    inputs: &mut Vec<T>,
    more: impl IntoIterator<Item = T>,
    limit: usize,
    bits: impl Fn(T) -> B,
) {
    for new in more {
        if inputs.len() == limit {
            break;
        }
        if inputs.iter().all(|&input| bits(input) != bits(new)) {
            inputs.push(new);
        }
    }
}

fn bits((x, y): Input) -> (u64, u64) {
    (x.to_bits(), y.to_bits())
}

/// At most `many` of `all`, evenly spread.
pub fn sampled<T: Copy>(all: &[T], many: usize) -> Vec<T> {
    let many = many.min(all.len());
    (0..many).map(|i| all[i * all.len() / many]).collect()
}

#[cfg(test)]
mod tests {
    use super::{RECORDS, Record, inputs, records, sampled};
    use crate::floats::FUNCTIONS;
    use crate::functions::Function;
    use crate::inputs::edges;
    use crate::{all_functions, elementary, start_sums};

    #[test]
    fn samples_are_spread() {
        assert_eq!(sampled(&[1, 2, 3], 5), [1, 2, 3]);
        assert_eq!(sampled(&[1, 2, 3, 4, 5, 6], 3), [1, 3, 5]);
    }

    #[test]
    fn each_function_has_its_records_with_all_edges() {
        for function in all_functions() {
            let mut records = records(function);
            assert_eq!(records.len(), RECORDS);
            records.sort_unstable();
            records.dedup();
            assert_eq!(records.len(), RECORDS);
        }
        let all: Vec<u64> = edges().into_iter().map(f64::to_bits).collect();
        let of_one_number = [&elementary::FUNCTIONS[0], &start_sums::FUNCTIONS[0]];
        for function in [&FUNCTIONS[0]].into_iter().chain(of_one_number) {
            let first: Vec<u64> = inputs(function)[..edges().len()]
                .iter()
                .map(|(x, _)| x.to_bits())
                .collect();
            assert_eq!(first, all);
        }
    }

    #[test]
    fn all_limits_are_stored() {
        for function in all_functions() {
            let stored = records(function);
            let limits = function.own.map_or(vec![], |own| (own.limits)());
            for (x, y) in limits {
                let same = |record: &Record| record[1..3] == [x.to_bits(), y.to_bits()];
                assert!(stored.iter().any(same), "{} {x:?} {y:?}", function.name);
            }
        }
    }

    fn has(functions: &[Function], function: usize, record: Record) {
        assert!(
            records(&functions[function]).contains(&record),
            "{record:x?}"
        );
    }

    #[test]
    fn known_records() {
        let has = |function, record| has(&FUNCTIONS, function, record);
        let bits = f64::to_bits;
        has(0, [1, bits(-1.0), 0, bits(1.0)]);
        has(1, [2, 0xfff8_0000_0000_0001, 0, bits(1.0)]);
        has(2, [3, bits(f64::MAX), 0, bits(0.0)]);
        has(3, [4, bits(-2147483649.0), 0, bits(-2147483648.0)]);
        has(4, [5, bits(-0.5), 0, bits(-0.0)]);
        has(5, [6, bits(f64::INFINITY), 0, super::NAN]);
        has(6, [7, bits(0.0), bits(-0.0), bits(0.0)]);
        has(7, [8, bits(-0.0), bits(0.0), bits(-0.0)]);
        has(8, [9, bits(-0.0), 0, bits(-1.0)]);
        has(9, [10, bits(0.0), bits(-0.0), bits(0.0)]);
    }

    #[test]
    fn known_records_of_elementary() {
        let has = |function, record| has(&elementary::FUNCTIONS, function, record);
        let bits = f64::to_bits;
        let infinite = bits(f64::INFINITY);
        let above = bits(709.782712893384_f64.next_up());
        has(0, [11, above, 0, infinite]);
        has(0, [11, bits(1.0), 0, 0x4005_bf0a_8b14_576a]);
        has(1, [12, bits(-1074.0), 0, 1]);
        has(2, [13, bits(-0.0), 0, bits(-0.0)]);
        has(3, [14, bits(-0.0), 0, bits(f64::NEG_INFINITY)]);
        has(3, [14, bits(3.0), 0, 0x3ff1_93ea_7aad_030b]);
        has(4, [15, super::NAN, bits(-0.0), bits(1.0)]);
        has(4, [15, bits(0.5), bits(f64::NEG_INFINITY), infinite]);
        has(5, [16, bits(100.0), 0, 0xbfe0_3425_b78c_4db8]);
        has(5, [16, bits(1073741824.0), 0, super::NAN]);
        has(6, [17, bits(-5.0), 0, 0x3fd2_2785_706b_4ada]);
        has(7, [18, bits(2.25), 0, bits(1.5)]);
        has(7, [18, bits(-1.0), 0, super::NAN]);
    }

    #[test]
    fn known_records_of_start_sums() {
        let has = |function, record| has(&start_sums::FUNCTIONS, function, record);
        let bits = f64::to_bits;
        let (zero, infinite, tiny) = (bits(0.0), bits(f64::INFINITY), 1);
        has(0, [19, bits(5.0), 0, bits(24.0)]);
        has(0, [19, bits(-3.0), 0, bits(1e300)]);
        has(0, [19, bits(172.0), 0, infinite]);
        has(0, [19, bits(10.5), 0, 0x4131_4ade_6392_25ca]);
        has(0, [19, bits(-2.5), 0, 0xbfee_3ff8_12e3_2182]);
        has(1, [20, zero, bits(1.0), zero]);
        has(1, [20, zero, zero, bits(1.0)]);
        has(1, [20, zero, bits(4294967299.0), infinite]);
        has(1, [20, bits(1.25), bits(0.5), 0x3fe9_9b6b_1635_2fac]);
        has(1, [20, bits(-5.8), bits(0.5), 0xc06e_3cb4_d054_4763]);
        has(2, [21, bits(5.8), bits(0.5), 0x3f41_a1f2_3149_f13d]);
        has(2, [21, bits(-7.5), bits(0.5), 0xc0e6_4b0a_4dc9_06b4]);
        has(2, [21, zero, zero, super::NAN]);
        has(3, [22, zero, bits(-2.0), zero]);
        has(3, [22, bits(1.25), bits(-1.0), 0x3ff2_ddfd_9c44_33b4]);
        has(3, [22, bits(-5.8), bits(-0.5), 0x3f0b_0e9c_bf3a_3577]);
        has(4, [23, bits(5.8), bits(-1.0), 0x40ab_ffd0_0ecf_455c]);
        has(4, [23, bits(-7.5), bits(-0.5), 0x3e85_7516_4d2e_50bb]);
        has(4, [23, bits(-7.5), tiny, super::NAN]);
    }
}
