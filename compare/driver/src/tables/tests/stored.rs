//! The records that are stored.

use std::collections::{HashMap, HashSet};

use source::entry::{dvla, dvsa, vvla, vvsa};

use super::{D, V, branches};
use crate::LAYERS;
use crate::store::Record;
use crate::tables::edges::arguments;
use crate::tables::split::{Split, needed};
use crate::tables::stored::{all_records, records};
use crate::tables::{CALLS, Call};

const NAN: u64 = 0x7ff8_0000_0000_0000;
/// The first slots before a call.
const FOUND: [u64; 7] = [
    NAN,
    0x8000_0000_0000_0000,
    0x7ff0_0000_0000_0000,
    0x3ff8_0000_0000_0000,
    0xfff0_0000_0000_0000,
    0x0000_0000_0000_0001,
    0xfe37_e43c_8800_759c,
];

/// A start sum.
type Sum = fn(f64, f64) -> f64;

/// A request that is stored, with the places and answers of its records.
struct Stored {
    v: f64,
    x: f64,
    length: usize,
    places: Vec<u64>,
    answers: Vec<u64>,
}

impl Stored {
    /// From the records of a request.
    fn new(records: &[Record]) -> Self {
        let [number, v, x, _] = records[0];
        Stored {
            v: f64::from_bits(v),
            x: f64::from_bits(x),
            length: (number >> 16) as usize,
            places: records.iter().map(|record| record[0] >> 8 & 0xff).collect(),
            answers: records.iter().map(|record| record[3]).collect(),
        }
    }

    fn show(&self) -> String {
        let Stored { v, x, length, .. } = self;
        format!("v {v:?}, x {x:?}, length {length}")
    }

    /// The refusal or the branch.
    fn branch(&self, call: &Call) -> &'static str {
        branches::with_refusals(call.kind, self.v, self.x, self.length)
    }

    fn is_accepted(&self) -> bool {
        self.answers[0] == 0
    }

    fn slots(&self) -> &[u64] {
        &self.answers[3..]
    }
}

/// Length, order and argument.
fn key(record: &Record) -> [u64; 3] {
    [record[0] >> 16, record[1], record[2]]
}

/// The stored requests of a call, if the records of each stand together.
fn requests(call: &Call) -> Vec<Stored> {
    let records = records(call);
    let requests = records.chunk_by(|a, b| key(a) == key(b));
    requests.map(Stored::new).collect()
}

#[test]
fn the_numbers_go_on_from_those_of_the_functions() {
    let functions = LAYERS.iter().flat_map(|(_, functions)| *functions);
    assert_eq!(functions.map(|function| function.number).max(), Some(23));
    assert_eq!([D.number, V.number], [24, 25]);
    for call in &CALLS {
        let records = records(call);
        assert!(records.iter().all(|record| record[0] & 0xff == call.number));
    }
}

#[test]
fn each_request_stands_once_with_all_its_places() {
    for call in &CALLS {
        let mut keys = HashSet::new();
        for stored in requests(call) {
            let Stored { v, x, length, .. } = stored;
            assert!(
                length <= 41 || v == 28.0 && length == 62,
                "{}",
                stored.show()
            );
            let slots = 0..length as u64;
            let places: Vec<u64> = [64, 65, 66].into_iter().chain(slots).collect();
            assert_eq!(stored.places, places, "{}", stored.show());
            let is_new = keys.insert((length, v.to_bits(), x.to_bits()));
            assert!(is_new, "{}", stored.show());
        }
    }
}

#[test]
fn no_record_stands_twice_and_the_file_is_short() {
    let records = all_records();
    let different: HashSet<_> = records.iter().map(|record| &record[..3]).collect();
    assert_eq!(different.len(), records.len());
    assert!((6000..=9000).contains(&records.len()), "{}", records.len());
}

#[test]
fn all_branches_are_stored() {
    for call in &CALLS {
        let mut counts = HashMap::new();
        for stored in requests(call) {
            *counts.entry(stored.branch(call)).or_insert(0) += 1;
        }
        let expected = branches::all(call.kind);
        for name in expected {
            let least = if branches::ABOVE_ORDER_27.contains(&name) {
                1
            } else {
                5
            };
            let often = counts.get(name).is_some_and(|&count| count >= least);
            assert!(often, "{} {name} {counts:?}", call.name);
        }
    }
}

#[test]
fn tables_around_the_length_needed_are_stored() {
    let below = 2.0_f64.powi(-60);
    let orders = [0.0, -0.0, -below, 1.0, -1.0, 2.0, 7.5];
    let full = [1.0, 4.0, 18.0].map(f64::next_down);
    let full = full.iter().flat_map(|&v| [v, -v]);
    for call in &CALLS {
        let requests = requests(call);
        let is_stored = |v: f64, length| {
            let is_same = |stored: &&Stored| stored.v.to_bits() == v.to_bits();
            let mut of_order = requests.iter().filter(is_same);
            of_order.any(|stored| stored.length == length)
        };
        for v in full.clone().chain(orders) {
            let lengths = [needed(v) - 1, needed(v), needed(v) + 1];
            let all = lengths.iter().all(|&length| is_stored(v, length));
            assert!(all, "{} {v:?}", call.name);
        }
        assert!(is_stored(18.0, 41) && is_stored(-18.0, 41));
    }
}

/// Value `k` of a stored request with the order v and the argument x.
#[track_caller]
fn value(call: &Call, v: f64, x: f64, k: usize) -> f64 {
    let is_it = |stored: &Stored| stored.v == v && stored.x == x && stored.is_accepted();
    let stored = requests(call).into_iter().find(is_it);
    f64::from_bits(stored.expect("it is stored").slots()[k])
}

#[test]
fn a_less_in_place_of_a_less_or_equal_is_seen() {
    // the start sums, with the fraction of each order; the scaled branch rounds its value 0 twice more
    let is_nearer = |call: &Call, (v, f): (f64, f64), x: f64, small: Sum, large: Sum| {
        let stored = value(call, v, x, 0);
        (stored - small(x, f)).abs() < (stored - large(x, f)).abs()
    };
    for order in [(0.5, 0.5), (-0.5, -0.5)] {
        assert!(is_nearer(D, order, 5.8, dvsa, dvla), "{order:?}");
        assert!(is_nearer(D, order, -5.8, dvsa, dvla), "{order:?}");
    }
    for order in [(-0.5, -0.5), (-1.0, 0.0)] {
        assert!(is_nearer(V, order, 7.5, vvsa, vvla), "{order:?}");
        assert!(is_nearer(V, order, -7.5, vvsa, vvla), "{order:?}");
    }
    assert!(is_nearer(V, (28.0, 0.0), -7.5, vvsa, vvla));
    // V at 7.5 runs downward and not upward
    let (mut low, mut high) = (vvsa(7.5, 0.0), vvsa(7.5, 1.0));
    for k in 2..=29 {
        (low, high) = (high, (7.5 * high - low) / f64::from(k));
    }
    assert_ne!(value(V, 28.0, 7.5, 29), high);
}

#[test]
fn most_edge_arguments_are_stored() {
    let edges: HashSet<u64> = arguments().into_iter().map(f64::to_bits).collect();
    for call in &CALLS {
        let stored: HashSet<u64> = records(call).iter().map(|record| record[2]).collect();
        let count = edges.intersection(&stored).count();
        assert!(count >= edges.len() * 9 / 10, "{} {count}", call.name);
    }
}

#[test]
fn most_orders_are_small_and_some_tables_are_long() {
    for call in &CALLS {
        let mut accepted = requests(call);
        accepted.retain(Stored::is_accepted);
        let count = |least, most| {
            let nums = accepted.iter().map(|stored| Split::of(stored.v).num);
            nums.filter(|num| (least..=most).contains(num)).count()
        };
        assert!(count(3, 7) > accepted.len() * 2 / 3, "{}", call.name);
        assert!(count(8, 15) >= 20 && count(20, 20) >= 8, "{}", call.name);
    }
}

#[test]
fn a_refusal_leaves_the_table_as_the_rule_has_it() {
    for call in &CALLS {
        for stored in requests(call) {
            let branch = stored.branch(call);
            let refusals = [&[""], &branches::REFUSALS[..]].concat();
            let refusal = refusals.iter().position(|&name| name == branch);
            let number = (refusal.unwrap_or(0) as f64).to_bits();
            assert_eq!(stored.answers[0], number, "{}", stored.show());
            if refusal.is_some() {
                assert_eq!(stored.answers[1..3], [NAN, NAN], "{}", stored.show());
                let found = FOUND.iter().cycle().take(stored.length);
                assert!(stored.slots().iter().eq(found), "{}", stored.show());
            }
        }
    }
}

#[test]
fn other_tables_are_what_the_source_makes_of_the_rule() {
    let bits = |number: f64| {
        if number.is_nan() {
            NAN
        } else {
            number.to_bits()
        }
    };
    for call in &CALLS {
        for stored in requests(call).iter().filter(|stored| stored.is_accepted()) {
            let found = FOUND.iter().cycle().copied().map(f64::from_bits);
            let mut table: Vec<f64> = found.take(stored.length).collect();
            let num = Split::of(stored.v).num;
            let (value, derivative) = (call.reference)(stored.x, stored.v, &mut table, num);
            let pair = [value, derivative].map(bits);
            assert_eq!(stored.answers[1..3], pair, "{}", stored.show());
            let slots = table.into_iter().map(bits);
            assert!(
                slots.eq(stored.slots().iter().copied()),
                "{}",
                stored.show()
            );
        }
    }
}

#[test]
fn every_nan_has_the_same_bits() {
    for call in &CALLS {
        let mut accepted = requests(call);
        accepted.retain(Stored::is_accepted);
        let answers = accepted.iter().flat_map(|stored| &stored.answers);
        let nans: Vec<_> = answers
            .filter(|&&word| f64::from_bits(word).is_nan())
            .collect();
        assert!(nans.len() > 100 && nans.iter().all(|&&word| word == NAN));
    }
}

/// The request is stored with these answers and slots.
#[track_caller]
fn has(call: &Call, (v, x, length): (f64, f64, u64), answers: [u64; 3], slots: &[u64]) {
    let is_of_request = |record: &&Record| key(record) == [length, v.to_bits(), x.to_bits()];
    let records = records(call);
    let stored = records.iter().filter(is_of_request);
    let stored: Vec<u64> = stored.map(|record| record[3]).collect();
    assert_eq!(stored, [&answers, slots].concat(), "{v:?} {x:?} {length}");
}

#[test]
fn known_records() {
    let bits = f64::to_bits;
    let [zero, one, two, three] = [0.0, 1.0, 2.0, 3.0].map(bits);
    let [minus_zero, minus_one] = [-0.0, -1.0].map(bits);
    let [f0, f1, f2, f3, f4, f5, f6] = FOUND;
    // P5 to P7 of the scope paper
    let slots = [one, zero, f2, zero, f4, f5];
    has(D, (0.0, 0.0, 6), [zero, one, zero], &slots);
    has(D, (0.0, 0.0, 5), [three, NAN, NAN], &FOUND[..5]);
    let slots = [one, zero, minus_one, f3, zero, one, f6, f0];
    has(D, (1.0, 0.0, 8), [zero, zero, one], &slots);
    let values = [one, zero, minus_one, minus_zero, f4];
    let slots = [values, [zero, one, zero, f1, f2]].concat();
    has(D, (2.0, 0.0, 10), [zero, minus_one, zero], &slots);
    // P12: no value slot is left over
    let below = 1.0_f64.next_down();
    let slots = [one, zero, minus_one, zero, one, f5];
    has(D, (below, 0.0, 6), [zero, zero, one], &slots);
    // P8
    let value = bits(0.7978845608028654);
    let slots = [zero, value, zero, f3, value, zero, f6, f0];
    has(V, (-1.0, 0.0, 8), [zero, value, zero], &slots);
    // V writes value slot 2 though n is 1
    let below = -2.0_f64.powi(-60);
    let slots = [zero, value, zero, value, f4, f5];
    has(V, (below, 0.0, 6), [zero, zero, value], &slots);
    for call in &CALLS {
        // P9 and P10
        has(call, (1000.0, 0.0, 0), [two, NAN, NAN], &[]);
        has(call, (1000.0, 0.0, 7), [two, NAN, NAN], &FOUND);
        has(call, (999.5, 1.0, 7), [three, NAN, NAN], &FOUND);
        has(call, (1000.0, f64::NAN, 0), [one, NAN, NAN], &[]);
    }
}

#[test]
fn known_numbers() {
    let [zero, one, above] = [0.0, 1.0, 18.0].map(f64::to_bits);
    let below = (-2.0_f64.powi(-60)).to_bits();
    let value = 0.7978845608028654_f64.to_bits();
    let known = [
        [24 + 256 * 64 + 65536 * 6, zero, zero, zero],
        [24 + 256 * 65 + 65536 * 6, zero, zero, one],
        [24 + 256 * 66 + 65536 * 6, zero, zero, zero],
        [24 + 65536 * 6, zero, zero, one],
        [24 + 256 * 5 + 65536 * 6, zero, zero, FOUND[5]],
        [24 + 256 * 40 + 65536 * 41, above, one, FOUND[5]],
        [25 + 256 * 2 + 65536 * 6, below, zero, zero],
        [25 + 256 * 3 + 65536 * 6, below, zero, value],
        [25 + 256 * 66 + 65536 * 6, below, zero, value],
    ];
    let records = all_records();
    for record in known {
        assert!(records.contains(&record), "{record:x?}");
    }
}
