//! The records that are stored.

use std::collections::{HashMap, HashSet};

use crate::expansion::stored::all_records;
use crate::expansion::{D_EXPANSION, PBDV_ELEMENTARY, UV_SUMS};
use crate::store::Record;

const NAN: u64 = 0x7ff8_0000_0000_0000;

/// The records of the function or call with this number.
fn records(number: u64) -> Vec<Record> {
    let mut records = all_records();
    records.retain(|record| record[0] & 0xff == number);
    records
}

#[test]
fn every_number_and_place_is_stored_some_hundred_times() {
    let mut counts = HashMap::new();
    for record in all_records() {
        *counts.entry(record[0] & 0xffff).or_insert(0) += 1;
    }
    let functions = (26..=29).map(|number| (number, 400));
    let parts = [(30, 0), (30, 1), (31, 0), (31, 1), (31, 2)];
    let places = [32, 33]
        .into_iter()
        .flat_map(|n| [(n, 64), (n, 65), (n, 66)]);
    let calls = parts.into_iter().chain(places);
    let expected = functions.chain(calls.map(|(number, place)| (number + 256 * place, 240)));
    assert_eq!(counts, expected.collect());
}

#[test]
fn no_record_stands_twice() {
    let records = all_records();
    let different: HashSet<_> = records.iter().map(|record| &record[..3]).collect();
    assert_eq!(different.len(), records.len());
}

#[test]
fn each_constant_is_stored_as_each_mantissa_and_exponent() {
    let records = records(33);
    for shift in [16, 20, 24] {
        let numbers: HashSet<_> = records.iter().map(|r| r[0] >> shift & 0xf).collect();
        assert_eq!(numbers.len(), 16);
    }
    assert!(records.iter().all(|record| record[0] >> 28 == 0));
}

#[test]
fn all_limits_are_stored() {
    let limits = [
        (30, UV_SUMS.limits),
        (31, PBDV_ELEMENTARY.limits),
        (32, D_EXPANSION.limits),
    ];
    for (number, limits) in limits {
        let stored: HashSet<_> = records(number).iter().map(|r| [r[1], r[2]]).collect();
        let mut limits = limits().into_iter();
        assert!(limits.all(|limit| stored.contains(&limit.map(f64::to_bits))));
    }
}

#[test]
fn answers_of_every_kind_are_stored() {
    for (number, place) in [(32, 65), (32, 66), (33, 65), (33, 66)] {
        let mut kinds: HashMap<_, usize> = HashMap::new();
        for record in records(number) {
            if record[0] >> 8 & 0xff == place {
                let kind = f64::from_bits(record[3]).classify();
                *kinds.entry(format!("{kind:?}")).or_default() += 1;
            }
        }
        for kind in ["Infinite", "Nan", "Normal", "Subnormal", "Zero"] {
            let is_often = kinds.get(kind) >= Some(&3);
            assert!(is_often, "{number} {place} {kinds:?}");
        }
    }
}

#[test]
fn every_refusal_is_stored_and_leaves_no_pair() {
    for (number, expected) in [(32, &[0.0, 1.0, 4.0, 5.0][..]), (33, &[0.0, 1.0, 5.0])] {
        let mut refusals = vec![];
        for request in records(number).chunks(3) {
            let [refusal, value, derivative] = [0, 1, 2].map(|i| request[i][3]);
            assert!(
                refusal == 0 || (value, derivative) == (NAN, NAN),
                "{request:x?}"
            );
            refusals.push(f64::from_bits(refusal));
        }
        for refusal in expected {
            let many = refusals.iter().filter(|r| *r == refusal).count();
            assert!(many >= 10, "{number} {refusal} {many}");
        }
    }
}

#[test]
fn known_records() {
    let bits = f64::to_bits;
    let (infinite, all) = (bits(f64::INFINITY), all_records());
    let known = [
        [26, bits(0.0), 0, bits(0.0)],
        [26, bits(f64::INFINITY), 0, NAN],
        [27, bits(0.0), 0, infinite],
        [28, NAN, 0, NAN],
        [29, bits(-0.0), bits(1400.0), bits(-0.0)],
        [29, bits(-0.0), bits((-1400.0_f64).next_down()), bits(-0.0)],
        [29, infinite, bits(-1400.0), infinite],
        [30, bits(0.0), bits(0.0), bits(1.0)],
        [30 + 256, bits(0.0), bits(0.0), bits(1.0)],
        [32 + 256 * 64, bits(-20.0), infinite, bits(5.0)],
        [
            32 + 256 * 64,
            bits((-20.0_f64).next_up()),
            infinite,
            bits(4.0),
        ],
        [32 + 256 * 65, bits(-500.25), bits(1e9), bits(0.0)],
        [
            33 + 256 * 64 + (13 << 16) + (4 << 20) + (15 << 24),
            bits(-20.5),
            bits(0.1),
            bits(5.0),
        ],
        [
            33 + 256 * 64 + (2 << 16) + (4 << 20) + (14 << 24),
            bits(-20.5),
            bits(0.1),
            bits(1.0),
        ],
    ];
    for record in known {
        assert!(all.contains(&record), "{record:x?}");
    }
}
