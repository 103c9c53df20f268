//! What is changed before a reading of right rungs.

use super::reading::Reading;
use super::steps::{carry_on, derivatives};
use crate::inputs::Draw;
use crate::tables::{Junk, MARGIN};

/// Changes a reading. Gives whether there was anything to change.
type Change = fn(&mut Reading, &mut Draw) -> bool;

/// Shorter tables, for every state.
pub const OF_LENGTHS: [(&str, Change); 6] = [
    ("values shorter by one", |reading, draw| {
        cut(reading, draw, 0, reading.n)
    }),
    ("derivatives shorter by one", |reading, draw| {
        cut(reading, draw, 1, reading.n - 1)
    }),
    ("no values", |reading, draw| cut(reading, draw, 0, 0)),
    ("no derivatives", |reading, draw| cut(reading, draw, 1, 0)),
    ("no slots", |reading, draw| {
        cut(reading, draw, 0, 0) && cut(reading, draw, 1, 0)
    }),
    ("any lengths", |reading, draw| {
        let lengths = [0, 1].map(|_| draw.below(reading.n + 2));
        cut(reading, draw, 0, lengths[0]) && cut(reading, draw, 1, lengths[1])
    }),
];

/// Other changes, for states whose branch runs forward. Those of values with "carried on" behind
/// are followed by the values and derivatives that the changed ones give.
pub const OF_RUNGS: [(&str, Change); 19] = [
    ("a bit of a value", |reading, draw| {
        let k = draw.below(reading.n + 1);
        flip(reading, draw, 0, k)
    }),
    ("a bit of a derivative", |reading, draw| {
        let k = draw.below(reading.n);
        flip(reading, draw, 1, k)
    }),
    ("a bit of value 0", |reading, draw| {
        flip(reading, draw, 0, 0)
    }),
    ("a bit of value 2", |reading, draw| {
        reading.n >= 2 && flip(reading, draw, 0, 2)
    }),
    ("a bit of value n", |reading, draw| {
        flip(reading, draw, 0, reading.n)
    }),
    ("a bit of derivative 0", |reading, draw| {
        flip(reading, draw, 1, 0)
    }),
    ("a bit of derivative 2", |reading, draw| {
        reading.n >= 3 && flip(reading, draw, 1, 2)
    }),
    ("a bit of derivative n - 1", |reading, draw| {
        flip(reading, draw, 1, reading.n - 1)
    }),
    ("another NaN", another_nan),
    ("all NaNs others", other_nans),
    ("a zero of the other sign", other_zero),
    ("two slots exchanged", exchange),
    ("slots past the rungs", past_the_rungs),
    ("the state's values and reserved", |reading, draw| {
        let state = &mut reading.state;
        [state.value_below, state.value_top] = [draw.number(), draw.number()];
        state.reserved = [0; 3].map(|_| draw.bits() as u32);
        true
    }),
    ("a value, carried on", |reading, draw| {
        let k = draw.below(reading.n + 1);
        change_value(reading, draw, k)
    }),
    ("value 0, carried on", |reading, draw| {
        change_value(reading, draw, 0)
    }),
    ("value 1, carried on", |reading, draw| {
        change_value(reading, draw, 1)
    }),
    ("values 0 and 1, carried on", |reading, draw| {
        let number = [0.0, f64::NAN, draw.number(), draw.uniform(2.0)][draw.below(4)];
        carried_on(reading, &[number, -number], 2)
    }),
    ("value n, carried on", |reading, draw| {
        change_value(reading, draw, reading.n)
    }),
];

/// Lends fewer slots, those past them as they were. In half of the readings a rung is changed too.
fn cut(reading: &mut Reading, draw: &mut Draw, table: usize, length: usize) -> bool {
    reading.tables[table].length = length;
    reading.tables[table].is_null = length == 0 && draw.below(2) == 0;
    if draw.below(2) == 0 {
        let k = draw.below(reading.n);
        flip(reading, draw, table, k);
    }
    true
}

/// Any bit, the lowest and the sign more often. In a quarter of the readings the state has the
/// values that are then in the table.
fn flip(reading: &mut Reading, draw: &mut Draw, table: usize, k: usize) -> bool {
    let bit = [0, 63, draw.below(64), draw.below(64)][draw.below(4)];
    let slot = reading.slot(table, k);
    *slot = f64::from_bits(slot.to_bits() ^ (1 << bit));
    if draw.below(4) == 0 {
        take_values_of_the_table(reading);
    }
    true
}

fn take_values_of_the_table(reading: &mut Reading) {
    let n = reading.n;
    let [values, _] = reading.rungs();
    let (below, top) = (values[n - 1], values[n]);
    (reading.state.value_below, reading.state.value_top) = (below, top);
}

/// Table and number of all rungs that are so.
fn those(reading: &Reading, is_so: fn(f64) -> bool) -> Vec<(usize, usize)> {
    let rungs = reading.rungs();
    let all = (0..2).flat_map(|i| (0..rungs[i].len()).map(move |k| (i, k)));
    all.filter(|&(i, k)| is_so(rungs[i][k])).collect()
}

/// Not the one given.
fn nan(draw: &mut Draw, before: f64) -> f64 {
    let bits = draw.bits() | f64::INFINITY.to_bits();
    let number = f64::from_bits(bits);
    if number.is_nan() && bits != before.to_bits() {
        number
    } else {
        f64::from_bits(before.to_bits() ^ (1 << 63))
    }
}

fn another_nan(reading: &mut Reading, draw: &mut Draw) -> bool {
    let nans = those(reading, f64::is_nan);
    if nans.is_empty() {
        return false;
    }
    let (table, k) = nans[draw.below(nans.len())];
    let slot = reading.slot(table, k);
    *slot = nan(draw, *slot);
    true
}

fn other_nans(reading: &mut Reading, draw: &mut Draw) -> bool {
    let nans = those(reading, f64::is_nan);
    for &(table, k) in &nans {
        let slot = reading.slot(table, k);
        *slot = nan(draw, *slot);
    }
    !nans.is_empty()
}

fn other_zero(reading: &mut Reading, draw: &mut Draw) -> bool {
    let zeros = those(reading, |rung| rung == 0.0);
    if zeros.is_empty() {
        return false;
    }
    let (table, k) = zeros[draw.below(zeros.len())];
    *reading.slot(table, k) *= -1.0;
    true
}

/// Half of them neighbours, the others any, of either table.
fn exchange(reading: &mut Reading, draw: &mut Draw) -> bool {
    let all = those(reading, |_| true);
    let first = draw.below(all.len());
    let by = [1, 1 + draw.below(all.len() - 1)][draw.below(2)];
    let pair = [first, (first + by) % all.len()].map(|i| all[i]);
    let [one, other] = pair.map(|(table, k)| *reading.slot(table, k));
    *reading.slot(pair[0].0, pair[0].1) = other;
    *reading.slot(pair[1].0, pair[1].1) = one;
    true
}

/// All others, before the tables too. There are more of them lent.
fn past_the_rungs(reading: &mut Reading, draw: &mut Draw) -> bool {
    let (n, junk) = (reading.n, Junk(draw.bits()));
    for (table, many) in reading.tables.iter_mut().zip([n + 1, n]) {
        table.lend(table.length + 1 + draw.below(4), many, junk);
        for k in (0..MARGIN).chain(MARGIN + many..table.slots.len()) {
            table.slots[k] = junk.slot(k);
        }
    }
    true
}

fn change_value(reading: &mut Reading, draw: &mut Draw, k: usize) -> bool {
    let [values, _] = reading.rungs();
    let mut values = values.to_vec();
    let bit = 1 << [0, 63, draw.below(64)][draw.below(3)];
    let changed = f64::from_bits(values[k].to_bits() ^ bit);
    values[k] = [changed, 0.0, -0.0, draw.number()][[0, 0, 0, 1, 2, 3][draw.below(6)]];
    carried_on(reading, &values, (k + 1).max(2))
}

/// Puts the first `from` values into the table and those that follow from them, with their
/// derivatives.
pub fn carried_on(reading: &mut Reading, first: &[f64], from: usize) -> bool {
    let mut values = first.to_vec();
    carry_on(&reading.branch, from, reading.n, &mut values);
    let derivatives = derivatives(&reading.branch, &values);
    for (table, rungs) in reading.tables.iter_mut().zip([values, derivatives]) {
        table.slots[MARGIN..][..rungs.len()].copy_from_slice(&rungs);
    }
    true
}
