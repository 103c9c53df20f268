//! Both halves of D, rung by rung: the tables at x and at −x.

use std::io::{self, Write};

use gozhnerim::Column::{Derivatives, Values};
use gozhnerim::{Function, Refusal, rungs_needed, slots_needed, unmirrored};

use crate::arguments::{Halves, Request};
use crate::calls::refused;
use crate::numbers::{self, decimal};
use crate::output::{BITS, Column, DECIMAL, Rows};
use crate::table;

const COLUMNS: [Column; 6] = [
    ("rung", 4),
    ("value at x", DECIMAL),
    ("value at -x", DECIMAL),
    ("derivative at x", DECIMAL),
    ("derivative at -x", DECIMAL),
    ("mirrored", 18),
];
/// The last columns where bits are wanted.
const BITS_COLUMNS: [Column; 4] = [
    ("value bits at x", BITS),
    ("value bits at -x", BITS),
    ("derivative bits at x", 20),
    ("derivative bits at -x", 21),
];

/// What is printed of two tables.
struct Lines {
    /// The cells of each rung.
    rungs: Vec<Vec<String>>,
    last: String,
    all_mirrored: bool,
}

/// Makes both table calls and prints the tables. Gives whether every rung is mirrored.
pub fn print(halves: Halves, bits: bool) -> io::Result<bool> {
    let lines = |[at_x, at_minus_x]: [Vec<f64>; 2]| lines(halves.order, [&at_x, &at_minus_x], bits);
    let lines = match tables(halves).and_then(lines) {
        Ok(lines) => lines,
        Err(refusal) => return refused(refusal),
    };
    let mut rows = Rows::standard(&columns(bits), false)?;
    write(&mut rows, lines)
}

/// The tables at x and at −x.
fn tables(halves: Halves) -> Result<[Vec<f64>; 2], Refusal> {
    let table = |x: f64| {
        let (function, v) = (Function::D, f64::from(halves.order));
        table::fill(Request { function, v, x }).map(|filled| filled.slots)
    };
    Ok([table(halves.x)?, table(-halves.x)?])
}

fn columns(bits: bool) -> Vec<Column> {
    let more: &[Column] = if bits { &BITS_COLUMNS } else { &[] };
    [&COLUMNS, more].concat()
}

fn write(rows: &mut Rows<impl Write>, lines: Lines) -> io::Result<bool> {
    for cells in lines.rungs {
        rows.row(cells)?;
    }
    rows.text(&lines.last)?;
    rows.flush()?;
    Ok(lines.all_mirrored)
}

/// The lines of two tables of D of a whole order, at x and at −x.
fn lines(order: u32, tables: [&[f64]; 2], bits: bool) -> Result<Lines, Refusal> {
    let found = unmirrored(order, tables[0], tables[1])?;
    let v = f64::from(order);
    let (n, num) = (rungs_needed(v)?, slots_needed(v)? / 2);
    let mut left = found.iter().peekable();
    let line = |k: usize| {
        let values = tables.map(|table| Some(table[k]));
        let derivatives = tables.map(|table| (k < n).then(|| table[num + k]));
        let numbers = [values, derivatives].concat();
        let value = left.next_if_eq(&&(Values, k)).is_none();
        let derivative = left.next_if_eq(&&(Derivatives, k)).is_none();
        let mut cells = vec![k.to_string()];
        cells.extend(shown(&numbers, decimal));
        cells.push(word(value, derivative).to_string());
        if bits {
            cells.extend(shown(&numbers, numbers::bits));
        }
        cells
    };
    let nan = |column: &[f64]| column.iter().filter(|number| number.is_nan()).count();
    let nans = [nan(&tables[0][..=n]), nan(&tables[0][num..num + n])];
    Ok(Lines {
        rungs: (0..=n).map(line).collect(),
        last: last_line(n, &found, nans),
        all_mirrored: found.is_empty(),
    })
}

/// Numbers as cells. The top rung has no derivative.
fn shown(numbers: &[Option<f64>], show: fn(f64) -> String) -> impl Iterator<Item = String> {
    let cell = move |number: &Option<f64>| number.map_or("-".to_string(), show);
    numbers.iter().map(cell)
}

/// Whether a rung is mirrored, given whether its value and its derivative are.
fn word(value: bool, derivative: bool) -> &'static str {
    match (value, derivative) {
        (true, true) => "mirrored",
        (false, true) => "value-differs",
        (true, false) => "derivative-differs",
        (false, false) => "both-differ",
    }
}

/// Whether all rungs up to the top rung n are mirrored, or how many are not and which is the first.
/// Of values and derivatives at x, `nans` are NaN.
fn last_line(n: usize, found: &[(gozhnerim::Column, usize)], nans: [usize; 2]) -> String {
    let (all_values, all_derivatives) = (n + 1, n);
    let plural = if n == 1 { "" } else { "s" };
    let Some((column, k)) = found.first() else {
        let all = format!("{all_values} values, {all_derivatives} derivative{plural}");
        let [values, derivatives] = nans;
        let nan = match values + derivatives {
            0 => String::new(),
            _ => format!(", of them {values} and {derivatives} NaN at x and at -x"),
        };
        return format!("every rung is mirrored: {all}{nan}");
    };
    let values = found.iter().filter(|(column, _)| *column == Values).count();
    let derivatives = found.len() - values;
    let first = match column {
        Values => "value",
        Derivatives => "derivative",
    };
    format!(
        "not mirrored: {values} of {all_values} values, {derivatives} of {all_derivatives} \
         derivative{plural}; the first is the {first} of rung {k}"
    )
}

#[cfg(test)]
mod tests {
    use super::*;
    use crate::status;

    fn filled(order: u32, x: f64) -> [Vec<f64>; 2] {
        tables(Halves { order, x }).unwrap()
    }

    fn lines_of(order: u32, tables: &[Vec<f64>; 2]) -> Lines {
        lines(order, [&tables[0], &tables[1]], false).unwrap()
    }

    /// What is printed of two tables, and the exit status.
    fn printed(order: u32, tables: &[Vec<f64>; 2], terminal: bool, bits: bool) -> (String, u8) {
        let mut out = Vec::new();
        let mut rows = Rows::new(&mut out, terminal, &columns(bits), false).unwrap();
        let lines = lines(order, [&tables[0], &tables[1]], bits).unwrap();
        let all_mirrored = write(&mut rows, lines).unwrap();
        (String::from_utf8(out).unwrap(), status(all_mirrored))
    }

    #[test]
    fn a_pipe_gets_plain_lines() {
        let lines = "0 1.0 1.0 0.0 0.0 mirrored\n\
                     1 0.0 -0.0 1.0 1.0 mirrored\n\
                     2 -1.0 -1.0 - - mirrored\n\
                     every rung is mirrored: 3 values, 2 derivatives\n";
        let tables = filled(1, 0.0);
        assert_eq!(printed(1, &tables, false, false), (lines.to_string(), 0));
        let (with_bits, _) = printed(0, &filled(0, 0.0), false, true);
        let lines = "0 1.0 1.0 0.0 0.0 mirrored 0x3ff0000000000000 0x3ff0000000000000 \
                     0x0000000000000000 0x0000000000000000\n\
                     1 0.0 -0.0 - - mirrored 0x0000000000000000 0x8000000000000000 - -\n\
                     every rung is mirrored: 2 values, 1 derivative\n";
        assert_eq!(with_bits, lines);
    }

    #[test]
    fn a_terminal_gets_titles_and_columns() {
        let mut tables = filled(0, 0.0);
        tables[1][0] = 1.5;
        let lines = "\
rung  value at x                value at -x               derivative at x           \
derivative at -x          mirrored
0     1.0                       1.5                       0.0                       \
0.0                       value-differs
1     0.0                       -0.0                      -                         \
-                         mirrored
not mirrored: 1 of 2 values, 0 of 1 derivative; the first is the value of rung 0
";
        assert_eq!(printed(0, &tables, true, false), (lines.to_string(), 1));
        let (with_bits, _) = printed(0, &tables, true, true);
        let rows: Vec<&str> = with_bits.lines().collect();
        for (title, bits) in [
            (
                "value bits at x",
                ["0x3ff0000000000000", "0x0000000000000000"],
            ),
            (
                "value bits at -x",
                ["0x3ff8000000000000", "0x8000000000000000"],
            ),
            ("derivative bits at x", ["0x0000000000000000", "-"]),
            ("derivative bits at -x", ["0x0000000000000000", "-"]),
        ] {
            let place = rows[0].find(title).unwrap();
            assert!(rows[1][place..].starts_with(bits[0]) && rows[2][place..].starts_with(bits[1]));
        }
    }

    /// Damages by hand: which slots each is for, and what the slot holds after it.
    type Damage = (fn(f64) -> bool, fn(f64) -> f64);
    const SIGN: Damage = (|slot| slot.is_normal(), |slot| -slot);
    const LAST_PLACE: Damage = (|slot| slot.is_normal(), f64::next_up);
    const NAN_FOR_NUMBER: Damage = (|slot| !slot.is_nan(), |_| f64::NAN);
    const NUMBER_FOR_NAN: Damage = (f64::is_nan, |_| 0.0);
    const SIGN_OF_INFINITY: Damage = (f64::is_infinite, |slot| -slot);
    const NUMBER_FOR_INFINITY: Damage = (f64::is_infinite, |slot| f64::MAX.copysign(slot));
    const SUBNORMAL_FOR_ZERO: Damage = (|slot| slot == 0.0, |_| 5e-324);
    const OTHER_ZERO: Damage = (|slot| slot == 0.0, |slot| -slot);
    const SEEN: [Damage; 7] = [
        SIGN,
        LAST_PLACE,
        NAN_FOR_NUMBER,
        NUMBER_FOR_NAN,
        SIGN_OF_INFINITY,
        NUMBER_FOR_INFINITY,
        SUBNORMAL_FOR_ZERO,
    ];
    /// The last three with rungs that are infinite and NaN, or all 0.
    const REQUESTS: [(u32, f64); 6] = [
        (0, -2.75),
        (3, 0.5),
        (4, 0.0),
        (999, 0.5),
        (999, 12.0),
        (999, 60.0),
    ];

    /// The first and the last slot of each column that a damage is for, with column and rung.
    fn damaged_slots(
        order: u32,
        table: &[f64],
        damage: Damage,
    ) -> Vec<(usize, &'static str, usize)> {
        let (n, num) = (order as usize + 1, order as usize + 3);
        let values: Vec<_> = (0..=n).map(|k| (k, "value", k)).collect();
        let derivatives: Vec<_> = (0..n).map(|k| (num + k, "derivative", k)).collect();
        let mut slots = Vec::new();
        for mut column in [values, derivatives] {
            column.retain(|&(slot, ..)| (damage.0)(table[slot]));
            slots.extend(column.first().copied());
            slots.extend(column.last().copied());
        }
        slots
    }

    /// Does a damage to one slot of one of both tables, for each of `damaged_slots`, and gives the
    /// lines with column and rung of the slot.
    fn damaged(order: u32, x: f64, damage: Damage) -> Vec<(Lines, &'static str, usize)> {
        let mut all = Vec::new();
        for side in 0..2 {
            let tables = filled(order, x);
            for (slot, column, rung) in damaged_slots(order, &tables[side], damage) {
                let mut tables = tables.clone();
                tables[side][slot] = (damage.1)(tables[side][slot]);
                all.push((lines_of(order, &tables), column, rung));
            }
        }
        all
    }

    /// One rung is told to differ, in its column; all others are mirrored.
    fn is_told(lines: &Lines, column: &str, rung: usize) {
        for (k, cells) in lines.rungs.iter().enumerate() {
            let expected = match k == rung {
                true => format!("{column}-differs"),
                false => "mirrored".to_string(),
            };
            assert_eq!((&cells[0], &cells[5]), (&k.to_string(), &expected));
        }
        let many = usize::from(column == "value");
        let (n, others) = (lines.rungs.len() - 1, 1 - many);
        let start = format!("not mirrored: {many} of {} values, {others} of {n} ", n + 1);
        let end = format!("; the first is the {column} of rung {rung}");
        assert!(lines.last.starts_with(&start), "{}", lines.last);
        assert!(lines.last.ends_with(&end), "{}", lines.last);
        assert_eq!(status(lines.all_mirrored), 1);
    }

    #[test]
    fn a_damaged_slot_is_told_with_its_place() {
        for (place, damage) in SEEN.into_iter().enumerate() {
            let mut columns = Vec::new();
            for (order, x) in REQUESTS {
                for (lines, column, rung) in damaged(order, x, damage) {
                    is_told(&lines, column, rung);
                    columns.push(column);
                }
            }
            for column in ["value", "derivative"] {
                let many = columns.iter().filter(|met| **met == column).count();
                assert!(many >= 4, "damage {place}: {many} {column}s");
            }
        }
    }

    #[test]
    fn zeros_of_either_sign_are_no_difference() {
        let mut many = 0;
        for (order, x) in REQUESTS {
            for (lines, ..) in damaged(order, x, OTHER_ZERO) {
                assert!(lines.last.starts_with("every rung is mirrored: "));
                assert!(lines.rungs.iter().all(|cells| cells[5] == "mirrored"));
                assert_eq!(status(lines.all_mirrored), 0);
                many += 1;
            }
        }
        assert!(many >= 8);
    }

    #[test]
    fn several_damaged_slots_are_counted() {
        let mut tables = filled(3, 0.5);
        // Values 2 and 4, derivatives 1 and 2, and two slots that the table call does not write.
        for slot in [2, 4, 7, 8, 5, 10] {
            tables[1][slot] += 1.0;
        }
        let lines = lines_of(3, &tables);
        let words: Vec<&str> = lines.rungs.iter().map(|cells| cells[5].as_str()).collect();
        let expected = [
            "mirrored",
            "derivative-differs",
            "both-differ",
            "mirrored",
            "value-differs",
        ];
        assert_eq!(words, expected);
        let last = "not mirrored: 2 of 5 values, 2 of 4 derivatives; the first is the derivative of \
                    rung 1";
        assert_eq!((lines.last.as_str(), lines.all_mirrored), (last, false));
    }
}
