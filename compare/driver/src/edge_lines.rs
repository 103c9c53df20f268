//! The lines that the library's program `edge_examples` has to print: the scope paper's examples and the
//! inputs of its slips, by the Rust over the stand-ins and the ladder machine.

use std::f64::consts::PI;

use source::entry::{dvsa, gamma2, vvsa};

use crate::expansion;
use crate::ladder::{self, Point};
use crate::tables::{Answer, Kind, call};

/// What each slot holds before a call.
const MARK: f64 = -2.5;
/// Tables of more slots are not printed.
const PRINTED: usize = 2000;
/// The order next below 0 that the shift rounds away.
const TINY: f64 = -8.673617379884035e-19;
const NEXT_BELOW_1: f64 = 1.0 - f64::EPSILON / 2.0;

pub fn lines() -> Vec<String> {
    let lines = [
        examples_of_functions(),
        examples_of_tables(),
        ladder_lines(
            [6, 5],
            &[
                ("P11 D 2 0", Kind::D, 2.0, 0.0),
                ("P11 D 4 0", Kind::D, 4.0, 0.0),
                ("P11 D 4 0", Kind::D, 4.0, 0.0),
                ("P11 D 2 0", Kind::D, 2.0, 0.0),
            ],
        ),
        slips_of_functions(),
        slips_of_tables(),
        ladder_lines(
            [6, 5],
            &[
                ("V -2^-60 1", Kind::V, TINY, 1.0),
                ("V -1 1", Kind::V, -1.0, 1.0),
            ],
        ),
        ladder_lines(
            [6, 5],
            &[
                ("V -1 1", Kind::V, -1.0, 1.0),
                ("V -6 1", Kind::V, -6.0, 1.0),
                ("V -4 1", Kind::V, -4.0, 1.0),
                ("D 1-2^-53 0.5", Kind::D, NEXT_BELOW_1, 0.5),
            ],
        ),
    ];
    lines.concat()
}

fn examples_of_functions() -> Vec<String> {
    vec![
        function_line("P1 exp(0)", stand_ins::exp(0.0)),
        function_line("P2 gamma2(5)", gamma2(5.0)),
        function_line("P3 gamma2(-3)", gamma2(-3.0)),
        function_line("P4 dvsa(0, 1)", dvsa(0.0, 1.0)),
        function_line("P4 dvsa(0, 0)", dvsa(0.0, 0.0)),
    ]
}

fn examples_of_tables() -> Vec<String> {
    vec![
        table_line("P5 D 0 0, 5 slots", Kind::D, 0.0, 0.0, 5),
        table_line("P5 D 0 0, 6 slots", Kind::D, 0.0, 0.0, 6),
        table_line("P6 D 1 0", Kind::D, 1.0, 0.0, 8),
        table_line("P7 D 2 0", Kind::D, 2.0, 0.0, 10),
        table_line("P8 V -1 0", Kind::V, -1.0, 0.0, 8),
        table_line("P9 D 1000 0", Kind::D, 1000.0, 0.0, 2004),
        table_line("P10 D 999.5 0, 2003 slots", Kind::D, 999.5, 0.0, 2003),
        table_line("P10 D 999.5 0, 2004 slots", Kind::D, 999.5, 0.0, 2004),
        table_line("P12 D 1-2^-53 0.5", Kind::D, NEXT_BELOW_1, 0.5, 6),
    ]
}

fn slips_of_functions() -> Vec<String> {
    let maclaurin = expansion::maclaurin([1e300, 1e10, 1.0, -1.0, 0.0]);
    vec![
        function_line("sin(-0.5 pi)", stand_ins::sin(-0.5 * PI)),
        function_line("sin(-1.5 pi)", stand_ins::sin(-1.5 * PI)),
        function_line("sin(-1001.5 pi)", stand_ins::sin(-1001.5 * PI)),
        function_line("sin(1001.5 pi)", stand_ins::sin(1001.5 * PI)),
        function_line("vvsa(1, 3)", vvsa(1.0, 3.0)),
        function_line("vvsa(0, 2)", vvsa(0.0, 2.0)),
        function_line("max(NaN, 1)", f64::NAN.max(1.0)),
        function_line("max(1, NaN)", 1f64.max(f64::NAN)),
        line("maclaurin(1e300, 1e10, 1, -1, 0)", [answer(&maclaurin)]),
    ]
}

fn slips_of_tables() -> Vec<String> {
    vec![
        table_line("D 0.25 1.5", Kind::D, 0.25, 1.5, 7),
        table_line("D -1.5 1", Kind::D, -1.5, 1.0, 8),
        table_line("V -1.5 -1", Kind::V, -1.5, -1.0, 8),
        table_line("V 3 1", Kind::V, 3.0, 1.0, 12),
        table_line("V 3 -1", Kind::V, 3.0, -1.0, 12),
        table_line("V -2^-60 1", Kind::V, TINY, 1.0, 6),
    ]
}

fn line(name: &str, parts: impl IntoIterator<Item = String>) -> String {
    let parts: Vec<_> = parts.into_iter().collect();
    format!("{name}: {}", parts.join(" "))
}

/// The bits in hexadecimal digits; a NaN is the word.
fn number(x: f64) -> String {
    if x.is_nan() {
        "NaN".to_string()
    } else {
        format!("{:016x}", x.to_bits())
    }
}

/// The refusal's number, and the pair where there is one.
fn answer(answer: &Answer) -> String {
    match answer.refusal {
        0 => format!("0 {} {}", number(answer.value), number(answer.derivative)),
        refusal => refusal.to_string(),
    }
}

fn function_line(name: &str, x: f64) -> String {
    line(name, [number(x)])
}

/// The answer, and all slots of a table that is not too long.
fn table_line(name: &str, kind: Kind, v: f64, x: f64, length: usize) -> String {
    let expected = call(kind).expected(v, x, length);
    let slot = |k: usize| expected.slots.get(k).copied().flatten().unwrap_or(MARK);
    let shown = if length < PRINTED { length } else { 0 };
    let slots = (0..shown).map(|k| number(slot(k)));
    line(name, [answer(&expected.answer)].into_iter().chain(slots))
}

/// Requests to one ladder: the written count, which a refusal does not have, the answer, and all
/// slots of both tables.
fn ladder_lines(lengths: [usize; 2], requests: &[(&str, Kind, f64, f64)]) -> Vec<String> {
    let mut tables = lengths.map(|length| vec![MARK; length]);
    let mut ladder = ladder::Alone::default();
    let request = |&(name, kind, v, x): &(&str, Kind, f64, f64)| {
        let (written, reply) = ladder.request(&Point { kind, v, x }, &mut tables);
        let count = written.map(|count| count.to_string());
        let slots = tables.iter().flatten().map(|&slot| number(slot));
        line(name, count.into_iter().chain([answer(&reply)]).chain(slots))
    };
    requests.iter().map(request).collect()
}

#[cfg(test)]
mod tests {
    use super::lines;

    /// What the scope paper says of its examples, as far as a line shows it.
    #[test]
    fn examples() {
        let lines = lines();
        let has = |start: &str| lines.iter().any(|line| line.starts_with(start));
        assert!(has("P1 exp(0): 3ff0000000000000"));
        assert!(has("P2 gamma2(5): 4038000000000000"));
        assert!(has("P5 D 0 0, 5 slots: 3 c004000000000000 "));
        assert!(has(
            "P5 D 0 0, 6 slots: 0 3ff0000000000000 0000000000000000 "
        ));
        assert!(has("P9 D 1000 0: 2"));
        assert!(has("P11 D 4 0: 2 0 4008000000000000 0000000000000000 "));
        assert!(has("P11 D 4 0: 0 0 4008000000000000 0000000000000000 "));
        assert_eq!(lines.len(), 39);
    }
}
