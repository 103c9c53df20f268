//! The command: one request, tables, and wrong usage.

mod common;
mod run;

use std::ffi::OsStr;
use std::fs::File;
use std::os::unix::ffi::OsStrExt;
use std::process::Stdio;

use common::{BELOW_ONE, TABLE_SLOTS, alike, marked, table, written};
use gozhnerim::{Function, Ladder, d_expansion, maclaurin, rung_order, slots_needed};
use run::{Ran, command, run, run_text};

/// The numbers on a line; `-` is no number.
fn numbers(line: &str) -> Vec<f64> {
    line.split(' ')
        .filter_map(|word| word.parse().ok())
        .collect()
}

fn answered(ran: &Ran) -> bool {
    ran.status == Some(0) && ran.err.is_empty()
}

#[test]
fn one_request_in_decimals_and_in_bits() {
    let decimals = run_text("D 2.5 1.0");
    assert!(answered(&decimals));
    assert_eq!(decimals.lines().len(), 1);
    let reply = Ladder::new().d(2.5, 1.0).unwrap();
    assert_eq!(
        numbers(&decimals.out.replace('\n', "")),
        [reply.value, reply.derivative]
    );
    let bits = run_text("D 0x4004000000000000 0x3ff0000000000000");
    assert_eq!(bits.out, decimals.out);
    assert_eq!(run_text("d 2.5 1").out, decimals.out);
}

#[test]
fn bits_are_printed_on_demand() {
    let reply = Ladder::new().v(-3.0, 0.5).unwrap();
    let expected = format!(
        "{:?} {:?} {:#018x} {:#018x}\n",
        reply.value,
        reply.derivative,
        reply.value.to_bits(),
        reply.derivative.to_bits()
    );
    for words in ["V -3 0.5 --bits", "--bits V -3 0.5"] {
        assert_eq!(run_text(words).out, expected);
    }
}

#[test]
fn a_table_has_a_line_for_each_rung() {
    let ran = run_text("table D 2.5 1.0");
    assert!(answered(&ran));
    let mut ladder = Ladder::new();
    ladder.d(2.5, 1.0).unwrap();
    let lines = ran.lines();
    assert_eq!(lines.len(), ladder.values().len());
    for (k, line) in lines.iter().enumerate() {
        let read = numbers(line);
        assert_eq!(read[..3], [k as f64, 0.5 + k as f64, ladder.values()[k]]);
        assert_eq!(read.get(3), ladder.derivatives().get(k));
    }
    assert!(lines[3].ends_with(" -"));
}

#[test]
fn with_bits_a_table_has_a_line_for_each_slot() {
    let ran = run_text("table V -1 0 --bits");
    assert!(answered(&ran));
    let expected = [
        "0 0x0000000000000000 0.0 value 0 0.0",
        "1 0x3fe9884533d43651 0.7978845608028654 value 1 -1.0",
        "2 0x0000000000000000 0.0 value 2 -2.0",
        "4 0x3fe9884533d43651 0.7978845608028654 derivative 0 0.0",
        "5 0x0000000000000000 0.0 derivative 1 -1.0",
    ];
    assert_eq!(ran.lines(), expected);
}

/// The lines of `table --bits` are those slots of a table of marks that the call writes.
fn slots_are_those_written(function: Function, v: f64, x: f64) {
    let request = format!("table {function} {v:?} {x:?} --bits");
    let ran = run_text(&request);
    assert!(answered(&ran), "{request}");
    let mut slots = marked(TABLE_SLOTS);
    table(function, v, x, &mut slots).unwrap();
    let lines: Vec<Vec<&str>> = ran.lines().iter().map(|l| l.split(' ').collect()).collect();
    let listed = lines.iter().map(|cells| cells[0].parse().unwrap());
    let listed: Vec<usize> = listed.collect();
    assert_eq!(listed, written(&slots), "{request}");
    let num = slots_needed(v).unwrap() / 2;
    for (slot, cells) in listed.into_iter().zip(lines) {
        let bits = u64::from_str_radix(&cells[1][2..], 16).unwrap();
        let printed = [f64::from_bits(bits), cells[2].parse().unwrap()];
        assert!(
            printed.iter().all(|&number| alike(number, slots[slot])),
            "{request}: {cells:?}"
        );
        let (column, rung) = match slot.checked_sub(num) {
            Some(rung) => ("derivative", rung),
            None => ("value", slot),
        };
        let order = format!("{:?}", rung_order(v, rung).unwrap());
        assert_eq!(cells[3..], [column, &rung.to_string(), &order], "{request}");
    }
}

/// At -1.1e-16 and nearer to 0 the order less 1 rounds to -1, and V has a value 2.
#[test]
fn the_slots_listed_are_the_slots_written() {
    let sizes = [
        0.0, 5e-324, 1e-20, 1.1e-16, 2.3e-16, 0.5, BELOW_ONE, 1.0, 2.5, 7.0, 999.5,
    ];
    for function in [Function::D, Function::V] {
        for v in sizes.into_iter().flat_map(|size| [size, -size]) {
            for x in [0.5, -3.0, 12.0] {
                slots_are_those_written(function, v, x);
            }
        }
    }
}

#[test]
fn the_longest_table_and_numbers_that_are_not_finite() {
    let ran = run_text("table D 999.5 -40");
    assert!(answered(&ran));
    assert_eq!(ran.lines().len(), 1001);
    let ran = run_text("D 3 inf");
    assert!(answered(&ran));
    let reply = Ladder::new().d(3.0, f64::INFINITY).unwrap();
    let read = numbers(ran.out.trim_end());
    assert!(alike(read[0], reply.value) && alike(read[1], reply.derivative));
}

#[test]
fn expansion_and_series() {
    let ran = run_text("expansion -25 3");
    let pair = d_expansion(-25.0, 3.0).unwrap();
    assert_eq!(numbers(ran.out.trim_end()), [pair.value, pair.derivative]);
    let ran = run_text("maclaurin -0.5 0.5 1 0 -2.5");
    let pair = maclaurin(-0.5, 0.5, 1.0, 0.0, -2.5).unwrap();
    assert_eq!(numbers(ran.out.trim_end()), [pair.value, pair.derivative]);
}

#[test]
fn sixteen_digits_without_0x_are_no_number() {
    let wrong = [
        "D 2 4024000000000000",
        "V 3fe0000000000000 1",
        "table D 1234567890123456 1 --bits",
        "expansion C039000000000000 3",
        "maclaurin 1 1 1 1 0000000000000000",
    ];
    for words in wrong {
        let ran = run_text(words);
        assert_eq!((ran.status, ran.out.as_str()), (Some(2), ""), "{words}");
        let advice = "; write 0x in front of them for bits, or a decimal point, ";
        assert!(ran.err.contains(advice), "{words}: {}", ran.err);
    }
    let ten = run_text("D 2 10");
    assert!(answered(&ten));
    assert_eq!(run_text("D 2 0x4024000000000000").out, ten.out);
    assert_eq!(run_text("D 2 0X4024000000000000").out, ten.out);
    let reply = Ladder::new().d(2.0, -4024e12).unwrap();
    let expected = format!("{:?} {:?}\n", reply.value, reply.derivative);
    assert_eq!(run_text("D 2 -4024000000000000").out, expected);
    assert_eq!(run_text("D 2 -4024000000000000.0").out, expected);
}

#[test]
fn minus_signs_and_other_dashes() {
    for (words, plain) in [("D −0.5 1e−3", "D -0.5 1e-3"), ("D 2 −inf", "D 2 -inf")] {
        let plain = run_text(plain);
        assert!(answered(&plain));
        assert_eq!(run_text(words).out, plain.out);
    }
    for words in ["D –0.5 1", "D —0.5 1", "D ‐0.5 1", "D 1 1e–3", "V 2 —inf"] {
        let ran = run_text(words);
        assert_eq!((ran.status, ran.out.as_str()), (Some(2), ""), "{words}");
        assert!(ran.err.contains("; write a minus sign - "), "{}", ran.err);
    }
}

#[test]
fn two_dashes_end_the_options() {
    let plain = run_text("D 2 1 --bits");
    assert!(answered(&plain));
    for words in ["--bits -- D 2 1", "--bits D -- 2 1", "D 2 1 --bits --"] {
        assert_eq!(run_text(words).out, plain.out, "{words}");
    }
    let words = [
        ("-- --help", "\"--help\" is none of "),
        ("-- -- D 2 1", "\"--\" is none of "),
        ("D -- --bits 1", "the order is not a number: \"--bits\""),
        (
            "-- D 2 1 --bits",
            "D takes 2 numbers (order, argument), and 3 are given",
        ),
    ];
    for (words, message) in words {
        let ran = run_text(words);
        assert_eq!((ran.status, ran.out.as_str()), (Some(2), ""), "{words}");
        let start = format!("gozhnerim: {message}");
        assert!(ran.err.starts_with(&start), "{words}: {}", ran.err);
    }
}

#[test]
fn refusals_in_words_with_their_numbers() {
    let refused = [
        ("D NaN 1", 1),
        ("V 1 -nan", 1),
        ("table D 1000 NaN", 1),
        ("D 1000 1", 2),
        ("table V -inf 1", 2),
        ("mirror 3 NaN", 1),
        ("expansion -19 1", 4),
        ("expansion -20 inf", 5),
        ("maclaurin 1 1 1 1 -inf", 5),
        ("maclaurin 1 0x7ff8000000000001 1 1 -inf", 1),
    ];
    for (words, number) in refused {
        let ran = run_text(words);
        assert_eq!((ran.status, ran.out.as_str()), (Some(1), ""), "{words}");
        let start = format!("gozhnerim: refusal {number}: ");
        assert!(ran.err.starts_with(&start), "{words}: {}", ran.err);
    }
}

#[test]
fn wrong_usage_is_answered_in_words() {
    let wrong = [
        "",
        "D",
        "D 1",
        "D 1 2 3",
        "D one 2",
        "D 1 2,5",
        "D 1 0x12",
        "D 1e999 1",
        "U 1 2",
        "table",
        "table 1 2",
        "table U 1 2",
        "table D 1",
        "mirror",
        "mirror 1",
        "mirror 1 2 3",
        "mirror one 2",
        "expansion -25",
        "expansion x y",
        "maclaurin 1 2 3",
        "maclaurin 1 2 3 4 5 6",
        "serve now",
        "--bit D 1 2",
        "-x",
        "--",
        "2.5 1.0",
        "D --1 2",
    ];
    for words in wrong {
        let ran = run_text(words);
        assert!(ran.is_calm(), "{words}: {}", ran.err);
        assert_eq!((ran.status, ran.out.as_str()), (Some(2), ""), "{words}");
        assert!(ran.err.starts_with("gozhnerim: ") && ran.err.contains("--help"));
    }
}

#[test]
fn arguments_of_any_bytes() {
    let long = "9".repeat(100_000);
    let bytes = OsStr::from_bytes(b"\xff\xfe");
    let odd = [
        bytes,
        OsStr::new(""),
        OsStr::new("\u{1b}[31m"),
        OsStr::new(&long),
    ];
    for word in odd {
        for words in [vec![word], vec![OsStr::new("D"), word, OsStr::new("1")]] {
            let ran = run(words);
            assert!(ran.is_calm() && ran.status == Some(2), "{}", ran.err);
            assert!(ran.err.len() < 1000 && !ran.err.contains('\u{1b}'));
        }
    }
}

#[test]
fn help_and_version() {
    for words in ["--help", "-h", "help", "D --help"] {
        let ran = run_text(words);
        assert!(answered(&ran) && ran.out.contains("usage:"), "{words}");
        assert!(ran.out.lines().all(|line| line.len() <= 82));
        let named = [
            "docs/SUPPORT.md",
            "--bits ",
            "\n  -- ",
            "table --bits:",
            "mirror ORDER ARGUMENT",
            "derivative-differs",
            "tower1: release",
            "checked RUNGS",
            "not-held",
            "byte order mark",
            "4024000000000000.0",
            "U+2212",
        ];
        for part in named {
            assert!(ran.out.contains(part), "{words}: no {part}");
        }
    }
    let version = env!("CARGO_PKG_VERSION");
    assert_eq!(
        run_text("--version").out,
        format!("gozhnerim {version}, library {version}\n")
    );
}

#[test]
fn output_that_cannot_be_written() {
    let full = File::options().write(true).open("/dev/full").unwrap();
    let ran: Ran = command()
        .args(["D", "2", "1"])
        .stdout(Stdio::from(full))
        .stderr(Stdio::piped())
        .spawn()
        .and_then(|child| child.wait_with_output())
        .unwrap()
        .into();
    assert!(ran.is_calm() && ran.status == Some(1));
    assert!(
        ran.err
            .starts_with("gozhnerim: standard output cannot be written: ")
    );
}
