//! The command's `serve`: replies in step with the requests, whatever the lines are.

mod common;
mod run;

use std::fmt::Write as _;
use std::fs::File;
use std::io::{BufRead, BufReader, Read, Write};
use std::process::Stdio;
use std::sync::mpsc;
use std::thread;
use std::time::Duration;

use common::Generator;
use gozhnerim::{Ladder, d_expansion, maclaurin};
use run::{Ran, command, serve};

#[test]
fn the_three_cases() {
    let ran = serve(&[], "D 2 0\nD 4 0\nD 4 0\nD 2 0\n");
    assert_eq!((ran.status, ran.err.as_str()), (Some(0), ""));
    let expected = [
        "-1.0 0.0 4 start-over",
        "3.0 0.0 2 climb",
        "3.0 0.0 0 repeat",
        "-1.0 0.0 4 start-over",
    ];
    assert_eq!(ran.lines(), expected);
}

#[test]
fn ladders_have_names() {
    let lines = "a: D 2 0\nb: D 2 0\nD 2 0\na: D 4 0\nb :V -1 0\nD 4 0\na:D 4 0\n";
    let ran = serve(&[], lines);
    let cases: Vec<&str> = ran
        .lines()
        .iter()
        .map(|line| line.rsplit(' ').next().unwrap())
        .collect();
    let expected = [
        "start-over",
        "start-over",
        "start-over",
        "climb",
        "start-over",
        "climb",
        "repeat",
    ];
    assert_eq!(cases, expected);
}

#[test]
fn bad_lines_are_named_and_the_run_goes_on() {
    let lines = "D 2 0\n\n# remark\nD two 0\nD 1000 0\n  \t\nD 2\nU 1 1\nD 4 0\n";
    let ran = serve(&[], lines);
    assert_eq!(ran.status, Some(1));
    let replies = ran.lines();
    assert_eq!(replies.len(), 6);
    assert_eq!(replies[0], "-1.0 0.0 4 start-over");
    assert!(replies[1].starts_with("error line 4: the order is not a number: \"two\""));
    assert!(replies[2].starts_with("refusal 2: "));
    assert!(replies[3].starts_with("error line 7: "));
    assert!(replies[4].starts_with("error line 8: \"U\" is none of D, V, "));
    assert_eq!(replies[5], "3.0 0.0 2 climb");
    assert_eq!(ran.err, "");
}

#[test]
fn numbers_are_read_as_on_the_command_line() {
    let lines = "D 2 4024000000000000\na: V 3fe0000000000000 1\n\
                 maclaurin 1 1 1 1 1234567890123456\nexpansion c039000000000000 3\n\
                 D –0.5 1\nD 2 0x0000000000000000\nD 4 −0\n";
    let ran = serve(&[], lines);
    let replies = ran.lines();
    assert_eq!((ran.status, replies.len()), (Some(1), 7));
    for (reply, number) in replies[..4].iter().zip(1..) {
        assert!(
            reply.starts_with(&format!("error line {number}: the ")),
            "{reply}"
        );
        assert!(reply.contains("; write 0x in front of them for bits, or a decimal point, "));
    }
    assert!(replies[4].contains("; write a minus sign - "));
    assert_eq!(
        replies[5..],
        ["-1.0 0.0 4 start-over", "3.0 0.0 6 start-over"]
    );
}

#[test]
fn a_byte_order_mark_and_line_breaks_of_two_bytes() {
    for first in [
        "D 2 0",
        "D 2 0\r",
        "\r\nD 2 0",
        "# remark\nD 2 0",
        "\nD 2 0",
        " \tD 2 0",
    ] {
        let ran = serve(&[], format!("\u{feff}{first}\n  D 4 0  \r\nrelease\r\n"));
        assert_eq!((ran.status, ran.err.as_str()), (Some(0), ""), "{first:?}");
        let expected = ["-1.0 0.0 4 start-over", "3.0 0.0 2 climb", "released"];
        assert_eq!(ran.lines(), expected, "{first:?}");
    }
    let ran = serve(&[], "\u{feff}a: D 2 0\na: D 4 0\n\u{feff}D 2 0\n");
    assert_eq!(ran.lines()[1], "3.0 0.0 2 climb");
    assert!(ran.lines()[2].starts_with("error line 3: "));
    assert_eq!(serve(&[], "\u{feff}").out, "");
}

#[test]
fn ladders_are_released() {
    let lines = "a: D 2 0\na: D 4 0\na: release\na: release\na: D 4 0\nrelease\nD 2 0\n\
                 release\nD 2 0\nb :release\na: D 5 0\n";
    let ran = serve(&[], lines);
    assert_eq!((ran.status, ran.err.as_str()), (Some(0), ""));
    let expected = [
        "-1.0 0.0 4 start-over",
        "3.0 0.0 2 climb",
        "released",
        "not-held",
        "3.0 0.0 6 start-over",
        "not-held",
        "-1.0 0.0 4 start-over",
        "released",
        "-1.0 0.0 4 start-over",
        "not-held",
    ];
    let replies = ran.lines();
    assert_eq!(replies[..10], expected);
    assert!(replies[10].ends_with(" 1 climb"));
    let ran = serve(&[], "D 2 0\nrelease all\nD 4 0\n");
    let start = "error line 2: release takes no \"all\"; write the ladder's name in front";
    assert!(ran.lines()[1].starts_with(start));
    assert_eq!(ran.lines()[2], "3.0 0.0 2 climb");
}

#[test]
fn expansion_and_series_use_no_ladder() {
    let calls = "expansion -25 3\nmaclaurin -0.5 0.5 1 0 -2.5\n";
    let pairs = [
        d_expansion(-25.0, 3.0).unwrap(),
        maclaurin(-0.5, 0.5, 1.0, 0.0, -2.5).unwrap(),
    ];
    let ran = serve(&[], format!("D 2 0\n{calls}D 4 0\n"));
    assert_eq!((ran.status, ran.err.as_str()), (Some(0), ""));
    let decimals = pairs.map(|pair| format!("{:?} {:?}", pair.value, pair.derivative));
    assert_eq!(ran.lines()[1..3], decimals);
    assert_eq!(ran.lines()[3], "3.0 0.0 2 climb");
    let with_bits = pairs.map(|pair| {
        let bits = [pair.value, pair.derivative].map(f64::to_bits);
        let (value, derivative) = (pair.value, pair.derivative);
        format!(
            "{value:?} {derivative:?} {:#018x} {:#018x}",
            bits[0], bits[1]
        )
    });
    assert_eq!(serve(&["--bits"], calls).lines(), with_bits);
}

#[test]
fn expansion_and_series_refused_or_wrong() {
    let ran = serve(
        &[],
        "a: expansion -25 3\nb: maclaurin 1 1 1 1 1\nexpansion -19 1\n\
         maclaurin 1 1 1 1 inf\nexpansion -25\nmaclaurin\na: release\n",
    );
    let starts = [
        "error line 1: expansion uses no ladder; leave out the name \"a\"",
        "error line 2: maclaurin uses no ladder; leave out the name \"b\"",
        "refusal 4: ",
        "refusal 5: ",
        "error line 5: expansion takes 2 numbers (order, argument), and 1 is given",
        "error line 6: maclaurin takes 5 numbers (A, X, C0, C1, E), and 0 are given",
        "not-held",
    ];
    assert_eq!((ran.status, ran.lines().len()), (Some(1), starts.len()));
    for (reply, start) in ran.lines().iter().zip(starts) {
        assert!(reply.starts_with(start), "{reply}");
    }
}

#[test]
fn lines_of_any_bytes() {
    let mut input = b"D 2 0\n\xff\xfe D\nD 1 1 1\n: D 1 1\na b: D 1 1\na:\nD\0 1 1\n".to_vec();
    input.extend(b"\x1b[2J 1 1\n\xef\xbb\xbfD 1 1\n# \xff\nD 1e999 1\nD 4 0\r\n");
    input.extend(vec![b'1'; 5_000_000]);
    input.extend(b"\n# ");
    input.extend(vec![b'-'; 100_000]);
    input.extend(b"\n");
    input.extend(vec![b' '; 100_000]);
    input.extend(b"\nD 4 0");
    let ran = serve(&[], input);
    assert!(ran.is_calm() && ran.status == Some(1), "{}", ran.err);
    let replies = ran.lines();
    let errors = replies
        .iter()
        .filter(|line| line.starts_with("error line "))
        .count();
    assert_eq!((replies.len(), errors), (14, 11));
    assert_eq!(replies[10], "3.0 0.0 2 climb");
    assert!(replies[11].starts_with("error line 13: the line is longer than 4096 bytes; "));
    assert_eq!(replies[13], "3.0 0.0 0 repeat");
    assert!(!ran.out.contains('\u{1b}') && ran.err.is_empty());
}

#[test]
fn random_bytes_get_one_line_each() {
    let mut generator = Generator::new(5);
    let alphabet = b"DV:# .-0123456789exinfNa\t\xff\x00\r";
    let mut input = Vec::new();
    let mut expected = 0;
    for _ in 0..3000 {
        let length = generator.below(14) as usize;
        let mut byte = || alphabet[generator.below(alphabet.len() as u64) as usize];
        let line: Vec<u8> = (0..length).map(|_| byte()).collect();
        let shown = line.trim_ascii();
        expected += usize::from(!shown.is_empty() && !shown.starts_with(b"#"));
        input.extend(line);
        input.push(b'\n');
    }
    let ran = serve(&[], input);
    assert!(ran.is_calm());
    assert_eq!(ran.lines().len(), expected);
}

#[test]
fn replies_are_the_ladders_to_the_bit() {
    let mut generator = Generator::new(6);
    let (mut input, mut expected) = (String::new(), String::new());
    let mut ladders = [Ladder::new(), Ladder::new()];
    for _ in 0..2000 {
        let name = generator.below(2) as usize;
        let function = generator.function();
        let v = generator.below(80) as f64 - 40.5;
        let x = generator.one_of(&[0.1, -0.1, 1.0 / 3.0, 30.0]);
        let reply = ladders[name].request(function, v, x).unwrap();
        writeln!(input, "t{name}: {function} {:#018x} {x:?}", v.to_bits()).unwrap();
        let (value, derivative) = (reply.value, reply.derivative);
        write!(
            expected,
            "{value:?} {derivative:?} {} {} ",
            reply.written, reply.case
        )
        .unwrap();
        let (value, derivative) = (value.to_bits(), derivative.to_bits());
        writeln!(expected, "{value:#018x} {derivative:#018x}").unwrap();
    }
    let ran = serve(&["--bits"], input);
    assert_eq!(ran.status, Some(0));
    assert!(ran.out == expected);
}

#[test]
fn too_many_ladders() {
    let mut input = String::new();
    for name in 0..1001 {
        writeln!(input, "t{name}: D 2 0").unwrap();
    }
    input.push_str("t7: D 4 0\nD 2 0\nt8: release\nD 2 0\nt7: D 6 0\n");
    let ran = serve(&[], input);
    assert_eq!((ran.status, ran.lines().len()), (Some(1), 1006));
    let full = "ladders are held already; release one by a line `NAME: release`, ";
    for number in [1001, 1003] {
        let start = format!("error line {number}: 1000 {full}");
        assert!(ran.lines()[number - 1].starts_with(&start));
    }
    assert_eq!(ran.lines()[1001], "3.0 0.0 2 climb");
    let released = ["released", "-1.0 0.0 4 start-over", "-15.0 0.0 2 climb"];
    assert_eq!(ran.lines()[1003..], released);
}

#[test]
fn a_ladder_that_was_only_refused_is_not_held() {
    let mut input = String::new();
    for name in 0..1001 {
        writeln!(input, "t{name}: D 1000 0").unwrap();
    }
    input.push_str("t7: release\nt8: D 2 0\nt8: D NaN 0\nt8: D 4 0\n");
    let ran = serve(&[], input);
    let replies = ran.lines();
    let (refused, rest) = replies.split_at(1001);
    assert!(refused.iter().all(|reply| reply.starts_with("refusal 2: ")));
    assert_eq!(rest[..2], ["not-held", "-1.0 0.0 4 start-over"]);
    assert!(rest[2].starts_with("refusal 1: "));
    assert_eq!(rest[3..], ["3.0 0.0 2 climb"]);
}

/// A program that sends a line and waits for its reply before it sends the next.
#[test]
fn replies_come_at_once() {
    let mut child = command()
        .arg("serve")
        .stdin(Stdio::piped())
        .stdout(Stdio::piped())
        .spawn()
        .unwrap();
    let mut stdin = child.stdin.take().unwrap();
    let replies = BufReader::new(child.stdout.take().unwrap()).lines();
    let (sender, received) = mpsc::channel();
    thread::spawn(move || replies.for_each(|reply| drop(sender.send(reply.unwrap()))));
    for line in ["D 2 0", "D 4 0"] {
        writeln!(stdin, "{line}").unwrap();
        let reply = received.recv_timeout(Duration::from_secs(30));
        assert!(reply.is_ok(), "no reply to {line}");
    }
    drop(stdin);
    assert_eq!(child.wait().unwrap().code(), Some(0));
    assert!(received.recv().is_err());
}

#[test]
fn a_broken_pipe_ends_quietly() {
    let mut child = command()
        .arg("serve")
        .stdin(Stdio::piped())
        .stdout(Stdio::piped())
        .stderr(Stdio::piped())
        .spawn()
        .unwrap();
    drop(child.stdout.take());
    let mut stdin = child.stdin.take().unwrap();
    let line = b"D 2 0\n".repeat(10_000);
    while stdin.write_all(&line).is_ok() {}
    let mut err = String::new();
    child
        .stderr
        .take()
        .unwrap()
        .read_to_string(&mut err)
        .unwrap();
    assert_eq!((child.wait().unwrap().code(), err.as_str()), (Some(1), ""));
}

#[test]
fn input_that_cannot_be_read() {
    let folder = File::open(env!("CARGO_MANIFEST_DIR")).unwrap();
    let ran: Ran = command()
        .arg("serve")
        .stdin(Stdio::from(folder))
        .output()
        .unwrap()
        .into();
    assert!(ran.is_calm() && ran.status == Some(1));
    assert!(
        ran.err
            .starts_with("gozhnerim: standard input cannot be read: ")
    );
}

#[test]
fn no_input_is_no_error() {
    let ran = serve(&[], "");
    assert_eq!(
        (ran.status, ran.out.as_str(), ran.err.as_str()),
        (Some(0), "", "")
    );
}
