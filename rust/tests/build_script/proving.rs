//! When `rt` is run, that it is run by one build at a time, and what is seen meanwhile.

use std::fs;
use std::io::{BufRead, BufReader, Read};
use std::process::{Child, ChildStderr, Stdio};
use std::thread;
use std::time::Duration;

use crate::place::{Place, Ran, says, writes};

/// `rt` fails if it is run twice at the same time. It tells that it was started, and goes on once
/// the file `go` is there.
const WAITS: &str = "mkdir busy || exit 8\n\
    echo > started\n\
    while [ ! -e go ]; do sleep 0.01; done\n\
    rmdir busy";

fn start(place: &Place, out: &str) -> Child {
    let folder = place.root.join(out);
    fs::create_dir_all(&folder).unwrap();
    let mut command = place.command();
    command
        .env("OUT_DIR", folder)
        .stdout(Stdio::piped())
        .stderr(Stdio::piped());
    command.spawn().unwrap()
}

fn wait_for_rt(place: &Place, build: &mut Child) {
    while !place.root.join("started").exists() {
        assert!(
            build.try_wait().unwrap().is_none(),
            "it ended before rt was run"
        );
        thread::sleep(Duration::from_millis(10));
    }
}

/// Reads what the build says until it waits for another.
fn wait_for_waiting(build: &mut Child) -> (String, BufReader<ChildStderr>) {
    let mut said = BufReader::new(build.stderr.take().unwrap());
    let mut line = String::new();
    said.read_line(&mut line).unwrap();
    assert!(line.contains("waiting for another build"), "{line:?}");
    (line, said)
}

fn end(build: Child, (mut line, mut said): (String, BufReader<ChildStderr>)) -> Ran {
    said.read_to_string(&mut line).unwrap();
    let mut ran = Ran::from(build.wait_with_output().unwrap());
    ran.err = line;
    ran
}

#[test]
fn two_builds_at_once() {
    let place = Place::new("two_at_once").with_rt(&writes(WAITS), 0o755);
    let mut first = start(&place, "out");
    wait_for_rt(&place, &mut first);
    let mut second = start(&place, "out2");
    let said = wait_for_waiting(&mut second);
    place.write("go", "");
    let first = Ran::from(first.wait_with_output().unwrap());
    let second = end(second, said);
    place.links(&first);
    place.links_from(&second, "out2");
    assert_eq!(place.runs(), 1);
}

#[test]
fn a_build_that_is_killed_while_rt_runs() {
    let place = Place::new("killed").with_rt(&writes(WAITS), 0o755);
    let mut first = start(&place, "out");
    wait_for_rt(&place, &mut first);
    first.kill().unwrap();
    first.wait().unwrap();
    let mut second = start(&place, "out");
    let said = wait_for_waiting(&mut second);
    place.write("go", "");
    let second = end(second, said);
    place.links(&second);
    assert_eq!(place.runs(), 2);
}

/// Builds, and tells whether `rt` was run.
fn ran_rt(place: &Place) -> bool {
    let before = place.runs();
    let ran = place.built();
    place.links(&ran);
    let runs = place.runs() - before;
    assert!(runs <= 1);
    assert_eq!(runs == 0, ran.err.is_empty());
    runs == 1
}

#[test]
fn a_finished_library_is_taken() {
    let place = Place::new("finished").with_rt(&writes(""), 0o755);
    assert!(ran_rt(&place));
    assert!(!ran_rt(&place));
    fs::remove_dir_all(place.root.join("out")).unwrap();
    fs::create_dir(place.root.join("out")).unwrap();
    assert!(!ran_rt(&place));
}

#[test]
fn a_changed_source_is_proved() {
    let place = Place::new("changed_source").with_rt(&writes(""), 0o755);
    assert!(ran_rt(&place));
    let code = "crates/gozhnerim/src/code";
    let changes: [&dyn Fn(); 6] = [
        &|| place.write(code, "cod\n"),
        &|| place.write("crates/gozhnerim/src/more.rt", ""),
        &|| place.write("crates/note", ""),
        &|| {
            fs::rename(
                place.root.join("crates/note"),
                place.root.join("crates/not"),
            )
            .unwrap()
        },
        &|| place.write("crates.txt", "gozhnerim: other\nother:\n"),
        &|| fs::remove_file(place.root.join("crates/not")).unwrap(),
    ];
    for change in changes {
        change();
        assert!(ran_rt(&place));
        assert!(!ran_rt(&place));
    }
    // The same content, written anew.
    place.write(code, "cod\n");
    assert!(!ran_rt(&place));
}

#[test]
fn what_is_not_the_finished_library() {
    let place = Place::new("not_finished").with_rt(&writes(""), 0o755);
    assert!(ran_rt(&place));
    let library = "crates/gozhnerim/out/libgozhnerim.a";
    let stamp = "crates/gozhnerim/out/libgozhnerim.stamp";
    let mut damaged = place.read(library);
    *damaged.last_mut().unwrap() ^= 1;
    let changes: [&dyn Fn(); 5] = [
        &|| fs::write(place.root.join(library), &damaged).unwrap(),
        &|| fs::remove_file(place.root.join(library)).unwrap(),
        &|| fs::remove_file(place.root.join(stamp)).unwrap(),
        &|| place.write(stamp, "sources 0\n"),
        &|| place.set_rt(&writes("").replace("stand-in 1", "stand-in 2"), 0o755),
    ];
    for change in changes {
        change();
        assert!(ran_rt(&place));
        assert!(!ran_rt(&place));
    }
}

#[test]
fn an_rt_without_a_version_is_always_run() {
    let script = writes("").replace("echo 'stand-in 1'; exit", "exit 2");
    let place = Place::new("no_rt_version").with_rt(&script, 0o755);
    assert!(ran_rt(&place));
    assert!(ran_rt(&place));
}

#[test]
fn sources_that_change_while_rt_runs() {
    let changes = writes("[ -e crates/late ] || echo late > crates/late");
    let place = Place::new("changed_meanwhile").with_rt(&changes, 0o755);
    let ran = place.built();
    place.links(&ran);
    assert!(
        ran.out
            .contains("cargo::warning=The sources were changed while they were proved")
    );
    assert!(ran_rt(&place));
    assert!(!ran_rt(&place));
}

#[test]
fn a_run_that_fails_leaves_the_finished_library() {
    let place = Place::new("fails_later").with_rt(&writes("[ ! -e crates/bad ] || exit 1"), 0o755);
    assert!(ran_rt(&place));
    place.write("crates/bad", "");
    for _ in 0..2 {
        says(
            &place.built(),
            &["`rt lib` failed in crates/gozhnerim", "exit status: 1"],
        );
    }
    fs::remove_file(place.root.join("crates/bad")).unwrap();
    assert!(!ran_rt(&place));
}

/// Every line but the last begins and ends so; what stands between is the time.
fn shows(place: &Place, lines: &[(&str, &str)]) {
    let ran = place.built();
    place.links(&ran);
    let (last, others): (&str, Vec<&str>) = {
        let mut all: Vec<&str> = ran.err.lines().collect();
        (all.pop().unwrap(), all)
    };
    assert!(last.starts_with("gozhnerim: the library is proved, ") && last.ends_with(" s"));
    assert_eq!(others.len(), lines.len(), "{}", ran.err);
    for (line, (begin, end)) in others.iter().zip(lines) {
        let begin = format!("gozhnerim: proving the library: {begin}");
        assert!(line.starts_with(&begin) && line.ends_with(end), "{line:?}");
    }
}

#[test]
fn how_far_it_is() {
    let says = "echo 'fn floats::floor: proved'\n\
        echo 'crate floats: modules loaded=0 checked=59'\n\
        echo 'logic=proved functions=0'\n\
        echo 'library floats: modules loaded=59 checked=0'\n\
        echo 'crate answer: modules loaded=27 checked=0'\n\
        echo 'logic=proved functions=0'\n\
        echo 'crate order: modules loaded=0 checked=12'\n\
        echo 'logic=not-proved'\n\
        echo 'crate order: modules loaded=100 checked=75'\n\
        echo 'logic=proved functions=5'\n\
        echo 'crate ladder: modules loaded=160 checked=0'\n\
        echo 'logic=proved functions=6'\n";
    let place = Place::new("progress").with_rt(&writes(says), 0o755);
    let crates = "# gozhnerim: other\nfloats:\nanswer:\norder: floats # other\n\n\
        ladder: floats order io\nother: floats\ngozhnerim: ladder order answer libc\n";
    place.write("crates.txt", crates);
    let counted = [
        ("5 crates, ", "some minutes the first time"),
        ("1 of 5 crates, ", " s (floats)"),
        ("3 of 5 crates, ", " s (order)"),
        ("4 of 5 crates, ", " s (ladder)"),
    ];
    shows(&place, &counted);
    place.set_rt(&writes(&format!("exec >&2\n{says}")), 0o755);
    place.write("crates/note", "");
    shows(&place, &counted);
    place.write("crates.txt", "floats:\n");
    let not_counted = [
        ("", "some minutes the first time"),
        ("crate 1, ", " s (floats)"),
        ("crate 3, ", " s (order)"),
    ];
    shows(&place, &not_counted);
    fs::remove_file(place.root.join("crates.txt")).unwrap();
    shows(&place, &not_counted);
}
