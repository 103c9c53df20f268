//! Which library is linked, and what is said where there is none.

use std::ffi::OsStr;
use std::fs;
use std::os::unix::ffi::OsStrExt;
use std::os::unix::fs::PermissionsExt;

use crate::place::{FAILS, Place, ran, says, writes};

const WRITES_NOTHING: &str = "#!/bin/sh\nexit 0\n";

#[test]
fn the_library_that_the_variable_names() {
    let place = Place::new("given").with_rt(FAILS, 0o755);
    let library = place.root.join("other name.a");
    fs::copy(place.root.join("ready.a"), &library).unwrap();
    fs::set_permissions(&library, fs::Permissions::from_mode(0o444)).unwrap();
    for _ in 0..2 {
        let ran = place.given(&library);
        place.links(&ran);
        assert_eq!(ran.err, "");
        let watched = format!("cargo::rerun-if-changed={}\n", library.display());
        assert!(ran.out.contains(&watched));
    }
    place.links(&place.given("../other name.a"));
}

#[test]
fn a_variable_that_names_no_library() {
    let place = Place::new("names_none").with_rt(&writes(""), 0o755);
    let missing = place.given("/no/such/libgozhnerim.a");
    says(
        &missing,
        &[
            "GOZHNERIM_LIBRARY is /no/such/libgozhnerim.a, which is no file",
            "full path",
        ],
    );
    says(
        &place.given("libgozhnerim.a"),
        &["relative path", "package's folder"],
    );
    says(&place.given(&place.root), &["which is no file"]);
    place.write("text", "no library");
    says(
        &place.given(place.root.join("text")),
        &["is not a static library", "full path"],
    );
    for bytes in [&b"/no/such/\xff.a"[..], b"/no/such/a\nb.a"] {
        says(
            &place.given(OsStr::from_bytes(bytes)),
            &["line break", "another path"],
        );
    }
}

#[test]
fn the_library_that_rt_writes() {
    let place = Place::new("rt_writes").with_rt(&writes(""), 0o755);
    for variable in [None, Some("")] {
        let mut command = place.command();
        if let Some(text) = variable {
            command.env("GOZHNERIM_LIBRARY", text);
        }
        let ran = ran(&mut command);
        place.links(&ran);
        for watched in ["crates", "crates.txt"] {
            let line = format!(
                "cargo::rerun-if-changed={}/{watched}\n",
                place.root.display()
            );
            assert!(ran.out.contains(&line));
        }
    }
}

#[test]
fn the_folder_of_the_header() {
    let place = Place::new("header");
    let tells = |place: &Place| {
        place
            .given("../ready.a")
            .out
            .contains("cargo::metadata=include=")
    };
    assert!(!tells(&place));
    fs::create_dir(place.root.join("include")).unwrap();
    assert!(!tells(&place));
    place.write("include/gozhnerim.h", "");
    let line = format!("cargo::metadata=include={}/include\n", place.root.display());
    assert!(place.given("../ready.a").out.contains(&line));
}

#[test]
fn rt_that_fails() {
    let place = Place::new("rt_fails").with_rt(FAILS, 0o755);
    let ran = place.built();
    let words = [
        "`rt lib` failed in crates/gozhnerim",
        "exit status: 3",
        "not proved: tables",
        "see above",
    ];
    says(&ran, &words);
    says(&ran, &["GOZHNERIM_LIBRARY"]);
}

#[test]
fn rt_that_writes_nothing() {
    let place = Place::new("rt_writes_nothing").with_rt(WRITES_NOTHING, 0o755);
    says(
        &place.built(),
        &["wrote no", "libgozhnerim.a", "GOZHNERIM_LIBRARY"],
    );
}

#[test]
fn no_rt() {
    let place = Place::new("no_rt");
    let commands = place.root.join("commands");
    says(
        &ran(place.command().env("PATH", &commands)),
        &["no command `rt`", "Set GOZHNERIM_LIBRARY"],
    );
    place.set_rt(&writes(""), 0o644);
    says(
        &ran(place.command().env("PATH", &commands)),
        &["cannot be run", "Set GOZHNERIM_LIBRARY"],
    );
}

#[test]
fn no_repository() {
    let place = Place::new("no_repository").with_rt(&writes(""), 0o755);
    fs::remove_dir_all(place.root.join("crates")).unwrap();
    says(
        &place.built(),
        &["no crates/gozhnerim", "Set GOZHNERIM_LIBRARY"],
    );
}

#[test]
fn another_target() {
    let place = Place::new("another_target");
    let arm = ran(place.command().env("CARGO_CFG_TARGET_ARCH", "aarch64"));
    says(&arm, &["x86-64 Linux", "aarch64 linux"]);
    let other = ran(place.command().env("CARGO_CFG_TARGET_OS", "macos"));
    says(&other, &["x86-64 Linux", "x86_64 macos"]);
}

#[test]
fn without_cargo() {
    let place = Place::new("without_cargo").with_rt(&writes(""), 0o755);
    let variables = [
        "OUT_DIR",
        "CARGO_MANIFEST_DIR",
        "CARGO_CFG_TARGET_ARCH",
        "HOST",
        "TARGET",
        "RUSTC",
    ];
    for variable in variables {
        let ran = ran(place.command().env_remove(variable));
        says(&ran, &[variable, "by cargo"]);
    }
    let nowhere = place.root.join("nowhere");
    says(
        &ran(place.command().env("OUT_DIR", nowhere)),
        &["cannot be written"],
    );
}
