//! A library of another version than the package, or one that does not tell its version.

use std::fs;
use std::os::unix::fs::PermissionsExt;

use crate::place::{PACKAGE_VERSION, Place, ran, says, version_function, writes};

#[test]
fn another_version() {
    let place = Place::new("another_version");
    let package = format!("package is version {PACKAGE_VERSION}");
    for (number, version) in [(100, "0.1.0"), (10_203, "1.2.3"), (999_999, "99.99.99")] {
        let library = place.library("other.a", &version_function(number));
        let found = format!("{}/other.a is version {version} ", place.root.display());
        let ran = place.given(&library);
        says(
            &ran,
            &[&found, &package, "Set GOZHNERIM_LIBRARY", "unset it"],
        );
    }
}

#[test]
fn no_version() {
    let place = Place::new("no_version");
    let package = format!("package is version {PACKAGE_VERSION}");
    let library = place.library("other.a", "int other(void) { return 0; }\n");
    let words = [
        "older than version 0.2.0",
        &package,
        "Set GOZHNERIM_LIBRARY",
    ];
    says(&place.given(&library), &words);
}

#[test]
fn another_version_by_rt() {
    let place = Place::new("another_version_by_rt").with_rt(&writes(""), 0o755);
    place.library("ready.a", &version_function(10_203));
    let words = [
        "crates/gozhnerim/out/libgozhnerim.a is version 1.2.3",
        "check out both from one version",
    ];
    says(&place.built(), &words);
}

#[test]
fn a_library_that_cannot_be_linked() {
    let place = Place::new("not_linked");
    let needs_more = "int more(void); int gozhnerim_version(void) { return more(); }\n";
    let library = place.library("other.a", needs_more);
    let words = ["cannot be linked", "Mend what", "another libgozhnerim.a"];
    let ran_with_it = place.given(&library);
    says(&ran_with_it, &words);
    says(&ran_with_it, &["undefined", "more"]);
    assert!(!ran_with_it.err.contains("older than"));
    let whole = place.read("ready.a");
    let cut = place.root.join("cut.a");
    fs::write(&cut, &whole[..whole.len() / 2]).unwrap();
    says(&place.given(&cut), &words);
}

#[test]
fn the_linker_and_the_flags_are_those_of_cargo() {
    let place = Place::new("linker");
    for (name, value) in [
        ("RUSTC_LINKER", "/no/such/linker"),
        ("CARGO_ENCODED_RUSTFLAGS", "-C\x1flinker=/no/such/linker"),
    ] {
        let mut command = place.command();
        command
            .env_remove("CARGO_ENCODED_RUSTFLAGS")
            .env(name, value);
        let ran = ran(command.env("GOZHNERIM_LIBRARY", "../ready.a"));
        says(&ran, &["cannot be linked", "/no/such/linker"]);
    }
    let mut command = place.command();
    command
        .env("RUSTC", "/no/such/rustc")
        .env("GOZHNERIM_LIBRARY", "../ready.a");
    says(
        &ran(&mut command),
        &["compiler /no/such/rustc cannot be run"],
    );
}

#[test]
fn a_version_function_that_fails() {
    let place = Place::new("version_fails");
    let code = "void abort(void); int gozhnerim_version(void) { abort(); }\n";
    let library = place.library("other.a", code);
    let words = [
        "does not tell its version",
        "signal: 6",
        "Set GOZHNERIM_LIBRARY",
    ];
    says(&place.given(&library), &words);
}

#[test]
fn a_machine_that_cannot_run_the_library() {
    let place = Place::new("another_host");
    place.library("ready.a", &version_function(10_203));
    let warning = format!(
        "cargo::warning=Whether the library is of version {PACKAGE_VERSION} is not checked"
    );
    for host in ["aarch64-unknown-linux-gnu", "x86_64-apple-darwin"] {
        let mut command = place.command();
        let ran = ran(command
            .env("GOZHNERIM_LIBRARY", "../ready.a")
            .env("HOST", host));
        place.links(&ran);
        assert_eq!(ran.err, "");
        assert!(ran.out.contains(&warning) && ran.out.contains(host));
    }
    // A compiler whose programs cannot be started.
    let compiler = place.root.join("commands/compiler");
    fs::write(&compiler, "#!/bin/sh\necho > ../out/version\n").unwrap();
    fs::set_permissions(&compiler, fs::Permissions::from_mode(0o755)).unwrap();
    let mut command = place.command();
    let ran = ran(command
        .env("GOZHNERIM_LIBRARY", "../ready.a")
        .env("RUSTC", &compiler));
    place.links(&ran);
    assert_eq!(ran.err, "");
    assert!(ran.out.contains(&warning) && ran.out.contains("cannot be run"));
}
