//! Refuses a library that is of another version than the package.
//!
//! The C function `gozhnerim_version` gives the version: 200 stands for 0.2.0, 10203 for 1.2.3. A
//! program that prints it is linked with the library and run.

use std::env;
use std::path::{Path, PathBuf};
use std::process::{Command, Stdio};

use crate::{Library, VARIABLE, from_cargo, write};

const PACKAGE: &str = concat!(
    env!("CARGO_PKG_VERSION_MAJOR"),
    ".",
    env!("CARGO_PKG_VERSION_MINOR"),
    ".",
    env!("CARGO_PKG_VERSION_PATCH")
);
/// The first version that has the function.
const FIRST: &str = "0.2.0";
const PROGRAM: &str = r#"unsafe extern "C" {
    safe fn gozhnerim_version() -> u32;
}

fn main() {
    println!("{}", gozhnerim_version());
}
"#;

/// The folder has the library's copy, and gets the program.
pub fn check(library: &Library, folder: &Path) -> Result<(), String> {
    let host = from_cargo("HOST")?;
    if !(host.starts_with("x86_64-") && host.contains("-linux")) {
        unchecked(&format!(
            "this machine ({host}) runs no x86-64 Linux programs"
        ));
        return Ok(());
    }
    let program = linked(library, folder)?;
    let Some(number) = answer(library, &program, folder)? else {
        return Ok(());
    };
    let found = format!(
        "{}.{}.{}",
        number / 10_000,
        number / 100 % 100,
        number % 100
    );
    if found == PACKAGE {
        return Ok(());
    }
    let (shown, what_to_do) = (library.path.display(), library.if_other_version);
    Err(format!(
        "{shown} is version {found} of the library, and the package is version {PACKAGE}. \
         {what_to_do}"
    ))
}

fn unchecked(why: &str) {
    println!(
        "cargo::warning=Whether the library is of version {PACKAGE} is not checked: {why}. See to \
         it that it is."
    );
}

fn linked(library: &Library, folder: &Path) -> Result<PathBuf, String> {
    let source = folder.join("version.rs");
    write(&source, PROGRAM.as_bytes())?;
    let program = folder.join("version");
    let mut rustc = rustc()?;
    rustc
        .arg("-L")
        .arg(folder)
        .args(["-l", "static=gozhnerim", "-o"])
        .arg(&program)
        .arg(&source);
    let output = rustc.stdin(Stdio::null()).output().map_err(|error| {
        let name = rustc.get_program().to_string_lossy();
        format!("The compiler {name} cannot be run: {error}. Run build.rs by cargo.")
    })?;
    if output.status.success() {
        return Ok(program);
    }
    Err(not_linked(
        library,
        &String::from_utf8_lossy(&output.stderr),
    ))
}

/// The compiler with the linker and the flags that cargo has for the package.
fn rustc() -> Result<Command, String> {
    let mut rustc = Command::new(from_cargo("RUSTC")?);
    rustc.args([
        "--edition",
        "2024",
        "--cap-lints",
        "allow",
        "-C",
        "strip=symbols",
    ]);
    rustc.arg("--target").arg(from_cargo("TARGET")?);
    if let Ok(linker) = env::var("RUSTC_LINKER") {
        rustc.arg(format!("-Clinker={linker}"));
    }
    let flags = env::var("CARGO_ENCODED_RUSTFLAGS").unwrap_or_default();
    rustc.args(flags.split('\x1f').filter(|flag| !flag.is_empty()));
    Ok(rustc)
}

fn not_linked(library: &Library, said: &str) -> String {
    let (shown, what_to_do) = (library.path.display(), library.if_other_version);
    let missing = |line: &str| line.contains("undefined") && line.contains("gozhnerim_version");
    if said.lines().any(missing) {
        return format!(
            "{shown} is older than version {FIRST} of the library, as it has no function \
             gozhnerim_version, and the package is version {PACKAGE}. {what_to_do}"
        );
    }
    format!(
        "A program with {shown} cannot be linked, so its version cannot be told. Mend what the \
         compiler names, or set {VARIABLE} to the full path of another libgozhnerim.a. The \
         compiler wrote:\n{said}"
    )
}

/// What the program prints, or None if it cannot be started here.
fn answer(library: &Library, program: &Path, folder: &Path) -> Result<Option<u32>, String> {
    let run = Command::new(program)
        .current_dir(folder)
        .stdin(Stdio::null())
        .output();
    let output = match run {
        Ok(output) => output,
        Err(error) => {
            unchecked(&format!("a program for the target cannot be run ({error})"));
            return Ok(None);
        }
    };
    if let Ok(number) = String::from_utf8_lossy(&output.stdout).trim().parse() {
        return Ok(Some(number));
    }
    let (shown, status) = (library.path.display(), output.status);
    Err(format!(
        "{shown} does not tell its version: the program that asks for it failed ({status}). {}",
        library.if_other_version
    ))
}
