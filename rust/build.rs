//! Finds the static library of the C interface and links it into the package.
//!
//! The library is the file that GOZHNERIM_LIBRARY names. Where the variable is not set or empty, it
//! is the one that `rt lib` proves and writes in crates/gozhnerim of the repository, the folder
//! above this one. It is copied to this build's own folder, asked for its version and linked from
//! there, so that no other file of that name can be taken and the packages that depend on this one
//! have it too.

#[path = "build/lock.rs"]
mod lock;
#[path = "build/progress.rs"]
mod progress;
#[path = "build/proved.rs"]
mod proved;
#[path = "build/rt.rs"]
mod rt;
#[path = "build/stamp.rs"]
mod stamp;
#[path = "build/version.rs"]
mod version;

use std::env;
use std::ffi::OsString;
use std::fs;
use std::path::{Path, PathBuf};
use std::process;

const VARIABLE: &str = "GOZHNERIM_LIBRARY";
/// A static library begins with these bytes.
const ARCHIVE_MARK: &[u8] = b"!<arch>\n";
const WHAT_TO_DO: &str = "Set GOZHNERIM_LIBRARY to the full path of libgozhnerim.a, or build the \
    package in its repository on a machine with the Rattle toolchain (rt).";
/// What the package's tests need to run this program again as cargo does.
const FOR_TESTS: [&str; 5] = [
    "RUSTC",
    "RUSTC_LINKER",
    "CARGO_ENCODED_RUSTFLAGS",
    "HOST",
    "TARGET",
];

/// A static library that was read.
struct Library {
    path: PathBuf,
    bytes: Vec<u8>,
    /// What to do if it is of another version than the package.
    if_other_version: &'static str,
}

fn main() {
    println!("cargo::rerun-if-env-changed={VARIABLE}");
    println!("cargo::rerun-if-changed=build.rs");
    println!("cargo::rerun-if-changed=build");
    if let Err(message) = link() {
        eprintln!("gozhnerim: {message}");
        process::exit(1);
    }
}

fn link() -> Result<(), String> {
    check_target()?;
    let library = match env::var_os(VARIABLE) {
        Some(path) if !path.is_empty() => given(path)?,
        _ => built()?,
    };
    let folder = PathBuf::from(from_cargo("OUT_DIR")?);
    write(&folder.join("libgozhnerim.a"), &library.bytes)?;
    version::check(&library, &folder)?;
    println!("cargo::rustc-link-search=native={}", folder.display());
    println!("cargo::rustc-link-lib=static=gozhnerim");
    tell_header()?;
    tell_tests()
}

/// The packages that depend on this one have the header's folder as DEP_GOZHNERIM_INCLUDE.
fn tell_header() -> Result<(), String> {
    let include = repository()?.join("include");
    if include.join("gozhnerim.h").is_file() {
        println!("cargo::metadata=include={}", include.display());
    }
    Ok(())
}

fn tell_tests() -> Result<(), String> {
    let program = env::current_exe().map_err(|error| format!("no path of build.rs: {error}."))?;
    println!(
        "cargo::rustc-env=GOZHNERIM_BUILD_SCRIPT={}",
        program.display()
    );
    for name in FOR_TESTS {
        if let Ok(value) = env::var(name) {
            println!("cargo::rustc-env=GOZHNERIM_BUILD_{name}={value}");
        }
    }
    Ok(())
}

/// A variable that cargo sets for every build.rs.
fn from_cargo(name: &str) -> Result<String, String> {
    env::var(name).map_err(|error| format!("{name}: {error}. Run build.rs by cargo."))
}

/// The folder above the package.
fn repository() -> Result<PathBuf, String> {
    let package = PathBuf::from(from_cargo("CARGO_MANIFEST_DIR")?);
    Ok(package.parent().unwrap_or(&package).to_path_buf())
}

fn check_target() -> Result<(), String> {
    let arch = from_cargo("CARGO_CFG_TARGET_ARCH")?;
    let os = from_cargo("CARGO_CFG_TARGET_OS")?;
    if (arch.as_str(), os.as_str()) == ("x86_64", "linux") {
        return Ok(());
    }
    Err(format!(
        "The library is for x86-64 Linux, and this build is for {arch} {os}. Build for \
         x86_64-unknown-linux-gnu."
    ))
}

/// The file that the variable names.
fn given(path: OsString) -> Result<Library, String> {
    let shown = path.to_string_lossy().escape_debug().to_string();
    let Some(text) = path.to_str().filter(|text| !text.contains(['\n', '\r'])) else {
        return Err(format!(
            "{VARIABLE} is {shown}: cargo cannot watch a path that is not UTF-8 or has a line \
             break. Copy the library to another path."
        ));
    };
    println!("cargo::rerun-if-changed={text}");
    let path = PathBuf::from(&path);
    if path.is_file() {
        return Ok(Library {
            bytes: contents(&path)?,
            path,
            if_other_version: "Set GOZHNERIM_LIBRARY to the full path of the libgozhnerim.a of the \
                package's version, or unset it in the repository, so that `rt` builds the library.",
        });
    }
    let hint = if path.is_relative() {
        " A relative path is taken from the package's folder."
    } else {
        ""
    };
    Err(format!(
        "{VARIABLE} is {shown}, which is no file.{hint} {WHAT_TO_DO}"
    ))
}

/// The library that `rt` writes.
fn built() -> Result<Library, String> {
    let root = repository()?;
    if !root.join("crates/gozhnerim").is_dir() {
        return Err(format!(
            "{VARIABLE} is not set, and the folder above the package has no crates/gozhnerim. \
             {WHAT_TO_DO}"
        ));
    }
    for watched in ["crates", "crates.txt"] {
        println!("cargo::rerun-if-changed={}", root.join(watched).display());
    }
    proved::library(&root)
}

fn write(path: &Path, bytes: &[u8]) -> Result<(), String> {
    fs::write(path, bytes)
        .map_err(|error| format!("{} cannot be written: {error}.", path.display()))
}

fn contents(library: &Path) -> Result<Vec<u8>, String> {
    let shown = library.display();
    let bytes = fs::read(library)
        .map_err(|error| format!("{shown} cannot be read: {error}. {WHAT_TO_DO}"))?;
    if bytes.starts_with(ARCHIVE_MARK) {
        return Ok(bytes);
    }
    Err(format!("{shown} is not a static library. {WHAT_TO_DO}"))
}
