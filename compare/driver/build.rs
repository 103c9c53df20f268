//! Links the two static libraries that are compared.

use std::env;
use std::path::Path;

/// The environment variables that name the static libraries: the C interface, and the functions
/// below it.
const LIBRARIES: [(&str, &str); 2] = [
    ("GOZHNERIM_LIBRARY", "libgozhnerim.a"),
    ("GOZHNERIM_KERNELS", "libcompare_exports.a"),
];

fn main() {
    for (variable, example) in LIBRARIES {
        link(variable, example);
    }
}

fn link(variable: &str, example: &str) {
    println!("cargo::rerun-if-env-changed={variable}");
    let library = env::var(variable)
        .unwrap_or_else(|_| panic!("{variable} is not set: the path of {example}"));
    let is_file = Path::new(&library).is_file();
    assert!(is_file, "{variable}: no file {library}");
    println!("cargo::rerun-if-changed={library}");
    // By its path: a name would be looked for in the folders of both.
    println!("cargo::rustc-link-arg={library}");
}
