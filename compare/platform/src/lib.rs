//! The source's text over the platform's elementary functions, for the benchmark.

// In the source's text.
#![allow(clippy::excessive_precision)]

extern crate alloc;

include!("../../entries.rs");
