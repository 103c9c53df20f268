//! The benchmark: time for each call of the library, of the Rust over the stand-ins and of the Rust
//! over the platform's functions, printed as Markdown.

mod expansion;
mod functions;
mod growth;
mod ladder;
mod refusals;
mod report;
mod tables;
mod tested;
mod timing;

use report::Report;

/// Prints all tables.
pub fn run() {
    let mut report = Report::new();
    tables::run(&mut report);
    growth::run(&mut report);
    ladder::run(&mut report);
    tested::run(&mut report);
    expansion::run(&mut report);
    refusals::run(&mut report);
    functions::run(&mut report);
    report.finish();
}
