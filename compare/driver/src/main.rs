//! Compares the library's functions with the Rust, stores the Rust's answers, takes times.

mod bench;
mod comparing;
mod edge_lines;
mod elementary;
mod entries;
mod expansion;
mod floats;
mod functions;
mod inputs;
mod ladder;
mod soak;
mod start_sums;
mod store;
mod tables;

use std::num::NonZeroUsize;
use std::path::Path;
use std::process::ExitCode;

use comparing::Tally;
use functions::Function;
use store::Record;

/// The layers of the library that have only functions of one or two numbers, by name.
const LAYERS: [(&str, &[Function]); 3] = [
    ("floats", &floats::FUNCTIONS),
    ("elementary", &elementary::FUNCTIONS),
    ("start_sums", &start_sums::FUNCTIONS),
];

const USAGE: &str = "\
arguments: compare COUNT SEED | soak REQUESTS [SEED] | edges | store FOLDER | bench
  COUNT     inputs for each function and for each call of the expansion, requests for each table call
            and for the ladder from empty; a fifth as many states handed in; readings of the tested
            reader from each; a whole number above 0
  REQUESTS  for the calls of the C interface in all, a whole number above 0
  SEED      of the random inputs and requests, a whole number below 2^64
  FOLDER    where the files of stored answers go";

/// The functions of one or two numbers of all layers.
fn all_functions() -> impl Iterator<Item = &'static Function> {
    let functions = LAYERS.iter().flat_map(|(_, functions)| *functions);
    functions.chain(&expansion::FUNCTIONS)
}

fn main() -> ExitCode {
    let arguments: Vec<String> = std::env::args().skip(1).collect();
    let arguments: Vec<&str> = arguments.iter().map(String::as_str).collect();
    let right = match arguments[..] {
        ["compare", count, seed] => seeded(compare, count, seed),
        ["soak", requests] => seeded(soak::run, requests, "1"),
        ["soak", requests, seed] => seeded(soak::run, requests, seed),
        ["edges"] => {
            println!("{}", edge_lines::lines().join("\n"));
            Some(true)
        }
        ["store", folder] => Some(store_all(Path::new(folder))),
        ["bench"] => {
            bench::run();
            Some(true)
        }
        _ => None,
    };
    let Some(right) = right else {
        eprintln!("{USAGE}");
        return ExitCode::from(2);
    };
    ExitCode::from(u8::from(!right))
}

/// Runs with a count above 0 and a seed, unless they are none.
fn seeded(run: fn(usize, u64) -> bool, count: &str, seed: &str) -> Option<bool> {
    let count: NonZeroUsize = count.parse().ok()?;
    let seed = seed.parse().ok()?;
    Some(run(count.get(), seed))
}

/// Calls each entry of the compared Rust, then compares every layer. Gives whether no entry was off
/// and there was no difference.
fn compare(count: usize, seed: u64) -> bool {
    let mut right = entries::run();
    for (name, functions) in LAYERS {
        let mut tally = Tally::of_functions(functions.len());
        for function in functions {
            function.compare(&mut tally, count, seed);
        }
        right &= tally.finish(name);
    }
    let mut tally = Tally::of_calls(tables::CALLS.len() + 1);
    for call in &tables::CALLS {
        call.compare(&mut tally, count, seed);
    }
    tables::needs::compare(&mut tally, count, seed);
    tables::mirror::compare(&mut tally, seed);
    right &= tally.finish("tables");
    let mut tally = Tally::of_calls(ladder::CALLS);
    ladder::compare(&mut tally, count, seed);
    right &= tally.finish("ladder");
    let mut tally = Tally::of_functions(expansion::FUNCTIONS.len() + expansion::CALLS);
    for function in &expansion::FUNCTIONS {
        function.compare(&mut tally, count, seed);
    }
    expansion::compare_calls(&mut tally, count, seed);
    right & tally.finish("expansion")
}

/// Writes every file of stored answers. Gives whether all were written.
fn store_all(folder: &Path) -> bool {
    let mut right = true;
    for (name, functions) in LAYERS {
        right &= store_file(folder, name, &store::all_records(functions));
    }
    right &= store_file(folder, "tables", &tables::stored::all_records());
    right & store_file(folder, "expansion", &expansion::stored::all_records())
}

/// Writes a file of stored answers. Gives whether it was written.
fn store_file(folder: &Path, name: &str, records: &[Record]) -> bool {
    let result = store::write(folder, &format!("{name}.bin"), records);
    if let Err(error) = &result {
        eprintln!("{}: {error}", folder.display());
    }
    result.is_ok()
}
