//! Takes items out of Rust files by name, with not one character changed.
//!
//! The files are laid out by rustfmt: an item begins in the first column and ends on its first
//! line, or with the next line that is `}` or `];`.

use std::path::Path;
use std::{env, fs};

/// The environment variable that names the source's folder.
const SOURCE: &str = "GOZHNERIM_SOURCE";

/// Writes the named items of the source's files to `items.rs` in the build's output folder.
///
/// # Panics
/// If a file or an item is missing, or the text has another checksum: the build stops there.
pub fn write_items(files: &[(&str, &[&str])], checksum: u64) {
    println!("cargo::rerun-if-env-changed={SOURCE}");
    let source = env::var(SOURCE)
        .unwrap_or_else(|_| panic!("{SOURCE} is not set: the folder that holds xsf/par_cyl.rs"));
    let mut extracted = String::new();
    for (file, names) in files {
        let path = Path::new(&source).join(file);
        println!("cargo::rerun-if-changed={}", path.display());
        let text = fs::read_to_string(&path).unwrap_or_else(|e| panic!("{}: {e}", path.display()));
        for name in *names {
            let item = item(&text, name).unwrap_or_else(|e| panic!("{}: {e}", path.display()));
            extracted.push_str(item);
            extracted.push('\n');
        }
    }
    let found = fnv(&extracted);
    assert!(
        found == checksum,
        "the source's text is not the one compared: its checksum is {found:#018x}, not {checksum:#018x}"
    );
    let out = env::var("OUT_DIR").expect("cargo sets OUT_DIR");
    fs::write(Path::new(&out).join("items.rs"), extracted).expect("OUT_DIR can be written");
}

/// The checksum FNV-1a of 64 bits.
fn fnv(text: &str) -> u64 {
    text.bytes().fold(0xcbf2_9ce4_8422_2325, |hash, byte| {
        (hash ^ u64::from(byte)).wrapping_mul(0x0100_0000_01b3)
    })
}

/// The text of the one function or constant `name`, with the doc comments and attributes above.
///
/// # Errors
/// If there is none, or more than one, or no end to it.
pub fn item<'a>(text: &'a str, name: &str) -> Result<&'a str, String> {
    let lines = lines(text);
    let mut found = (0..lines.len()).filter(|&i| begins(lines[i].1, name));
    let first = found.next().ok_or(format!("no item `{name}`"))?;
    if found.next().is_some() {
        return Err(format!("more than one item `{name}`"));
    }
    let last = last_line(&lines, first).ok_or(format!("no end to the item `{name}`"))?;
    let mut top = first;
    while top > 0 && is_above(lines[top - 1].1) {
        top -= 1;
    }
    let (start, line) = lines[last];
    Ok(&text[lines[top].0..start + line.len()])
}

/// Each line with its place in the text, line end included.
fn lines(text: &str) -> Vec<(usize, &str)> {
    let mut place = 0;
    text.split_inclusive('\n')
        .map(|line| {
            let start = place;
            place += line.len();
            (start, line)
        })
        .collect()
}

/// Whether `line` begins the function or constant `name`.
fn begins(line: &str, name: &str) -> bool {
    let line = line.strip_prefix("pub(crate) ").unwrap_or(line);
    let line = line.strip_prefix("pub ").unwrap_or(line);
    let rest = ["fn ", "const fn ", "const "]
        .iter()
        .find_map(|word| line.strip_prefix(word)?.strip_prefix(name));
    rest.is_some_and(|rest| rest.starts_with(['(', '<', ':']))
}

/// The number of the last line of the item that begins on line `first`.
fn last_line(lines: &[(usize, &str)], first: usize) -> Option<usize> {
    let line = |i: usize| lines[i].1.trim_end();
    if line(first).ends_with([';', '}']) {
        return Some(first);
    }
    (first + 1..lines.len()).find(|&i| matches!(line(i), "}" | "];"))
}

/// Whether a line above an item belongs to it.
fn is_above(line: &str) -> bool {
    line.starts_with("///") || line.starts_with("#[")
}

#[cfg(test)]
mod tests {
    use super::{fnv, item};

    const TEXT: &str = "\
//! A file

use a::b;

const ONE: f64 = 1.0;
/// Two lines
#[rustfmt::skip]
const TABLE: [f64; 2] = [
    1.0,
    2.0,
];

pub(crate) fn f(x: f64) -> f64 {
    if x > ONE {
        return x;
    }
    f_more(x)
}

/// More
pub(crate) const fn f_more(
    x: f64,
) -> f64 {
    x + TABLE[0]
}

fn twice() {}
fn twice() {}
fn open() {
";

    #[test]
    fn the_checksum_is_fnv_1a() {
        assert_eq!(fnv(""), 0xcbf2_9ce4_8422_2325);
        assert_eq!(fnv("a"), 0xaf63_dc4c_8601_ec8c);
        assert_eq!(fnv("foobar"), 0x8594_4171_f739_67e8);
    }

    #[test]
    fn constants_are_taken_whole() {
        assert_eq!(item(TEXT, "ONE"), Ok("const ONE: f64 = 1.0;\n"));
        let table =
            "/// Two lines\n#[rustfmt::skip]\nconst TABLE: [f64; 2] = [\n    1.0,\n    2.0,\n];\n";
        assert_eq!(item(TEXT, "TABLE"), Ok(table));
    }

    #[test]
    fn functions_are_taken_whole() {
        let f = item(TEXT, "f").unwrap();
        assert!(f.starts_with("pub(crate) fn f(x: f64)"));
        assert!(f.ends_with("    f_more(x)\n}\n"));
        let more = item(TEXT, "f_more").unwrap();
        assert!(more.starts_with("/// More\npub(crate) const fn f_more(\n"));
        assert!(more.ends_with("x + TABLE[0]\n}\n"));
    }

    #[test]
    fn a_missing_double_or_open_item_is_refused() {
        assert_eq!(item(TEXT, "g"), Err("no item `g`".to_string()));
        assert_eq!(item(TEXT, "TAB"), Err("no item `TAB`".to_string()));
        assert_eq!(
            item(TEXT, "twice"),
            Err("more than one item `twice`".to_string())
        );
        assert_eq!(
            item(TEXT, "open"),
            Err("no end to the item `open`".to_string())
        );
    }
}
