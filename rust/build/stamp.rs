//! What a finished library was proved from, as a text that is kept beside it.
//!
//! The digests are those of std's hasher, each part with its length before it. They tell that
//! something was changed; they are no defence against a forger.

use std::fs;
use std::hash::{DefaultHasher, Hash, Hasher};
use std::io;
use std::path::{Path, PathBuf};

/// What `rt` proves the library from.
#[derive(PartialEq)]
pub struct Inputs {
    sources: u64,
    rt: String,
}

impl Inputs {
    /// None where a source cannot be read or `rt` has no identity: then nothing can be told.
    pub fn read(root: &Path, rt: Option<&str>) -> Option<Self> {
        Some(Inputs {
            rt: rt?.to_string(),
            sources: sources(root).ok()?,
        })
    }

    /// The stamp of the library that has these bytes.
    pub fn stamp(&self, library: &[u8]) -> String {
        let mut hasher = DefaultHasher::new();
        library.hash(&mut hasher);
        let (sources, library) = (self.sources, hasher.finish());
        format!(
            "sources {sources:016x}\nlibrary {library:016x}\nrt {}\n",
            self.rt
        )
    }
}

/// A digest of the name and content of crates.txt and of every file in crates, but for what `rt`
/// keeps in the folders `out`.
fn sources(root: &Path) -> io::Result<u64> {
    let mut files = vec![root.join("crates.txt")];
    collect(&root.join("crates"), &mut files)?;
    files.sort();
    let mut hasher = DefaultHasher::new();
    for file in files {
        let name = file.strip_prefix(root).unwrap_or(&file);
        name.as_os_str().hash(&mut hasher);
        fs::read(&file)?.hash(&mut hasher);
    }
    Ok(hasher.finish())
}

fn collect(folder: &Path, files: &mut Vec<PathBuf>) -> io::Result<()> {
    for entry in fs::read_dir(folder)? {
        let entry = entry?;
        if entry.file_type()?.is_dir() {
            if entry.file_name() != "out" {
                collect(&entry.path(), files)?;
            }
        } else {
            files.push(entry.path());
        }
    }
    Ok(())
}
