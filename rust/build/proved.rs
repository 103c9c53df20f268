//! The library that `rt` proves in the repository.

use std::fs;
use std::path::Path;

use crate::lock::Lock;
use crate::stamp::Inputs;
use crate::{Library, WHAT_TO_DO, contents, rt};

/// The library of the sources as they are: the one in `out` if it was finished from just these by
/// the same `rt`, or else a new one. It is read before another build may write it.
pub fn library(root: &Path) -> Result<Library, String> {
    let lock = Lock::take(&root.join("crates"))?;
    let path = root.join("crates/gozhnerim/out/libgozhnerim.a");
    let bytes = finished_or_new(root, &path, &lock)?;
    Ok(Library {
        path,
        bytes,
        if_other_version: "The folders crates and rust belong to different versions of the \
            repository: check out both from one version.",
    })
}

fn finished_or_new(root: &Path, path: &Path, lock: &Lock) -> Result<Vec<u8>, String> {
    let stamp = path.with_extension("stamp");
    let version = rt::version(root)?;
    let inputs = Inputs::read(root, version.as_deref());
    if let Some(bytes) = inputs
        .as_ref()
        .and_then(|inputs| finished(inputs, path, &stamp))
    {
        return Ok(bytes);
    }
    rt::library(root, lock)?;
    if !path.is_file() {
        let shown = path.display();
        return Err(format!(
            "`rt lib` ended well in crates/gozhnerim but wrote no {shown}. {WHAT_TO_DO}"
        ));
    }
    let bytes = contents(path)?;
    let Some(inputs) = inputs else {
        return Ok(bytes);
    };
    if Inputs::read(root, version.as_deref()).as_ref() == Some(&inputs) {
        // Without a stamp the next build runs `rt` again, and that is all.
        let _ = fs::write(stamp, inputs.stamp(&bytes));
    } else {
        println!(
            "cargo::warning=The sources were changed while they were proved, so the library may \
             be of the ones before; build again."
        );
    }
    Ok(bytes)
}

/// The library in `out`, if its stamp is that of these inputs.
fn finished(inputs: &Inputs, path: &Path, stamp: &Path) -> Option<Vec<u8>> {
    let bytes = fs::read(path).ok()?;
    (fs::read_to_string(stamp).ok()? == inputs.stamp(&bytes)).then_some(bytes)
}
