//! One build at a time has the repository's target folder.

use std::fs::{File, TryLockError};
use std::io;
use std::path::Path;
use std::process::Stdio;

use crate::WHAT_TO_DO;
use crate::progress::say;

/// A lock on a folder, which the system takes back when the last process that has it ends.
///
/// It is on the folder of the sources, as nothing replaces that: target may be removed at any time,
/// and an editor may write crates.txt anew.
pub struct Lock(File);

impl Lock {
    /// Waits until no other build has the lock.
    pub fn take(folder: &Path) -> Result<Self, String> {
        let failed = |error| {
            let shown = folder.display();
            format!("{shown} cannot be locked against other builds: {error}. {WHAT_TO_DO}")
        };
        let file = File::open(folder).map_err(failed)?;
        match file.try_lock() {
            Ok(()) => {}
            Err(TryLockError::WouldBlock) => {
                say("waiting for another build that has the library of this repository in hand");
                file.lock().map_err(failed)?;
            }
            Err(TryLockError::Error(error)) => return Err(failed(error)),
        }
        Ok(Lock(file))
    }

    /// A standard input for a command that has the lock as long as it runs, even if this program is
    /// killed meanwhile. There is nothing to read in it.
    pub fn as_input(&self) -> io::Result<Stdio> {
        self.0.try_clone().map(Stdio::from)
    }
}
