//! What build.rs writes to the terminal that it was started from.

use std::ffi::{CStr, c_char, c_int};
use std::fs::{File, OpenOptions};
use std::io::{self, Read};
use std::os::fd::AsRawFd;
use std::os::unix::process::CommandExt;
use std::process::Command;

use crate::place::{Place, Ran, ran, writes};

const READ_AND_WRITE: c_int = 2;

unsafe extern "C" {
    safe fn setsid() -> c_int;
    safe fn unlockpt(terminal: c_int) -> c_int;
    fn ptsname_r(terminal: c_int, name: *mut c_char, len: usize) -> c_int;
    fn open(path: *const c_char, flags: c_int, ...) -> c_int;
}

/// Gives the command a terminal of its own. What is written to it can be read from the file.
fn with_terminal(command: &mut Command) -> File {
    let terminal = OpenOptions::new()
        .read(true)
        .write(true)
        .open("/dev/ptmx")
        .unwrap();
    let mut name = [0; 64];
    let number = terminal.as_raw_fd();
    assert_eq!(unlockpt(number), 0);
    // SAFETY: the name has the length that is told.
    assert_eq!(
        unsafe { ptsname_r(number, name.as_mut_ptr(), name.len()) },
        0
    );
    // SAFETY: ptsname_r ended the name with a 0.
    let name = unsafe { CStr::from_ptr(name.as_ptr()) }.to_owned();
    // The first terminal that the first process of a session opens is the one it is started from.
    let start = move || {
        // SAFETY: the name ends with a 0.
        if setsid() < 0 || unsafe { open(name.as_ptr(), READ_AND_WRITE) } < 0 {
            return Err(io::Error::last_os_error());
        }
        Ok(())
    };
    // SAFETY: between fork and exec it only calls the system.
    unsafe { command.pre_exec(start) };
    terminal
}

fn ran_in_terminal(command: &mut Command) -> (Ran, String) {
    let mut terminal = with_terminal(command);
    let ran = ran(command);
    let mut shown = Vec::new();
    // It ends with an error once nobody has the terminal open.
    let _ = terminal.read_to_end(&mut shown);
    (ran, String::from_utf8(shown).unwrap())
}

#[test]
fn lines_take_the_place_of_the_progress_bar() {
    let proves =
        writes("echo 'crate floats: modules loaded=0 checked=59'\necho 'logic=proved functions=0'");
    let place = Place::new("terminal").with_rt(&proves, 0o755);
    let mut command = place.command();
    let (ran, shown) = ran_in_terminal(command.env_remove("CARGO_TERM_QUIET"));
    place.links(&ran);
    assert_eq!(ran.err.lines().count(), 3);
    // The terminal makes a carriage return and a line feed of a line feed.
    let lines = ran.err.lines().map(|line| format!("\r\x1b[K{line}\r\n"));
    assert_eq!(shown, lines.collect::<String>());
}

#[test]
fn nothing_is_shown_if_cargo_is_to_be_quiet() {
    let place = Place::new("quiet_terminal").with_rt(&writes(""), 0o755);
    let mut command = place.command();
    let (ran, shown) = ran_in_terminal(command.env("CARGO_TERM_QUIET", "true"));
    place.links(&ran);
    assert_eq!(ran.err.lines().count(), 2);
    assert_eq!(shown, "");
}
