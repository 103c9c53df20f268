//! A place in which build.rs is run.

use std::env;
use std::ffi::OsStr;
use std::fs;
use std::os::unix::fs::PermissionsExt;
use std::path::PathBuf;
use std::process::{Command, Output};
use std::sync::{Mutex, MutexGuard, PoisonError};

/// A script must not be run while another test starts a program: the system may take it for busy.
static ONE_AT_A_TIME: Mutex<()> = Mutex::new(());

pub const PACKAGE_VERSION: &str = env!("CARGO_PKG_VERSION");
pub const FAILS: &str = "#!/bin/sh\necho 'not proved: tables'\necho 'see above' >&2\nexit 3\n";
/// What cargo tells build.rs about the compiler, as build.rs was told when this package was built.
const COMPILER: [(&str, Option<&str>); 5] = [
    ("RUSTC", option_env!("GOZHNERIM_BUILD_RUSTC")),
    ("RUSTC_LINKER", option_env!("GOZHNERIM_BUILD_RUSTC_LINKER")),
    (
        "CARGO_ENCODED_RUSTFLAGS",
        option_env!("GOZHNERIM_BUILD_CARGO_ENCODED_RUSTFLAGS"),
    ),
    ("HOST", option_env!("GOZHNERIM_BUILD_HOST")),
    ("TARGET", option_env!("GOZHNERIM_BUILD_TARGET")),
];
/// What the compiler may need besides.
const KEPT: [&str; 4] = ["HOME", "RUSTUP_HOME", "RUSTUP_TOOLCHAIN", "TMPDIR"];

/// A stand-in for `rt` that counts its runs in the file `runs`, does what is given, and writes the
/// library that stands ready.
pub fn writes(acts: &str) -> String {
    format!(
        "#!/bin/sh\n\
         if [ \"$*\" = version ]; then echo 'stand-in 1'; exit; fi\n\
         [ \"$*\" = lib ] || exit 9\n\
         cd ../..\n\
         echo run >> runs\n\
         {acts}\n\
         mkdir -p crates/gozhnerim/out && cp ready.a crates/gozhnerim/out/libgozhnerim.a\n"
    )
}

/// C code with the version function of the package's version.
pub fn right_version() -> String {
    let parts: Vec<u32> = PACKAGE_VERSION
        .split('.')
        .map(|part| part.parse().unwrap())
        .collect();
    version_function(10_000 * parts[0] + 100 * parts[1] + parts[2])
}

pub fn version_function(number: u32) -> String {
    format!("unsigned int gozhnerim_version(void) {{ return {number}u; }}\n")
}

/// A repository with the package's folder, a folder for commands and one for what is built. The
/// library `ready.a` has the package's version.
pub struct Place {
    pub root: PathBuf,
    _alone: MutexGuard<'static, ()>,
}

pub struct Ran {
    pub ended_well: bool,
    pub out: String,
    pub err: String,
}

impl Place {
    pub fn new(name: &str) -> Self {
        let alone = ONE_AT_A_TIME.lock().unwrap_or_else(PoisonError::into_inner);
        let root = PathBuf::from(env!("CARGO_TARGET_TMPDIR")).join(name);
        let _ = fs::remove_dir_all(&root);
        for folder in ["crates/gozhnerim/src", "rust", "commands", "out"] {
            fs::create_dir_all(root.join(folder)).unwrap();
        }
        fs::write(root.join("crates.txt"), "gozhnerim:\n").unwrap();
        fs::write(root.join("crates/gozhnerim/src/code"), "code\n").unwrap();
        let place = Place {
            root,
            _alone: alone,
        };
        place.library("ready.a", &right_version());
        place
    }

    pub fn with_rt(self, script: &str, mode: u32) -> Self {
        self.set_rt(script, mode);
        self
    }

    pub fn set_rt(&self, script: &str, mode: u32) {
        let path = self.root.join("commands/rt");
        fs::write(&path, script).unwrap();
        fs::set_permissions(&path, fs::Permissions::from_mode(mode)).unwrap();
    }

    /// A static library of the C code.
    pub fn library(&self, name: &str, code: &str) -> PathBuf {
        let [source, object, library] = ["code.c", "code.o", name].map(|name| self.root.join(name));
        fs::write(&source, code).unwrap();
        let _ = fs::remove_file(&library);
        succeed(
            Command::new("cc")
                .arg("-c")
                .arg(&source)
                .arg("-o")
                .arg(&object),
        );
        succeed(Command::new("ar").arg("crs").arg(&library).arg(&object));
        library
    }

    /// build.rs as cargo runs it, with what is built in the folder `out`.
    pub fn command(&self) -> Command {
        let path = env::var_os("PATH").unwrap_or_default();
        let commands = self.root.join("commands");
        let mut folders = vec![commands];
        folders.extend(env::split_paths(&path));
        let mut command = Command::new(env!("GOZHNERIM_BUILD_SCRIPT"));
        command
            .current_dir(self.root.join("rust"))
            .env_clear()
            .envs(
                KEPT.iter()
                    .filter_map(|name| Some((name, env::var_os(name)?))),
            )
            .envs(
                COMPILER
                    .iter()
                    .filter_map(|(name, value)| Some((name, (*value)?))),
            )
            .env("PATH", env::join_paths(folders).unwrap())
            .env("CARGO_TERM_QUIET", "true")
            .env("OUT_DIR", self.root.join("out"))
            .env("CARGO_MANIFEST_DIR", self.root.join("rust"))
            .env("CARGO_CFG_TARGET_ARCH", "x86_64")
            .env("CARGO_CFG_TARGET_OS", "linux");
        command
    }

    pub fn built(&self) -> Ran {
        ran(&mut self.command())
    }

    pub fn given(&self, library: impl AsRef<OsStr>) -> Ran {
        ran(self.command().env("GOZHNERIM_LIBRARY", library))
    }

    /// It ended well, with a copy of the library `ready.a` linked from the folder `out`.
    pub fn links(&self, ran: &Ran) {
        self.links_from(ran, "out");
    }

    pub fn links_from(&self, ran: &Ran, folder: &str) {
        assert!(ran.ended_well, "{}{}", ran.out, ran.err);
        let folder = self.root.join(folder);
        let search = format!("cargo::rustc-link-search=native={}\n", folder.display());
        let lines = [
            "cargo::rerun-if-env-changed=GOZHNERIM_LIBRARY\n",
            "cargo::rustc-link-lib=static=gozhnerim\n",
            &search,
        ];
        for line in lines {
            assert!(ran.out.contains(line), "{line:?} is not in {:?}", ran.out);
        }
        assert!(fs::read(folder.join("libgozhnerim.a")).unwrap() == self.read("ready.a"));
    }

    pub fn read(&self, name: &str) -> Vec<u8> {
        fs::read(self.root.join(name)).unwrap()
    }

    pub fn write(&self, name: &str, text: &str) {
        fs::write(self.root.join(name), text).unwrap();
    }

    /// How often `rt` was run to write the library.
    pub fn runs(&self) -> usize {
        fs::read_to_string(self.root.join("runs")).map_or(0, |runs| runs.lines().count())
    }
}

impl Drop for Place {
    /// A stand-in for `rt` that still waits after a failed test goes on, and ends. What makes the
    /// place a repository of crates goes: `rt` asks for one at the top of a checkout alone.
    fn drop(&mut self) {
        let _ = fs::write(self.root.join("go"), "");
        let _ = fs::remove_file(self.root.join("crates.txt"));
        let _ = fs::remove_dir_all(self.root.join("crates"));
    }
}

fn succeed(command: &mut Command) {
    let output = command.output().unwrap();
    let said = String::from_utf8_lossy(&output.stderr);
    assert!(output.status.success(), "{command:?}: {said}");
}

pub fn ran(command: &mut Command) -> Ran {
    Ran::from(command.output().unwrap())
}

impl From<Output> for Ran {
    fn from(output: Output) -> Self {
        Ran {
            ended_well: output.status.success(),
            out: String::from_utf8(output.stdout).unwrap(),
            err: String::from_utf8(output.stderr).unwrap(),
        }
    }
}

/// It failed with a message that has these words, and not by a panic.
pub fn says(ran: &Ran, words: &[&str]) {
    assert!(!ran.ended_well);
    assert!(ran.err.starts_with("gozhnerim: ") && !ran.err.contains("panicked"));
    assert!(!ran.out.contains("rustc-link-lib"));
    for word in words {
        assert!(ran.err.contains(word), "{word:?} is not in {:?}", ran.err);
    }
}
