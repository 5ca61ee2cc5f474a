//! Commands run in the house, and C programs compiled there.

use std::ffi::OsStr;
use std::path::{Path, PathBuf};
use std::process::{Command, Output};

/// The kernel's archive, from the house.
pub const ARCHIVE: &str = "target/native/libsumpnewt.a";

pub fn house() -> PathBuf {
    Path::new(env!("CARGO_MANIFEST_DIR")).join("..")
}

/// A file of this test's own.
pub fn scratch(name: &str) -> PathBuf {
    Path::new(env!("CARGO_TARGET_TMPDIR")).join(name)
}

#[track_caller]
pub fn run(program: impl AsRef<OsStr>, arguments: &[&OsStr]) -> Output {
    let mut command = Command::new(program);
    let output = command.current_dir(house()).args(arguments).output();
    output.expect("it starts")
}

/// What a command that succeeds prints.
#[track_caller]
pub fn printed(program: impl AsRef<OsStr>, arguments: &[&OsStr]) -> String {
    let output = run(program, arguments);
    let said = String::from_utf8_lossy(&output.stderr);
    assert!(output.status.success() && said.is_empty(), "{said}");
    String::from_utf8(output.stdout).expect("text")
}

/// A C program over the header, built without a warning.
#[track_caller]
pub fn built(name: &str, standard: &str, parts: &[&OsStr]) -> PathBuf {
    let program = scratch(name);
    let strict = [standard, "-pedantic", "-Wall", "-Wextra", "-Werror"].map(OsStr::new);
    let into = [
        OsStr::new("-Iinclude"),
        OsStr::new("-o"),
        program.as_os_str(),
    ];
    printed("cc", &[&strict[..], &into[..], parts].concat());
    program
}
