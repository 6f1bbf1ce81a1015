//! Where the programs to be compared stand, and what one run of them answers.

use std::ffi::OsStr;
use std::io;
use std::path::{Path, PathBuf};
use std::process::{Command, Stdio};

/// The proved program of a crate, where `rt run` leaves it, and the second implementation, which cargo leaves beside the running
/// program.
pub fn usual(proved: &str, second: &str) -> io::Result<[PathBuf; 2]> {
    let crates = Path::new(env!("CARGO_MANIFEST_DIR")).join("../crates");
    Ok([crates.join(proved).join("out").join(proved), std::env::current_exe()?.with_file_name(second)])
}

/// What a run wrote to standard output, and its exit status where it ended by itself.
#[derive(Debug, PartialEq, Eq)]
pub struct Answer {
    pub output: String,
    pub status: Option<i32>,
}

/// Runs `program --csv file`.
pub fn ask(program: &Path, file: &OsStr) -> io::Result<Answer> {
    let run = Command::new(program).arg("--csv").arg(file).stdin(Stdio::null()).stderr(Stdio::null()).output()?;
    Ok(Answer { output: String::from_utf8_lossy(&run.stdout).into_owned(), status: run.status.code() })
}
