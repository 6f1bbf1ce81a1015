//! The second implementation as a program, with `check_file`'s command line.

use bench::check::{check, MAX_FILE_BYTES};
use bench::report;
use std::ffi::{OsStr, OsString};
use std::fs::File;
use std::io::{self, Read, Write};
use std::process::ExitCode;

const USAGE: &str = "usage: check_rust [--csv] FILE";
const HELP: &str = "usage: check_rust [--csv] FILE

Asks the eight questions of a parameter file (RPF01) and prints what it holds, or the first
question answered no and its line. With --csv it prints lines for scripts.
The exit status is 0 where the file passes, otherwise 1.

example: check_rust --csv samples/rpf01.csv
";

struct Options {
    csv: bool,
    file: OsString,
}

fn main() -> ExitCode {
    match run(std::env::args_os().skip(1).collect()) {
        Ok(passed) => ExitCode::from(u8::from(!passed)),
        Err(message) => {
            eprintln!("check_rust: {message}");
            ExitCode::FAILURE
        }
    }
}

/// Does the job; answers whether the file passes.
fn run(arguments: Vec<OsString>) -> Result<bool, String> {
    if arguments.len() == 1 && arguments[0] == "--help" {
        return print(HELP).map(|()| true);
    }
    let options = parse(arguments)?;
    let bytes = read(&options.file).map_err(|error| format!("{}: {error}", options.file.to_string_lossy()))?;
    let verdict = check(&bytes);
    print(&if options.csv { report::csv(&verdict) } else { report::text(&verdict) })?;
    Ok(verdict.is_ok())
}

fn parse(arguments: Vec<OsString>) -> Result<Options, String> {
    let mut csv = false;
    let mut file = None;
    for argument in arguments {
        if argument == "--csv" {
            if csv {
                return Err(format!("--csv is given twice\n{USAGE}"));
            }
            csv = true;
        } else if is_option(&argument) {
            return Err(format!("unknown option {}\n{USAGE}", argument.to_string_lossy()));
        } else if file.replace(argument).is_some() {
            return Err(format!("more than one file\n{USAGE}"));
        }
    }
    match file {
        Some(file) => Ok(Options { csv, file }),
        None => Err(format!("no file\n{USAGE}")),
    }
}

fn is_option(argument: &OsStr) -> bool {
    argument.as_encoded_bytes().starts_with(b"-")
}

/// The file's bytes, and of a file that is too long just one more than it may have.
fn read(path: &OsStr) -> io::Result<Vec<u8>> {
    let file = File::open(path)?;
    let most = MAX_FILE_BYTES as u64 + 1;
    let mut bytes = Vec::with_capacity(file.metadata()?.len().min(most) as usize);
    file.take(most).read_to_end(&mut bytes)?;
    Ok(bytes)
}

fn print(text: &str) -> Result<(), String> {
    let mut out = io::stdout().lock();
    out.write_all(text.as_bytes()).and_then(|()| out.flush()).map_err(|error| error.to_string())
}
