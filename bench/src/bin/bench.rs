//! Times the proved program beside the second implementation, and looks at the memory of each.

use bench::arguments::Arguments;
use bench::programs::{ask, Answer};
use bench::sample::published_file;
use std::fs::{self, File};
use std::io::{self, Read};
use std::path::{Path, PathBuf};
use std::process::{Command, ExitCode, Stdio};
use std::time::{Duration, Instant};

const USAGE: &str = "usage: bench [--runs N] [--file FILE] [PROGRAM SECOND]
Runs `PROGRAM --csv FILE` and `SECOND --csv FILE` in turn, N times each (10), and prints the best time of each
and the ratio. FILE is one in the published sample's shape unless it is named; the programs are the repository's
crates/check_file/out/check_file and check_rust.";

const TIME_PROGRAM: &str = "/usr/bin/time";
const MIB: f64 = 1_048_576.0;

struct Options {
    runs: u32,
    file: PathBuf,
    programs: [PathBuf; 2],
}

fn main() -> ExitCode {
    let outcome = parse().and_then(|options| run(&options).map_err(|error| error.to_string()));
    match outcome {
        Ok(()) => ExitCode::SUCCESS,
        Err(message) => {
            eprintln!("bench: {message}");
            ExitCode::FAILURE
        }
    }
}

fn parse() -> Result<Options, String> {
    let all = Arguments::of(std::env::args().skip(1), USAGE, &["--runs", "--file"], &[])?;
    let runs = all.value("--runs")?.unwrap_or(10);
    if runs == 0 {
        return Err(USAGE.into());
    }
    let file = all.value("--file")?;
    let programs = all.programs("check_file", "check_rust")?;
    let file = match file {
        Some(file) => file,
        None => published_file().map_err(|error| error.to_string())?,
    };
    Ok(Options { runs, file, programs })
}

fn run(options: &Options) -> io::Result<()> {
    let bytes = read_once(&options.file)?;
    println!("file: {}, {bytes} bytes ({:.1} MiB)", options.file.display(), bytes as f64 / MIB);
    println!("Each time is of a whole run: starting, reading the file from the page cache, checking, printing.");
    println!("The file is read once before the first run; no buffer or cache is cleared before any run.");
    let mut best = [Duration::MAX; 2];
    for _ in 0..options.runs {
        let answers =
            [timed(&options.programs[0], options, &mut best[0])?, timed(&options.programs[1], options, &mut best[1])?];
        if answers[0] != answers[1] {
            return Err(io::Error::other(format!("the programs differ: {answers:?}")));
        }
    }
    println!("best of {} runs each, in turn:", options.runs);
    for (program, time) in options.programs.iter().zip(best) {
        let seconds = time.as_secs_f64();
        println!("  {:<44}{:>9.1} ms{:>9.0} MB/s", name(program), seconds * 1e3, bytes as f64 / 1e6 / seconds);
    }
    println!("ratio of the first to the second: {:.2}", best[0].as_secs_f64() / best[1].as_secs_f64());
    println!(
        "peak memory{}:",
        if Path::new(TIME_PROGRAM).is_file() { "" } else { " (read while it runs, so perhaps too low)" }
    );
    for program in &options.programs {
        let peak = peak_bytes(program, &options.file)?;
        println!(
            "  {:<44}{:>9.1} MiB, {:.2} times the file",
            name(program),
            peak as f64 / MIB,
            peak as f64 / bytes as f64
        );
    }
    Ok(())
}

/// The end of a program's path, which tells the two apart.
fn name(program: &Path) -> String {
    let parts: Vec<_> = program.iter().map(|part| part.to_string_lossy()).collect();
    parts[parts.len().saturating_sub(3)..].join("/")
}

/// Reads the whole file, so that the page cache holds it; answers its length.
fn read_once(path: &Path) -> io::Result<u64> {
    let mut file = File::open(path)?;
    let mut buffer = [0; 1 << 16];
    let mut bytes = 0;
    loop {
        match file.read(&mut buffer)? {
            0 => return Ok(bytes),
            count => bytes += count as u64,
        }
    }
}

/// One run, whose time replaces the best if it is better.
fn timed(program: &Path, options: &Options, best: &mut Duration) -> io::Result<Answer> {
    let start = Instant::now();
    let answer = ask(program, options.file.as_os_str())?;
    *best = (*best).min(start.elapsed());
    Ok(answer)
}

/// The most memory that a run has resident at once.
fn peak_bytes(program: &Path, file: &Path) -> io::Result<u64> {
    let kilobytes =
        if Path::new(TIME_PROGRAM).is_file() { peak_by_time(program, file)? } else { peak_by_proc(program, file)? };
    Ok(kilobytes * 1024)
}

/// Peak in KiB as GNU time tells it.
fn peak_by_time(program: &Path, file: &Path) -> io::Result<u64> {
    let run = Command::new(TIME_PROGRAM).arg("-v").arg(program).arg("--csv").arg(file).stdin(Stdio::null()).output()?;
    number_after(&String::from_utf8_lossy(&run.stderr), "Maximum resident set size (kbytes):")
}

/// Peak in KiB as the kernel shows it while the program runs, asked again and again.
fn peak_by_proc(program: &Path, file: &Path) -> io::Result<u64> {
    let mut child = Command::new(program).arg("--csv").arg(file).stdin(Stdio::null()).stdout(Stdio::null()).spawn()?;
    let status = format!("/proc/{}/status", child.id());
    let mut peak = 0;
    while child.try_wait()?.is_none() {
        let now = fs::read_to_string(&status).and_then(|text| number_after(&text, "VmHWM:"));
        peak = now.unwrap_or(0).max(peak);
    }
    Ok(peak)
}

/// The number that follows a label.
fn number_after(text: &str, label: &str) -> io::Result<u64> {
    let rest = text.split_once(label).map(|(_, rest)| rest);
    let number = rest.and_then(|rest| rest.split_whitespace().next()).and_then(|word| word.parse().ok());
    number.ok_or_else(|| io::Error::other(format!("no line \"{label}\"")))
}
