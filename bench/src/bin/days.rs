//! Runs two margin programs on many random days and prints every difference.

use bench::arguments::Arguments;
use bench::days::{random_day, Day};
use std::collections::BTreeMap;
use std::fs;
use std::io;
use std::path::{Path, PathBuf};
use std::process::{Command, ExitCode, Stdio};

const USAGE: &str = "usage: days [--cases N] [--seed S] [PROGRAM SECOND]
Runs both programs on N random days (1000) from seed S (1) and compares standard output and exit status. The programs
are the repository's crates/margin_call/out/margin_call and margin_rust unless they are named.";

fn main() -> ExitCode {
    match parse().and_then(|job| run(&job).map_err(|error| error.to_string())) {
        Ok(0) => ExitCode::SUCCESS,
        Ok(_) => ExitCode::FAILURE,
        Err(message) => {
            eprintln!("days: {message}");
            ExitCode::FAILURE
        }
    }
}

struct Job {
    cases: u64,
    seed: u64,
    programs: [PathBuf; 2],
}

fn parse() -> Result<Job, String> {
    let all = Arguments::of(std::env::args().skip(1), USAGE, &["--cases", "--seed"], &[])?;
    let (cases, seed) = (all.value("--cases")?.unwrap_or(1_000), all.value("--seed")?.unwrap_or(1));
    Ok(Job { cases, seed, programs: all.programs("margin_call", "margin_rust")? })
}

/// Runs every day; answers the number of differences.
fn run(job: &Job) -> io::Result<u64> {
    let folder = std::env::temp_dir().join(format!("days-{}", std::process::id()));
    fs::create_dir_all(&folder)?;
    let (mut tally, mut differences) = (BTreeMap::<String, u64>::new(), 0);
    for number in 0..job.cases {
        let day = random_day(job.seed, number);
        let arguments = written(&day, &folder, number)?;
        let answers = [ask(&job.programs[0], &arguments)?, ask(&job.programs[1], &arguments)?];
        *tally.entry(kind(&answers[1])).or_default() += 1;
        if answers[0] != answers[1] {
            differences += 1;
            println!("day {number}: {}", arguments.join(" "));
            for (program, answer) in job.programs.iter().zip(&answers) {
                println!("  {}: status {:?}, {:?}", program.display(), answer.1, answer.0);
            }
        }
    }
    for (kind, count) in &tally {
        println!("{kind:<16}{count:>8}");
    }
    println!("{} days, {differences} differences", job.cases);
    if differences == 0 {
        fs::remove_dir_all(&folder)?;
    }
    Ok(differences)
}

/// Writes the day's files; answers the arguments that name them.
fn written(day: &Day, folder: &Path, number: u64) -> io::Result<Vec<String>> {
    let mut arguments = day.options.clone();
    let write = |name: String, text: &str| -> io::Result<String> {
        let path = folder.join(name);
        fs::write(&path, text)?;
        Ok(path.to_string_lossy().into_owned())
    };
    if !day.options.iter().any(|option| option == "--fallback") {
        arguments.extend(["--rpf".into(), write(format!("{number}-rpf.csv"), &day.rpf)?]);
    }
    arguments.extend(["--settings".into(), write(format!("{number}-settings.csv"), &day.settings)?]);
    for (place, journal) in day.journals.iter().enumerate() {
        arguments.push(write(format!("{number}-journal-{place}.csv"), journal)?);
    }
    Ok(arguments)
}

type Answer = (String, Option<i32>);

fn ask(program: &Path, arguments: &[String]) -> io::Result<Answer> {
    let run = Command::new(program).args(arguments).stdin(Stdio::null()).stderr(Stdio::null()).output()?;
    Ok((String::from_utf8_lossy(&run.stdout).into_owned(), run.status.code()))
}

/// What days are counted by: that they are assessed, or the question.
fn kind((output, status): &Answer) -> String {
    match output.lines().last() {
        Some(line) if line.starts_with("refused,") => line.split(',').take(2).collect::<Vec<_>>().join(","),
        _ if *status == Some(0) => "assessed".into(),
        _ => "not done".into(),
    }
}
