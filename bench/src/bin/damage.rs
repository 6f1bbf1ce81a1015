//! Asks two programs about many small files, valid and damaged, and prints every difference.

use bench::arguments::Arguments;
use bench::cases::{edges, random_case, Case};
use bench::check::Fault;
use bench::programs::{ask, Answer};
use std::collections::BTreeMap;
use std::fs;
use std::io;
use std::path::{Path, PathBuf};
use std::process::ExitCode;

const USAGE: &str = "usage: damage [--cases N] [--seed S] [--no-edges] [PROGRAM SECOND]
Runs `PROGRAM --csv FILE` and `SECOND --csv FILE` on the edge cases and on N random ones (2000) from seed S (1)
and compares standard output and exit status. The programs are the repository's crates/check_file/out/check_file and
check_rust unless they are named.";

struct Options {
    cases: u64,
    seed: u64,
    edges: bool,
    programs: [PathBuf; 2],
}

/// What has been seen so far.
#[derive(Default)]
struct Tally {
    by_answer: BTreeMap<String, u64>,
    cases: u64,
    differences: u64,
}

fn main() -> ExitCode {
    let outcome = parse().and_then(|options| run(&options).map_err(|error| error.to_string()));
    match outcome {
        Ok(0) => ExitCode::SUCCESS,
        Ok(_) => ExitCode::FAILURE,
        Err(message) => {
            eprintln!("damage: {message}");
            ExitCode::FAILURE
        }
    }
}

fn parse() -> Result<Options, String> {
    let all = Arguments::of(std::env::args().skip(1), USAGE, &["--cases", "--seed"], &["--no-edges"])?;
    let (cases, seed) = (all.value("--cases")?.unwrap_or(2_000), all.value("--seed")?.unwrap_or(1));
    Ok(Options { cases, seed, edges: !all.has("--no-edges"), programs: all.programs("check_file", "check_rust")? })
}

/// Runs every case; answers the number of differences.
fn run(options: &Options) -> io::Result<u64> {
    let folder = std::env::temp_dir().join(format!("damage-{}", std::process::id()));
    fs::create_dir_all(&folder)?;
    let mut tally = Tally::default();
    if options.edges {
        for case in edges() {
            try_case(options, &folder, &case, &mut tally)?;
        }
    }
    for number in 0..options.cases {
        try_case(options, &folder, &random_case(options.seed, number), &mut tally)?;
    }
    for (answer, count) in &tally.by_answer {
        println!("{answer:<12}{count:>8}");
    }
    println!("{} cases, {} differences", tally.cases, tally.differences);
    if tally.differences == 0 {
        fs::remove_dir_all(&folder)?;
    } else {
        println!("the files that differ are in {}", folder.display());
    }
    Ok(tally.differences)
}

fn try_case(options: &Options, folder: &Path, case: &Case, tally: &mut Tally) -> io::Result<()> {
    tally.cases += 1;
    let path = folder.join(format!("case-{}.csv", tally.cases));
    fs::write(&path, &case.bytes)?;
    let [first, second] = [ask(&options.programs[0], path.as_os_str())?, ask(&options.programs[1], path.as_os_str())?];
    *tally.by_answer.entry(heading(&second)).or_default() += 1;
    if first == second && is_as_made(case, &second) {
        return fs::remove_file(&path);
    }
    tally.differences += 1;
    println!("{}: {}", path.display(), case.name);
    for (program, answer) in options.programs.iter().zip([&first, &second]) {
        println!("  {}: {:?}, status {:?}", program.display(), answer.output, answer.status);
    }
    if let Some(expected) = case.expected {
        println!("  as the case was made: {expected:?}");
    }
    Ok(())
}

/// The line that cases are counted by: that it passes, or the question.
fn heading(answer: &Answer) -> String {
    let first_line = answer.output.lines().next().unwrap_or("");
    match first_line.rsplit_once(',') {
        Some((question, _)) => question.into(),
        None => first_line.into(),
    }
}

/// Is the answer the one that the way the case was made leads to?
fn is_as_made(case: &Case, answer: &Answer) -> bool {
    match case.expected {
        None => true,
        Some(Ok(())) => answer.status == Some(0) && answer.output.starts_with("checked\n"),
        Some(Err(Fault { question, line })) => {
            answer.status == Some(1) && answer.output == format!("refused,{},{line}\n", question.number())
        }
    }
}
