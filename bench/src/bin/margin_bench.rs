//! Times the proved margin program beside the second implementation on one day, in turn, and prints the ratio.

use bench::arguments::Arguments;
use bench::random::Random;
use bench::sample::{folder, published_file};
use std::fmt::Write as _;
use std::fs::{self, File};
use std::io::{self, BufRead, BufReader};
use std::path::{Path, PathBuf};
use std::process::{Command, ExitCode, Stdio};
use std::time::{Duration, Instant};

const USAGE: &str = "usage: margin_bench [--runs N] [PROGRAM SECOND]
Runs both programs in turn, N times each (10), on a day of 4,096 posts over a parameter file in the published sample's shape,
and prints the best time of each and the ratio. The programs are the repository's crates/margin_call/out/margin_call and
margin_rust unless they are named.";

const POSTS: u32 = 4_096;
const SETTINGS: &str = "Multiplier,1.00\nCredit,5000000\nFloor_Rate,0.0250\nLiquidation,0\nStructured_Product,0\n\
                        Position_Limit,0\nCredit_Risk,0\nAd_Hoc,0\nIPO,1,5\n";

fn main() -> ExitCode {
    match parse().and_then(|job| run(job).map_err(|error| error.to_string())) {
        Ok(()) => ExitCode::SUCCESS,
        Err(message) => {
            eprintln!("margin_bench: {message}");
            ExitCode::FAILURE
        }
    }
}

fn parse() -> Result<(u32, [PathBuf; 2]), String> {
    let all = Arguments::of(std::env::args().skip(1), USAGE, &["--runs"], &[])?;
    let runs = all.value("--runs")?.unwrap_or(10);
    if runs == 0 {
        return Err(USAGE.into());
    }
    Ok((runs, all.programs("margin_call", "margin_rust")?))
}

fn run((runs, programs): (u32, [PathBuf; 2])) -> io::Result<()> {
    let arguments = day()?;
    println!("Each time is of a whole run: starting, reading the file from the page cache, checking it, applying");
    println!("{POSTS} posts, assessing and printing. No buffer or cache is cleared before any run.");
    let mut best = [Duration::MAX; 2];
    for _ in 0..runs {
        let mut outputs = Vec::new();
        for (program, best) in programs.iter().zip(&mut best) {
            let start = Instant::now();
            let run = Command::new(program).args(&arguments).stdin(Stdio::null()).output()?;
            *best = (*best).min(start.elapsed());
            outputs.push((run.stdout, run.status.code()));
        }
        if outputs[0] != outputs[1] {
            return Err(io::Error::other("the programs differ"));
        }
    }
    for (program, time) in programs.iter().zip(best) {
        println!("  {:<60}{:>9.1} ms", program.display().to_string(), time.as_secs_f64() * 1e3);
    }
    println!("ratio of the first to the second: {:.2}", best[0].as_secs_f64() / best[1].as_secs_f64());
    Ok(())
}

/// Writes the files of the day where they are not there yet; answers the arguments that name them.
fn day() -> io::Result<Vec<PathBuf>> {
    let (folder, rpf) = (folder()?, published_file()?);
    let (settings, journal) = (folder.join("settings.csv"), folder.join("journal.csv"));
    fs::write(&settings, SETTINGS)?;
    fs::write(&journal, posts(&rpf)?)?;
    Ok(vec!["--csv".into(), "--rpf".into(), rpf, "--settings".into(), settings, journal])
}

/// Posts over the instruments that the file has rows for.
fn posts(rpf: &Path) -> io::Result<String> {
    let mut instruments = Vec::new();
    for line in BufReader::new(File::open(rpf)?).lines().skip(13) {
        let line = line?;
        let mut cells = line.split(',');
        match (cells.next(), cells.next(), cells.next()) {
            (Some(stock), Some("1" | "3"), _) => instruments.push((0, stock.to_string())),
            (Some(stock), Some("7"), Some(kind)) => instruments.push((kind.parse().unwrap_or(0), stock.to_string())),
            _ => {}
        }
    }
    let mut random = Random::new(1);
    let mut text = String::new();
    for number in 1..=POSTS {
        let (kind, stock) = random.pick(&instruments);
        let value = random.between(-2_000_000, 2_000_000);
        let contract = value + random.between(-5_000, 5_000);
        let _ = writeln!(text, "post,{number},{kind},{stock},{},{contract},{value}", random.between(-1_000, 1_000));
    }
    Ok(text)
}
