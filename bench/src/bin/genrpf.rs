//! Writes a parameter file in the published sample's shape.

use bench::sample::{self, Shape, MAX_PORTFOLIO_STOCKS};
use std::fs::File;
use std::io::{self, BufWriter, Write};
use std::process::ExitCode;

const USAGE: &str = "usage: genrpf [SEED [STOCKS [HIST [STRESS [OUT]]]]]
Writes a parameter file of STOCKS portfolio stocks with HIST historical and STRESS stress returns each,
from SEED. The defaults are 1, 2500, 1000 and 1018; without OUT the file goes to standard output.";

fn main() -> ExitCode {
    match run(std::env::args().skip(1).collect()) {
        Ok(()) => ExitCode::SUCCESS,
        Err(message) => {
            eprintln!("genrpf: {message}");
            ExitCode::FAILURE
        }
    }
}

fn run(arguments: Vec<String>) -> Result<(), String> {
    if arguments.len() > 5 || arguments.iter().any(|argument| argument.starts_with('-')) {
        return Err(USAGE.into());
    }
    let number = |place: usize, default: usize| match arguments.get(place) {
        Some(text) => text.parse::<usize>().map_err(|_| format!("{text} is no number\n{USAGE}")),
        None => Ok(default),
    };
    let published = Shape::PUBLISHED;
    let shape = Shape {
        seed: number(0, published.seed as usize)? as u64,
        portfolio_stocks: number(1, published.portfolio_stocks)?,
        hvar_scenarios: number(2, published.hvar_scenarios)?,
        svar_scenarios: number(3, published.svar_scenarios)?,
    };
    if shape.portfolio_stocks > MAX_PORTFOLIO_STOCKS {
        return Err(format!("at most {MAX_PORTFOLIO_STOCKS} stocks"));
    }
    let written = match arguments.get(4) {
        Some(path) => File::create(path).and_then(|file| write_all(shape, file)),
        None => write_all(shape, io::stdout().lock()),
    };
    written.map_err(|error| error.to_string())
}

fn write_all(shape: Shape, out: impl Write) -> io::Result<()> {
    let mut out = BufWriter::with_capacity(1 << 16, out);
    sample::write(shape, &mut out)?;
    out.flush()
}
