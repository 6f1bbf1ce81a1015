//! The second implementation of the margin engine as a program, with `margin_call`'s command line. It always prints the
//! lines of `--csv`.

use bench::check::{check, MAX_FILE_BYTES};
use bench::margin::{assess, journal, settings, Account, Call, Refusal, Source};
use bench::number;
use std::fmt::Write as _;
use std::fs::File;
use std::io::{Read, Write};
use std::process::ExitCode;

const MAX_PLACES: u64 = 4_096;

#[derive(Default)]
struct Options {
    csv: bool,
    trace: bool,
    rpf: Option<String>,
    fallback: Option<i64>,
    settings: Option<String>,
    places: Option<u64>,
    holdings: Option<u64>,
    journals: Vec<String>,
}

fn main() -> ExitCode {
    let mut lines = String::new();
    let outcome = parse(std::env::args().skip(1).collect()).and_then(|options| run(&options, &mut lines));
    match outcome {
        Ok(done) => {
            if std::io::stdout().lock().write_all(lines.as_bytes()).is_err() {
                return ExitCode::FAILURE;
            }
            ExitCode::from(u8::from(!done))
        }
        Err(message) => {
            eprintln!("margin_rust: {message}");
            ExitCode::FAILURE
        }
    }
}

fn set<T>(place: &mut Option<T>, value: T, name: &str) -> Result<(), String> {
    match place.replace(value) {
        None => Ok(()),
        Some(_) => Err(format!("{name} is given twice")),
    }
}

fn digits(text: &str) -> Result<u64, String> {
    if text.is_empty() || !text.bytes().all(|byte| byte.is_ascii_digit()) {
        return Err(format!("{text} is no number"));
    }
    Ok(text.bytes().fold(0u64, |n, digit| (n.min(1 << 40)) * 10 + u64::from(digit - b'0')))
}

fn parse(arguments: Vec<String>) -> Result<Options, String> {
    let mut options = Options::default();
    let mut arguments = arguments.into_iter();
    while let Some(argument) = arguments.next() {
        let mut value = || arguments.next().ok_or_else(|| format!("{argument} wants a value"));
        match argument.as_str() {
            "--csv" if !options.csv => options.csv = true,
            "--trace" if !options.trace => options.trace = true,
            "--rpf" => set(&mut options.rpf, value()?, "--rpf")?,
            "--settings" => set(&mut options.settings, value()?, "--settings")?,
            "--places" => set(&mut options.places, digits(&value()?)?, "--places")?,
            "--holdings" => set(&mut options.holdings, digits(&value()?)?, "--holdings")?,
            "--fallback" => {
                let text = value()?;
                let rate = number::decimal(text.as_bytes()).and_then(|rate| rate.scaled(4));
                set(&mut options.fallback, rate.ok_or("the rate is no decimal of four places")?, "--fallback")?
            }
            _ if argument.starts_with('-') => return Err(format!("{argument} is unknown or given twice")),
            _ => options.journals.push(argument),
        }
    }
    if options.rpf.is_some() == options.fallback.is_some() {
        return Err("one of --rpf and --fallback is wanted".into());
    }
    if options.settings.is_none() || options.journals.is_empty() {
        return Err("settings and a journal are wanted".into());
    }
    Ok(options)
}

fn read(path: &str) -> Result<Vec<u8>, String> {
    let fault = |error| format!("{path}: {error}");
    let mut bytes = Vec::new();
    let file = File::open(path).map_err(fault)?;
    file.take(MAX_FILE_BYTES as u64 + 1).read_to_end(&mut bytes).map_err(fault)?;
    Ok(bytes)
}

/// Does the job; answers whether nothing was refused as a whole.
fn run(options: &Options, lines: &mut String) -> Result<bool, String> {
    let path = options.settings.as_deref().unwrap_or("");
    let settings = settings(&read(path)?).map_err(|line| format!("{path}: line {line}"))?;
    let mut journals = Vec::new();
    for path in &options.journals {
        journals.push(journal(&read(path)?).map_err(|line| format!("{path}: line {line}"))?);
    }
    let source = match (&options.rpf, options.fallback) {
        (Some(path), _) => match check(&read(path)?) {
            Ok(file) => Source::File(Box::new(file)),
            Err(fault) => return refused(lines, format_args!("{},{}", fault.question.number(), fault.line)),
        },
        (None, Some(rate)) if (600..=10_000).contains(&rate) => Source::Fallback(rate as u32),
        _ => return refused(lines, format_args!("9")),
    };
    let places = options.places.unwrap_or(MAX_PLACES);
    if !(1..=MAX_PLACES).contains(&places) {
        return refused(lines, format_args!("11"));
    }
    if !settings.in_range() {
        return refused(lines, format_args!("12"));
    }
    let mut account = Account::with_places(places as usize);
    for (journal, calls) in journals.iter().enumerate() {
        for (line, call) in calls.iter().enumerate() {
            let answer = match *call {
                Call::Post(cells) => account.post(cells),
                Call::Cancel(number) => account.cancel(number),
            };
            if options.trace {
                let (journal, line) = (journal + 1, line + 1);
                let _ = match answer {
                    Ok(count) => writeln!(lines, "answer,{journal},{line},ok,{count}"),
                    Err(question) => writeln!(lines, "answer,{journal},{line},refused,{question}"),
                };
            }
        }
    }
    match assess(&account, &settings, &source, options.holdings.unwrap_or(10) as usize) {
        Ok(assessment) => {
            for (name, amount) in assessment.figures {
                let _ = writeln!(lines, "{name},{amount}");
            }
            for (kind, stock, value) in assessment.holdings {
                let _ = writeln!(lines, "holding,{kind},{stock},{value}");
            }
            Ok(true)
        }
        Err(Refusal::TooManyHoldings) => refused(lines, format_args!("30")),
        Err(Refusal::Uncovered { kind, stock }) => refused(lines, format_args!("31,{kind},{stock}")),
        Err(Refusal::Gross) => refused(lines, format_args!("32")),
        Err(Refusal::Margin) => refused(lines, format_args!("33")),
    }
}

fn refused(lines: &mut String, what: std::fmt::Arguments) -> Result<bool, String> {
    let _ = writeln!(lines, "refused,{what}");
    Ok(false)
}
