//! `bench`: yard against second on the same scripts, as Markdown tables and a plot.
//!
//! bench [--yard PATH] [--second PATH] [--text PATH] [--svg PLOT] [--page PAGE]
//!       [--runs N] [--lines N] [--text-lines N] [--calls N] [--seed N]
//! Run in compare/. Without paths: ../target/bin/yard, the programs beside this one, ../docs/benchmark.svg, and no page.

use judge::benchmark::form_test::LAST_HEIGHT;
use judge::benchmark::inputs::LONG_LINE;
use judge::benchmark::machine;
use judge::benchmark::netting::most_steps;
use judge::benchmark::plot::svg;
use judge::benchmark::tables::{fit, Bench};
use judge::comparison::checkers::Checker;
use judge::memory::{MAX_F, MAX_MOVEMENTS, MAX_REPLICAS, MAX_WAITING, WAITING_WORDS};
use judge::options::Options;
use judge::script::{BLOCK_SLOTS, CERTIFICATE_SLOTS};
use judge::tell::words::thousands;
use std::process::ExitCode;

fn main() -> ExitCode {
    let known = ["yard", "second", "text", "svg", "page", "runs", "lines", "text-lines", "calls", "seed"];
    match Options::read(&known, &[]).and_then(|options| work(&options)) {
        Ok(()) => ExitCode::SUCCESS,
        Err(message) => {
            eprintln!("bench: {message}");
            ExitCode::FAILURE
        }
    }
}

fn work(options: &Options) -> Result<(), String> {
    let (second, text) = (beside("second")?, beside("text")?);
    let number = |name: &str, or: u64| options.number(name).unwrap_or(or);
    let bench = Bench {
        yard: options.text("yard").unwrap_or("../target/bin/yard"),
        second: options.text("second").unwrap_or(&second),
        text: options.text("text").unwrap_or(&text),
        seed: number("seed", 1),
        lines: number("lines", 100_000) as usize,
        text_lines: number("text-lines", 1_000_000) as usize,
        calls: number("calls", 20_000) as usize,
        runs: number("runs", 9),
    };
    let (ratios, text) = bench.ratios()?;
    let (growth, series) = bench.growth()?;
    let (netting, steps) = bench.netting(firmware())?;
    let measured = [
        ("machine", machine::description()),
        ("ratios", ratios),
        ("text", text),
        ("growth", growth),
        ("fit", fit(&series)),
        ("form", bench.form(firmware())?),
        ("search", bench.search(firmware())?),
        ("panel", bench.panel(firmware())?),
        ("netting", netting),
        ("steps", steps),
        ("waiting", bench.waiting(firmware())?),
    ];
    measured.iter().for_each(|(_, part)| println!("{}\n", part.trim_end()));
    write(options.text("svg").unwrap_or("../docs/benchmark.svg"), &svg(&series))?;
    match options.text("page") {
        Some(path) => write(path, &page(&[&measured[..], &sizes(&bench)].concat())),
        None => Ok(()),
    }
}

/// What the page says of how much was run.
fn sizes(bench: &Bench) -> [(&'static str, String); 14] {
    let (most_steps, steps_of_walks) = most_steps();
    [
        ("runs", bench.runs.to_string()),
        ("calls", thousands(bench.calls)),
        ("netting calls", thousands(bench.netting_calls())),
        ("most steps", thousands(most_steps)),
        ("steps of walks", thousands(steps_of_walks)),
        ("f", MAX_F.to_string()),
        ("replicas", MAX_REPLICAS.to_string()),
        ("certificates", thousands(CERTIFICATE_SLOTS)),
        ("blocks", thousands(BLOCK_SLOTS)),
        ("long", thousands(LONG_LINE)),
        ("most waiting", thousands(MAX_WAITING)),
        ("waiting words", thousands(WAITING_WORDS)),
        ("most movements", thousands(MAX_MOVEMENTS)),
        ("last height", thousands(LAST_HEIGHT as usize)),
    ]
}

/// The page with its parts in their places.
fn page(parts: &[(&str, String)]) -> String {
    let page = include_str!("../benchmark/page.md").to_string();
    parts.iter().fold(page, |page, (name, part)| page.replace(&format!("{{{name}}}"), part.trim_end()))
}

fn write(path: &str, text: &str) -> Result<(), String> {
    std::fs::write(path, text).map_err(|error| format!("{path}: {error}"))
}

/// A program in this one's directory.
fn beside(name: &str) -> Result<String, String> {
    let own = std::env::current_exe().map_err(|error| error.to_string())?;
    Ok(own.with_file_name(name).display().to_string())
}

#[cfg(feature = "firmware")]
fn firmware() -> Option<&'static dyn Checker> {
    Some(&judge::comparison::firmware::Firmware)
}

#[cfg(not(feature = "firmware"))]
fn firmware() -> Option<&'static dyn Checker> {
    None
}
