//! `hunt`: tries to get two conflicting decisions, or a panel that falls, out of the checker.
//!
//! hunt [--mistake NAME | --none | --all] [--seconds N] [--seed N] [--quiet]
//! Without a choice: every mistake that demand 3 can see, then no mistake at all.

use judge::field::field_text;
use judge::hunt::search::{search, Found, Progress};
use judge::mistake::Mistake;
use judge::options::Options;
use std::process::ExitCode;
use std::time::{Duration, Instant};

fn main() -> ExitCode {
    let options = match Options::read(&["mistake", "seconds", "seed"], &["none", "all", "quiet"]) {
        Ok(options) => options,
        Err(message) => {
            eprintln!("hunt: {message}");
            return ExitCode::FAILURE;
        }
    };
    let Some(hunted) = chosen(&options) else {
        eprintln!("hunt: no such mistake; there are:");
        Mistake::ALL.iter().for_each(|mistake| eprintln!("  {}: {}", mistake.name(), mistake.what()));
        return ExitCode::FAILURE;
    };
    let mut as_expected = true;
    for mistake in hunted {
        as_expected &= hunt(mistake, &options);
    }
    if !options.flag("none") && options.text("mistake").is_none() {
        tell_blind();
    }
    if as_expected {
        ExitCode::SUCCESS
    } else {
        ExitCode::FAILURE
    }
}

/// The mistakes to hunt; `None` among them stands for the rules as they are.
fn chosen(options: &Options) -> Option<Vec<Option<Mistake>>> {
    if let Some(name) = options.text("mistake") {
        return Mistake::named(name).map(|mistake| vec![Some(mistake)]);
    }
    if options.flag("none") {
        return Some(vec![None]);
    }
    let all = Mistake::ALL.iter().copied();
    let mut hunted: Vec<_> = all.filter(|m| options.flag("all") || m.breaks_agreement()).map(Some).collect();
    hunted.push(None);
    Some(hunted)
}

/// Hunts with one mistake; true if what was found is what demand 3 promises.
fn hunt(mistake: Option<Mistake>, options: &Options) -> bool {
    let name = mistake.map_or("none", Mistake::name);
    let seen = mistake.is_some_and(Mistake::breaks_agreement);
    let seconds = options.number("seconds").unwrap_or(if seen { 60 } else { 10 });
    let start = Instant::now();
    let mut told = 0;
    let (found, progress) =
        search(mistake, options.number("seed").unwrap_or(1), Duration::from_secs(seconds), |progress| {
            if start.elapsed().as_secs() > told {
                told = start.elapsed().as_secs();
                eprint!("\r{name}: {told} s, {} attempts, {} calls", progress.attempts, progress.lines);
            }
        });
    if told > 0 {
        eprintln!();
    }
    match &found {
        Some(found) => tell_found(name, found, &progress, options.flag("quiet")),
        None => println!("{name}: nothing in {} attempts, {} calls, {seconds} s", progress.attempts, progress.lines),
    }
    if found.is_some() != seen {
        println!("{name}: NOT AS EXPECTED");
    }
    found.is_some() == seen
}

fn tell_found(name: &str, found: &Found, progress: &Progress, quiet: bool) {
    let (attempts, time) = progress.found.unwrap_or_default();
    println!(
        "{name}: found in {:.3} s ({attempts} attempts); shortest: {:?} by {}, {} lines",
        time.as_secs_f64(),
        found.violation,
        found.order,
        found.trace.len()
    );
    if quiet {
        return;
    }
    for (line, outcome) in &found.trace {
        let answer: String = [outcome.answer, outcome.first, outcome.second].map(field_text).concat();
        println!("{:<56} -> {answer}", line.text());
    }
}

fn tell_blind() {
    println!("\nDemand 3 cannot see these (contracts, scripts and hand-made memory do):");
    for mistake in Mistake::ALL.iter().filter(|mistake| !mistake.breaks_agreement()) {
        println!("  {}: {}", mistake.name(), mistake.blind());
    }
}
