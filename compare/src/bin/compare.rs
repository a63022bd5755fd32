//! `compare`: two programs on generated scripts, the firmware and the library on random memories, nettings and histories of
//! waiting movements, the firmware and Rust's own formatting on numbers.
//!
//! compare --yard PATH --second PATH [--scenarios DIR] [--seconds N | --scripts N] [--seed N]   scripts, byte for byte
//! compare --yard PATH --tell PATH [the same]    the numbers that tell tells, in yard's columns, beside yard's output
//!         --once-across-cuts                    without those that ask for a certificate again after its signer's cut
//! compare --memories [--seconds N] [--seed N]   memories: the firmware (feature `firmware`), else the library itself
//! compare --nettings [--seconds N] [--seed N]   lists of movements on memories, the same two
//! compare --waitings [--seconds N] [--seed N]   histories of waiting movements, the same two
//! compare --ways [--mistake NAME] [--seconds N] [--seed N]   the way on from random pasts, by the firmware, else by the library
//! compare --numbers                             every number from 0 to 99,999,999 and some thousands above, written and read again
//! compare --number-edges                        the same of the numbers near the edges of the eight ranges
//! compare --self [--mistake NAME] [--seconds N] [--seed N]   the library, with a mistake if one is named, and itself
//! compare --mistakes [--named START] [--seed N] which mistakes the generators tell apart, and by what
//! compare --coverage [--seed N]                 what the generators reach, and how often
//! compare --script SEED                         prints the script of a seed

use judge::comparison::checkers::{Checker, Library};
use judge::comparison::cut_marks::asks_again_after_cut;
use judge::comparison::mistakes::Most;
use judge::comparison::nettings::netting_difference;
use judge::comparison::numbers::{compare_numbers, compare_range, near_edges, EVERY};
use judge::comparison::programs::{first_difference, output, Arrival};
use judge::comparison::samples::{call_difference, difference, panel_difference};
use judge::comparison::shrink::{sample_text, shrink_sample, shrink_script};
use judge::comparison::shrink_netting::{netting_text, shrink_netting};
use judge::comparison::shrink_waiting::{history_text, shrink_history};
use judge::comparison::waitings::history_difference;
use judge::comparison::ways::{gone, way_trouble, Gone};
use judge::comparison::{coverage, mistakes};
use judge::field::COLUMNS;
use judge::generate::netting::netting;
use judge::generate::scripts::script;
use judge::generate::waiting::history;
use judge::generate::ways::past;
use judge::mistake::{Correct, Mistake};
use judge::options::Options;
use judge::script::{run, ANSWER_BYTES, MAX_LINE_BYTES};
use judge::tell::text::numbers_told;
use std::io::Write;
use std::process::ExitCode;
use std::time::{Duration, Instant};

type Run<'a> = &'a dyn Fn(&[u8], Arrival) -> Result<Vec<u8>, String>;

/// The scripts of one seed after the other, so many of them or for so long.
struct Scripts {
    seed: u64,
    count: Option<u64>,
    time: Duration,
    /// Without those that ask for a certificate again after its signer's cut.
    once_across_cuts: bool,
}

const LIBRARY: &str = "the library";
const FORMATTING: &str = "Rust's own formatting";

fn main() -> ExitCode {
    let known = [
        "yard",
        "second",
        "tell",
        "scenarios",
        "seconds",
        "seed",
        "script",
        "scripts",
        "count",
        "netting-count",
        "history-count",
        "past-count",
        "mistake",
        "named",
    ];
    let flags = [
        "memories",
        "nettings",
        "waitings",
        "ways",
        "numbers",
        "number-edges",
        "self",
        "mistakes",
        "coverage",
        "once-across-cuts",
    ];
    match Options::read(&known, &flags).and_then(|options| work(&options)) {
        Ok(()) => ExitCode::SUCCESS,
        Err(message) => {
            eprintln!("compare: {message}");
            ExitCode::FAILURE
        }
    }
}

fn work(options: &Options) -> Result<(), String> {
    let seed = options.number("seed").unwrap_or(1);
    let time = Duration::from_secs(options.number("seconds").unwrap_or(20));
    if let Some(seed) = options.number("script") {
        return std::io::stdout().write_all(&script(seed).text).map_err(|error| error.to_string());
    }
    let (scripts, memories) = (options.number("scripts"), options.number("count").unwrap_or(400_000));
    let nettings = options.number("netting-count").unwrap_or(100_000);
    let histories = options.number("history-count").unwrap_or(10_000);
    let pasts = options.number("past-count").unwrap_or(1_000);
    let most = Most { memories, nettings, histories, pasts };
    if options.flag("coverage") {
        return coverage::tell(seed, scripts.unwrap_or(1000), &most);
    }
    if options.flag("mistakes") {
        return mistakes::tell(seed, scripts.unwrap_or(300), &most, options.text("named").unwrap_or(""))
            .then_some(())
            .ok_or("a mistake is missed".to_string());
    }
    if options.flag("self") {
        return compare_library(options.text("mistake"), seed, time);
    }
    compare_checker(options, seed, time).unwrap_or_else(|| compare_programs(options, seed, time))
}

/// None where none of these is asked for.
fn compare_checker(options: &Options, seed: u64, time: Duration) -> Option<Result<(), String>> {
    let compared = match () {
        _ if options.flag("memories") => compare_memories(checker(LIBRARY).as_ref(), seed, time),
        _ if options.flag("nettings") => compare_nettings(checker(LIBRARY).as_ref(), seed, time),
        _ if options.flag("waitings") => compare_waitings(waiting_checker().as_ref(), seed, time),
        _ if options.flag("ways") => tell_ways(options.text("mistake"), seed, time),
        _ if options.flag("numbers") => tell_numbers(compare_range(checker(FORMATTING).as_ref(), EVERY)),
        _ if options.flag("number-edges") => tell_numbers(compare_numbers(checker(FORMATTING).as_ref(), near_edges())),
        _ => return None,
    };
    Some(compared)
}

/// Two programs on scenarios, where their directory is given, and on generated scripts.
fn compare_programs(options: &Options, seed: u64, time: Duration) -> Result<(), String> {
    let beside = options.text("second").or(options.text("tell"));
    let (Some(yard), Some(beside)) = (options.text("yard"), beside) else {
        let flags =
            "--memories, --nettings, --waitings, --ways, --numbers, --number-edges, --self, --mistakes or --coverage";
        return Err(format!("give --yard PATH and --second PATH or --tell PATH, or {flags}"));
    };
    let told = options.text("second").is_none();
    let one = |text: &[u8], arrival| output(yard, text, arrival);
    let other = |text: &[u8], arrival| match output(beside, text, arrival) {
        Ok(words) if told => numbers_told(&String::from_utf8_lossy(&words)),
        answers => answers,
    };
    if let Some(directory) = options.text("scenarios") {
        compare_scenarios(directory, &[(yard, &one), (beside, &other)])?;
    }
    let (count, once_across_cuts) = (options.number("scripts"), options.flag("once-across-cuts"));
    compare_scripts(&one, &other, Scripts { seed, count, time, once_across_cuts })
}

/// None where none is named.
fn named(mistake: Option<&str>) -> Result<Option<Mistake>, String> {
    mistake.map(|name| Mistake::named(name).ok_or(format!("no mistake {name}"))).transpose()
}

/// The harness alone: what it tells of a mistake, or that it tells nothing without one.
fn compare_library(mistake: Option<&str>, seed: u64, time: Duration) -> Result<(), String> {
    let rules = named(mistake)?;
    let scripts = Scripts { seed, count: None, time, once_across_cuts: false };
    let scripts = compare_scripts(&|text, _| Ok(run(rules, text)), &|text, _| Ok(run(Correct, text)), scripts);
    let memories = compare_memories(&Library(rules), seed, time);
    let nettings = compare_nettings(&Library(rules), seed, time);
    let waitings = compare_waitings(&Library(rules), seed, time);
    let ways = go_on_from_pasts(&Library(rules), seed, time);
    let numbers = tell_numbers(compare_numbers(&Library(rules), near_edges()));
    scripts.and(memories).and(nettings).and(waitings).and(ways).and(numbers)
}

/// The firmware, to be put beside something; without the feature the library in its place.
#[cfg(feature = "firmware")]
fn checker(beside: &str) -> Box<dyn Checker + Sync> {
    println!("the firmware against {beside}");
    Box::new(judge::comparison::firmware::Firmware)
}

#[cfg(not(feature = "firmware"))]
fn checker(beside: &str) -> Box<dyn Checker + Sync> {
    println!("built without the feature `firmware`: the library against {beside}");
    Box::new(Library(Correct))
}

/// The same for waiting movements; without the feature the benchmark's own words in its place.
#[cfg(feature = "firmware")]
fn waiting_checker() -> Box<dyn Checker + Sync> {
    checker(LIBRARY)
}

#[cfg(not(feature = "firmware"))]
fn waiting_checker() -> Box<dyn Checker + Sync> {
    println!("built without the feature `firmware`: the benchmark's words against {LIBRARY}");
    Box::new(judge::benchmark::waiting_words::Words)
}

fn compare_scripts(one: Run, other: Run, scripts: Scripts) -> Result<(), String> {
    let start = Instant::now();
    let (mut seed, mut compared, mut left_out, mut lines) = (scripts.seed, 0, 0, 0);
    while compared == 0 || scripts.count.map_or(start.elapsed() < scripts.time, |count| compared < count) {
        let (script, arrival) = (script(seed), Arrival::of(seed));
        seed += 1;
        if scripts.once_across_cuts && asks_again_after_cut(&script.text) {
            left_out += 1;
            continue;
        }
        let at = |error: String| format!("seed {}: {error}", seed - 1);
        let (left, right) = (one(&script.text, arrival).map_err(at)?, other(&script.text, arrival).map_err(at)?);
        if let Some(line) = first_difference(&left, &right) {
            println!("seed {} ({}, {arrival:?}): outputs differ at line {line}", seed - 1, script.sort);
            tell_script(&|text| one(text, arrival), &|text| other(text, arrival), &script.text)?;
            return Err("scripts differ".to_string());
        }
        compared += 1;
        lines += left.len() / ANSWER_BYTES;
    }
    println!("{compared} scripts, {lines} lines, no difference (seeds {} to {})", scripts.seed, seed - 1);
    if scripts.once_across_cuts {
        println!("{left_out} scripts left out: they ask for a certificate again after its signer's cut");
    }
    Ok(())
}

type Answer<'a> = &'a dyn Fn(&[u8]) -> Result<Vec<u8>, String>;

/// The smallest script that still shows the difference, each line with both answers.
fn tell_script(one: Answer, other: Answer, text: &[u8]) -> Result<(), String> {
    let differs = |text: &[u8]| matches!((one(text), other(text)), (Ok(left), Ok(right)) if left != right);
    let small = shrink_script(text, differs);
    let (left, right) = (one(&small)?, other(&small)?);
    let (mut left, mut right) = (left.split_inclusive(is_feed), right.split_inclusive(is_feed));
    println!("smallest script, {} bytes:", small.len());
    for line in small.split_inclusive(is_feed) {
        let answer = |given: Option<&[u8]>| given.map_or("nothing".to_string(), |bytes| shown(bytes, false));
        let (one, other) = (answer(left.next()), answer(right.next()));
        let mark = if one == other { String::new() } else { format!("  <-> {other}") };
        println!("{:<56} -> {one}{mark}", shown(line, true));
    }
    Ok(())
}

fn is_feed(byte: &u8) -> bool {
    *byte == b'\n'
}

/// A line for a person to read: odd bytes by their escapes, the middle of a long line left out, a missing line feed told.
fn shown(line: &[u8], tell_missing: bool) -> String {
    const MOST: usize = MAX_LINE_BYTES + COLUMNS;
    let columns = line.strip_suffix(b"\n").unwrap_or(line);
    let text = match columns.len() {
        0..=MOST => columns.escape_ascii().to_string(),
        count => format!("{}... ({count} bytes)", columns[..MOST].escape_ascii()),
    };
    let missing = if tell_missing && columns.len() == line.len() { " (no line feed)" } else { "" };
    text + missing
}

/// Seed after seed for so long, up to the first with a difference, which `differs` prints.
fn compare_seeds(things: &str, seed: u64, time: Duration, differs: impl Fn(u64) -> bool) -> Result<(), String> {
    let start = Instant::now();
    let mut count = 0;
    while count == 0 || count % 256 != 0 || start.elapsed() < time {
        if differs(seed + count) {
            return Err(format!("{things} differ"));
        }
        count += 1;
    }
    println!("{count} {things}, no difference (seeds {seed} to {})", seed + count - 1);
    Ok(())
}

fn compare_memories(checker: &dyn Checker, seed: u64, time: Duration) -> Result<(), String> {
    let library = Library(Correct);
    let tell = |s: &_| call_difference(checker, &library, s).or_else(|| panel_difference(checker, &library, s));
    compare_seeds("memories", seed, time, |seed| {
        let Some((told, sample)) = difference(checker, &library, seed) else { return false };
        println!("seed {seed}: {told}");
        if let Some(sample) = sample {
            let small = shrink_sample(&sample, |sample| tell(sample).is_some());
            println!("smallest memory:\n{}  {}", sample_text(&small), tell(&small).unwrap_or_default());
        }
        true
    })
}

fn compare_nettings(checker: &dyn Checker, seed: u64, time: Duration) -> Result<(), String> {
    let tell = |netting: &_| netting_difference(checker, &Library(Correct), netting);
    compare_seeds("nettings", seed, time, |seed| {
        let netting = netting(seed);
        let Some(told) = tell(&netting) else { return false };
        println!("seed {seed} ({}): {told}", netting.sort);
        let small = shrink_netting(&netting, |netting| tell(netting).is_some());
        println!("smallest netting:\n{}  {}", netting_text(&small), tell(&small).unwrap_or_default());
        true
    })
}

fn compare_waitings(checker: &dyn Checker, seed: u64, time: Duration) -> Result<(), String> {
    let tell = |history: &_| history_difference(checker, &Library(Correct), history);
    compare_seeds("histories of waiting movements", seed, time, |seed| {
        let history = history(seed);
        let Some((step, told)) = tell(&history) else { return false };
        println!("seed {seed} ({}), step {step}: {told}", history.sort);
        let small = shrink_history(&history, |history| tell(history).is_some());
        let (step, told) = tell(&small).unwrap_or_default();
        println!("smallest history:\n{}  step {step}: {told}", history_text(&small));
        true
    })
}

/// By the firmware, or by the library where a mistake is named.
fn tell_ways(mistake: Option<&str>, seed: u64, time: Duration) -> Result<(), String> {
    match named(mistake)? {
        None => go_on_from_pasts(checker("the premises of a way on").as_ref(), seed, time),
        mistake => go_on_from_pasts(&Library(mistake), seed, time),
    }
}

/// Past after past for so long, up to the first whose way on is refused or ends otherwise than it must.
fn go_on_from_pasts(checker: &dyn Checker, seed: u64, time: Duration) -> Result<(), String> {
    let (start, mut count, mut ways) = (Instant::now(), 0, 0);
    while count == 0 || start.elapsed() < time {
        let past = past(seed + count);
        let (text, spare) = (past.text(), past.spare);
        let gone = gone(checker, &text, spare);
        count += 1;
        ways += u64::from(gone.is_some());
        let Some(trouble) = gone.and_then(|gone| gone.trouble) else { continue };
        println!("seed {}: {trouble}", seed + count - 1);
        tell_past(checker, &shrink_script(&text, |text| way_trouble(checker, text, spare).is_some()), spare);
        return Err("a way on is refused".to_string());
    }
    println!("{count} pasts, {ways} with a way on, none refused (seeds {seed} to {})", seed + count - 1);
    Ok(())
}

/// The smallest past, then the calls of its way with their answers.
fn tell_past(checker: &dyn Checker, text: &[u8], spare: u32) {
    println!(
        "smallest script, with {spare} slots more than the way needs:\n{}",
        String::from_utf8_lossy(text).trim_end()
    );
    let Some(Gone { calls, trouble }) = gone(checker, text, spare) else { return };
    println!("and the way on:");
    for (line, outcome) in calls {
        println!("{:<56} -> {} {} {}", line.text(), outcome.answer, outcome.first, outcome.second);
        if !outcome.is_accepted() {
            break;
        }
    }
    println!("{}", trouble.unwrap_or_default());
}

fn tell_numbers(compared: Result<u64, String>) -> Result<(), String> {
    let count = compared.map_err(|told| format!("numbers differ: {told}"))?;
    println!("{count} numbers, no difference");
    Ok(())
}

/// Every NAME.txt of the directory gives its NAME.out.
fn compare_scenarios(directory: &str, programs: &[(&str, Run)]) -> Result<(), String> {
    let listing = std::fs::read_dir(directory).map_err(|error| format!("{directory}: {error}"))?;
    let mut paths: Vec<_> = listing.filter_map(|entry| Some(entry.ok()?.path())).collect();
    paths.retain(|path| path.extension().is_some_and(|extension| extension == "txt"));
    paths.sort();
    if paths.is_empty() {
        return Err(format!("{directory}: no scenarios"));
    }
    for path in &paths {
        let read = |path: &std::path::Path| std::fs::read(path).map_err(|error| format!("{}: {error}", path.display()));
        let (input, expected) = (read(path)?, read(&path.with_extension("out"))?);
        for (name, run) in programs {
            if let Some(line) = first_difference(&run(&input, Arrival::File)?, &expected) {
                return Err(format!("{name} differs on {} at line {line}", path.display()));
            }
        }
    }
    println!("{} scenarios, no difference", paths.len());
    Ok(())
}
