//! One netting: the form test, one walk up the chosen block's ancestry and one pass over the movements.

use super::fit::straight;
use super::timing::best_in_turn;
use super::Named;
use crate::call::BLOCK;
use crate::comparison::checkers::{Checker, Library};
use crate::comparison::nettings::netting_difference;
use crate::driver::Driver;
use crate::generate::memory::Sample;
use crate::generate::netting::{Netting, LONG_CHAIN};
use crate::memory::{MAX_BLOCKS, MAX_F, MAX_MOVEMENTS, MAX_PALLETS, MAX_REPLICAS};
use crate::mistake::Correct;
use crate::netting::Movement;
use crate::script::BLOCK_SLOTS;
use crate::tell::words::thousands;
use std::hint::black_box;

const HEIGHTS: [usize; 2] = [BLOCK_SLOTS - 1, MAX_BLOCKS - 1];
const MOVEMENTS: [usize; 5] = [0, MAX_MOVEMENTS / 8, MAX_MOVEMENTS / 4, MAX_MOVEMENTS / 2, MAX_MOVEMENTS];

const NO_FIRMWARE: &str = "This was built without the feature `firmware`: there is no firmware to time.\n\n";

/// Microseconds of each checker at one height: of the form test alone, and of a netting by its movements.
struct Measured {
    height: usize,
    form: Vec<f64>,
    nettings: Vec<(usize, Vec<f64>)>,
}

/// The greatest f, no certificates, a chain up to the height, and movements over all its blocks and replicas.
pub fn chain(height: usize, movements: usize) -> Netting {
    let mut driver = Driver::open(Correct, MAX_F, 0, height + 1);
    for block in 0..height as u32 {
        driver.call(BLOCK, 0, block, &[]);
    }
    let movement = |place: usize| {
        let giver = place as u32 % MAX_REPLICAS;
        let apart = 1 + place as u32 / MAX_REPLICAS % (MAX_REPLICAS - 1);
        Movement {
            block: (1 + place * height / movements) as u32,
            giver,
            taker: (giver + apart) % MAX_REPLICAS,
            pallets: 1 + place as u32 % MAX_PALLETS,
        }
    };
    Netting {
        sort: LONG_CHAIN,
        memory: Sample::left_by(driver),
        movements: (0..movements).flat_map(|place| movement(place).words()).collect(),
        block: height as u32,
        replica: 0,
    }
}

/// The table, and what one step costs. Without firmware the library alone.
pub fn section(firmware: Option<&dyn Checker>, calls: usize, runs: u64) -> Result<(String, String), String> {
    let library = Library(Correct);
    let mut checkers: Vec<Named> = firmware.map(|firmware| ("firmware", firmware)).into_iter().collect();
    checkers.push(("library", &library));
    let all: Vec<Measured> =
        HEIGHTS.iter().map(|&height| measured(&checkers, height, calls, runs)).collect::<Result<_, _>>()?;
    let names: Vec<&str> = checkers.iter().map(|(name, _)| *name).collect();
    let steps: Vec<String> = names.iter().enumerate().map(|(place, name)| step(&all, place, name)).collect();
    let none = if firmware.is_none() { NO_FIRMWARE } else { "" };
    Ok((none.to_string() + &table(&names, &all), steps.join("; ") + "."))
}

fn measured(checkers: &[Named], height: usize, calls: usize, runs: u64) -> Result<Measured, String> {
    let told = |error: std::io::Error| error.to_string();
    let panel = |checker: &dyn Checker, netting: &mut Netting| {
        black_box(checker.panel(black_box(&mut netting.memory), 0));
    };
    let balance = |checker: &dyn Checker, netting: &mut Netting| {
        black_box(checker.balance(black_box(netting)));
    };
    let form = times(checkers, &chain(height, 0), panel, calls, runs).map_err(told)?;
    let mut nettings = Vec::new();
    for movements in MOVEMENTS {
        let netting = chain(height, movements);
        if let Some(difference) = netting_difference(checkers[0].1, &Library(Correct), &netting) {
            return Err(format!("{movements} movements at height {height}: {difference}"));
        }
        nettings.push((movements, times(checkers, &netting, balance, calls, runs).map_err(told)?));
    }
    Ok(Measured { height, form, nettings })
}

/// Microseconds of one action by each checker; they take turns.
fn times(
    checkers: &[Named],
    netting: &Netting,
    action: impl Fn(&dyn Checker, &mut Netting) + Copy,
    calls: usize,
    runs: u64,
) -> Result<Vec<f64>, std::io::Error> {
    let actions = checkers.iter().map(|&(_, checker)| {
        let mut own = netting.clone();
        Box::new(move || action(checker, &mut own)) as Box<dyn FnMut()>
    });
    let seconds = best_in_turn(&mut actions.collect::<Vec<_>>(), calls, runs)?;
    Ok(seconds.iter().map(|seconds| seconds * 1e6 / calls as f64).collect())
}

fn table(names: &[&str], all: &[Measured]) -> String {
    let ratio = if names.len() > 1 { " Ratio |" } else { "" };
    let heads: String = names.iter().map(|name| format!(" {name}, microseconds |")).collect();
    let columns = "---|".repeat(2 + names.len() + usize::from(names.len() > 1));
    let mut table = format!("| Height | Movements |{heads}{ratio}\n|{columns}\n");
    for Measured { height, form, nettings } in all {
        let height = thousands(*height);
        table += &format!("| {height} | form test alone |{}\n", cells(form));
        for (movements, times) in nettings {
            table += &format!("| {height} | {} |{}\n", thousands(*movements), cells(times));
        }
    }
    table
}

fn cells(times: &[f64]) -> String {
    let figures: String = times.iter().map(|time| format!(" {time:.2} |")).collect();
    match times {
        [one, other] => format!("{figures} {:.2} |", one / other),
        _ => figures,
    }
}

/// Nanoseconds of a movement, by the straight line through the greatest height's figures, and of a block of the walk,
/// by what two heights take without movements beyond their form tests.
fn step(all: &[Measured], place: usize, name: &str) -> String {
    let walk = |one: &Measured| one.nettings[0].1[place] - one.form[place];
    let (low, high) = (&all[0], &all[all.len() - 1]);
    let block = (walk(high) - walk(low)) / (high.height - low.height) as f64;
    let points: Vec<(f64, f64)> = high.nettings.iter().map(|(count, times)| (*count as f64, times[place])).collect();
    let (_, movement, far) = straight(&points);
    let ns = 1e3;
    format!(
        "{name}: {:.2} for a block up the ancestry, {:.2} for a movement ({:.2} microseconds off a straight line at most)",
        block * ns,
        movement * ns,
        far
    )
}

/// Steps of the largest netting: as it is, and by a walk for each movement.
pub fn most_steps() -> (usize, usize) {
    let height = HEIGHTS[HEIGHTS.len() - 1];
    (height + MAX_MOVEMENTS, height * MAX_MOVEMENTS)
}
