//! Times a program on a script, or a piece of code: processor time, the best of several runs.

use crate::script_file::ScriptFile;
use std::io::Error;
use std::process::{Command, Stdio};

/// getrusage's answer on 64-bit Linux: seconds and microseconds of either sort, then what is not asked for.
#[repr(C)]
#[derive(Default)]
struct Usage {
    user: [i64; 2],
    system: [i64; 2],
    rest: [i64; 14],
}

extern "C" {
    fn getrusage(who: i32, usage: *mut Usage) -> i32;
}

const OWN: i32 = 0;
const CHILDREN: i32 = -1;

/// Processor seconds, user and system, of this process or of all its children that have ended.
fn seconds(who: i32) -> Result<f64, Error> {
    let mut usage = Usage::default();
    // SAFETY: the call writes one such structure.
    if unsafe { getrusage(who, &mut usage) } != 0 {
        return Err(Error::last_os_error());
    }
    let seconds = |time: [i64; 2]| time[0] as f64 + time[1] as f64 / 1e6;
    Ok(seconds(usage.user) + seconds(usage.system))
}

/// Processor seconds of one run, its input from a file, its output thrown away. Waiting for a processor that does other
/// work does not count.
fn once(program: &str, script: &ScriptFile) -> Result<f64, String> {
    let told = |error: Error| format!("{program}: {error}");
    let input = script.open().map_err(told)?;
    let before = seconds(CHILDREN).map_err(told)?;
    let status = Command::new(program).stdin(Stdio::from(input)).stdout(Stdio::null()).status().map_err(told)?;
    let time = seconds(CHILDREN).map_err(told)? - before;
    if status.success() {
        Ok(time)
    } else {
        Err(format!("{program}: {status}"))
    }
}

/// The best time of each program; their runs take turns, so that the machine's other work falls on all alike.
pub fn best(programs: &[&str], script: &ScriptFile, runs: u64) -> Result<Vec<f64>, String> {
    let mut times = vec![f64::INFINITY; programs.len()];
    for _ in 0..runs.max(1) {
        for (time, program) in times.iter_mut().zip(programs) {
            *time = time.min(once(program, script)?);
        }
    }
    Ok(times)
}

/// The best time of many calls of an action in this process.
pub fn best_own(mut action: impl FnMut(), calls: usize, runs: u64) -> Result<f64, Error> {
    let mut least = f64::INFINITY;
    for _ in 0..runs.max(1) {
        let before = seconds(OWN)?;
        (0..calls).for_each(|_| action());
        least = least.min(seconds(OWN)? - before);
    }
    Ok(least)
}

/// The best time of many calls of each action in this process; the actions take turns.
pub fn best_in_turn(actions: &mut [Box<dyn FnMut() + '_>], calls: usize, runs: u64) -> Result<Vec<f64>, Error> {
    let mut times = vec![f64::INFINITY; actions.len()];
    for _ in 0..runs.max(1) {
        for (time, action) in times.iter_mut().zip(actions.iter_mut()) {
            *time = time.min(best_own(action, calls, 1)?);
        }
    }
    Ok(times)
}
