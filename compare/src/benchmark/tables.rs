//! The benchmark's tables, measured and written as Markdown.

use super::fit::straight;
use super::plot::Series;
use super::timing::best;
use super::{form_test, inputs, netting, search, waiting};
use crate::comparison::checkers::Checker;
use crate::comparison::programs::{output, Arrival};
use crate::memory::MAX_F;
use crate::script::{ANSWER_BYTES, CERTIFICATE_SLOTS};
use crate::script_file::ScriptFile;
use crate::tell::words::thousands;

/// What is run and how often.
pub struct Bench<'a> {
    pub yard: &'a str,
    pub second: &'a str,
    pub text: &'a str,
    pub seed: u64,
    /// Lines of a script that makes calls, and of the one that makes none.
    pub lines: usize,
    pub text_lines: usize,
    /// Repeated calls where the time of one is asked for.
    pub calls: usize,
    pub runs: u64,
}

impl Bench<'_> {
    /// yard beside second, and on text alone beside its transcription: two tables.
    pub fn ratios(&self) -> Result<(String, String), String> {
        let mut ratios =
            "| Script | Lines | Bytes a line | yard, ms | second, ms | Ratio (goal 0.40, text only 0.70) |\n|---|---|---|---|---|---|\n"
                .to_string();
        for (name, script) in inputs::rows(self.seed, self.lines) {
            let row = self.row(&name, &script, &[self.yard, self.second])?;
            ratios += &format!("{} {} |\n", row.head, columns(&row.times));
        }
        let script = inputs::text_only(self.seed, self.text_lines);
        let row = self.row("text only", &script, &[self.yard, self.second, self.text])?;
        ratios += &format!("{} {} |\n", row.head, columns(&row.times[..2]));
        let times = columns(&[row.times[0], row.times[2]]);
        let head =
            "| Script | Lines | Bytes a line | yard, ms | text, ms | Ratio (goal 1.00) |\n|---|---|---|---|---|---|\n";
        Ok((ratios, format!("{head}{} {times} |\n", row.head)))
    }

    /// Times the programs on a script, once it is sure that their outputs are equal.
    fn row(&self, name: &str, script: &[u8], programs: &[&str]) -> Result<Row, String> {
        let expected = output(programs[0], script, Arrival::File)?;
        for program in &programs[1..] {
            if output(program, script, Arrival::File)? != expected {
                return Err(format!("{program} and {} differ on {name}", programs[0]));
            }
        }
        let lines = expected.len() / ANSWER_BYTES;
        let head = format!("| {name} | {} | {:.1} |", thousands(lines), script.len() as f64 / lines as f64);
        Ok(Row { head, times: self.times(programs, script)? })
    }

    fn times(&self, programs: &[&str], script: &[u8]) -> Result<Vec<f64>, String> {
        let file = ScriptFile::write(script).map_err(|error| error.to_string())?;
        best(programs, &file, self.runs)
    }

    /// Microseconds a call by which the second script takes longer than the first, for yard and second.
    fn each_call(&self, scripts: &(Vec<u8>, Vec<u8>)) -> Result<[f64; 2], String> {
        let programs = [self.yard, self.second];
        let (less, more) = (self.times(&programs, &scripts.0)?, self.times(&programs, &scripts.1)?);
        Ok([0, 1].map(|place| (more[place] - less[place]) * 1e6 / self.calls as f64))
    }

    /// A repeated call on the greatest f, all blocks and more and more certificates: a table, and the points.
    pub fn growth(&self) -> Result<(String, Vec<Series>), String> {
        let mut table =
            "| Certificates | yard, microseconds a call | second | Ratio |\n|---|---|---|---|\n".to_string();
        let mut series = ["yard", "second"].map(|name| Series { name: name.to_string(), points: Vec::new() });
        for certificates in (0..=CERTIFICATE_SLOTS).step_by(CERTIFICATE_SLOTS / 8) {
            let times = self.each_call(&inputs::growth(MAX_F, certificates, self.calls))?;
            for (one, time) in series.iter_mut().zip(times) {
                one.points.push((certificates as f64, time));
            }
            let [yard, second] = times;
            let certificates = thousands(certificates);
            table += &format!("| {certificates} | {yard:.2} | {second:.2} | {:.2} |\n", yard / second);
        }
        Ok((table, series.into()))
    }

    /// The form test of a full memory beside a bare sum of its words.
    pub fn form(&self, firmware: Option<&dyn Checker>) -> Result<String, String> {
        let [yard, second] = self.each_call(&inputs::form_test(self.calls))?;
        let mut times = form_test::times(firmware, self.calls, self.runs).map_err(|error| error.to_string())?;
        times.insert(1, ("yard, by its calls in a script", yard));
        times.insert(2, ("second, by its calls in a script", second));
        let mut table =
            "| Form test | Microseconds | To the bare sum (goal of yard 1.80) |\n|---|---|---|\n".to_string();
        for (name, time) in &times {
            table += &format!("| {name} | {time:.2} | {:.2} |\n", time / times[0].1);
        }
        Ok(table)
    }

    /// The search of a full log beside a bare sum of the log's words.
    pub fn search(&self, firmware: Option<&dyn Checker>) -> Result<String, String> {
        let (bare, times) = search::times(firmware, self.calls, self.runs)?;
        let mut table =
            "| Search | Few of its view, microseconds | To the bare sum | All of its view | To the bare sum |\n\
                         |---|---|---|---|---|\n"
                .to_string();
        for (name, [few, all]) in times {
            table += &format!("| {name} | {few:.2} | {:.2} | {all:.2} | {:.2} |\n", few / bare, all / bare);
        }
        Ok(table)
    }

    /// A panel at the height of yard's last block beside the form test alone, on the same memory.
    pub fn panel(&self, firmware: Option<&dyn Checker>) -> Result<String, String> {
        let height = thousands(form_test::LAST_HEIGHT as usize);
        let mut table = format!(
            "| Panel | Form test alone, microseconds | At height {height}, microseconds | Ratio |\n|---|---|---|---|\n"
        );
        for (name, [form, panel]) in form_test::panels(firmware, self.calls, self.runs)? {
            table += &format!("| {name} | {form:.2} | {panel:.2} | {:.2} |\n", panel / form);
        }
        Ok(table)
    }

    /// One netting by its height and movements, and what a step of it costs.
    pub fn netting(&self, firmware: Option<&dyn Checker>) -> Result<(String, String), String> {
        netting::section(firmware, self.netting_calls(), self.runs)
    }

    /// The calls for waiting movements, by how many wait.
    pub fn waiting(&self, firmware: Option<&dyn Checker>) -> Result<String, String> {
        waiting::section(firmware, self.calls, self.runs)
    }

    /// Fewer than of other calls, as a netting takes longer.
    pub fn netting_calls(&self) -> usize {
        (self.calls / 10).max(1)
    }
}

/// The straight line through each program's points, in words.
pub fn fit(series: &[Series]) -> String {
    let told = |one: &Series| {
        let (start, slope, far) = straight(&one.points);
        format!(
            "{} takes {start:.2} + {:.2} for each 1,000 certificates, {far:.2} off at most",
            one.name,
            1000.0 * slope
        )
    };
    series.iter().map(told).collect::<Vec<_>>().join("; ") + "."
}

struct Row {
    head: String,
    times: Vec<f64>,
}

/// Milliseconds of two programs and the first's ratio to the second.
fn columns(seconds: &[f64]) -> String {
    format!("{:.1} | {:.1} | {:.2}", seconds[0] * 1e3, seconds[1] * 1e3, seconds[0] / seconds[1])
}
