//! Command-line options of the programs: `--name value` and `--flag`.

pub struct Options {
    values: Vec<(String, String)>,
    flags: Vec<String>,
}

impl Options {
    /// Reads the program's arguments; an unknown one is an error.
    pub fn read(values: &[&str], flags: &[&str]) -> Result<Options, String> {
        let mut options = Options { values: Vec::new(), flags: Vec::new() };
        let mut arguments = std::env::args().skip(1);
        while let Some(argument) = arguments.next() {
            let name = argument.strip_prefix("--").ok_or(format!("unknown argument {argument}"))?;
            if flags.contains(&name) {
                options.flags.push(name.to_string());
            } else if values.contains(&name) {
                let value = arguments.next().ok_or(format!("--{name} needs a value"))?;
                options.values.push((name.to_string(), value));
            } else {
                return Err(format!("unknown option --{name}; known: {values:?} {flags:?}"));
            }
        }
        Ok(options)
    }

    pub fn flag(&self, name: &str) -> bool {
        self.flags.iter().any(|flag| flag == name)
    }

    pub fn text(&self, name: &str) -> Option<&str> {
        self.values.iter().find(|(known, _)| known == name).map(|(_, value)| value.as_str())
    }

    pub fn number(&self, name: &str) -> Option<u64> {
        self.text(name)?.parse().ok()
    }
}
