//! What stands on a program's command line: flags, and names with a number after them.

pub struct Options {
    flags: Vec<String>,
    numbers: Vec<(String, u64)>,
}

impl Options {
    /// The arguments after the program's name, of which these flags and numbers are known.
    pub fn parse(
        arguments: impl IntoIterator<Item = String>,
        flags: &[&str],
        numbers: &[&str],
    ) -> Result<Self, String> {
        let mut options = Options { flags: Vec::new(), numbers: Vec::new() };
        let mut arguments = arguments.into_iter();
        while let Some(name) = arguments.next() {
            if flags.contains(&name.as_str()) {
                options.flags.push(name);
            } else if numbers.contains(&name.as_str()) {
                let text = arguments.next().ok_or_else(|| format!("{name} wants a number"))?;
                let number = text.parse().map_err(|_| format!("{name} {text}: no number"))?;
                options.numbers.push((name, number));
            } else {
                return Err(format!("{name} is not known; --help tells what is"));
            }
        }
        Ok(options)
    }

    pub fn has(&self, flag: &str) -> bool {
        self.flags.iter().any(|given| given == flag)
    }

    /// The number given last.
    pub fn number(&self, name: &str) -> Option<u64> {
        self.numbers.iter().rev().find(|given| given.0 == name).map(|given| given.1)
    }
}
