//! Reads what stands behind a command: `--name NUMBER`, `--name WORD` and bare flags.

use crate::desk::Pools;

/// The options of one command, none of them unknown or given twice.
pub struct Options {
    command: String,
    given: Vec<(String, String)>,
}

impl Options {
    /// Takes `words` apart. `valued` and `flags` are the names that the command knows.
    pub fn read(
        command: &str,
        words: &[String],
        valued: &[&str],
        flags: &[&str],
    ) -> Result<Options, String> {
        let mut given: Vec<(String, String)> = Vec::new();
        let mut rest = words.iter();
        while let Some(name) = rest.next() {
            let value = if flags.contains(&name.as_str()) {
                String::new()
            } else if valued.contains(&name.as_str()) {
                let value = rest.next();
                value.cloned().ok_or_else(|| {
                    format!("{command}: {name} stands at the end: give its value behind it")
                })?
            } else {
                return Err(unknown(command, name, &[valued, flags].concat()));
            };
            if given.iter().any(|(other, _)| other == name) {
                return Err(format!("{command}: {name} is given twice: give it once"));
            }
            given.push((name.clone(), value));
        }
        let command = command.to_string();
        Ok(Options { command, given })
    }

    pub fn has(&self, name: &str) -> bool {
        self.value(name).is_some()
    }

    /// A value that the command can't do without.
    pub fn word(&self, name: &str) -> Result<&str, String> {
        let command = &self.command;
        self.value(name)
            .ok_or_else(|| format!("{command}: {name} is missing: give {name} and its value"))
    }

    /// A number that the command can't do without.
    pub fn number(&self, name: &str) -> Result<u64, String> {
        let word = self.word(name)?;
        word.parse().map_err(|_| {
            let command = &self.command;
            format!(
                "{command}: {name} {word} isn't a number: give 0 to {}",
                u64::MAX
            )
        })
    }

    /// `--nodes` and `--cells`, each the bench program's where it isn't given.
    pub fn pools(&self) -> Result<Pools, String> {
        Ok(Pools {
            nodes: self.pool("--nodes", Pools::BENCH.nodes)?,
            cells: self.pool("--cells", Pools::BENCH.cells)?,
        })
    }

    fn pool(&self, name: &str, usual: usize) -> Result<usize, String> {
        let Some(word) = self.value(name) else {
            return Ok(usual);
        };
        let size = word.parse().ok();
        size.filter(|size| (1..=Pools::MAX).contains(size))
            .ok_or_else(|| {
                let command = &self.command;
                format!(
                    "{command}: {name} {word} isn't a pool size: give 1 to {}",
                    Pools::MAX
                )
            })
    }

    fn value(&self, name: &str) -> Option<&str> {
        let named = self.given.iter().find(|(other, _)| other == name);
        named.map(|(_, value)| value.as_str())
    }
}

fn unknown(command: &str, name: &str, known: &[&str]) -> String {
    if known.is_empty() {
        return format!("{command}: {name} isn't known: this command takes no options");
    }
    format!("{command}: {name} isn't known: give {}", known.join(", "))
}
