//! The words after a command: options, and one file.

#[derive(Debug, Default, PartialEq, Eq)]
pub struct Arguments {
    options: Vec<(&'static str, String)>,
    /// none: standard input
    pub file: Option<String>,
}

impl Arguments {
    /// `flags` are the options that stand alone, `valued` those that a value follows, as the next word or after `=`. `--` ends the options, and a
    /// lone `-` is standard input.
    pub fn read(words: &[String], flags: &[&'static str], valued: &[&'static str]) -> Result<Arguments, String> {
        let mut arguments = Arguments::default();
        let mut words = words.iter();
        let mut files = Vec::new();
        while let Some(word) = words.next() {
            if word == "--" {
                files.extend(words.by_ref().cloned());
            } else if !word.starts_with('-') || word == "-" {
                files.push(word.clone());
            } else {
                let (name, value) = word.split_once('=').map_or((&word[..], None), |(name, value)| (name, Some(value.to_string())));
                if let Some(flag) = flags.iter().find(|&&flag| flag == name && value.is_none()) {
                    arguments.add(flag, String::new())?;
                } else if let Some(option) = valued.iter().find(|&&option| option == name) {
                    let value = value.or_else(|| words.next().cloned()).filter(|value| !value.is_empty());
                    arguments.add(option, value.ok_or(format!("{name} needs a value after it"))?)?;
                } else {
                    return Err(format!("{word} is no option of this command; it has {}", [flags, valued].concat().join(", ")));
                }
            }
        }
        if files.len() > 1 {
            return Err(format!("{} files are named; this command takes one", files.len()));
        }
        arguments.file = files.pop().filter(|name| name != "-");
        Ok(arguments)
    }

    fn add(&mut self, option: &'static str, value: String) -> Result<(), String> {
        if self.has(option) {
            return Err(format!("{option} is given twice"));
        }
        self.options.push((option, value));
        Ok(())
    }

    pub fn has(&self, option: &str) -> bool {
        self.value(option).is_some()
    }

    pub fn value(&self, option: &str) -> Option<&str> {
        self.options.iter().find(|(name, _)| *name == option).map(|(_, value)| &value[..])
    }
}
