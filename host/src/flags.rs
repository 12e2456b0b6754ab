//! The words after a command.

/// Flags that were given, each with its value; one that takes none has an empty one.
#[derive(Debug)]
pub struct Flags<'a>(Vec<(&'a str, &'a str)>);

impl<'a> Flags<'a> {
    /// The flags of some words: those that take a value, and those that don't. Any other word is a mistake.
    pub fn of(words: &'a [String], valued: &[&str], plain: &[&str]) -> Result<Flags<'a>, String> {
        let mut out = Vec::new();
        let mut rest = words.iter().map(String::as_str);
        while let Some(word) = rest.next() {
            if valued.contains(&word) {
                out.push((word, rest.next().ok_or(format!("{word} wants a value"))?));
            } else if plain.contains(&word) {
                out.push((word, ""));
            } else {
                return Err(format!("there is no {word} here; there are {}", [valued, plain].concat().join(", ")));
            }
        }
        Ok(Flags(out))
    }

    /// The value of a flag, the last one given.
    pub fn text(&self, flag: &str) -> Option<&'a str> {
        self.0.iter().rev().find(|f| f.0 == flag).map(|f| f.1)
    }

    /// The value of a flag that is a number.
    pub fn number(&self, flag: &str) -> Result<Option<u64>, String> {
        self.text(flag).map(|t| t.parse().map_err(|_| format!("{flag} wants a number, and got {t}"))).transpose()
    }

    pub fn is_set(&self, flag: &str) -> bool {
        self.text(flag).is_some()
    }
}

#[cfg(test)]
mod tests {
    use super::*;

    fn words(text: &str) -> Vec<String> {
        text.split_whitespace().map(String::from).collect()
    }

    #[test]
    fn flags_are_read_and_mistakes_told() {
        let given = words("--seed 7 --long --seed 9");
        let flags = Flags::of(&given, &["--seed", "--only"], &["--long"]).unwrap();
        assert_eq!(flags.number("--seed"), Ok(Some(9)));
        assert!(flags.is_set("--long") && flags.text("--only").is_none());
        for bad in ["--seeds 7", "--only", "7"] {
            assert!(Flags::of(&words(bad), &["--seed", "--only"], &["--long"]).is_err(), "{bad}");
        }
        assert!(Flags::of(&words("--seed x"), &["--seed"], &[]).unwrap().number("--seed").is_err());
    }
}
