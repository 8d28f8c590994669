//! The words of a command line: options with and without values, and the rest.

use crate::failure::{usage, Outcome};

/// The options that take a value, of all commands: the word behind one of them
/// is its value, whatever it looks like.
const WITH_VALUE: [&str; 13] = [
    "--at",
    "--attributes",
    "--cluster",
    "--color",
    "--csv",
    "--fats",
    "--hint",
    "--label",
    "--per-cell",
    "--sector",
    "--size",
    "--time",
    "--width",
];

pub struct Args {
    options: Vec<(String, Option<String>)>,
    words: Vec<String>,
}

impl Args {
    /// What stands behind `--` is never an option.
    pub fn new(words: Vec<String>) -> Outcome<Args> {
        let mut args = Args { options: Vec::new(), words: Vec::new() };
        let mut left = words.into_iter();
        while let Some(word) = left.next() {
            if word == "--" {
                args.words.extend(left);
                break;
            }
            if word.len() < 2 || !word.starts_with('-') {
                args.words.push(word);
                continue;
            }
            let option = match word.split_once('=') {
                Some((name, value)) if WITH_VALUE.contains(&name) => (name.into(), Some(value.into())),
                _ if WITH_VALUE.contains(&word.as_str()) => match left.next() {
                    Some(value) => (word, Some(value)),
                    None => return usage(format!("{word} needs a value")),
                },
                _ => (word, None),
            };
            args.options.push(option);
        }
        Ok(args)
    }

    pub fn flag(&mut self, name: &str) -> bool {
        let before = self.options.len();
        self.options.retain(|(option, _)| option != name);
        self.options.len() != before
    }

    /// The value of `NAME VALUE` or `NAME=VALUE`.
    pub fn value(&mut self, name: &str) -> Outcome<Option<String>> {
        let (its, others) = std::mem::take(&mut self.options).into_iter().partition(|(option, _)| option == name);
        self.options = others;
        let mut values: Vec<(String, Option<String>)> = its;
        if values.len() > 1 {
            return usage(format!("{name} is given twice"));
        }
        Ok(values.pop().and_then(|(_, value)| value))
    }

    pub fn number<T: TryFrom<u64>>(&mut self, name: &str) -> Outcome<Option<T>> {
        let Some(text) = self.value(name)? else {
            return Ok(None);
        };
        number(&text, name).map(Some)
    }

    /// The words left: as many as `names` has, those in brackets optional.
    pub fn words(self, names: &[&str]) -> Outcome<Vec<String>> {
        if let Some((option, _)) = self.options.first() {
            return usage(format!("unknown option {option}"));
        }
        let words = self.words;
        if let Some(name) = names.get(words.len()).filter(|name| !name.starts_with('[')) {
            return usage(format!("{name} is missing"));
        }
        if let Some(word) = words.get(names.len()) {
            return usage(format!("{word} is one word too many"));
        }
        Ok(words)
    }
}

/// A number in decimal or, with 0x, in hex; K and M stand for 2^10 and 2^20.
pub fn number<T: TryFrom<u64>>(text: &str, what: &str) -> Outcome<T> {
    let (digits, unit) = match text.strip_suffix(['K', 'M']) {
        Some(digits) if text.ends_with('K') => (digits, 1 << 10),
        Some(digits) => (digits, 1 << 20),
        None => (text, 1),
    };
    let value = match digits.strip_prefix("0x") {
        Some(hex) if hex.bytes().all(|byte| byte.is_ascii_hexdigit()) => u64::from_str_radix(hex, 16).ok(),
        None if digits.bytes().all(|byte| byte.is_ascii_digit()) => digits.parse().ok(),
        _ => None,
    };
    let value = value.and_then(|value: u64| value.checked_mul(unit));
    match value.and_then(|value| T::try_from(value).ok()) {
        Some(value) => Ok(value),
        None => usage(format!("{what}: {text} is no number that fits")),
    }
}

#[cfg(test)]
mod tests {
    use super::*;

    fn read(text: &str) -> Option<u64> {
        number(text, "n").ok()
    }

    #[test]
    fn numbers() {
        assert_eq!(read("16M"), Some(16 << 20));
        assert_eq!(read("0x27"), Some(0x27));
        assert_eq!(read("18446744073709551615"), Some(u64::MAX));
        for text in ["", "-1", "+1", "1k", "K", "0x", "0x+1", "18446744073709551616", "99999999999999M"] {
            assert_eq!(read(text), None, "{text}");
        }
        assert!(number::<u16>("65536", "n").is_err());
    }

    #[test]
    fn options_and_words() {
        let args = |text: &str| Args::new(text.split(' ').map(String::from).collect());
        let good = |text: &str| args(text).ok().expect("good words");
        let mut some = good("a --at 5 b --stop --csv=x -- --c");
        assert_eq!(some.number::<u64>("--at").ok().flatten(), Some(5));
        assert_eq!(some.value("--csv").ok().flatten().as_deref(), Some("x"));
        assert!(some.flag("--stop"));
        let words = some.words(&["A", "B", "[C]"]).ok();
        assert_eq!(words, Some(vec!["a".into(), "b".into(), "--c".into()]));
        assert!(args("a --at").is_err());
        assert!(good("--at 1 --at 2").value("--at").is_err());
        assert!(good("a").words(&["A", "B"]).is_err());
        assert!(good("a b").words(&["A"]).is_err());
        assert!(good("a -x").words(&["A", "[B]"]).is_err());
        assert!(good("a --at 1").words(&["A"]).is_err());
    }

    #[test]
    fn a_value_is_no_option() {
        let mut some =
            Args::new(["--label", "--help", "--csv", "--", "-"].map(String::from).into()).ok().expect("good words");
        assert!(!some.flag("--help"));
        assert_eq!(some.value("--label").ok().flatten().as_deref(), Some("--help"));
        assert_eq!(some.value("--csv").ok().flatten().as_deref(), Some("--"));
        assert_eq!(some.words(&["A"]).ok(), Some(vec!["-".into()]));
    }
}
