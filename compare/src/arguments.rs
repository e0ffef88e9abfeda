//! What the program is asked for.

/// How it is called.
pub const USAGE: &str = "usage: compare [--time ROUNDS] [FILE..]";

/// The files that are read, and how often each is to be timed, where times are asked for.
#[derive(Debug, PartialEq, Eq)]
pub struct Arguments {
    pub rounds: Option<u32>,
    pub files: Vec<String>,
}

impl Arguments {
    /// The arguments behind the program's name, or None where they are of no use.
    pub fn new(words: impl Iterator<Item = String>) -> Option<Arguments> {
        let mut files: Vec<String> = words.collect();
        let mut rounds = None;
        if files.first().is_some_and(|word| word == "--time") {
            rounds = Some(files.get(1)?.parse().ok().filter(|&rounds| rounds > 0)?);
            files.drain(..2);
            if files.is_empty() {
                return None;
            }
        }
        if files.iter().any(|word| word.starts_with('-')) {
            return None;
        }
        Some(Arguments { rounds, files })
    }
}

#[cfg(test)]
mod tests {
    use super::Arguments;

    fn of(line: &str) -> Option<(Option<u32>, Vec<String>)> {
        let arguments = Arguments::new(line.split_whitespace().map(String::from))?;
        Some((arguments.rounds, arguments.files))
    }

    #[test]
    fn takes_files() {
        assert_eq!(of(""), Some((None, vec![])));
        assert_eq!(of("a b"), Some((None, vec!["a".into(), "b".into()])));
    }

    #[test]
    fn takes_rounds() {
        assert_eq!(of("--time 3 a"), Some((Some(3), vec!["a".into()])));
    }

    #[test]
    fn refuses_the_rest() {
        for line in [
            "--time",
            "--time 3",
            "--time 0 a",
            "--time x a",
            "--tree a",
            "a --time 3",
        ] {
            assert_eq!(of(line), None, "of {line}");
        }
    }
}
