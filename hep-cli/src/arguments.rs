//! The command line: options in GNU's forms (`--output=F`, `--output F`, `-oF`, `-o F`, `--`), files in any place between them.

use hep_tools::tool::text::hint;

/// An option of a command.
pub struct Opt {
    pub short: Option<char>,
    pub long: &'static str,
    /// What stands for its value in the help; none if it has no value.
    pub value: Option<&'static str>,
    pub help: &'static str,
}

pub const HELP: Opt = flag("help", "this text");

pub const fn flag(long: &'static str, help: &'static str) -> Opt {
    Opt { short: None, long, value: None, help }
}

pub const fn valued(long: &'static str, value: &'static str, help: &'static str) -> Opt {
    Opt { short: None, long, value: Some(value), help }
}

/// The same with a letter.
pub const fn lettered(short: char, opt: Opt) -> Opt {
    Opt { short: Some(short), ..opt }
}

/// The command line behind the command, taken apart.
#[derive(Default, Debug)]
pub struct Arguments {
    given: Vec<(&'static str, String)>,
    pub files: Vec<String>,
}

impl Arguments {
    pub fn has(&self, long: &str) -> bool {
        self.given.iter().any(|(name, _)| *name == long)
    }

    /// The option's last value.
    pub fn value(&self, long: &str) -> Option<&str> {
        self.given.iter().rev().find(|(name, _)| *name == long).map(|(_, value)| value.as_str())
    }

    /// A number given to an option.
    pub fn number<T: std::str::FromStr>(&self, long: &str) -> Result<Option<T>, String> {
        let Some(value) = self.value(long) else { return Ok(None) };
        let number = value.parse().map_err(|_| format!("--{long} needs a number, not `{value}`"));
        number.map(Some)
    }
}

/// Takes the words behind a command apart.
pub fn parse(words: Vec<String>, options: &[&'static Opt]) -> Result<Arguments, String> {
    let mut arguments = Arguments::default();
    let mut words = words.into_iter();
    while let Some(word) = words.next() {
        if word == "--" {
            arguments.files.extend(words.by_ref());
        } else if let Some(long) = word.strip_prefix("--") {
            let (name, value) = match long.split_once('=') {
                Some((name, value)) => (name, Some(value.to_string())),
                None => (long, None),
            };
            let option = options.iter().find(|option| option.long == name);
            let option = option.ok_or_else(|| unknown(name, options))?;
            take(&mut arguments, option, &format!("--{name}"), value, &mut words)?;
        } else if word.starts_with('-') && word.len() > 1 {
            letters(&mut arguments, &word[1..], options, &mut words)?;
        } else {
            arguments.files.push(word);
        }
    }
    Ok(arguments)
}

/// Options by their letters: the rest of the word is the value of the first that has one.
fn letters(
    arguments: &mut Arguments,
    letters: &str,
    options: &[&'static Opt],
    words: &mut impl Iterator<Item = String>,
) -> Result<(), String> {
    for (place, letter) in letters.char_indices() {
        let option = options.iter().find(|option| option.short == Some(letter));
        let option = option.ok_or_else(|| format!("unknown option -{letter}"))?;
        let rest = &letters[place + letter.len_utf8()..];
        if option.value.is_some() && !rest.is_empty() {
            return take(arguments, option, "", Some(rest.to_string()), words);
        }
        take(arguments, option, &format!("-{letter}"), None, words)?;
    }
    Ok(())
}

fn take(
    arguments: &mut Arguments,
    option: &'static Opt,
    written: &str,
    value: Option<String>,
    words: &mut impl Iterator<Item = String>,
) -> Result<(), String> {
    let value = match (option.value, value) {
        (None, Some(_)) => return Err(format!("{written} takes no value")),
        (None, None) => String::new(),
        (Some(_), Some(value)) => value,
        (Some(what), None) => words.next().ok_or_else(|| format!("{written} needs {what}"))?,
    };
    arguments.given.push((option.long, value));
    Ok(())
}

fn unknown(name: &str, options: &[&'static Opt]) -> String {
    let known: Vec<String> = options.iter().map(|option| format!("--{}", option.long)).collect();
    let hint = hint(&format!("--{name}"), known.iter().map(String::as_str));
    format!("unknown option --{name}{hint}")
}

#[cfg(test)]
mod tests {
    use super::*;

    const OUTPUT: Opt = lettered('o', valued("output", "FILE", ""));
    const HEX: Opt = lettered('x', flag("hex", ""));

    fn parsed(line: &str) -> Result<Arguments, String> {
        parse(line.split(' ').map(str::to_string).collect(), &[&OUTPUT, &HEX])
    }

    #[test]
    fn every_form_of_an_option() {
        for line in
            ["-o F a", "-oF a", "--output F a", "--output=F a", "a -o F", "-xoF a", "-xo F a"]
        {
            let arguments = parsed(line).unwrap();
            assert_eq!(
                (arguments.value("output"), &arguments.files[..]),
                (Some("F"), &["a".to_string()][..]),
                "{line}"
            );
            assert_eq!(arguments.has("hex"), line.starts_with("-x"));
        }
        assert_eq!(parsed("-o=F").unwrap().value("output"), Some("=F"));
        assert_eq!(parsed("- -- -o --hex").unwrap().files, ["-", "-o", "--hex"]);
    }

    #[test]
    fn wrong_options() {
        assert_eq!(
            parsed("--outptu F").unwrap_err(),
            "unknown option --outptu (did you mean `--output`?)"
        );
        assert_eq!(parsed("-o").unwrap_err(), "-o needs FILE");
        assert_eq!(parsed("--hex=1").unwrap_err(), "--hex takes no value");
        assert_eq!(parsed("-xq").unwrap_err(), "unknown option -q");
    }
}
