//! The words of a command line.

use std::collections::{BTreeMap, BTreeSet};
use std::ffi::{OsStr, OsString};
use std::os::unix::ffi::OsStrExt;
use std::path::Path;
use std::str::FromStr;

use crate::failure::Failure;

/// The options that a command knows.
#[derive(Clone, Copy, Debug)]
pub struct Options {
    /// Those with a value.
    pub valued: &'static [&'static str],
    /// Those without.
    pub plain: &'static [&'static str],
}

impl Options {
    fn has(self, name: &str) -> bool {
        self.valued.contains(&name) || self.plain.contains(&name)
    }
}

/// A command's operands and options.
#[derive(Debug, Default)]
pub struct Arguments {
    operands: Vec<OsString>,
    values: BTreeMap<&'static str, OsString>,
    given: BTreeSet<&'static str>,
}

impl Arguments {
    /// Sorts the words of a command line; `--` ends the options, and `-`
    /// alone is an operand.
    pub fn parse(
        words: impl IntoIterator<Item = OsString>,
        options: Options,
    ) -> Result<Arguments, Failure> {
        let mut words = words.into_iter();
        let mut arguments = Arguments::default();
        while let Some(word) = words.next() {
            if !is_option(&word) {
                arguments.operands.push(word);
                continue;
            }
            if word == "--" {
                arguments.operands.extend(words);
                break;
            }
            let (name, value) = attached(&word, options).unwrap_or_else(|| split(&word));
            arguments.take(&name.to_string_lossy(), value, &mut words, options)?;
        }
        Ok(arguments)
    }

    fn take(
        &mut self,
        name: &str,
        value: Option<OsString>,
        words: &mut impl Iterator<Item = OsString>,
        options: Options,
    ) -> Result<(), Failure> {
        let named = |known: &'static [&'static str]| known.iter().find(|known| **known == name);
        if let Some(known) = named(options.plain) {
            if value.is_some() {
                return Err(Failure::usage(format!("option {name} takes no value")));
            }
            self.given.insert(known);
        } else if let Some(known) = named(options.valued) {
            let value = value.or_else(|| words.next());
            let value =
                value.ok_or_else(|| Failure::usage(format!("option {name} needs a value")))?;
            if self.values.insert(known, value).is_some() {
                return Err(Failure::usage(format!("option {name} is given twice")));
            }
        } else if options.has(&format!("-{name}")) {
            return Err(Failure::usage(format!(
                "unknown option {name}: write -{name}"
            )));
        } else {
            return Err(Failure::usage(format!("unknown option {name}")));
        }
        Ok(())
    }

    /// Whether an option without a value was given.
    pub fn has(&self, name: &str) -> bool {
        self.given.contains(name)
    }

    /// The value of an option, if it was given.
    pub fn value(&self, name: &str) -> Option<&OsStr> {
        self.values.get(name).map(OsString::as_os_str)
    }

    /// The number that an option gives, if it was given.
    pub fn number<N: FromStr>(&self, name: &str) -> Result<Option<N>, Failure> {
        let Some(value) = self.value(name) else {
            return Ok(None);
        };
        let number = value.to_str().and_then(|text| text.parse().ok());
        number.map(Some).ok_or_else(|| {
            let shown = value.to_string_lossy();
            Failure::usage(format!("{name}: '{shown}' is not a number that fits"))
        })
    }

    /// The image and the operands behind it.
    pub fn image(&self) -> Result<(&Path, &[OsString]), Failure> {
        match self.operands.split_first() {
            Some((image, _)) if image == "-" => Err(Failure::usage(
                "an image is a file: standard input or output cannot be one",
            )),
            Some((image, rest)) => Ok((Path::new(image), rest)),
            None => Err(Failure::usage("name the cartridge image")),
        }
    }

    /// The image, where nothing may follow.
    pub fn only_image(&self) -> Result<&Path, Failure> {
        let (image, rest) = self.image()?;
        nothing_more(rest)?;
        Ok(image)
    }

    /// Refuses operands where there may be none.
    pub fn no_operands(&self) -> Result<(), Failure> {
        nothing_more(&self.operands)
    }
}

/// Refuses operands behind those that are known.
fn nothing_more(rest: &[OsString]) -> Result<(), Failure> {
    match rest.first() {
        None => Ok(()),
        Some(word) => {
            let shown = word.to_string_lossy();
            Err(Failure::usage(format!("unexpected operand '{shown}'")))
        }
    }
}

/// Whether a word is taken for an option, unless `--` stands before it.
pub fn is_option(word: &OsStr) -> bool {
    word.len() > 1 && word.as_bytes().starts_with(b"-")
}

/// A one-letter option and the value right behind it, if that is what the
/// word is. A long option that lacks a dash is none: `-overwrite` would write
/// to the file `verwrite`.
fn attached(word: &OsStr, options: Options) -> Option<(&OsStr, Option<OsString>)> {
    let (name, _) = split(word);
    if options.has(&format!("-{}", name.to_string_lossy())) {
        return None;
    }
    let (letter, value) = word.as_bytes().split_at_checked(2)?;
    let letter = OsStr::from_bytes(letter);
    let known = options.valued.iter().any(|known| letter == *known);
    let behind = !value.is_empty() && !value.starts_with(b"=");
    (known && behind).then(|| (letter, Some(OsStr::from_bytes(value).to_os_string())))
}

/// An option's name and the value behind `=`, which may be any bytes.
fn split(word: &OsStr) -> (&OsStr, Option<OsString>) {
    let bytes = word.as_bytes();
    let mut parts = bytes.splitn(2, |byte| *byte == b'=');
    let name = OsStr::from_bytes(parts.next().unwrap_or(bytes));
    let value = parts.next().map(OsStr::from_bytes);
    (name, value.map(OsStr::to_os_string))
}

#[cfg(test)]
mod tests {
    use super::*;

    const OPTIONS: Options = Options {
        valued: &["--faults", "--output", "-o"],
        plain: &["--overwrite"],
    };

    fn parse(words: &[&str]) -> Result<Arguments, Failure> {
        Arguments::parse(words.iter().map(OsString::from), OPTIONS)
    }

    #[test]
    fn operands_and_options() {
        let words = [
            "a.adr",
            "--faults",
            "7",
            "-",
            "--overwrite",
            "-o=x",
            "--",
            "--x",
        ];
        let arguments = parse(&words).expect("known options");
        let (image, rest) = arguments.image().expect("an image");
        assert_eq!(image, Path::new("a.adr"));
        assert_eq!(rest, ["-", "--x"]);
        assert_eq!(arguments.number::<u64>("--faults").ok(), Some(Some(7)));
        assert_eq!(arguments.value("-o"), Some(OsStr::new("x")));
        assert!(arguments.has("--overwrite"));
    }

    #[test]
    fn wrong_words() {
        for words in [
            &["--unknown"][..],
            &["-x"],
            &["--faults"],
            &["--overwrite=1"],
            &["--faults", "1", "--faults=2"],
            &["-ox", "-o", "y"],
            &["-overwrite"],
            &["-output", "x"],
            &["-output=x"],
            &["-faults7"],
        ] {
            assert!(matches!(parse(words), Err(Failure::Usage(_))), "{words:?}");
        }
        let arguments = parse(&["--faults=x"]).expect("a value");
        assert!(arguments.number::<u64>("--faults").is_err());
        assert!(arguments.image().is_err());
    }

    #[test]
    fn values_of_any_bytes() {
        for word in [&b"-o=\xFF=x"[..], b"-o\xFF=x"] {
            let word = OsStr::from_bytes(word).to_os_string();
            let arguments = Arguments::parse([word], OPTIONS).expect("a value");
            assert_eq!(arguments.value("-o"), Some(OsStr::from_bytes(b"\xFF=x")));
            assert!(arguments.no_operands().is_ok());
        }
        let word = OsStr::from_bytes(b"-\xFF").to_os_string();
        assert!(Arguments::parse([word], OPTIONS).is_err());
    }
}
