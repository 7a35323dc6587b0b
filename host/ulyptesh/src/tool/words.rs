//! The words behind a command: plain ones, and options.
use super::failure::{Failure, bad_usage, quoted};
use std::ffi::{OsStr, OsString};
use std::os::unix::ffi::OsStrExt;
use std::str::FromStr;

/// Behind this word all words are plain.
const ALL_PLAIN: &str = "--";

/// An option that a command knows, with the dashes, and whether a word belongs to it.
#[derive(Clone, Copy)]
pub struct Known {
    pub name: &'static str,
    pub has_word: bool,
}

/// An option with a word of its own.
pub const fn with_word(name: &'static str) -> Known {
    Known { name, has_word: true }
}

/// An option that stands alone.
pub const fn alone(name: &'static str) -> Known {
    Known { name, has_word: false }
}

/// The words of a command, sorted.
#[derive(Default)]
pub struct Words {
    pub plain: Vec<OsString>,
    options: Vec<(&'static str, OsString)>,
}

/// An option may have its word behind an equals sign.
fn parted(word: &OsStr) -> (&OsStr, Option<&OsStr>) {
    let bytes = word.as_bytes();
    let Some(at) = bytes.iter().position(|&byte| byte == b'=') else { return (word, None) };
    (OsStr::from_bytes(&bytes[..at]), Some(OsStr::from_bytes(&bytes[at + 1..])))
}

/// A dashed word that is not a number; a lone dash is standard input or output.
fn is_dashed(word: &OsStr) -> bool {
    let text = word.to_string_lossy();
    text.len() > 1 && text.starts_with('-') && text.parse::<f64>().is_err()
}

impl Words {
    /// Sorts the words of a command that knows these options.
    pub fn read(given: &[OsString], known: &[Known]) -> Result<Self, Failure> {
        let (mut words, mut later) = (Self::default(), given.iter());
        while let Some(word) = later.next() {
            if word == ALL_PLAIN {
                words.plain.extend(later.by_ref().cloned());
            } else if is_dashed(word) {
                words.take(word, known, &mut later)?;
            } else {
                words.plain.push(word.clone());
            }
        }
        Ok(words)
    }

    fn take<'a>(
        &mut self,
        word: &OsStr,
        known: &[Known],
        later: &mut impl Iterator<Item = &'a OsString>,
    ) -> Result<(), Failure> {
        let (name, joined) = parted(word);
        let Some(&Known { name, has_word }) = known.iter().find(|option| name == option.name) else {
            return Err(bad_usage(format!("{} is not an option of this command", quoted(word))));
        };
        if self.has(name) {
            return Err(bad_usage(format!("{name} is given twice")));
        }
        let value = match (has_word, joined) {
            (true, Some(joined)) => joined.to_os_string(),
            (true, None) => {
                let next = later.next().cloned();
                next.ok_or_else(|| bad_usage(format!("{name} needs a word behind it")))?
            }
            (false, None) => OsString::new(),
            (false, Some(_)) => return Err(bad_usage(format!("{name} takes no word"))),
        };
        self.options.push((name, value));
        Ok(())
    }

    /// Whether an option is given.
    pub fn has(&self, name: &str) -> bool {
        self.word(name).is_some()
    }

    /// The word of an option, where it is given.
    pub fn word(&self, name: &str) -> Option<&OsStr> {
        self.options.iter().find(|option| option.0 == name).map(|option| option.1.as_os_str())
    }

    /// The value of an option's word, where it is given; told in words what it has to be.
    pub fn value<A: FromStr>(&self, name: &str, what: &str) -> Result<Option<A>, Failure> {
        self.word(name).map(|word| value(word, what)).transpose()
    }
}

/// The value of a word, told in words what it has to be.
pub fn value<A: FromStr>(word: &OsStr, what: &str) -> Result<A, Failure> {
    let read = word.to_str().and_then(|word| word.parse().ok());
    read.ok_or_else(|| bad_usage(format!("{} is not {what}", quoted(word))))
}
