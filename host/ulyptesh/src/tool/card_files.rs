//! The card files that a word names: the file itself, or those of a folder.
use super::failure::{Failure, refused_about};
use super::samples::STANDARD_INPUT;
use std::ffi::{OsStr, OsString};
use std::fs;
use std::io;
use std::path::{Path, PathBuf};

/// A file; or a folder of which none is taken, and why.
pub type Found = Result<OsString, (OsString, Failure)>;

/// Whether a file of a folder is a card by its name, as the shell finds *.card.
fn is_named_card(name: &OsStr) -> bool {
    let bytes = name.as_encoded_bytes();
    bytes.ends_with(b".card") && !bytes.starts_with(b".")
}

/// The cards in a folder, by name; folders below it are left alone.
fn in_folder(folder: &Path) -> io::Result<Vec<OsString>> {
    let entries = fs::read_dir(folder)?.collect::<io::Result<Vec<_>>>()?;
    let named = entries.iter().filter(|entry| is_named_card(&entry.file_name())).map(|entry| entry.path());
    let mut cards: Vec<OsString> = named.filter(|path| !path.is_dir()).map(PathBuf::into_os_string).collect();
    cards.sort();
    Ok(cards)
}

/// The files that a word names.
pub fn named_by(word: &OsStr) -> Vec<Found> {
    if word == STANDARD_INPUT || !Path::new(word).is_dir() {
        return vec![Ok(word.into())];
    }
    let failed = |why: String| vec![Err((word.into(), refused_about(word, why)))];
    match in_folder(Path::new(word)) {
        Ok(cards) if cards.is_empty() => failed("there are no cards: no file in it is named *.card".into()),
        Ok(cards) => cards.into_iter().map(Ok).collect(),
        Err(why) => failed(why.to_string()),
    }
}

#[cfg(test)]
mod tests {
    use super::*;

    #[test]
    fn cards_are_named_as_the_shell_finds_them() {
        for name in ["a.card", "a.b.card", "a b.card", "-.card"] {
            assert!(is_named_card(OsStr::new(name)), "{name}");
        }
        for name in ["card", ".card", ".a.card", "a.card.partial", "a.svg", "acard", "a.CARD", ""] {
            assert!(!is_named_card(OsStr::new(name)), "{name}");
        }
    }

    #[test]
    fn a_word_that_is_no_folder_names_itself() {
        for word in ["-", "nowhere/at/all", "/dev/null", ""] {
            let found = named_by(OsStr::new(word));
            assert!(matches!(&found[..], [Ok(file)] if file == word), "{word}");
        }
    }
}
