//! The command that reads key cards.
use super::asked::{self, Form};
use super::failure::{Failure, bad_usage, refused_about, shown};
use super::json::{self, Layout};
use super::report::Report;
use super::samples::STANDARD_INPUT;
use super::words::{Known, Words, alone, with_word};
use std::ffi::{OsStr, OsString};
use std::fs::File;
use std::io::{self, Read};
use ulyptesh::calls::LONGEST_CARD;
use ulyptesh::{Card, Notation, Refusal};

pub const OPTIONS: [Known; 3] = [alone("--json"), alone("--json-lines"), with_word("--notation")];

/// One call of `card`.
struct Asked {
    files: Vec<OsString>,
    form: Form,
    notation: Notation,
}

impl Asked {
    fn read(words: &Words) -> Result<Self, Failure> {
        let (files, notation) = (asked::files(words)?, asked::notation(words)?);
        let form = asked::form_of(&asked::json_forms(words), "--json and --json-lines")?;
        if notation.is_some() && form != Form::Text {
            return Err(bad_usage("--notation goes with text"));
        }
        Ok(Self { files, form, notation: notation.unwrap_or(Notation::Sharps) })
    }

    /// What is printed about a card; text as a deck's lister has it, of several under the name of its file.
    fn printed(&self, file: &OsStr, read: &Result<Card, Refusal>) -> String {
        let name = file.to_string_lossy();
        match (self.form, read) {
            (Form::Json, _) => json::card(&name, read, Layout::Lines),
            (Form::JsonLines, _) => format!("{}\n", json::card(&name, read, Layout::OneLine)),
            (_, Ok(card)) => format!("{}{}\n", self.heading(file), card.listing(self.notation)),
            (_, Err(why)) => format!("{}refused {}\n", self.heading(file), why.number()),
        }
    }

    fn heading(&self, file: &OsStr) -> String {
        if self.files.len() > 1 { format!("{}:\n", shown(file)) } else { String::new() }
    }
}

/// The bytes of a file; of one that is longer than any card, one more than the longest has.
pub fn bytes(file: &OsStr) -> io::Result<Vec<u8>> {
    let from: Box<dyn Read> =
        if file == STANDARD_INPUT { Box::new(io::stdin()) } else { Box::new(File::open(file)?) };
    let mut bytes = vec![];
    from.take(LONGEST_CARD as u64 + 1).read_to_end(&mut bytes)?;
    Ok(bytes)
}

/// Shows one card; a refused one is shown too, and counts as failed.
fn show(asked: &Asked, file: &OsStr, report: &Report) {
    let read = match bytes(file) {
        Ok(bytes) => Card::read(&bytes),
        Err(why) => return report.fail(file, refused_about(file, why)),
    };
    report.answer(asked.printed(file, &read).as_bytes());
    if let Err(why) = read {
        report.fail_late(file, refused_about(file, why));
    }
}

pub fn run(words: Words) -> Result<(), Failure> {
    let asked = Asked::read(&words)?;
    let report = Report::new(asked.files.len(), asked.form);
    for file in asked.files.iter().take_while(|_| report.goes_on()) {
        show(&asked, file, &report);
    }
    report.close()
}
