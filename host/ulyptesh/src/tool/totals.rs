//! The command that adds up the keys of key cards.
use super::asked::{self, Form, Target};
use super::bars::svg;
use super::card_files::{Found, named_by};
use super::cards::bytes;
use super::failure::{Failure, bad_usage, refused_about, shown};
use super::json::{self, Layout};
use super::outputs::{Prepared, place_of};
use super::ranking::lines;
use super::report::Report;
use super::words::{Known, Words, alone, with_word};
use std::ffi::{OsStr, OsString};
use ulyptesh::{CardSet, Notation, Refusal, SetTotals};

pub const OPTIONS: [Known; 4] =
    [alone("--json"), alone("--json-lines"), with_word("--notation"), with_word("--svg")];

/// Any number of cards: those of the set at hand, and the totals of all sets that were full.
#[derive(Default)]
struct Gathered {
    set: CardSet,
    before: SetTotals,
}

impl Gathered {
    fn totals(&self) -> SetTotals {
        self.before + self.set.totals()
    }

    /// Where the set is full, the card is the first of another.
    fn add(&mut self, card: &[u8]) -> Result<(), Refusal> {
        let mut added = self.set.add(card);
        if added == Err(Refusal::SetFull) {
            *self = Self { before: self.totals(), set: CardSet::new() };
            added = self.set.add(card);
        }
        added.map(drop)
    }

    fn add_file(&mut self, file: &OsStr) -> Result<(), Failure> {
        let card = bytes(file).map_err(|why| refused_about(file, why))?;
        self.add(&card).map_err(|why| refused_about(file, why))
    }
}

/// One call of `totals`.
struct Asked {
    names: Vec<OsString>,
    form: Form,
    notation: Option<Notation>,
    svg: Target,
}

impl Asked {
    fn read(words: &Words) -> Result<Self, Failure> {
        let (names, notation) = (asked::files(words)?, asked::notation(words)?);
        let svg = Target::of_one(words, "--svg")?;
        let forms = [&asked::json_forms(words)[..], &[(svg.is_printed(), Form::Svg)]].concat();
        let form = asked::form_of(&forms, "--json, --json-lines and a picture to standard output")?;
        if notation.is_some() && form != Form::Text {
            return Err(bad_usage("--notation goes with text"));
        }
        Ok(Self { names, form, notation, svg })
    }

    /// The files that are named, of which none is the one that is written.
    fn found(&self) -> Result<Vec<Found>, Failure> {
        let found: Vec<Found> = self.names.iter().flat_map(|name| named_by(name)).collect();
        if let Target::File(place) = &self.svg {
            let (files, written): (Vec<OsString>, _) =
                (found.iter().flatten().cloned().collect(), place_of(place));
            asked::not_written(&files, |read| read == written)?;
        }
        Ok(found)
    }

    fn picture(&self, told: &SetTotals) -> Vec<u8> {
        let names: Vec<String> = self.names.iter().map(|name| shown(name)).collect();
        svg(&names.join(", "), told).into_bytes()
    }

    fn printed(&self, told: &SetTotals, failed: usize) -> Vec<u8> {
        match self.form {
            Form::Json => format!("[{}]\n", json::totals(told, failed, Layout::Lines)).into_bytes(),
            Form::JsonLines => format!("{}\n", json::totals(told, failed, Layout::OneLine)).into_bytes(),
            Form::Svg => self.picture(told),
            _ => format!("{}\n", lines(told, self.notation).join("\n")).into_bytes(),
        }
    }

    /// The picture beside its place, where it is asked for; then the answer; then the picture is put there.
    fn answer(&self, told: &SetTotals, failed: usize, report: &Report) -> Result<(), Failure> {
        let mut prepared = Prepared::default();
        if let Target::File(place) = &self.svg {
            prepared.add(place, &self.picture(told))?;
        }
        if report.answer(&self.printed(told, failed)) { prepared.put() } else { Ok(()) }
    }
}

/// The totals of all files that are cards; others are told.
fn gathered(found: Vec<Found>, report: &Report) -> SetTotals {
    let mut gathered = Gathered::default();
    for one in found {
        let added = one.and_then(|file| {
            report.begin(&file);
            gathered.add_file(&file).map_err(|failure| (file, failure))
        });
        match added {
            Ok(()) => report.take(),
            Err((name, failure)) => report.fail(&name, failure),
        }
    }
    gathered.totals()
}

pub fn run(words: Words) -> Result<(), Failure> {
    let asked = Asked::read(&words)?;
    let found = asked.found()?;
    // there is one answer, whatever its form
    let (count, report) = (found.len(), Report::new(found.len(), Form::Text));
    let told = gathered(found, &report);
    if told.cards > 0
        && let Err(failure) = asked.answer(&told, count - told.cards as usize, &report)
    {
        report.stop(failure);
    }
    report.close()
}
