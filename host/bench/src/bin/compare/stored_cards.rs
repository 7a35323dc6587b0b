//! Cards of a version before 0.2.0, whose milliseconds are the nearest, replayed: they read, list and are written again
//! as then; their analyses, written today, have the same cards but for ends that the nearest had put too late.
use crate::analyses::Told;
use crate::card_calls::{Read, Reading};
use crate::card_model::{Meaning, Segment};
use crate::cards::{Left, written};
use crate::groups::{Compared, Groups};
use crate::lister::{listed, printed, program};
use crate::packed::exact_milliseconds;
use crate::tool_runs::{Folder, output_on};
use std::fmt::Debug;
use std::iter::once;
use std::str::FromStr;

/// Paragraphs: what they are, then one for each card.
const CARDS: &str = include_str!("../../../data/cards_to_nearest.txt");

/// A name, an analysis, its card, what was read of that, and what the lister printed.
struct Stored {
    name: &'static str,
    told: Told,
    bytes: Vec<u8>,
    said: Meaning,
    printed: String,
}

/// By their names, which differ.
impl Compared for &Stored {
    fn same(&self, other: &Self) -> bool {
        self.name == other.name
    }

    fn shown(&self) -> String {
        self.name.into()
    }
}

fn number<A: FromStr<Err: Debug>>(word: &str) -> A {
    word.parse().expect("a number")
}

/// The words of a line, as many as its kind has.
fn words<const N: usize>(line: &str) -> [&str; N] {
    let words: Vec<&str> = line.split(' ').collect();
    words.try_into().expect("as many words as the line's kind has")
}

/// A part's first line, and the lines of its segments.
fn lines(part: &str) -> (&str, Vec<[&str; 3]>) {
    let (first, segments) = part.split_once('\n').unwrap_or((part, ""));
    (first, segments.lines().map(words).collect())
}

fn told(part: &str) -> Told {
    let (first, segments) = lines(part);
    let [key, dsp_key, alternate, coverage, confidence] = words(first);
    let ends: Vec<f64> = segments.iter().map(|words| number(words[0])).collect();
    Told {
        key: number(key),
        dsp_key: number(dsp_key),
        alternate: number(alternate),
        coverage: number(coverage),
        confidence: number(confidence),
        starts: once(0.0).chain(ends.iter().copied()).take(ends.len()).collect(),
        ends,
        keys: segments.iter().map(|words| number(words[1])).collect(),
        confidences: segments.iter().map(|words| number(words[2])).collect(),
        lent: 0,
    }
}

fn said(part: &str) -> Meaning {
    let (first, segments) = lines(part);
    let [key, dsp_key, alternate, coverage, confidence] = words(first).map(number);
    let segment = |line: [&str; 3]| {
        let [end, key, confidence] = line.map(number);
        Segment { end, key, confidence }
    };
    Meaning {
        key,
        dsp_key,
        alternate,
        coverage,
        confidence,
        segments: segments.into_iter().map(segment).collect(),
    }
}

fn bytes(hex: &str) -> Vec<u8> {
    let byte = |at| u8::from_str_radix(&hex[at..at + 2], 16).expect("two digits");
    (0..hex.len()).step_by(2).map(byte).collect()
}

impl Stored {
    fn new(card: &'static str) -> Self {
        let cut = |at: &str, text: &'static str| text.split_once(at).expect("a card has all its parts");
        let (name, rest) = cut("\ntold ", card);
        let (analysis, rest) = cut("\nbytes ", rest);
        let (hex, rest) = cut("\nread ", rest);
        let (read, printed) = cut("\nprinted\n", rest);
        let printed = format!("{}\n", printed.trim_end());
        Self { name, told: told(analysis), bytes: bytes(hex), said: said(read), printed }
    }

    fn read(&self) -> Read {
        Reading::new(self.bytes.clone(), self.said.segments.len(), [0; 4]).ours()
    }

    /// What is said today of the analysis: an end is a millisecond less where it was after the time.
    fn said_today(&self) -> Meaning {
        let today = |(segment, &end): (&Segment, &f64)| Segment {
            end: segment.end - u64::from(exact_milliseconds(end) < segment.end),
            ..*segment
        };
        let segments = self.said.segments.iter().zip(&self.told.ends).map(today).collect();
        Meaning { segments, ..self.said.clone() }
    }
}

fn stored() -> Vec<Stored> {
    CARDS.split("\n\n").skip(1).map(Stored::new).collect()
}

fn compare_read(groups: &mut Groups, cards: &[Stored]) {
    let wanted = |card: &Stored| Read::wanted(&card.said, card.bytes.clone());
    groups.group("stored cards read", cards.iter(), Stored::read, wanted);
    let again = |card: &Stored| card.read().to_write(card.bytes.len()).ours();
    let same = |card: &Stored| Left::wanted(card.bytes.len(), Some(card.bytes.clone()));
    groups.group("stored cards written again", cards.iter(), again, same);
}

fn compare_printed(groups: &mut Groups, cards: &[Stored]) {
    let folder = Folder::new("stored-cards");
    let by_tool = |card: &Stored| printed(&output_on(folder.command(&["card", "-"]), [&card.bytes[..]]));
    let wanted = |card: &Stored| card.printed.clone();
    groups.group("stored cards, the tool's text", cards.iter(), by_tool, wanted);
    let Some(program) = program() else {
        return println!("stored cards listed: left out, as the program is not there");
    };
    let by_program = |card: &Stored| listed(&program, &card.bytes);
    groups.group("stored cards listed", cards.iter(), by_program, wanted);
}

/// A group without inputs fails, so there are cards of both kinds.
fn compare_today(groups: &mut Groups, cards: &[Stored]) {
    let is_other = |card: &&Stored| card.said_today() != card.said;
    let (other, same): (Vec<&Stored>, Vec<&Stored>) = cards.iter().partition(is_other);
    let ours = |card: &Stored| written(&card.told, card.bytes.len());
    let wanted = |card: &Stored| Left::wanted(card.bytes.len(), card.said_today().card());
    groups.group("analyses of stored cards, an end earlier today", other.into_iter(), ours, wanted);
    groups.group("analyses of stored cards, the same card today", same.into_iter(), ours, wanted);
}

pub fn compare(groups: &mut Groups) {
    let cards = stored();
    compare_read(groups, &cards);
    compare_printed(groups, &cards);
    compare_today(groups, &cards);
}
