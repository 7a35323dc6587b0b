//! The tool's `totals`: text, JSON and picture beside the sums of what the cards say by the request's words.
use crate::analyses::kinds;
use crate::card_breaches::good;
use crate::card_model::Meaning;
use crate::card_reads::{ROW_O, ROW_P};
use crate::groups::{Groups, compared_as_shown};
use crate::json::Json;
use crate::key_names::{CAMELOT, name};
use crate::set_model::{PLACE, fitting, summary_of};
use crate::tool_json::objects;
use crate::tool_runs::{Folder, text};
use crate::tool_totals_files;
use bench::inputs::dice::Dice;
use std::array::from_fn;
use std::cmp::Reverse;

/// Streams of the seed from here on.
const STREAM: u64 = 480_000;

/// So many folders are made, of up to so many cards.
const FOLDERS: usize = 24;
const CARDS: usize = 60;

/// The text's longest bar.
const LONGEST_BAR: u128 = 40;

/// What all cards add up to.
#[derive(Debug, Clone, PartialEq)]
pub struct Totals {
    keys: [u64; 24],
    pub cards: u64,
    without_key: u64,
}

/// Why a file is not counted, by number; none where it is.
pub fn refusal(bytes: &[u8]) -> Option<u32> {
    fitting(bytes).err()
}

/// Hours, minutes and seconds, to the nearest second.
fn time(milliseconds: u64) -> String {
    let seconds = milliseconds / 1_000 + u64::from(milliseconds % 1_000 >= 500);
    format!("{}:{:02}:{:02}", seconds / 3_600, seconds % 3_600 / 60, seconds % 60)
}

impl Totals {
    /// Of all files that are cards.
    pub fn of(files: &[Vec<u8>]) -> Self {
        let said: Vec<Meaning> = files.iter().filter_map(|bytes| fitting(bytes).ok()).collect();
        let summary = summary_of(said.iter());
        let [cards, without_key] = [24, 25].map(|at| summary[at]);
        Self { keys: from_fn(|key| summary[key]), cards, without_key }
    }

    fn all(&self) -> u64 {
        self.keys.iter().sum()
    }

    /// Key numbers, the largest total first and equal ones by number.
    fn order(&self) -> Vec<usize> {
        let mut order: Vec<usize> = (0..24).collect();
        order.sort_by_key(|&key| (Reverse(self.keys[key]), key));
        order
    }

    /// Those that sound.
    fn sounding(&self) -> Vec<usize> {
        self.order().into_iter().filter(|&key| self.keys[key] > 0).collect()
    }

    /// The line on all cards.
    pub fn counted(&self) -> String {
        let Self { cards, without_key, .. } = self;
        let cards = if *cards == 1 { "1 card".into() } else { format!("{cards} cards") };
        format!("{cards}, {without_key} without a key, {} in all", time(self.all()))
    }

    /// Name with code and time of each key that sounds.
    fn rows(&self) -> Vec<[String; 2]> {
        let row = |key: usize| [format!("{} ({})", named(key), CAMELOT[key]), time(self.keys[key])];
        self.sounding().into_iter().map(row).collect()
    }

    /// The object that docs/JSON.md tells, of so many files that are not counted.
    pub fn object(&self, failed: usize) -> Json {
        let number = |number: u64| Json::Number(number.to_string());
        let share = |key: usize| match self.all() {
            0 => Json::Null,
            all => Json::Number(format!("{:?}", self.keys[key] as f64 / all as f64)),
        };
        let total = |key: usize| {
            object([
                ("key", Json::Text(named(key))),
                ("key_number", number(key as u64)),
                ("camelot", Json::Text(CAMELOT[key].into())),
                ("total_ms", number(self.keys[key])),
                ("share", share(key)),
            ])
        };
        object([
            ("version", number(1)),
            ("cards", number(self.cards)),
            ("without_key", number(self.without_key)),
            ("failed", number(failed as u64)),
            ("total_ms", number(self.all())),
            ("keys", Json::List(self.order().into_iter().map(total).collect())),
        ])
    }
}

fn named(key: usize) -> String {
    name(key as u32).expect("a key")
}

fn object<const N: usize>(fields: [(&str, Json); N]) -> Json {
    Json::Object(fields.map(|(name, value)| (name.to_string(), value)).to_vec())
}

/// How a run ended, its rows, whether each row's share and bar are as they have to be, and what is said of all cards.
#[derive(Debug, PartialEq)]
struct Shown {
    status: Option<i32>,
    rows: Vec<[String; 2]>,
    fits: Vec<[bool; 2]>,
    counted: String,
}

compared_as_shown!(Shown);

impl Shown {
    fn wanted(told: &Totals) -> Self {
        let rows = told.rows();
        Self { status: Some(0), fits: vec![[true; 2]; rows.len()], rows, counted: told.counted() }
    }
}

/// Whether a share is the nearest tenth of a percent.
fn share_fits(share: &str, part: u64, all: u64) -> bool {
    let tenths = share.strip_suffix(" %").and_then(|share| share.replace('.', "").parse::<u128>().ok());
    tenths.is_some_and(|tenths| 2 * (tenths * all as u128).abs_diff(1_000 * part as u128) <= all as u128)
}

/// Whether a bar has the nearest number of marks, and one at least.
fn bar_fits(bar: &str, part: u64, largest: u64) -> bool {
    let (marks, part, largest) = (bar.len() as u128, part as u128, largest as u128);
    let nearest = marks > 0 && 2 * (marks * largest).abs_diff(LONGEST_BAR * part) <= largest;
    bar.chars().all(|mark| mark == '#') && (nearest || (marks == 1 && LONGEST_BAR * part < largest))
}

/// A folder with these files under the name of cards.
pub fn filled(files: &[Vec<u8>]) -> Folder {
    let folder = Folder::new("tool-totals");
    folder.make_folder("cards");
    files.iter().enumerate().for_each(|(nth, bytes)| folder.put(&file_name(nth), bytes));
    folder
}

pub fn file_name(nth: usize) -> String {
    format!("cards/{nth:05}.card")
}

/// The text of a run: name, time, share and bar of each key, with blanks between them.
fn as_text(files: &[Vec<u8>]) -> Shown {
    let (ended, told) = (filled(files).run(&["totals", "cards"]), Totals::of(files));
    let printed = text(&ended.stdout);
    let (rows, counted) =
        printed.trim_end_matches('\n').rsplit_once('\n').unwrap_or(("", printed.trim_end()));
    let cells = rows.lines().map(|line| line.split("  ").map(str::trim).filter(|cell| !cell.is_empty()));
    let cells: Vec<Vec<&str>> = cells.map(Iterator::collect).collect();
    let cell = |row: &[&str], nth: usize| row.get(nth).copied().unwrap_or_default().to_string();
    let largest = told.keys.into_iter().max().unwrap_or_default();
    let fits = cells.iter().zip(told.sounding()).map(|(row, key)| {
        [
            share_fits(&cell(row, 2), told.keys[key], told.all()),
            bar_fits(&cell(row, 3), told.keys[key], largest),
        ]
    });
    Shown {
        status: ended.status.code(),
        fits: fits.collect(),
        rows: cells.iter().map(|row| [cell(row, 0), cell(row, 1)]).collect(),
        counted: counted.into(),
    }
}

/// The parts of a text between two marks.
fn between<'a>(text: &'a str, first: &'a str, last: &'a str) -> impl Iterator<Item = &'a str> {
    text.split(first).skip(1).filter_map(move |behind| behind.split(last).next())
}

/// The picture of a run: name, time and share of each key from its bar's title, and how wide the bars are.
fn as_picture(files: &[Vec<u8>]) -> Shown {
    let (ended, told) = (filled(files).run(&["totals", "cards", "--svg", "-"]), Totals::of(files));
    let picture = text(&ended.stdout);
    let titles: Vec<Vec<&str>> =
        between(&picture, "<title>", "</title>").map(|title| title.split(", ").collect()).collect();
    let bars =
        between(&picture, "</text><rect ", "/>").filter_map(|bar| between(bar, "width=\"", "\"").next());
    let widths: Vec<f64> = bars.filter_map(|width| width.parse().ok()).collect();
    let (keys, widest) = (told.sounding(), widths.first().copied().unwrap_or_default());
    let fits = keys.iter().zip(&titles).zip(&widths).map(|((&key, title), width)| {
        let wanted = widest * told.keys[key] as f64 / told.keys[keys[0]] as f64;
        [share_fits(title[2], told.keys[key], told.all()), (width - wanted).abs() <= 0.051]
    });
    let counted = told.counted();
    let is_told = picture.contains(&format!(">cards: {counted}</text>"));
    Shown {
        status: ended.status.code(),
        fits: fits.collect(),
        rows: titles.iter().map(|title| [title[0], title[1]].map(String::from)).collect(),
        counted: if is_told { counted } else { String::new() },
    }
}

/// The objects of a run, and whether it ended with 0.
fn as_json(files: &[Vec<u8>], form: &str) -> (bool, Vec<Json>) {
    let ended = filled(files).run(&["totals", form, "cards"]);
    (ended.status.success(), objects(&text(&ended.stdout), form))
}

/// Cards of every number of segments that a set takes, in either layout.
pub fn pool(seed: u64) -> Vec<Vec<u8>> {
    let fitting = kinds(PLACE).into_iter().filter(|(layout, count)| layout.length_of(*count) <= PLACE);
    fitting.zip(STREAM..).map(|(kind, stream)| good(seed, stream, kind).joined(kind.0)).collect()
}

/// Cards of the pool, equal ones among them, and rows o and p.
fn folders(seed: u64) -> Vec<Vec<Vec<u8>>> {
    let (pool, mut dice) = (pool(seed), Dice::new(seed, STREAM));
    let mut random = |_| (0..1 + dice.below(CARDS)).map(|_| pool[dice.below(pool.len())].clone()).collect();
    let (one, none) = (ROW_O.to_vec(), ROW_P.to_vec());
    let rows = [vec![one.clone()], vec![none.clone()], vec![none.clone(); 3], vec![one.clone(), none, one]];
    rows.into_iter().chain((0..FOLDERS).map(&mut random)).chain([pool.clone()]).collect()
}

pub fn compare(groups: &mut Groups) {
    let folders = folders(groups.seed);
    let wanted = |nth: usize| Shown::wanted(&Totals::of(&folders[nth]));
    groups.group("the tool's totals as text", 0..folders.len(), |nth| as_text(&folders[nth]), wanted);
    groups.group("the tool's totals as a picture", 0..folders.len(), |nth| as_picture(&folders[nth]), wanted);
    for form in ["--json", "--json-lines"] {
        let object = |nth: usize| (true, vec![Totals::of(&folders[nth]).object(0)]);
        let ours = |nth: usize| as_json(&folders[nth], form);
        groups.group(&format!("the tool's totals by {form}"), 0..folders.len(), ours, object);
    }
    tool_totals_files::compare(groups);
}
