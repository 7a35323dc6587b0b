//! Many tracks in one run of the tool, beside a run for each: the same answers and cards, in whatever order, and
//! the failed ones named.
use crate::groups::{Groups, compared_as_shown};
use crate::tool_runs::{Folder, text};
use bench::inputs::dice::Dice;
use bench::inputs::tracks::{KINDS, Maker};

/// Streams of the seed from here on.
const STREAM: u64 = 101_000;

/// A run of the tool on all files with so many jobs, in one form.
#[derive(Debug, Clone, Copy)]
struct Library {
    jobs: &'static str,
    form: &'static str,
}

/// What a run shows: its answers in order of their text, cards by file, whether its end names the failed ones.
#[derive(Debug, PartialEq)]
struct Shown {
    status: Option<i32>,
    answers: Vec<String>,
    cards: Vec<Option<Vec<u8>>>,
    named: bool,
}

compared_as_shown!(Library, Shown);

const LIBRARIES: [Library; 6] = [
    Library { jobs: "1", form: "--json-lines" },
    Library { jobs: "2", form: "--json-lines" },
    Library { jobs: "9", form: "--json-lines" },
    Library { jobs: "1", form: "--key-only" },
    Library { jobs: "3", form: "--key-only" },
    Library { jobs: "64", form: "--json-lines" },
];

const GOOD: usize = 9;

/// Tracks of this kind are refused.
const SPOILT: &str = "not finite here and there";

const FAILED: [&str; 2] = ["missing.f32", "odd.f32"];

fn name(nth: usize) -> String {
    format!("{nth}.f32")
}

/// A track of each kind, and one that can't be read.
fn filled(seed: u64) -> Folder {
    let folder = Folder::new("tool-libraries");
    let kinds = KINDS.iter().filter(|kind| kind.name != SPOILT).cycle();
    for (nth, kind) in (0..GOOD).zip(kinds) {
        let mut maker = Maker { dice: Dice::new(seed, STREAM + nth as u64), rate: 8_000 };
        folder.put_samples(&name(nth), &(kind.make)(&mut maker, 16_000));
    }
    folder.put("odd.f32", &[0; 15]);
    folder.make_folder("cards");
    folder
}

/// Good and failing tracks in turn.
fn files() -> Vec<String> {
    let mut files: Vec<String> = (0..GOOD).map(name).collect();
    files.insert(0, FAILED[0].into());
    files.insert(5, FAILED[1].into());
    files
}

fn sorted_lines(printed: &[u8]) -> Vec<String> {
    let mut lines: Vec<String> = text(printed).lines().map(Into::into).collect();
    lines.sort();
    lines
}

fn cards(folder: &Folder) -> Vec<Option<Vec<u8>>> {
    (0..GOOD).map(|nth| folder.read(&format!("cards/{nth}.card"))).collect()
}

fn all_at_once(seed: u64, library: Library) -> Shown {
    let (folder, files) = (filled(seed), files());
    let mut words =
        vec!["analyse", "--rate", "8000", library.form, "--jobs", library.jobs, "--cards", "cards"];
    words.extend(files.iter().map(String::as_str));
    let ended = folder.run(&words);
    let said = text(&ended.stderr);
    let last = said.lines().last().unwrap_or_default();
    let named =
        last.starts_with("ulyptesh: 2 of 11 failed: ") && FAILED.iter().all(|name| last.contains(name));
    Shown {
        status: ended.status.code(),
        answers: sorted_lines(&ended.stdout),
        cards: cards(&folder),
        named: named && said.lines().count() == 3,
    }
}

/// The same by a run for each track that can be read.
fn one_by_one(seed: u64, library: Library) -> Shown {
    let (folder, mut printed) = (filled(seed), vec![]);
    for nth in 0..GOOD {
        let (file, card) = (name(nth), format!("cards/{nth}.card"));
        let ended = folder.run(&["analyse", &file, "--rate", "8000", library.form, "--card", &card]);
        assert!(ended.status.success(), "{}", text(&ended.stderr));
        let behind = if library.form == "--key-only" { format!("\t{file}") } else { String::new() };
        printed.extend(format!("{}{behind}\n", text(&ended.stdout).trim_end()).into_bytes());
    }
    Shown { status: Some(1), answers: sorted_lines(&printed), cards: cards(&folder), named: true }
}

pub fn compare(groups: &mut Groups) {
    let seed = groups.seed;
    groups.group(
        "many tracks in one run of the tool",
        LIBRARIES.into_iter(),
        |library| all_at_once(seed, library),
        |library| one_by_one(seed, library),
    );
}
