//! What the tool writes: files where all went well, nothing where something failed, and an end without a crash in
//! any case.
use crate::card_reads::ROW_O;
use crate::groups::{Groups, compared_as_shown, compared_exactly};
use crate::tool_runs::{Folder, text};
use std::fs::File;
use std::process::Stdio;

/// A device on which nothing fits.
const FULL: &str = "/dev/full";

/// What may be done with the file that is there before.
const PERMITTED: u32 = 0o640;

/// What can be full.
#[derive(Debug, Clone, Copy)]
struct Full {
    words: &'static str,
    stdout: bool,
    stderr: bool,
}

/// How a run ended, and whether files changed.
#[derive(Debug, PartialEq)]
struct Ended {
    status: Option<i32>,
    changes_files: bool,
}

/// Words, and for each file behind them what its content has to be.
#[derive(Debug, Clone, Copy)]
struct Writing {
    words: &'static str,
    cards: &'static [&'static str],
    pictures: &'static [&'static str],
    /// How many names are new in the folder.
    new: usize,
}

compared_as_shown!(Full, Writing);
compared_exactly!(Ended);

const FULL_RUNS: [Full; 14] = [
    Full { words: "analyse good --rate 8000 --card new --svg newer", stdout: true, stderr: false },
    Full { words: "analyse good --rate 8000 --card old", stdout: true, stderr: true },
    Full { words: "analyse good silent --rate 8000 --cards . --json", stdout: true, stderr: false },
    Full { words: "analyse good --rate 8000 --svg -", stdout: true, stderr: false },
    Full { words: "analyse missing good --rate 8000 --cards .", stdout: true, stderr: true },
    Full { words: "analyse missing --rate 8000 --card new", stdout: false, stderr: true },
    Full { words: "demo --svg new --track newer", stdout: true, stderr: true },
    Full { words: "--help", stdout: true, stderr: true },
    Full { words: "card o", stdout: true, stderr: false },
    Full { words: "card o old missing --json", stdout: true, stderr: true },
    Full { words: "card old", stdout: false, stderr: true },
    Full { words: "totals o --svg new", stdout: true, stderr: false },
    Full { words: "totals o old missing --json --svg new", stdout: true, stderr: true },
    Full { words: "totals old", stdout: false, stderr: true },
];

const WRITINGS: [Writing; 9] = [
    Writing {
        words: "analyse good --rate 8000 --card new.card --svg new.svg",
        cards: &["new.card"],
        pictures: &["new.svg"],
        new: 2,
    },
    Writing { words: "analyse good --rate=8000 --card=old", cards: &["old"], pictures: &[], new: 0 },
    Writing { words: "analyse good --rate 8000 --card link --json", cards: &["old"], pictures: &[], new: 0 },
    Writing { words: "analyse good --rate 8000 --card dangling", cards: &["behind"], pictures: &[], new: 1 },
    Writing {
        words: "analyse good silent --rate 8000 --cards within --svgs . --jobs 2",
        cards: &["within/good.card", "within/silent.card"],
        pictures: &["good.svg", "silent.svg"],
        new: 4,
    },
    Writing {
        words: "analyse good --rate 8000 --svg /dev/null --key-only",
        cards: &[],
        pictures: &[],
        new: 0,
    },
    Writing { words: "demo --svg new.svg --track new.f32", cards: &[], pictures: &["new.svg"], new: 2 },
    Writing { words: "totals o --svg new.svg", cards: &[], pictures: &["new.svg"], new: 1 },
    Writing { words: "totals o o --svg link --json", cards: &[], pictures: &["old"], new: 0 },
];

/// A track, a silent one, a card, a file that is there before with a link to it, a link to nothing, and a folder.
fn filled() -> Folder {
    let folder = Folder::new("tool-outputs");
    let tone: Vec<f32> = (0..16_000).map(|place| (place as f32 * 0.2).sin()).collect();
    folder.put_samples("good", &tone);
    folder.put_samples("silent", &[0.0; 16_000]);
    folder.put("o", &ROW_O);
    folder.put("old", b"old");
    folder.permit("old", PERMITTED);
    folder.put_link("link", "old");
    folder.put_link("dangling", "behind");
    folder.make_folder("within");
    folder
}

fn split(words: &str) -> Vec<&str> {
    words.split_whitespace().collect()
}

fn on_full(full: Full) -> Ended {
    let (folder, onto) =
        (
            filled(),
            |full: bool| {
                if full { File::create(FULL).expect("a device").into() } else { Stdio::null() }
            },
        );
    let before = folder.content();
    let ended =
        folder.command(&split(full.words)).stdout(onto(full.stdout)).stderr(onto(full.stderr)).status();
    Ended { status: ended.expect("the tool runs").code(), changes_files: folder.content() != before }
}

/// A card of the first layout.
fn is_card(bytes: &[u8]) -> bool {
    bytes.len() >= 7 && bytes[0] >> 4 == 1
}

fn is_picture(bytes: &[u8]) -> bool {
    bytes.starts_with(b"<svg ") && bytes.ends_with(b"</svg>\n")
}

/// Whether it ends well, every file is what it has to be, links are still links, a file that is replaced may be used
/// as before, and nothing else lies there.
fn writes(writing: Writing) -> [bool; 6] {
    let folder = filled();
    let before = folder.content().len();
    let ended = folder.run(&split(writing.words));
    let all = |names: &[&str], is: fn(&[u8]) -> bool| {
        names.iter().all(|name| folder.read(name).is_some_and(|bytes| is(&bytes)))
    };
    [
        ended.status.success() && ended.stderr.is_empty() && !ended.stdout.is_empty(),
        all(writing.cards, is_card),
        all(writing.pictures, is_picture),
        folder.is_link("link") && folder.is_link("dangling"),
        folder.permissions("old") == PERMITTED,
        folder.content().len() == before + writing.new,
    ]
}

/// What `-` prints is what a file of that name holds, and nothing else.
fn printed_alone(option: &str) -> (Vec<u8>, Vec<u8>) {
    let folder = filled();
    let to_file = folder.run(&["analyse", "good", "--rate", "8000", option, "new"]);
    let printed = folder.run(&["analyse", "good", "--rate", "8000", option, "-"]);
    assert!(to_file.status.success() && printed.status.success(), "{}", text(&printed.stderr));
    (printed.stdout, folder.read("new").unwrap_or_default())
}

/// A card by way of `/dev/stdout` onto a pipe, where the text follows it, and onto a file, which is refused.
fn by_device() -> [bool; 3] {
    let (folder, words) = (filled(), ["analyse", "good", "--rate", "8000", "--card", "/dev/stdout"]);
    let (text_alone, card) = (folder.run(&words[..4]).stdout, printed_alone("--card").0);
    let onto_file = folder.command(&words).stdout(folder.create("new")).stderr(Stdio::null()).status();
    [
        folder.run(&words).stdout == [card, text_alone].concat(),
        onto_file.is_ok_and(|status| status.code() == Some(1)),
        folder.read("new").is_some_and(|bytes| bytes.is_empty()),
    ]
}

/// A track on standard input is not replaced by its card.
fn onto_input() -> [bool; 2] {
    let folder = filled();
    let (before, words) = (folder.read("good"), ["analyse", "-", "--rate", "8000", "--card", "good"]);
    let ended = folder
        .command(&words)
        .stdin(folder.open("good"))
        .stdout(Stdio::null())
        .stderr(Stdio::null())
        .status();
    [ended.is_ok_and(|status| status.code() == Some(1)), folder.read("good") == before]
}

pub fn compare(groups: &mut Groups) {
    let nothing_left = |_| Ended { status: Some(1), changes_files: false };
    groups.group("the tool where outputs are full", FULL_RUNS.into_iter(), on_full, nothing_left);
    groups.group("the tool's files", WRITINGS.into_iter(), writes, |_| [true; 6]);
    let options = ["--card", "--svg"];
    let (ours, wanted) =
        (|nth: usize| printed_alone(options[nth]).0, |nth: usize| printed_alone(options[nth]).1);
    groups.group("the tool's files on standard output", 0..options.len(), ours, wanted);
    groups.group("the tool's card by a device", [0u32].into_iter(), |_| by_device(), |_| [true; 3]);
    groups.group("the tool's card onto its input", [0u32].into_iter(), |_| onto_input(), |_| [true; 2]);
}
