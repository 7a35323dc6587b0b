//! The files that the tool's `totals` counts: cards by name and in folders, more than a set holds, and beside those that
//! are refused or can't be read, which are told.
use crate::card_reads::{ROW_O, ROW_P};
use crate::groups::{Groups, compared_as_shown};
use crate::json::Json;
use crate::lister::{cards, no_cards};
use crate::tool_json::objects;
use crate::tool_runs::{Folder, output_on, text};
use crate::tool_totals::{Totals, file_name, filled, pool, refusal};
use std::process::Output;

/// Cards that come by the thousand are no longer than this.
const SHORT: usize = 40;

/// How a run ended, the objects that it printed, whether each message begins and goes on as it has to and there are no
/// others, and whether files changed.
#[derive(Debug, PartialEq)]
struct Ended {
    status: Option<i32>,
    told: Vec<Json>,
    says: Vec<bool>,
    changes_files: bool,
}

compared_as_shown!(Ended);

/// How a message begins, and what stands further on.
type Message = (String, String);

/// A run in a folder, beside its messages.
fn ended(folder: &Folder, words: &[String], run: impl FnOnce() -> Output, messages: &[Message]) -> Ended {
    let before = folder.content();
    let ended = run();
    let said = text(&ended.stderr);
    let is_so = |(line, (first, then)): (&str, &Message)| {
        line.starts_with(&format!("ulyptesh: {first}")) && line.contains(then)
    };
    let mut says: Vec<bool> = said.lines().zip(messages).map(is_so).collect();
    says.push(said.lines().count() == messages.len());
    let changes_files = folder.content() != before;
    let told = objects(&text(&ended.stdout), &words.join(" "));
    Ended { status: ended.status.code(), told, says, changes_files }
}

/// These totals, beside so many files that are not counted and so many messages; nothing where no card is counted.
fn wanted(counted: &[Vec<u8>], failed: usize, messages: usize) -> Ended {
    let told = Totals::of(counted);
    let object = (told.cards > 0).then(|| told.object(failed));
    Ended {
        status: Some(i32::from(failed > 0)),
        told: object.into_iter().collect(),
        says: vec![true; messages + 1],
        changes_files: false,
    }
}

fn split(words: &str) -> Vec<String> {
    words.split_whitespace().map(Into::into).collect()
}

/// A message for each file that is refused, in order; of several files they are named at the end.
fn messages(files: &[Vec<u8>]) -> Vec<Message> {
    let refused = files.iter().enumerate().filter_map(|(nth, bytes)| Some((file_name(nth), refusal(bytes)?)));
    let mut told: Vec<Message> =
        refused.map(|(name, number)| (format!("{name}: "), format!("(refusal {number})"))).collect();
    if files.len() > 1 && !told.is_empty() {
        let first = told[0].0.trim_end_matches(": ");
        told.push((format!("{} of {} failed: {first}", told.len(), files.len()), String::new()));
    }
    told
}

/// All files of a folder, by JSON.
fn of_folder(files: &[Vec<u8>]) -> Ended {
    let (folder, words) = (filled(files), split("totals cards --json"));
    ended(&folder, &words, || folder.run(&words), &messages(files))
}

fn wanted_of_folder(files: &[Vec<u8>]) -> Ended {
    let failed = files.iter().filter(|bytes| refusal(bytes).is_some()).count();
    wanted(files, failed, messages(files).len())
}

/// A file that is refused alone, between cards, and all such files in one folder with many cards.
fn compare_refused(groups: &mut Groups) {
    let files: Vec<Vec<u8>> = cards(groups.seed).chain(no_cards()).collect();
    let refused: Vec<Vec<u8>> = files.iter().filter(|bytes| refusal(bytes).is_some()).cloned().collect();
    let numbers = [20, 21, 22, 23, 30];
    assert!(numbers.iter().all(|number| refused.iter().any(|bytes| refusal(bytes) == Some(*number))));
    let alone_and_between = |bytes: &Vec<u8>| {
        [vec![bytes.clone()], vec![ROW_O.to_vec(), bytes.clone(), ROW_P.to_vec(), bytes.clone()]]
    };
    let folders: Vec<Vec<Vec<u8>>> =
        refused.iter().flat_map(alone_and_between).chain([files.clone()]).collect();
    groups.group(
        "refused cards in the tool's totals",
        0..folders.len(),
        |nth| of_folder(&folders[nth]),
        |nth| wanted_of_folder(&folders[nth]),
    );
}

/// So many words that name the files of a folder in turn, and what they name.
fn in_turn(files: &[Vec<u8>], count: usize) -> (Vec<String>, Vec<Vec<u8>>) {
    let named = (0..files.len()).map(file_name).zip(files.iter().cloned());
    named.cycle().take(count).unzip()
}

/// As many cards as a set holds and one less, then further sets, by few files that are named often.
fn compare_many(groups: &mut Groups) {
    let files: Vec<Vec<u8>> = pool(groups.seed).into_iter().filter(|card| card.len() <= SHORT).collect();
    let (folder, counts) = (filled(&files), [1_023, 1_024, 1_025, 2_048, 2_049, 3_000]);
    let ours = |count: usize| {
        let words = [split("totals --json"), in_turn(&files, count).0].concat();
        ended(&folder, &words, || folder.run(&words), &[])
    };
    let counted = |count: usize| wanted(&in_turn(&files, count).1, 0, 0);
    groups.group("more cards than a set holds in the tool's totals", counts.into_iter(), ours, counted);
    let mut folder = files.into_iter().cycle().take(1_100).collect::<Vec<_>>();
    [0, 1_024, 1_099].into_iter().for_each(|nth| folder[nth] = vec![0x30; 9]);
    let (ours, counted) = (|_| of_folder(&folder), |_| wanted_of_folder(&folder));
    groups.group("a folder of more cards than a set holds", [0u32].into_iter(), ours, counted);
}

/// Words, how often rows o and p are counted, how many files are not, and how the messages go.
struct Case {
    words: &'static str,
    counted: [usize; 2],
    failed: usize,
    messages: &'static [(&'static str, &'static str)],
}

const fn all_well(words: &'static str, counted: [usize; 2]) -> Case {
    Case { words, counted, failed: 0, messages: &[] }
}

const NO_CARDS: &str = "there are no cards";

/// The folder `set` has row o twice, by a link too, and row p; `empty` has nothing that is named as a card.
const CASES: [Case; 14] = [
    all_well("totals set --json", [2, 1]),
    all_well("totals set/ --json", [2, 1]),
    all_well("totals set set --json-lines", [4, 2]),
    all_well("totals o --json", [1, 0]),
    all_well("totals o o set p --json", [4, 2]),
    all_well("totals --json -- o -o", [2, 0]),
    all_well("totals linked --json", [2, 1]),
    all_well("totals o - --json", [1, 1]),
    Case { words: "totals empty --json", counted: [0, 0], failed: 1, messages: &[("empty: ", NO_CARDS)] },
    Case {
        words: "totals empty set --json",
        counted: [2, 1],
        failed: 1,
        messages: &[("empty: ", NO_CARDS), ("1 of 4 failed: empty", "")],
    },
    Case { words: "totals missing --json", counted: [0, 0], failed: 1, messages: &[("missing: ", "")] },
    Case {
        words: "totals o missing set p empty --json-lines",
        counted: [3, 2],
        failed: 2,
        messages: &[("missing: ", ""), ("empty: ", NO_CARDS), ("2 of 7 failed: missing, empty", "")],
    },
    Case {
        words: "totals lost p --json",
        counted: [0, 1],
        failed: 1,
        messages: &[("lost/gone.card: ", ""), ("1 of 2 failed: lost/gone.card", "")],
    },
    Case {
        words: "totals missing empty --json",
        counted: [0, 0],
        failed: 2,
        messages: &[("missing: ", ""), ("empty: ", NO_CARDS), ("2 of 2 failed: missing, empty", "")],
    },
];

/// Files of other names, hidden ones, folders below and a link to nothing lie among the cards.
fn shelf() -> Folder {
    let folder = Folder::new("tool-totals");
    for name in ["set", "set/below.card", "empty", "empty/below", "lost"] {
        folder.make_folder(name);
    }
    for name in
        ["o", "-o", "set/o.card", "set/.o.card", "set/below.card/o.card", "set/o.svg", "empty/below/o.card"]
    {
        folder.put(name, &ROW_O);
    }
    for name in ["p", "set/p.p.card", "empty/card", "empty/p.card.partial"] {
        folder.put(name, &ROW_P);
    }
    folder.put_link("set/link.card", "../o");
    folder.put_link("lost/gone.card", "nowhere");
    folder.put_link("linked", "set");
    folder
}

/// Row p comes by standard input.
fn on_shelf(case: &Case) -> Ended {
    let (folder, words) = (shelf(), split(case.words));
    let messages: Vec<Message> =
        case.messages.iter().map(|(first, then)| (first.to_string(), then.to_string())).collect();
    ended(&folder, &words, || output_on(folder.command(&words), [&ROW_P[..]]), &messages)
}

fn wanted_on_shelf(case: &Case) -> Ended {
    let counted = [vec![ROW_O.to_vec(); case.counted[0]], vec![ROW_P.to_vec(); case.counted[1]]].concat();
    wanted(&counted, case.failed, case.messages.len())
}

/// A picture into a file: what `-` prints, beside the text that is printed without it; and none where no card is counted.
fn pictured() -> [bool; 4] {
    let folder = shelf();
    let run = |words: &str| folder.run(&split(words));
    let (plain, printed) = (run("totals set empty"), run("totals set empty --svg -"));
    let both = run("totals set empty --svg new.svg");
    let none = run("totals empty missing --svg none.svg");
    [
        plain.stdout == both.stdout && !plain.stdout.is_empty(),
        printed.stdout.starts_with(b"<svg ") && folder.read("new.svg") == Some(printed.stdout),
        [&plain.status, &both.status, &none.status].map(|status| status.code()) == [Some(1); 3],
        none.stdout.is_empty() && folder.read("none.svg").is_none(),
    ]
}

pub fn compare(groups: &mut Groups) {
    compare_refused(groups);
    compare_many(groups);
    groups.group(
        "files and folders of the tool's totals",
        0..CASES.len(),
        |nth| on_shelf(&CASES[nth]),
        |nth| wanted_on_shelf(&CASES[nth]),
    );
    groups.group("files of the tool's totals' picture", [0u32].into_iter(), |_| pictured(), |_| [true; 4]);
}
