//! The tool's `card`: text as the lister has it, and JSON, beside the request's words; refused cards are shown, and
//! told in a message and by the exit status.
use crate::card_model::{MISSING, Meaning, Segment, listing};
use crate::groups::{Groups, compared_as_shown};
use crate::json::Json;
use crate::key_names::{CAMELOT, name};
use crate::lister::{cards, endless_fronts, endless_listing, no_cards};
use crate::tool_json::objects;
use crate::tool_runs::{Folder, output_on, output_on_endless, text};
use std::process::Output;

/// How a run ended, what it printed, whether each message is as it has to be and there are no others, and whether
/// files changed.
#[derive(Debug, PartialEq)]
struct Shown {
    status: Option<i32>,
    printed: String,
    says: Vec<bool>,
    changes_files: bool,
}

compared_as_shown!(Json, Shown);

/// A refusal's number stands in the message.
fn told(refusal: u32) -> String {
    format!("(refusal {refusal})")
}

fn refusal(bytes: &[u8]) -> Option<u32> {
    Meaning::read(bytes).err()
}

/// Each message has a line, which begins and goes on as given.
fn shown(folder: &Folder, run: impl FnOnce() -> Output, messages: &[(String, String)]) -> Shown {
    let before = folder.content();
    let ended = run();
    let said = text(&ended.stderr);
    let begins = |(line, (first, then)): (&str, &(String, String))| {
        line.starts_with(&format!("ulyptesh: {first}")) && line.contains(then)
    };
    let mut says: Vec<bool> = said.lines().zip(messages).map(begins).collect();
    says.push(said.lines().count() == messages.len());
    let changes_files = folder.content() != before;
    Shown { status: ended.status.code(), printed: text(&ended.stdout), says, changes_files }
}

fn wanted(printed: String, messages: usize) -> Shown {
    Shown {
        status: Some(i32::from(messages > 0)),
        printed,
        says: vec![true; messages + 1],
        changes_files: false,
    }
}

/// The message about a lone file, where there is one.
fn message(file: &str, bytes: &[u8]) -> Vec<(String, String)> {
    refusal(bytes).map(|refusal| (format!("{file}: "), told(refusal))).into_iter().collect()
}

/// As a file, and by standard input.
fn compare_text(groups: &mut Groups, files: &[Vec<u8>]) {
    let folder = Folder::new("tool-cards");
    let as_file = |bytes: Vec<u8>| {
        folder.put("card", &bytes);
        shown(&folder, || folder.run(&["card", "card"]), &message("card", &bytes))
    };
    let by_input = |bytes: Vec<u8>| {
        let run = || output_on(folder.command(&["card", "-"]), [&bytes[..]]);
        shown(&folder, run, &message("-", &bytes))
    };
    let listed = |bytes: Vec<u8>| wanted(listing(&bytes), message("", &bytes).len());
    groups.group("the tool's cards as text", files.iter().cloned(), as_file, listed);
    groups.group("the tool's cards by standard input", files.iter().cloned(), by_input, listed);
}

/// Inputs that never end, as standard input and as a file.
fn compare_endless(groups: &mut Groups) {
    let folder = Folder::new("tool-cards");
    let named = |name: &str| endless_fronts().map(|front| (name.to_string(), front));
    let ours = |(name, front): (String, Vec<u8>)| {
        let ended = output_on_endless(folder.command(&["card", &name]), &front)?;
        Some((ended.status.code() == Some(1), text(&ended.stdout)))
    };
    let refused = |(_, front): (String, Vec<u8>)| Some((true, endless_listing(&front)));
    let inputs = ["-", "/dev/stdin"].into_iter().flat_map(named);
    groups.group("the tool's cards on endless input", inputs, ours, refused);
}

fn file_name(nth: usize) -> String {
    format!("{nth}.card")
}

/// All files in one run, with one that is not there: each under its name, and the failed ones told and counted.
fn in_one_run(folder: &Folder, files: &[Vec<u8>]) -> Shown {
    let mut words = vec!["card".to_string(), "missing".into()];
    words.extend((0..files.len()).map(file_name));
    let mut messages = vec![("missing: ".to_string(), String::new())];
    messages.extend(files.iter().enumerate().flat_map(|(nth, bytes)| message(&file_name(nth), bytes)));
    messages.push((format!("{} of {} failed: missing", messages.len(), files.len() + 1), String::new()));
    shown(folder, || folder.run(&words), &messages)
}

fn each_under_its_name(files: &[Vec<u8>]) -> Shown {
    let printed =
        files.iter().enumerate().map(|(nth, bytes)| format!("{}:\n{}", file_name(nth), listing(bytes)));
    let refused = files.iter().filter(|bytes| refusal(bytes).is_some()).count();
    wanted(printed.collect(), refused + 2)
}

fn compare_many(groups: &mut Groups, files: &[Vec<u8>]) {
    let folder = Folder::new("tool-cards");
    files.iter().enumerate().for_each(|(nth, bytes)| folder.put(&file_name(nth), bytes));
    groups.group(
        "many of the tool's cards in one run",
        [2, 3, files.len()].into_iter(),
        |count| in_one_run(&folder, &files[..count]),
        |count| each_under_its_name(&files[..count]),
    );
}

fn number(number: u64) -> Json {
    Json::Number(number.to_string())
}

/// A key's name, number and code, as far as there are fields for them, or nulls.
fn key_fields(fields: &[&str], key: u64) -> Vec<(String, Json)> {
    let values = match name(key as u32) {
        Some(name) => [Json::Text(name), number(key), Json::Text(CAMELOT[key as usize].into())],
        None => [Json::Null, Json::Null, Json::Null],
    };
    fields.iter().map(|field| field.to_string()).zip(values).collect()
}

fn field(name: &str, value: Json) -> Vec<(String, Json)> {
    vec![(name.into(), value)]
}

fn segment_object((start, part): (u64, &Segment)) -> Json {
    Json::Object(
        [
            field("start_ms", number(start)),
            field("end_ms", number(part.end)),
            key_fields(&["key", "key_number", "camelot"], part.key),
            field("confidence_thousandths", number(part.confidence)),
        ]
        .concat(),
    )
}

/// The first four bits.
fn layout_of(bytes: &[u8]) -> u64 {
    bytes.first().map_or(0, |first| u64::from(first / 16))
}

/// The object of a card, as docs/JSON.md has it.
fn object(file: &str, bytes: &[u8]) -> Json {
    let (said, refusal) = match Meaning::read(bytes) {
        Ok(said) => (said, Json::Null),
        Err(refusal) => (Meaning::empty(), number(refusal.into())),
    };
    let or_null = |value: u64, there: bool| if there { number(value) } else { Json::Null };
    let (is_card, last) = (refusal == Json::Null, said.segments.last().map_or(0, |last| last.end));
    let segments = said.starts().zip(&said.segments).map(segment_object).collect();
    Json::Object(
        [
            field("version", number(1)),
            field("file", Json::Text(file.into())),
            field("refusal", refusal),
            field("layout", or_null(layout_of(bytes), is_card)),
            field("duration_ms", or_null(last, is_card)),
            key_fields(&["key", "key_number", "camelot"], said.key),
            key_fields(&["dsp_key", "dsp_key_number"], said.dsp_key),
            field("confidence_thousandths", or_null(said.confidence, is_card)),
            key_fields(&["alternate", "alternate_number", "alternate_camelot"], said.alternate),
            field("coverage_thousandths", or_null(said.coverage, said.alternate != MISSING)),
            field("segments", Json::List(segments)),
        ]
        .concat(),
    )
}

/// An array of all, and an object a line; some are refused, so both end with 1.
fn compare_json(groups: &mut Groups, files: &[Vec<u8>]) {
    let folder = Folder::new("tool-cards");
    files.iter().enumerate().for_each(|(nth, bytes)| folder.put(&file_name(nth), bytes));
    let forms = ["--json", "--json-lines"];
    let ours = |nth: usize| {
        let words =
            ["card".to_string(), forms[nth].into()].into_iter().chain((0..files.len()).map(file_name));
        let ended = folder.run(&words.collect::<Vec<_>>());
        (ended.status.code() == Some(1), objects(&text(&ended.stdout), forms[nth]))
    };
    let told = files.iter().enumerate().map(|(nth, bytes)| object(&file_name(nth), bytes));
    let told: Vec<Json> = told.collect();
    let wanted = |_| (true, told.clone());
    groups.group("the tool's cards as JSON", 0..forms.len(), ours, wanted);
}

/// A tone by so many samples and its loudness, with words for it; the layout of its card, and where that ends.
struct Written {
    words: &'static str,
    samples: usize,
    loudness: f32,
    layout: u64,
    end: u64,
}

/// Words for a short track, and for few frames of a long one at a low rate.
const SHORT: &str = "analyse track --card new --rate 8000";
const LONG: &str = "analyse track --card new --rate 64 --notes 10-21 --frame-size 32 --hop-size 20000";

/// Two seconds, and of silence; four hours, and a sample more; a day.
const WRITTEN: [Written; 5] = [
    Written { words: SHORT, samples: 16_000, loudness: 1.0, layout: 1, end: 2_000 },
    Written { words: SHORT, samples: 16_000, loudness: 0.0, layout: 1, end: 0 },
    Written { words: LONG, samples: 64 * 14_400, loudness: 1.0, layout: 1, end: 14_400_000 },
    Written { words: LONG, samples: 64 * 14_400 + 1, loudness: 1.0, layout: 2, end: 14_400_015 },
    Written { words: LONG, samples: 64 * 86_400, loudness: 1.0, layout: 2, end: 86_400_000 },
];

/// The card that the tool writes of a track.
fn card_written(track: &Written) -> Vec<u8> {
    let folder = Folder::new("tool-cards");
    let samples = (0..track.samples).map(|place| track.loudness * (place as f32 * 0.2).sin());
    folder.put_samples("track", &samples.collect::<Vec<_>>());
    let ended = folder.run(&track.words.split_whitespace().collect::<Vec<_>>());
    assert!(ended.status.success(), "a track that is analysed");
    folder.read("new").expect("a card that was written")
}

/// From samples to a card, and from the card to what it says.
fn compare_written(groups: &mut Groups) {
    let folder = Folder::new("tool-cards");
    let cards: Vec<Vec<u8>> = WRITTEN.iter().map(card_written).collect();
    cards.iter().enumerate().for_each(|(nth, bytes)| folder.put(&file_name(nth), bytes));
    let ours = |nth: usize| {
        let name = file_name(nth);
        shown(&folder, || folder.run(&["card", &name]), &message(&name, &cards[nth]))
    };
    let listed = |nth: usize| wanted(listing(&cards[nth]), 0);
    groups.group("the tool's cards of analyses", 0..cards.len(), ours, listed);
    let told = |nth: usize| {
        let ended = folder.run(&["card", &file_name(nth), "--json"]);
        let told = objects(&text(&ended.stdout), "--json");
        ["layout", "duration_ms"].map(|name| told.first().and_then(|told| told.field(name)).cloned())
    };
    let wanted = |nth: usize| [WRITTEN[nth].layout, WRITTEN[nth].end].map(|told| Some(number(told)));
    groups.group("layout and end of the tool's cards", 0..cards.len(), told, wanted);
}

pub fn compare(groups: &mut Groups) {
    let files: Vec<Vec<u8>> = cards(groups.seed).chain(no_cards()).collect();
    compare_text(groups, &files);
    compare_endless(groups);
    compare_many(groups, &files);
    compare_json(groups, &files);
    compare_written(groups);
}
