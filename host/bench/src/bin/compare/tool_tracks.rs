//! The tool's analyses of generated tracks, by its program, beside the oracle's `analyze`: every field of the JSON, the
//! segments of the text, and the card that it writes.
use crate::analyses::Told;
use crate::analysis_left::Left;
use crate::cards::packed;
use crate::groups::{Groups, compared_as_shown};
use crate::json::Json;
use crate::key_names::CAMELOT;
use crate::their_analyses::theirs;
use crate::tool_inputs::{CLICKS, SILENT, Track, UNHEARD_CLICK, file_of, sheets, track};
use crate::tool_runs::{Folder, text, windows_told};
use bench::oracle::key_lime::expose::key_number;
use bench::oracle::key_lime::{KeyAnalysis, MusicalKey, analyze};
use bench::oracle::{config, number};
use std::process::Output;
use ulyptesh::Refusal;

const TRACKS: usize = 50;

/// Those of which the text is read: two keys, a short one, no key, a click before silence, and clicks.
const TOLD: [usize; 5] = [0, 1, SILENT, UNHEARD_CLICK, CLICKS];

/// A key's name, number and Camelot code.
type Named = (String, u8, String);

/// Start, end, key, confidence, and the windows behind it.
type Segment = (f64, f64, Named, f32, u32);

/// An object of the tool's array.
#[derive(Debug, PartialEq)]
struct Object {
    version: u32,
    file: String,
    rate: u32,
    seconds: f64,
    key: Option<Named>,
    dsp_key: Option<(String, u8)>,
    confidence: f32,
    shapeless: bool,
    alternate: Option<Named>,
    coverage: Option<f32>,
    chroma: Vec<f32>,
    loud_frames: u64,
    estimates: u64,
    shapeless_estimates: usize,
    segments: Vec<Segment>,
}

/// What the tool answers.
#[derive(Debug, PartialEq)]
enum Answer {
    /// The array's objects, and the card.
    Analysed { objects: Vec<Object>, card: Option<Vec<u8>> },
    /// The message, no card and an empty standard output.
    Refused(String),
    /// Anything else.
    Garbled(String),
}

compared_as_shown!(Answer);

fn named(told: &Json, name: &str, number: &str, camelot: &str) -> Option<Named> {
    Some((told.field(name)?.text()?, told.field(number)?.number()?, told.field(camelot)?.text()?))
}

/// What the fields tell, or that all of them are null.
fn or_null<A>(told: &Json, fields: &[&str], read: impl Fn() -> Option<A>) -> Option<Option<A>> {
    let is_null = |name: &&str| told.field(name) == Some(&Json::Null);
    if fields.iter().all(is_null) { Some(None) } else { read().map(Some) }
}

fn named_or_null(told: &Json, fields: [&str; 3]) -> Option<Option<Named>> {
    or_null(told, &fields, || named(told, fields[0], fields[1], fields[2]))
}

fn segment(told: &Json) -> Option<Segment> {
    let number = |name: &str| told.field(name)?.number();
    let key = named(told, "key", "key_number", "camelot")?;
    let (confidence, windows) = (told.field("confidence")?.number()?, told.field("windows")?.number()?);
    Some((number("start")?, number("end")?, key, confidence, windows))
}

fn object(told: &Json) -> Option<Object> {
    let field = |name: &str| told.field(name);
    let dsp_key = || Some((field("dsp_key")?.text()?, field("dsp_key_number")?.number()?));
    Some(Object {
        version: field("version")?.number()?,
        file: field("file")?.text()?,
        rate: field("rate")?.number()?,
        seconds: field("seconds")?.number()?,
        key: named_or_null(told, ["key", "key_number", "camelot"])?,
        dsp_key: or_null(told, &["dsp_key", "dsp_key_number"], dsp_key)?,
        confidence: field("confidence")?.number()?,
        shapeless: field("shapeless")?.truth()?,
        alternate: named_or_null(told, ["alternate", "alternate_number", "alternate_camelot"])?,
        coverage: or_null(told, &["coverage"], || field("coverage")?.number())?,
        chroma: field("chroma")?.list()?.iter().map(Json::number).collect::<Option<_>>()?,
        loud_frames: field("loud_frames")?.number()?,
        estimates: field("estimates")?.number()?,
        shapeless_estimates: field("shapeless_estimates")?.number()?,
        segments: field("segments")?.list()?.iter().map(segment).collect::<Option<_>>()?,
    })
}

fn objects(printed: &str) -> Option<Vec<Object>> {
    Json::read(printed)?.list()?.iter().map(object).collect()
}

/// What the tool does with the track, asked for in these words too.
fn analysed(track: &Track, folder: &Folder, asked: &[&str]) -> Output {
    let (file, samples) = (file_of(track), &track.asked.call.samples);
    let rate = track.asked.call.settings.rate.to_string();
    let words = [&["analyse", &file, "--rate", &rate], asked, &track.words].concat();
    if file == "-" {
        folder.run_on(samples, &words)
    } else {
        folder.put_samples(&file, samples);
        folder.run(&words)
    }
}

fn ours(track: &Track, folder: &Folder) -> Answer {
    let card = format!("{}.card", track.nth);
    let ended = analysed(track, folder, &["--json", "--card", &card]);
    let (printed, said) = (text(&ended.stdout), text(&ended.stderr));
    match (ended.status.code(), objects(&printed), folder.read(&card)) {
        (Some(0), Some(objects), card) if said.is_empty() => Answer::Analysed { objects, card },
        (Some(1), None, None) if printed.is_empty() => Answer::Refused(said),
        _ => Answer::Garbled(format!("{:?} {printed} {said}", ended.status)),
    }
}

fn their_name(key: MusicalKey) -> Named {
    let number = key_number(key);
    (key.to_string(), number, CAMELOT[usize::from(number)].into())
}

/// The card of the oracle's analysis, packed by the request's words.
fn their_card(told: &KeyAnalysis) -> Option<Vec<u8>> {
    packed(&Told {
        key: number(told.key),
        dsp_key: number(told.dsp_key),
        alternate: number(told.alternate_key),
        coverage: told.alternate_coverage,
        confidence: told.confidence,
        starts: told.segments.iter().map(|segment| segment.start_seconds).collect(),
        ends: told.segments.iter().map(|segment| segment.end_seconds).collect(),
        keys: told.segments.iter().map(|segment| key_number(segment.key)).collect(),
        confidences: told.segments.iter().map(|segment| segment.confidence).collect(),
        lent: 0,
    })
}

fn their_object(track: &Track, told: &KeyAnalysis, counted: &Left) -> Object {
    let (samples, rate) = (&track.asked.call.samples, track.asked.call.settings.rate);
    let segments = told.segments.iter().zip(counted.windows()).map(|(part, &windows)| {
        (part.start_seconds, part.end_seconds, their_name(part.key), part.confidence, windows)
    });
    Object {
        version: 1,
        file: file_of(track),
        rate,
        seconds: samples.len() as f64 / f64::from(rate),
        key: told.key.map(their_name),
        dsp_key: told.dsp_key.map(|key| (key.to_string(), key_number(key))),
        confidence: told.confidence,
        shapeless: counted.answer.shapeless == 1,
        alternate: told.alternate_key.map(their_name),
        coverage: told.alternate_key.map(|_| told.alternate_coverage),
        chroma: told.chroma.to_vec(),
        loud_frames: counted.answer.frames,
        estimates: counted.answer.estimates,
        shapeless_estimates: shapeless_estimates(counted),
        segments: segments.collect(),
    }
}

fn shapeless_estimates(left: &Left) -> usize {
    left.shapeless().iter().filter(|&&shapeless| shapeless == 1).count()
}

/// The oracle's `analyze`; its frames and windows tell the counts, and whether a frame is not finite.
fn their_answer(track: &Track) -> Answer {
    let (samples, settings) = (&track.asked.call.samples, &track.asked.call.settings);
    let counted = theirs(&track.asked);
    if counted.answer.refusal != 0 {
        let why = Refusal::new(counted.answer.refusal, counted.answer.position, settings, samples.len());
        return Answer::Refused(format!("ulyptesh: {}: {why}\n", file_of(track)));
    }
    let told = analyze(samples, settings.rate, config(settings));
    let object = their_object(track, &told, &counted);
    Answer::Analysed { objects: vec![object], card: their_card(&told) }
}

/// The lines of the tool's text that tell a segment.
fn lines(track: &Track, folder: &Folder) -> Vec<String> {
    let printed = text(&analysed(track, folder, &[]).stdout);
    printed.lines().filter(|line| line.contains(" s to ")).map(String::from).collect()
}

fn their_line((start, end, (name, _, camelot), confidence, windows): Segment) -> String {
    let windows = windows_told(windows);
    format!("  {start:6.2} s to {end:6.2} s: {name} ({camelot}), confidence {confidence:.3}, {windows}")
}

fn their_lines(track: &Track) -> Vec<String> {
    let Answer::Analysed { objects, .. } = their_answer(track) else { return vec![] };
    objects.into_iter().flat_map(|told| told.segments).map(their_line).collect()
}

pub fn compare(groups: &mut Groups) {
    let (seed, folder) = (groups.seed, Folder::new("tool-tracks"));
    let sheets = sheets();
    let shapes = |nth| {
        let left = theirs(&track(seed, nth, &sheets).asked);
        (left.answer.shapeless, shapeless_estimates(&left), left.answer.estimates)
    };
    assert_eq!(
        [UNHEARD_CLICK, CLICKS].map(shapes),
        [(0, 1, 2), (1, 2, 2)],
        "some windows and a track without shape"
    );
    groups.shared_group(
        "the tool's analyses of generated tracks",
        TRACKS,
        |nth| track(seed, nth, &sheets),
        |track| ours(track, &folder),
        their_answer,
    );
    groups.shared_group(
        "segments in the tool's text of generated tracks",
        TOLD.len(),
        |nth| track(seed, TOLD[nth], &sheets),
        |track| lines(track, &folder),
        their_lines,
    );
}
