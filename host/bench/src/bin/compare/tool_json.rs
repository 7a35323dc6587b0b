//! The tool's JSON, beside its page: the fields in their order, and each value of its kind.
use crate::groups::{Groups, compared_as_shown};
use crate::json::Json;
use crate::tool_runs::{Folder, text};
use bench::inputs::tracks::clicks;
use std::fs;
use std::path::Path;

/// The sections on what an array holds.
const TRACK: &str = "A track";
const CARD: &str = "A card";
const TOTALS: &str = "Totals";

/// A field's name and its kind, as a row of the page's tables has them.
type Field = (String, String);

/// The fields of the section with this title.
fn fields(page: &str, title: &str) -> Vec<Field> {
    let titled = |section: &&str| section.lines().next() == Some(title);
    let section = page.split("\n## ").find(titled).unwrap_or_default();
    let cells = section.lines().map(|line| line.split(" | ").collect::<Vec<_>>());
    let rows = cells.filter(|cells| cells[0].starts_with("| `"));
    rows.map(|cells| (cells[0].trim_matches(['|', ' ', '`']).into(), cells[1].into())).collect()
}

fn page() -> String {
    let place = Path::new(env!("CARGO_MANIFEST_DIR")).join("../../docs/JSON.md");
    fs::read_to_string(place).expect("the page on JSON")
}

/// Whether a value is of a kind.
fn is_of(value: &Json, kind: &str, page: &str) -> bool {
    match kind.strip_suffix(" or null") {
        Some(kind) => *value == Json::Null || is_of(value, kind, page),
        None => match (kind, value) {
            ("number", Json::Number(_)) | ("text", Json::Text(_)) | ("true or false", Json::Truth(_)) => true,
            ("list of numbers", Json::List(items)) => items.iter().all(|item| is_of(item, "number", page)),
            ("list of segments", Json::List(items)) => all_follow(items, "A segment", page),
            ("list of card segments", Json::List(items)) => all_follow(items, "A card segment", page),
            ("list of key totals", Json::List(items)) => all_follow(items, "A key total", page),
            _ => false,
        },
    }
}

fn all_follow(told: &[Json], title: &str, page: &str) -> bool {
    told.iter().all(|one| follows(one, title, page))
}

/// Whether an object has exactly the fields of a section, in its order and of its kinds.
fn follows(told: &Json, title: &str, page: &str) -> bool {
    let (Json::Object(values), wanted) = (told, fields(page, title)) else { return false };
    let named = values.iter().map(|(name, _)| name).eq(wanted.iter().map(|(name, _)| name));
    named && values.iter().zip(&wanted).all(|((_, value), (_, kind))| is_of(value, kind, page))
}

/// A run: its words, the section that its objects follow, how many it prints, and fields that are null in each.
#[derive(Debug, Clone, Copy)]
struct Run {
    words: &'static str,
    title: &'static str,
    objects: usize,
    nulls: &'static [&'static str],
}

compared_as_shown!(Run);

const WITHOUT_ALTERNATE: &[&str] = &["alternate", "alternate_number", "alternate_camelot", "coverage"];

#[rustfmt::skip]
const WITHOUT_KEY: &[&str] = &[
    "key", "key_number", "camelot", "dsp_key", "dsp_key_number", "alternate", "alternate_number", "alternate_camelot",
    "coverage",
];

const CARD_WITHOUT_ALTERNATE: &[&str] =
    &["refusal", "alternate", "alternate_number", "alternate_camelot", "coverage_thousandths"];

#[rustfmt::skip]
const CARD_WITHOUT_KEY: &[&str] = &[
    "refusal", "key", "key_number", "camelot", "dsp_key", "dsp_key_number", "alternate", "alternate_number",
    "alternate_camelot", "coverage_thousandths",
];

#[rustfmt::skip]
const NO_CARD: &[&str] = &[
    "layout", "duration_ms", "key", "key_number", "camelot", "dsp_key", "dsp_key_number", "confidence_thousandths",
    "alternate", "alternate_number", "alternate_camelot", "coverage_thousandths",
];

const fn of_tracks(words: &'static str, objects: usize, nulls: &'static [&'static str]) -> Run {
    Run { words, title: TRACK, objects, nulls }
}

const fn of_cards(words: &'static str, objects: usize, nulls: &'static [&'static str]) -> Run {
    Run { words, title: CARD, objects, nulls }
}

const fn of_totals(words: &'static str) -> Run {
    Run { words, title: TOTALS, objects: 1, nulls: &[] }
}

const RUNS: [Run; 16] = [
    of_tracks("analyse two --rate 44100 --json", 1, &[]),
    of_tracks("analyse one --rate 44100 --json", 1, WITHOUT_ALTERNATE),
    of_tracks("analyse silent --rate 44100 --json-lines", 1, WITHOUT_KEY),
    of_tracks("analyse two two --rate 44100 --json-lines", 2, &[]),
    of_tracks("analyse clicks --rate 44100 --notes 60-71 --coverage 0 --json", 1, WITHOUT_ALTERNATE),
    of_tracks("analyse missing silent silent --rate 44100 --json", 2, WITHOUT_KEY),
    of_tracks("analyse one one missing --rate 44100 --json --jobs 2", 2, WITHOUT_ALTERNATE),
    of_cards("card two.card --json", 1, &["refusal"]),
    of_cards("card one.card missing one.card --json-lines", 2, CARD_WITHOUT_ALTERNATE),
    of_cards("card silent.card --json-lines", 1, CARD_WITHOUT_KEY),
    of_cards("card missing silent.card silent.card --json", 2, CARD_WITHOUT_KEY),
    of_cards("card two silent one --json", 3, NO_CARD),
    of_totals("totals two.card one.card silent.card --json"),
    of_totals("totals . missing --json"),
    of_totals("totals silent.card --json"),
    of_totals("totals two.card two --json-lines"),
];

/// The demo's track in two keys, its front in one, and silence; a card of each; and clicks.
fn filled() -> Folder {
    let folder = Folder::new("tool-json");
    assert!(folder.run(&["demo", "--track", "two"]).status.success(), "the demo's track");
    let two = folder.read("two").expect("the demo's track");
    folder.put("one", &two[..two.len() / 4]);
    folder.put_samples("silent", &[0.0; 16_000]);
    folder.put_samples("clicks", &clicks(882_000, 4_096));
    let words = ["analyse", "one", "two", "silent", "--rate", "44100", "--cards", "."];
    assert!(folder.run(&words).status.success(), "a card of each");
    folder
}

/// The objects that a run prints, and nothing else; none where something else is printed.
pub fn objects(printed: &str, words: &str) -> Vec<Json> {
    let read: Option<Vec<Json>> = if words.contains("--json-lines") {
        printed.lines().map(Json::read).collect()
    } else {
        Json::read(printed).and_then(|array| array.list().map(<[Json]>::to_vec))
    };
    read.unwrap_or_default()
}

/// How many objects there are, how many follow the page, and how many have just these nulls.
fn seen(folder: &Folder, page: &str, run: Run) -> [usize; 3] {
    let ended = folder.run(&run.words.split_whitespace().collect::<Vec<_>>());
    let objects = objects(&text(&ended.stdout), run.words);
    let nulls = |told: &&Json| told.nulls().is_some_and(|names| names == run.nulls);
    let follow = objects.iter().filter(|told| follows(told, run.title, page)).count();
    [objects.len(), follow, objects.iter().filter(nulls).count()]
}

/// The first object that a run prints.
fn first_told(folder: &Folder, run: usize) -> Option<Json> {
    let words = RUNS[run].words;
    let ended = folder.run(&words.split_whitespace().collect::<Vec<_>>());
    objects(&text(&ended.stdout), words).into_iter().next()
}

/// What a run says of shapes: of the first track's chroma, and of how many of its windows.
fn shapes(folder: &Folder, run: usize) -> [Option<Json>; 2] {
    let told = first_told(folder, run);
    ["shapeless", "shapeless_estimates"].map(|name| told.as_ref().and_then(|told| told.field(name)).cloned())
}

/// Runs on one track each, whether its chroma has no shape, and how many of its windows have none.
const SHAPES: [(usize, bool, &str); 4] = [(0, false, "0"), (1, false, "0"), (2, false, "0"), (4, true, "2")];

/// What a run says of the windows behind each segment of the first track.
fn windows(folder: &Folder, run: usize) -> Vec<Option<Json>> {
    let told = first_told(folder, run);
    let segments = told.as_ref().and_then(|told| told.field("segments")?.list()).unwrap_or_default();
    segments.iter().map(|segment| segment.field("windows").cloned()).collect()
}

/// Runs on one track each, and the windows behind each segment. A window's middle comes every 6 s, and the demo's key
/// changes at 57 s.
const WINDOWS: [(usize, &[&str]); 4] = [(0, &["9", "3"]), (1, &["2"]), (2, &[]), (4, &["2"])];

/// The page's own examples follow it too: whether those of tracks do, those of cards, and those of totals.
fn examples(page: &str) -> Vec<bool> {
    let blocks = page.split("```json\n").skip(1).filter_map(|behind| behind.split("```").next());
    let follows = |(block, title): (&str, &str)| {
        let told = Json::read(block);
        told.as_ref().and_then(Json::list).is_some_and(|told| all_follow(told, title, page))
    };
    blocks.zip([TRACK, CARD, TOTALS]).map(follows).collect()
}

pub fn compare(groups: &mut Groups) {
    let (folder, page) = (filled(), page());
    let (ours, wanted) = (|run: Run| seen(&folder, &page, run), |run: Run| [run.objects; 3]);
    groups.group("the tool's JSON beside its page", RUNS.into_iter(), ours, wanted);
    let said = |nth: usize| shapes(&folder, SHAPES[nth].0);
    let shapes = |nth: usize| {
        let (_, shapeless, windows) = SHAPES[nth];
        [Some(Json::Truth(shapeless)), Some(Json::Number(windows.into()))]
    };
    groups.group("shapes in the tool's JSON", 0..SHAPES.len(), said, shapes);
    let said = |nth: usize| windows(&folder, WINDOWS[nth].0);
    let windows =
        |nth: usize| WINDOWS[nth].1.iter().map(|&count| Some(Json::Number(count.into()))).collect::<Vec<_>>();
    groups.group("windows behind segments in the tool's JSON", 0..WINDOWS.len(), said, windows);
    let examples = |_| examples(&page);
    groups.group("the examples of the page on JSON", [0u32].into_iter(), examples, |_| vec![true; 3]);
}
