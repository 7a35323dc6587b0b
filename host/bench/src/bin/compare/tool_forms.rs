//! What the tool prints, beside what its pages say: help, notations, keys alone, keys at several times, names, where a
//! chroma has no shape, and how many windows stand behind a segment.
use crate::card_reads::{ROW_O, ROW_P};
use crate::groups::{Groups, compared_exactly};
use crate::key_names::{CAMELOT, OPEN_KEY};
use crate::tool_runs::{Folder, text};
use bench::inputs::tracks::{clicks, put_unheard_click};
use ulyptesh::calls::ABI;
use ulyptesh::{Key, Notation};

/// Words, the exit status, and what is printed.
type Case = (&'static str, i32, &'static str);

/// The track is a tone on A; silence has no key.
const CASES: [Case; 28] = [
    ("analyse tone --rate 8000 --key-only", 0, "A minor\n"),
    ("analyse tone --rate 8000 --key-only --notation sharps", 0, "A minor\n"),
    ("analyse tone --rate 8000 --key-only --notation camelot", 0, "8A\n"),
    ("analyse tone --rate=8000 --key-only --notation=open-key", 0, "1m\n"),
    ("analyse silent --rate 8000 --key-only", 0, "none\n"),
    ("analyse silent tone --rate 8000 --key-only", 0, "none\tsilent\nA minor\ttone\n"),
    ("analyse --rate 8000 --key-only -- -tone", 0, "A minor\n"),
    ("analyse silent --rate 8000", 0, "silent: no key in 2.00 s, 0 loud frames\n"),
    ("analyse silent --rate 8000 --notation flats", 0, "silent: no key in 2.00 s, 0 loud frames\n"),
    ("key-at tone 1 --rate 8000", 0, "A minor (8A)\n"),
    ("key-at tone 0 1.5 2 --rate 8000 --notation camelot", 0, "0 s: 8A\n1.5 s: 8A\n2 s: 8A\n"),
    ("key-at tone 1 3 --rate 8000", 1, "1 s: A minor (8A)\n"),
    ("key-name 13", 0, "C# minor\n"),
    ("key-name 13 --notation flats", 0, "Db minor\n"),
    ("key 1 0 0 0 1 0 0 -1 0 0 0 0 --notation open-key --help", 0, KEY_HELP),
    ("card o", 0, "A minor\n0 180000 A minor\n"),
    ("card p --notation flats", 0, "no key\n"),
    ("card o --notation camelot", 0, "8A\n0 180000 8A\n"),
    ("card --notation=open-key -- o", 0, "1m\n0 180000 1m\n"),
    ("card p o", 0, "p:\nno key\no:\nA minor\n0 180000 A minor\n"),
    ("card needless", 1, "refused 23\n"),
    ("analyse day --rate 1 --frame-size 32", 0, "day: no key in 86400.00 s, 0 loud frames\n"),
    ("card o silent p", 1, "o:\nA minor\n0 180000 A minor\nsilent:\nrefused 21\np:\nno key\n"),
    ("totals p", 0, "1 card, 1 without a key, 0:00:00 in all\n"),
    ("totals o p --notation flats", 0, O_AND_P),
    ("totals --notation=camelot -- o", 0, O_ALONE),
    ("totals o silent p --notation sharps", 1, O_AND_P),
    ("totals silent", 1, ""),
];

const O_AND_P: &str = "\
A minor  0:03:00  100.0 %  ########################################
2 cards, 1 without a key, 0:03:00 in all
";

const O_ALONE: &str = "\
8A  0:03:00  100.0 %  ########################################
1 card, 0 without a key, 0:03:00 in all
";

const KEY_HELP: &str = "\
ulyptesh key NUMBER x12 [--notation WORD]
  The key of a chroma: a number for each pitch class, from C upward. The best score is the highest of
  the 24; where the relative key was taken instead, that one's own is the second. Where the chroma has
  no shape, that is said behind them.
";

/// Words, and what is said of shapes: of the whole chroma, and of how many windows.
const SHAPES: [(&str, &[&str]); 7] = [
    ("analyse tone --rate 8000", &[]),
    ("analyse silent --rate 8000", &[]),
    ("analyse clicks --rate 8000 --notes 60-71", &["the chroma has no shape", "no shape in 2 of 2 windows"]),
    ("analyse clicks --rate 8000 --notes 60-71 --key-only", &[]),
    ("analyse unheard --rate 8000", &["no shape in 1 of 2 windows"]),
    ("key 0 0 0 0 0 0 0 0 0 0 0 0", &["the chroma has no shape"]),
    ("key 1 0 0 0 1 0 0 1 0 0 0 0", &[]),
];

/// Words, and what is said of the windows behind each segment. A track has a window every 6 s; the one that sounds
/// once has two, of which one is silent.
const WINDOWS: [(&str, &[&str]); 6] = [
    ("analyse tone --rate 8000", &["0 windows"]),
    ("analyse tone --rate 8000 --window 1 --local-hop 0.5", &["3 windows"]),
    ("analyse clicks --rate 8000 --notes 60-71", &["2 windows"]),
    ("analyse once --rate 8000", &["1 window"]),
    ("analyse silent --rate 8000", &[]),
    ("analyse tone --rate 8000 --key-only", &[]),
];

/// How a run ended and what it printed.
#[derive(Debug, PartialEq)]
struct Printed {
    status: Option<i32>,
    text: String,
}

compared_exactly!(Printed);

/// Two seconds on A.
fn tone() -> Vec<f32> {
    (0..16_000).map(|place| (place as f32 * 0.345_575_2).sin()).collect()
}

/// A click that no note hears, silence for longer than a window, and a tone; twenty seconds.
fn unheard() -> Vec<f32> {
    let mut samples: Vec<f32> = tone().into_iter().cycle().take(160_000).collect();
    put_unheard_click(&mut samples[..104_000]);
    samples
}

/// A tone before silence; twenty seconds.
fn once() -> Vec<f32> {
    let mut samples = tone();
    samples.resize(160_000, 0.0);
    samples
}

fn filled() -> Folder {
    let folder = Folder::new("tool-forms");
    folder.put_samples("once", &once());
    folder.put_samples("clicks", &clicks(160_000, 4_096));
    folder.put_samples("unheard", &unheard());
    folder.put_samples("tone", &tone());
    folder.put_samples("-tone", &tone());
    folder.put_samples("silent", &[0.0; 16_000]);
    folder.put("o", &ROW_O);
    folder.put("p", &ROW_P);
    folder.put("needless", &[&[0x2C], &ROW_P[1..]].concat());
    folder.put_samples("day", &[0.0; 86_400]);
    folder.put_samples("bell\u{7}\u{1b}[31m", &[0.0; 16_000]);
    folder
}

fn printed(folder: &Folder, words: &[&str]) -> Printed {
    let ended = folder.run(words);
    Printed { status: ended.status.code(), text: text(&ended.stdout) }
}

/// A key as the pages write it.
fn written((number, notation): (usize, usize)) -> String {
    let key = Key::ALL[number];
    match Notation::ALL[notation] {
        Notation::Camelot => CAMELOT[number].into(),
        Notation::OpenKey => OPEN_KEY[number].into(),
        Notation::Flats => {
            let name = key.name();
            let flat = [("C#", "Db"), ("D#", "Eb"), ("F#", "Gb"), ("G#", "Ab"), ("A#", "Bb")];
            flat.into_iter().fold(name, |name, (sharp, flat)| name.replace(sharp, flat))
        }
        _ => key.name(),
    }
}

fn by_tool(folder: &Folder, (number, notation): (usize, usize)) -> String {
    let word = Notation::ALL[notation].word();
    let ended = folder.run(&["key-name", &number.to_string(), "--notation", word]);
    text(&ended.stdout).trim_end().into()
}

/// What is said of shapes, behind all else on its line and before what follows from it.
fn said_of_shapes(folder: &Folder, words: &str) -> Vec<String> {
    let told = printed(folder, &words.split_whitespace().collect::<Vec<_>>()).text;
    let said = told.lines().filter(|line| line.contains("no shape"));
    let said = said.filter_map(|line| line.rsplit("; ").next()?.split(':').next());
    said.map(|said| said.trim().into()).collect()
}

/// What is said of the windows behind each segment, at the end of its line.
fn said_of_windows(folder: &Folder, words: &str) -> Vec<String> {
    let told = printed(folder, &words.split_whitespace().collect::<Vec<_>>()).text;
    let segments = told.lines().filter(|line| line.contains(" s to "));
    segments.filter_map(|line| line.rsplit(", ").next()).map(String::from).collect()
}

/// A command's own help, twice over, and the version.
fn help(folder: &Folder) -> [bool; 4] {
    let one = |words: &[&str]| printed(folder, words).text;
    let whole = one(&["--help"]);
    let commands = ["analyse", "key-at", "card", "totals", "key", "key-name", "demo"];
    let version = format!("ulyptesh {}, interface {ABI}\n", env!("CARGO_PKG_VERSION"));
    [
        whole == one(&["help"]) && whole == one(&["-h"]),
        commands.iter().all(|name| one(&["help", name]) == one(&[name, "--help"])),
        commands.iter().all(|name| whole.contains(one(&["help", name]).lines().next().unwrap_or("nothing"))),
        one(&["--version"]) == version && one(&["-V"]) == version,
    ]
}

/// Samples, or a file of another kind, by standard input.
fn by_input(folder: &Folder) -> [bool; 2] {
    let words = ["analyse", "-", "--rate", "8000", "--key-only"];
    // RIFF, a length, WAVE
    let other = [0x4646_4952, 36, 0x4556_4157].map(f32::from_bits);
    let (tone, other) = (folder.run_on(&tone(), &words), folder.run_on(&other, &words));
    [text(&tone.stdout) == "A minor\n", other.stdout.is_empty() && text(&other.stderr).contains("a WAV file")]
}

/// Control characters in a file's name reach no terminal.
fn names_are_harmless(folder: &Folder, words: &str) -> [bool; 2] {
    let (command, options) = words.split_once(' ').unwrap_or((words, ""));
    let files = ["bell\u{7}\u{1b}[31m", "lost\u{1b}"];
    let words: Vec<&str> = [command].into_iter().chain(files).chain(options.split_whitespace()).collect();
    let ended = folder.run(&words);
    let harmless = |bytes: &[u8]| text(bytes).chars().all(|c| c == '\n' || !c.is_control());
    [
        harmless(&ended.stdout) && harmless(&ended.stderr),
        text(&ended.stdout).starts_with("bell\\u{7}\\u{1b}[31m:"),
    ]
}

pub fn compare(groups: &mut Groups) {
    let folder = filled();
    groups.group(
        "what the tool prints",
        0..CASES.len(),
        |nth| printed(&folder, &CASES[nth].0.split_whitespace().collect::<Vec<_>>()),
        |nth| Printed { status: Some(CASES[nth].1), text: CASES[nth].2.into() },
    );
    let keys =
        (0..Key::ALL.len()).flat_map(|key| (0..Notation::ALL.len()).map(move |notation| (key, notation)));
    groups.group("the tool's notations", keys, |key| by_tool(&folder, key), written);
    groups.group(
        "where the tool says that a chroma has no shape",
        0..SHAPES.len(),
        |nth| said_of_shapes(&folder, SHAPES[nth].0),
        |nth| SHAPES[nth].1.iter().map(|said| said.to_string()).collect(),
    );
    groups.group(
        "windows behind segments in the tool's text",
        0..WINDOWS.len(),
        |nth| said_of_windows(&folder, WINDOWS[nth].0),
        |nth| WINDOWS[nth].1.iter().map(|said| said.to_string()).collect(),
    );
    groups.group("the tool's help and version", [0u32].into_iter(), |_| help(&folder), |_| [true; 4]);
    groups.group("the tool on standard input", [0u32].into_iter(), |_| by_input(&folder), |_| [true; 2]);
    groups.group(
        "names in the tool's messages",
        ["analyse --rate 8000".to_string(), "card".into()].into_iter(),
        |words| names_are_harmless(&folder, &words),
        |_| [true; 2],
    );
}
