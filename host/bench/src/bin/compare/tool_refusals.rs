//! Bad words and bad files: the tool says what is wrong, prints nothing else and writes nothing.
use crate::card_reads::ROW_O;
use crate::groups::{Groups, compared_as_shown, compared_exactly};
use crate::tool_runs::{Folder, text};

/// The words behind the tool's name, the exit status, and what the message has to say.
#[derive(Debug, Clone)]
struct Case {
    words: &'static str,
    status: i32,
    says: &'static str,
}

/// What a run of the tool showed.
#[derive(Debug, PartialEq)]
struct Seen {
    status: Option<i32>,
    says: bool,
    prints: bool,
    changes_files: bool,
}

compared_as_shown!(Case);
compared_exactly!(Seen);

const fn bad_usage(words: &'static str, says: &'static str) -> Case {
    Case { words, status: 2, says }
}

const fn refused(words: &'static str, says: &'static str) -> Case {
    Case { words, status: 1, says }
}

/// Commands and options.
const WORDS: [Case; 46] = [
    bad_usage("", "no command"),
    bad_usage("analyze good --rate 8000", "'analyze' is not a command"),
    bad_usage("help analyze", "'analyze' is not a command"),
    bad_usage("help analyse key", "help takes one command"),
    bad_usage("--version good", "'--version' is not a command"),
    bad_usage("analyse --rate 8000", "no file"),
    bad_usage("analyse good", "--rate is missing"),
    bad_usage("analyse good --rate", "--rate needs"),
    bad_usage("analyse good --rate=", "'' is not a rate"),
    bad_usage("analyse good --rate fast", "'fast' is not a rate"),
    bad_usage("analyse good --rate 0", "'0' is not a rate"),
    bad_usage("analyse good --rate -8000", "'-8000' is not a rate"),
    bad_usage("analyse good --rate 4294967296", "'4294967296' is not a rate"),
    bad_usage("analyse good --rate 8000 --rate=8000", "--rate is given twice"),
    bad_usage("analyse good --rate 8000 --fast", "'--fast' is not an option"),
    bad_usage("analyse good --rate 8000 -f", "'-f' is not an option"),
    bad_usage("analyse good -- --rate 8000", "--rate is missing"),
    bad_usage("analyse good --rate 8000 --json=yes", "--json takes no word"),
    bad_usage("analyse good --rate 8000 --json --json-lines", "one can be had"),
    bad_usage("analyse good --rate 8000 --key-only --card -", "one can be had"),
    bad_usage("analyse good --rate 8000 --notation roman", "'roman' is not a notation"),
    bad_usage("analyse good --rate 8000 --notation flats --json", "--notation goes with"),
    bad_usage("analyse good --rate 8000 --jobs 0", "'0' is not a number of jobs"),
    bad_usage("key 1 2 3", "12 numbers"),
    bad_usage("key 1 2 3 4 5 6 7 8 9 10 11 loud", "'loud' is not a number"),
    bad_usage("key-name", "one number"),
    bad_usage("key-name 1 2", "one number"),
    bad_usage("key-name -1", "'-1' is not a whole number"),
    refused("key-name 24", "24 is no key number"),
    bad_usage("demo good", "no file"),
    bad_usage("card", "no file"),
    bad_usage("card good --rate 8000", "'--rate' is not an option"),
    bad_usage("card good --json=yes", "--json takes no word"),
    bad_usage("card good --json --json-lines", "one can be had"),
    bad_usage("card good --notation", "--notation needs"),
    bad_usage("card good --notation roman", "'roman' is not a notation"),
    bad_usage("card good --notation flats --json", "--notation goes with"),
    bad_usage("card - good -", "once"),
    bad_usage("totals", "no file"),
    bad_usage("totals good --rate 8000", "'--rate' is not an option"),
    bad_usage("totals good --svgs .", "'--svgs' is not an option"),
    bad_usage("totals good --json --json-lines", "one can be had"),
    bad_usage("totals good --json --svg -", "one can be had"),
    bad_usage("totals good --notation roman", "'roman' is not a notation"),
    bad_usage("totals good --notation flats --svg -", "--notation goes with"),
    bad_usage("totals - good -", "once"),
];

/// Settings: each option with a word that it does not take, and what the library does not take.
const SETTINGS: [Case; 27] = [
    bad_usage("analyse good --rate 8000 --window wide", "'wide' is not a number of seconds"),
    bad_usage("analyse good --rate 8000 --local-hop high", "'high' is not a number of seconds"),
    bad_usage("analyse good --rate 8000 --segment-confidence 1.5", "'1.5' is not a part"),
    bad_usage("analyse good --rate 8000 --minimum-segment long", "'long' is not a number of seconds"),
    bad_usage("analyse good --rate 8000 --coverage 25", "'25' is not a part"),
    bad_usage("analyse good --rate 8000 --coverage NaN", "'NaN' is not a part"),
    bad_usage("analyse good --rate 8000 --notes 36", "'36' is not two MIDI notes"),
    bad_usage("analyse good --rate 8000 --notes 36-256", "'36-256' is not two MIDI notes"),
    bad_usage("analyse good --rate 8000 --frame-size 4k", "'4k' is not a number of samples"),
    bad_usage("analyse good --rate 8000 --hop-size -1", "'-1' is not a number of samples"),
    bad_usage("analyse good --rate 8000 --engine four", "'four' is not the number of an engine"),
    refused("analyse good --rate 192001 --card new", "(refusal 1)"),
    refused("analyse good --rate 8000 --frame-size 65537", "a frame has more than 65536 samples (refusal 2)"),
    refused("analyse good --rate 8000 --hop-size 1048577", "the hop is above 1048576 samples (refusal 2)"),
    refused("analyse good --rate 8000 --window NaN", "the local window is not finite (refusal 3)"),
    refused("analyse good --rate 8000 --local-hop inf", "the local hop is not finite (refusal 3)"),
    refused(
        "analyse good --rate 8000 --minimum-segment inf",
        "the minimum segment is not finite (refusal 3)",
    ),
    refused(
        "analyse good --rate 8000 --engine 2 --card new",
        "the engine, 2, is neither 0 nor 1 (refusal 13)",
    ),
    refused("key-at good 1 --rate 8000 --engine 4294967295", "the engine, 4294967295, is neither 0 nor 1"),
    refused("analyse good --rate 8000 --engine 2 --local-hop 0.1 --hop-size 0", "(refusal 13)"),
    refused("analyse good --rate 8000 --local-hop 0.4999", "(refusal 5)"),
    refused("analyse good --rate 8000 --frame-size 31", "a frame has fewer than 32 samples"),
    refused("analyse good --rate 8000 --hop-size 0", "the hop is 0"),
    refused("analyse good --rate 8000 --notes 95-36", "the lowest note is above the highest"),
    refused("key-at good 1 --rate 8000 --window 0", "the local window is not above 0"),
    refused("key-at good 1 --rate 8000 --local-hop -1", "the local hop is not above 0"),
    refused(
        "analyse good --rate 8000 --window -inf --local-hop 0.1",
        "the local window is not finite (refusal 3)",
    ),
];

/// Files that are read or written.
const FILES: [Case; 57] = [
    bad_usage("analyse good --rate 8000 --card", "--card needs"),
    bad_usage("analyse good --rate 8000 --svg", "--svg needs"),
    bad_usage("analyse good --rate 8000 --card=", "'' is not the name of a file"),
    bad_usage("analyse good --rate 8000 --svg new/", "'new/' is not the name of a file"),
    bad_usage("analyse good --rate 8000 --card behind --svg dangling", "same file"),
    bad_usage("demo --svg - --track -", "one file can go to standard output"),
    refused("analyse good --rate 8000 --card circle", "circle: "),
    refused("analyse empty --rate 8000 --card new", "empty: there are no samples"),
    refused("analyse - --rate 8000 --card new", "-: there are no samples"),
    refused("demo --svg new --track new", "new: would be written twice"),
    refused("demo --svg behind --track dangling", "dangling: would be written twice"),
    bad_usage("analyse good good --rate 8000 --card new", "one file"),
    bad_usage("analyse good good --rate 8000 --svg -", "one file"),
    bad_usage("analyse good --rate 8000 --card new --cards .", "--card and --cards do not go together"),
    bad_usage("analyse good --rate 8000 --card new --svg new", "same file"),
    bad_usage("analyse good --rate 8000 --card new --svg ./new", "same file"),
    bad_usage("analyse good --rate 8000 --card old --svg ./old", "same file"),
    bad_usage("analyse good --rate 8000 --card ./good", "is read"),
    bad_usage("analyse good.card --rate 8000 --cards .", "is read"),
    bad_usage("analyse good ./good.f32 --rate 8000 --cards .", "same file"),
    bad_usage("analyse - - --rate 8000", "once"),
    bad_usage("analyse - --rate 8000 --cards .", "no name"),
    refused("analyse good --rate 8000 --cards nowhere", "nowhere: is no folder"),
    refused("analyse good --rate 8000 --svgs old", "old: is no folder"),
    refused("analyse missing --rate 8000 --card new", "missing: "),
    refused("analyse . --rate 8000 --card new", ".: "),
    refused("analyse odd --rate 8000 --card new --svg old", "odd: the length is no multiple"),
    refused("analyse spoilt --rate 8000 --card new --svg old", "spoilt: the frame at position 0"),
    refused("analyse spoilt --rate 8000 --json", "(refusal 9)"),
    refused(
        "analyse long --rate 1 --frame-size 32 --card new",
        "86401 samples at 1 Hz are more than 24 hours (refusal 4)",
    ),
    refused("analyse good --rate 8000 --card new --svg nowhere/new", "nowhere/new: "),
    refused("analyse good --rate 8000 --svg new --card nowhere/new", "nowhere/new: "),
    refused("analyse good --rate 8000 --card new --svg .", ".: is a folder"),
    refused("analyse good --rate 8000 --card new --svg /dev/full", "/dev/full: "),
    refused("demo --svg new --track /dev/full", "/dev/full: "),
    bad_usage("key-at good --rate 8000", "a file and a time"),
    bad_usage("key-at good 1 soon --rate 8000", "'soon' is not a time"),
    bad_usage("key-at good NaN --rate 8000", "'NaN' is not a time"),
    bad_usage("key-at good 1", "--rate is missing"),
    refused("key-at good 99 --rate 8000", "no key at 99 s"),
    refused("key-at good -1 100 --rate 8000", "no key at -1 s, 100 s of 2.00 s"),
    refused("key-at silent 1 --rate 8000", "no key at 1 s"),
    refused("card missing", "missing: "),
    refused("card missing --json", "missing: "),
    refused("card missing circle", "2 of 2 failed: missing, circle"),
    refused("card .", ".: "),
    bad_usage("totals o --svg=", "'' is not the name of a file"),
    bad_usage("totals o --svg ./o", "is read"),
    bad_usage("totals . --svg good.card", "./good.card is read"),
    refused("totals o --svg nowhere/new", "nowhere/new: "),
    refused("totals o --svg .", ".: is a folder"),
    refused("totals o --json --svg /dev/full", "/dev/full: "),
    refused("totals good --svg new", "good: "),
    refused("totals missing --svg new", "missing: "),
    refused("totals bare --svg new", "bare: there are no cards"),
    refused("totals bare missing", "2 of 2 failed: bare, missing"),
    refused("totals . circle", "2 of 2 failed: ./good.card, circle"),
];

/// Files of other kinds, by their first bytes.
const KINDS: [(&str, &[u8]); 7] = [
    ("wav", b"RIFF\x24\0\0\0WAVE"),
    ("rf64", b"RF64\xff\xff\xff\xffWAVE"),
    ("aiff", b"FORM\0\0\0\x24AIFF"),
    ("flac", b"fLaC\0\0\0\x22"),
    ("mp3", b"ID3\x04\0\0\0\0"),
    ("ogg", b"OggS\0\x02\0\0"),
    ("mp4", b"\0\0\0\x20ftypisom"),
];

/// The line that decodes such a file stands in the message.
fn kinds() -> impl Iterator<Item = Case> {
    const LINES: [Case; 7] = [
        refused(
            "analyse wav --rate 8000 --card new",
            "ffmpeg -nostdin -v error -i 'file:wav' -f f32le -ac 1 -ar 8000 - | ulyptesh",
        ),
        refused("analyse rf64 --rate 8000", "-i 'file:rf64' "),
        refused("analyse aiff --rate 8000", "-i 'file:aiff' "),
        refused("analyse flac --rate 8000 --json", "flac: a FLAC file (fLaC), and no raw samples"),
        refused("analyse mp3 --rate 8000", "mp3: an MP3 file (ID3)"),
        refused("key-at ogg 1 --rate 8000", "ogg: an Ogg file (OggS)"),
        refused("analyse mp4 --rate 8000", "mp4: an MP4 file (ftyp)"),
    ];
    LINES.into_iter()
}

/// Files that are good, odd, too loud, silent, too long at 1 Hz, empty or of another kind; a card, a folder without one,
/// a file that is there before, and links to nothing.
fn filled() -> Folder {
    let folder = Folder::new("tool-refusals");
    let tone: Vec<f32> = (0..16_000).map(|place| (place as f32 * 0.2).sin()).collect();
    folder.put_samples("good", &tone);
    folder.put_samples("good.f32", &tone);
    folder.put_samples("good.card", &tone);
    folder.put_samples("silent", &[0.0; 16_000]);
    folder.put_samples("spoilt", &[1e25; 16_000]);
    folder.put_samples("long", &[0.0; 86_401]);
    folder.put("odd", &[0; 16_001]);
    folder.put("o", &ROW_O);
    folder.make_folder("bare");
    folder.put("old", b"old");
    folder.put("empty", b"");
    folder.put_link("dangling", "behind");
    folder.put_link("circle", "circle");
    KINDS.iter().for_each(|(name, first)| folder.put(name, first));
    folder
}

fn seen(folder: &Folder, case: &Case) -> Seen {
    let before = folder.content();
    let ended = folder.run(&case.words.split_whitespace().collect::<Vec<_>>());
    let message = text(&ended.stderr);
    Seen {
        status: ended.status.code(),
        says: message.starts_with("ulyptesh: ") && message.contains(case.says),
        prints: !ended.stdout.is_empty(),
        changes_files: folder.content() != before,
    }
}

/// What a case asks for.
fn wanted(case: Case) -> Seen {
    Seen { status: Some(case.status), says: true, prints: false, changes_files: false }
}

pub fn compare(groups: &mut Groups) {
    let ours = |case: Case| seen(&filled(), &case);
    groups.group("the tool on bad words", WORDS.into_iter(), ours, wanted);
    groups.group("the tool on bad settings", SETTINGS.into_iter(), ours, wanted);
    groups.group("the tool on bad files", FILES.into_iter(), ours, wanted);
    groups.group("the tool on files of other kinds", kinds(), ours, wanted);
}
