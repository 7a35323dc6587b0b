//! Tracks for which there is too little memory: the tool says so, writes nothing, and goes on with the others.
use crate::groups::{Groups, compared_as_shown, compared_exactly};
use crate::tool_runs::{Folder, text};

/// So many kibibytes the tool may take: enough for itself and a short track.
const ROOM: u32 = 300_000;

/// A day of samples at 44,100 Hz, in bytes.
const DAY: u64 = 86_400 * 44_100 * 4;

/// So many samples fit, and a frame row for each does not.
const MANY: u64 = 6_000_000;

/// The words behind the tool's name, what it prints, and what its message says.
#[derive(Debug, Clone, Copy)]
struct Case {
    words: &'static str,
    prints: &'static str,
    says: &'static str,
}

/// What a run showed.
#[derive(Debug, PartialEq)]
struct Seen {
    status: Option<i32>,
    printed: String,
    says: bool,
    writes: bool,
}

compared_as_shown!(Case);
compared_exactly!(Seen);

const NO_ROWS: &str = "the track needs more rows than were lent, or than there is memory for (refusal 8)";

const CASES: [Case; 7] = [
    Case {
        words: "analyse day --rate 44100 --card new",
        prints: "",
        says: "day: there is too little memory for 3810240000 samples\n",
    },
    Case {
        words: "analyse longer --rate 44100 --card new",
        prints: "",
        says: "longer: 3810240001 samples at 44100 Hz are more than 24 hours (refusal 4)\n",
    },
    Case {
        words: "analyse - --rate 44100 --svg new",
        prints: "",
        says: "-: there is too little memory for ",
    },
    Case {
        words: "key-at day 1 --rate 44100",
        prints: "",
        says: "day: there is too little memory for 3810240000 samples\n",
    },
    Case { words: "analyse many --rate 8000 --hop-size 1 --card new", prints: "", says: NO_ROWS },
    Case { words: "key-at many 1 --rate 8000 --hop-size 1", prints: "", says: NO_ROWS },
    Case {
        words: "analyse day good many good --rate 44100 --hop-size 1 --key-only",
        prints: "none\tgood\nnone\tgood\n",
        says: "2 of 4 failed: day, many\n",
    },
];

/// Silence: a second, a day, a sample more, and as many samples as frame rows do not fit for. But for the first they
/// take no room on the disk.
fn filled() -> Folder {
    let folder = Folder::new("tool-memory");
    folder.put_samples("good", &[0.0; 44_100]);
    folder.put_zeros("day", DAY);
    folder.put_zeros("longer", DAY + 4);
    folder.put_zeros("many", 4 * MANY);
    folder
}

/// The day is standard input too.
fn seen(folder: &Folder, case: Case) -> Seen {
    let words: Vec<&str> = case.words.split_whitespace().collect();
    let ended = folder.command_within(ROOM, &words).stdin(folder.open("day")).output();
    let ended = ended.expect("the tool runs");
    Seen {
        status: ended.status.code(),
        printed: text(&ended.stdout),
        says: text(&ended.stderr).contains(case.says),
        writes: folder.read("new").is_some(),
    }
}

fn wanted(case: Case) -> Seen {
    Seen { status: Some(1), printed: case.prints.into(), says: true, writes: false }
}

pub fn compare(groups: &mut Groups) {
    let folder = filled();
    groups.group("the tool with too little memory", CASES.into_iter(), |case| seen(&folder, case), wanted);
}
