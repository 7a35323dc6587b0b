//! Which sheets are taken: those that the host builds, those with one rule broken, and those at a rule's border.
use crate::groups::{Compared, Groups, compared_exactly};
use bench::inputs::random::patterns;
use bench::probe::sheet::{probe_sheet_matches, well_formed};
use ulyptesh::Settings;
use ulyptesh::calls::{Sheet, SheetHead};

/// Rates at both ends of what the library takes, and the usual ones.
const RATES: [u32; 5] = [44_100, 48_000, 8_000, 96_000, 192_000];

/// All notes; the usual ones; one note; some that the oracle's guard against too high ones cuts off; all cut off.
const NOTES: [(u8, u8); 5] = [(0, 255), (36, 95), (69, 69), (100, 140), (250, 255)];

const FRAME_SIZES: [usize; 3] = [32, 4_096, 65_536];

/// So many random sheets are judged.
const RANDOM_SHEETS: usize = 20_000;

/// Stream of the seed.
const STREAM: u64 = 900;

/// A sheet that something was done to.
#[derive(Clone)]
pub struct Judged {
    pub what: String,
    pub sheet: Sheet,
}

impl Compared for Judged {
    fn same(&self, other: &Self) -> bool {
        self.sheet == other.sheet
    }

    fn shown(&self) -> String {
        format!("{:?}, {}", self.sheet.head, self.what)
    }
}

/// Something that is done to a sheet.
type Change = (&'static str, fn(&mut Sheet));

/// A small sheet with a row for each of its thirteen notes.
fn small() -> Sheet {
    let head = SheetHead { rate: 8_000, minimum_midi_note: 60, maximum_midi_note: 72, frame_size: 64 };
    built(head).sheet
}

fn longest(sheet: &Sheet) -> u32 {
    sheet.constant_q_lengths.iter().copied().max().expect("the sheet has rows")
}

/// The length of a row becomes another, and the joined windows stay as long as the lengths' sum.
fn with_length(sheet: &mut Sheet, length: u32) {
    sheet.constant_q_lengths[0] = length;
    let sum: usize = sheet.constant_q_lengths.iter().map(|&length| length as usize).sum();
    sheet.constant_q_windows.resize(sum, 0.5);
}

/// Each breaks one rule.
const BROKEN: [Change; 42] = [
    ("window shorter than the frame", |s| s.window.truncate(63)),
    ("window longer than the frame", |s| s.window.push(0.0)),
    ("no window", |s| s.window.clear()),
    ("frame size of the head larger", |s| s.head.frame_size = 65),
    ("a Goertzel coefficient too few", |s| s.goertzel_coefficients.truncate(12)),
    ("a Goertzel weight too few", |s| s.goertzel_weights.truncate(12)),
    ("a constant-Q coefficient too few", |s| s.constant_q_coefficients.truncate(12)),
    ("a constant-Q coefficient too many", |s| s.constant_q_coefficients.push(0.0)),
    ("a Goertzel row more than notes", |s| {
        s.goertzel_coefficients.push(0.0);
        s.goertzel_weights.push(1.0);
    }),
    ("a constant-Q row more than notes", |s| {
        s.constant_q_lengths.push(4);
        s.constant_q_coefficients.push(0.0);
        s.constant_q_windows.extend([0.0; 4]);
    }),
    ("a note less than Goertzel rows", |s| {
        s.head.maximum_midi_note = 71;
        s.constant_q_windows.truncate(0);
        s.constant_q_lengths.clear();
        s.constant_q_coefficients.clear();
    }),
    ("a note less than constant-Q rows", |s| {
        s.head.minimum_midi_note = 61;
        s.goertzel_coefficients.clear();
        s.goertzel_weights.clear();
    }),
    ("no notes, but rows", |s| (s.head.minimum_midi_note, s.head.maximum_midi_note) = (72, 60)),
    ("a length of 3", |s| with_length(s, 3)),
    ("a length of 0", |s| with_length(s, 0)),
    ("a length above the rate", |s| with_length(s, 8_001)),
    ("the rate below a length", |s| s.head.rate = longest(s) - 1),
    ("joined windows a value too short", |s| s.constant_q_windows.truncate(s.constant_q_windows.len() - 1)),
    ("joined windows a value too long", |s| s.constant_q_windows.push(0.0)),
    ("lengths whose sum needs more than 32 bits", |s| {
        s.head.rate = u32::MAX;
        s.constant_q_lengths.fill(u32::MAX);
    }),
    ("Goertzel coefficient above 2", |s| s.goertzel_coefficients[12] = 2.0f32.next_up()),
    ("Goertzel coefficient below -2", |s| s.goertzel_coefficients[0] = (-2.0f32).next_down()),
    ("Goertzel coefficient a NaN", |s| s.goertzel_coefficients[5] = f32::NAN),
    ("Goertzel coefficient infinite", |s| s.goertzel_coefficients[5] = f32::INFINITY),
    ("constant-Q coefficient above 2", |s| s.constant_q_coefficients[0] = 2.0f32.next_up()),
    ("constant-Q coefficient below -2", |s| s.constant_q_coefficients[12] = (-2.0f32).next_down()),
    ("constant-Q coefficient a NaN", |s| s.constant_q_coefficients[12] = -f32::NAN),
    ("constant-Q coefficient infinite", |s| s.constant_q_coefficients[3] = f32::NEG_INFINITY),
    ("a weight of 0", |s| s.goertzel_weights[0] = 0.0),
    ("a weight of -0", |s| s.goertzel_weights[3] = -0.0),
    ("a weight below 0", |s| s.goertzel_weights[12] = -1.0),
    ("a weight infinite", |s| s.goertzel_weights[7] = f32::INFINITY),
    ("a weight a NaN", |s| s.goertzel_weights[7] = f32::NAN),
    ("a window value below 0", |s| s.window[63] = (-0.0f32).next_down()),
    ("a window value above 1", |s| s.window[0] = 1.0f32.next_up()),
    ("a window value a NaN", |s| s.window[31] = f32::NAN),
    ("a window value infinite", |s| s.window[31] = f32::INFINITY),
    ("a joined window value below 0", |s| s.constant_q_windows[0] = (-0.0f32).next_down()),
    ("a joined window value above 1", |s| {
        *s.constant_q_windows.last_mut().expect("windows") = 1.0f32.next_up()
    }),
    ("a joined window value a NaN", |s| s.constant_q_windows[1_000] = f32::NAN),
    ("a joined window value infinite", |s| s.constant_q_windows[1_000] = f32::NEG_INFINITY),
    ("lengths of other rows", |s| s.constant_q_lengths[4] += 1),
];

/// None breaks a rule.
const AT_BORDER: [Change; 14] = [
    ("as the host builds it", |_| ()),
    ("no rows and no notes", |s| {
        *s = Sheet {
            head: SheetHead { minimum_midi_note: 9, maximum_midi_note: 8, ..s.head },
            window: s.window.clone(),
            ..nothing()
        };
    }),
    ("nothing at all", |s| *s = nothing()),
    ("fewer Goertzel rows than notes", |s| {
        s.goertzel_coefficients.truncate(1);
        s.goertzel_weights.truncate(1);
    }),
    ("more notes than rows", |s| (s.head.minimum_midi_note, s.head.maximum_midi_note) = (0, 255)),
    ("a length of 4", |s| with_length(s, 4)),
    ("a length of the rate", |s| with_length(s, 8_000)),
    ("the rate at the longest length", |s| s.head.rate = longest(s)),
    ("coefficients at both ends", |s| {
        (s.goertzel_coefficients[0], s.goertzel_coefficients[1]) = (-2.0, 2.0);
        (s.constant_q_coefficients[0], s.constant_q_coefficients[1]) = (2.0, -2.0);
    }),
    ("the smallest weight", |s| s.goertzel_weights[0] = 0.0f32.next_up()),
    ("the largest weight", |s| s.goertzel_weights[0] = f32::MAX),
    ("window values at both ends", |s| (s.window[0], s.window[1]) = (0.0, 1.0)),
    ("window values of -0", |s| (s.window[0], s.constant_q_windows[0]) = (-0.0, -0.0)),
    ("joined window values at both ends", |s| {
        (s.constant_q_windows[0], s.constant_q_windows[1]) = (1.0, 0.0)
    }),
];

/// A sheet without rows, for frames of no samples.
fn nothing() -> Sheet {
    Sheet {
        head: SheetHead { rate: 0, minimum_midi_note: 0, maximum_midi_note: 0, frame_size: 0 },
        window: vec![],
        goertzel_coefficients: vec![],
        goertzel_weights: vec![],
        constant_q_lengths: vec![],
        constant_q_coefficients: vec![],
        constant_q_windows: vec![],
    }
}

fn changed(changes: &'static [Change]) -> impl Iterator<Item = Judged> {
    changes.iter().map(|(what, change)| {
        let mut sheet = small();
        change(&mut sheet);
        Judged { what: (*what).to_string(), sheet }
    })
}

/// The request's rules, one after the other.
pub fn follows_the_rules(sheet: &Sheet) -> bool {
    let SheetHead { rate, minimum_midi_note, maximum_midi_note, frame_size } = sheet.head;
    let notes = (minimum_midi_note..=maximum_midi_note).count();
    let lengths = &sheet.constant_q_lengths;
    let sum: u128 = lengths.iter().map(|&length| u128::from(length)).sum();
    let mut coefficients = sheet.goertzel_coefficients.iter().chain(&sheet.constant_q_coefficients);
    let mut values = sheet.window.iter().chain(&sheet.constant_q_windows);
    sheet.window.len() == frame_size
        && sheet.goertzel_coefficients.len() == sheet.goertzel_weights.len()
        && lengths.len() == sheet.constant_q_coefficients.len()
        && sheet.goertzel_weights.len() <= notes
        && lengths.len() <= notes
        && lengths.iter().all(|length| (4..=rate).contains(length))
        && sheet.constant_q_windows.len() as u128 == sum
        && coefficients.all(|x| (-2.0..=2.0).contains(x))
        && sheet.goertzel_weights.iter().all(|x| x.is_finite() && *x > 0.0)
        && values.all(|x| (0.0..=1.0).contains(x))
}

/// None to three changes, of any list above, one after the other.
fn random_sheets(seed: u64) -> impl Iterator<Item = Judged> {
    let base = small();
    patterns(seed, STREAM).take(RANDOM_SHEETS).map(move |pattern| {
        let count = pattern as usize % 4;
        let all =
            || BROKEN.iter().chain(&AT_BORDER[5..]).filter(|(what, _)| !what.contains("needs more than"));
        let nth = |turn: usize| (pattern >> (8 + 16 * turn)) as usize % all().count();
        let changes: Vec<&Change> = (0..count).filter_map(|turn| all().nth(nth(turn))).collect();
        let mut judged = Judged { what: String::new(), sheet: base.clone() };
        for (what, change) in changes {
            if fits(&judged.sheet) {
                change(&mut judged.sheet);
                judged.what.push_str(what);
                judged.what.push_str("; ");
            }
        }
        judged
    })
}

/// The lists are still long enough for a change to find its place.
fn fits(sheet: &Sheet) -> bool {
    sheet.window.len() > 63
        && sheet.goertzel_coefficients.len() > 12
        && sheet.goertzel_weights.len() > 12
        && sheet.constant_q_lengths.len() > 12
        && sheet.constant_q_coefficients.len() > 12
        && sheet.constant_q_windows.len() > 1_000
}

/// A call's settings, and the head of a sheet for it or for another.
type Asked = (Settings, SheetHead);

compared_exactly!(SheetHead);

/// The heads of every rate with every range of notes and every frame size.
pub fn heads() -> impl Iterator<Item = SheetHead> {
    let with_notes = |rate| NOTES.map(|(lowest, highest)| (rate, lowest, highest));
    RATES.into_iter().flat_map(with_notes).flat_map(|(rate, minimum_midi_note, maximum_midi_note)| {
        FRAME_SIZES.map(|frame_size| SheetHead { rate, minimum_midi_note, maximum_midi_note, frame_size })
    })
}

/// Heads that differ in one number.
fn neighbours(head: SheetHead) -> [SheetHead; 4] {
    [
        SheetHead { rate: head.rate + 1, ..head },
        SheetHead { minimum_midi_note: head.minimum_midi_note.wrapping_sub(1), ..head },
        SheetHead { maximum_midi_note: head.maximum_midi_note.wrapping_add(1), ..head },
        SheetHead { frame_size: head.frame_size - 1, ..head },
    ]
}

/// The sheet of a call that has this head.
pub fn built(head: SheetHead) -> Judged {
    Judged { what: "as the host builds it".to_string(), sheet: Sheet::for_call(&settings_for(head)) }
}

/// A call that the head's sheet is made for.
fn settings_for(head: SheetHead) -> Settings {
    Settings::for_rate(head.rate).with(|settings| {
        settings.frame_size = head.frame_size;
        settings.minimum_midi_note = head.minimum_midi_note;
        settings.maximum_midi_note = head.maximum_midi_note;
    })
}

/// Every call beside every sheet, and beside those that differ from one in one number.
fn asked() -> impl Iterator<Item = Asked> {
    let every = || heads().chain(heads().flat_map(neighbours));
    heads().flat_map(move |call| every().map(move |sheet| (settings_for(call), sheet)))
}

/// Whether a sheet with this head is one for the call.
pub fn is_made_for(settings: &Settings, head: SheetHead) -> bool {
    let Settings { rate, frame_size, minimum_midi_note, maximum_midi_note, .. } = *settings;
    head == SheetHead { rate, minimum_midi_note, maximum_midi_note, frame_size }
}

pub fn compare(groups: &mut Groups) {
    let ours = |judged: Judged| well_formed(&judged.sheet);
    groups.group("sheets built by the host", heads().map(built), ours, |_| true);
    groups.group("sheets with one rule broken", changed(&BROKEN), ours, |_| false);
    groups.group("sheets at a rule's border", changed(&AT_BORDER), ours, |_| true);
    groups.group("sheets, random changes", random_sheets(groups.seed), ours, |judged| {
        follows_the_rules(&judged.sheet)
    });
    let our_match = |(settings, head): Asked| probe_sheet_matches(settings, head);
    groups.group("sheets for calls", asked(), our_match, |(settings, head)| is_made_for(&settings, head));
}
