//! Calls for frames, what they leave, and the request's check table over them, written out once more.
use crate::both_engines::{self, by_both};
use crate::groups::{Compared, compared_as_shown};
use crate::packed::LONGEST;
use crate::sheets::{follows_the_rules, is_made_for};
use std::sync::Arc;
use ulyptesh::calls::{FrameRows, FramesResult, Sheet, frames};
use ulyptesh::{Engine, Settings};

/// What lent rows hold before the call.
const UNTOUCHED: f32 = -7.25;

/// What a call is given, and the lengths of the rows that it is lent.
#[derive(Clone)]
pub struct Asked {
    pub what: &'static str,
    pub settings: Settings,
    pub sheet: Arc<Sheet>,
    pub samples: Vec<f32>,
    pub room: [usize; 3],
}

/// What the call answers and the rows that it leaves, and what the other engine leaves where that is something else.
#[derive(Debug, PartialEq)]
pub struct Left {
    answer: FramesResult,
    rows: FrameRows,
    other: Option<String>,
}

compared_as_shown!(Settings);

impl Compared for Asked {
    fn same(&self, other: &Self) -> bool {
        self.shown() == other.shown() && self.samples.same(&other.samples)
    }

    fn shown(&self) -> String {
        format!("{}, {:?}, {:?}, {} samples", self.what, self.settings, self.sheet.head, self.samples.len())
    }
}

impl Compared for Left {
    fn same(&self, other: &Self) -> bool {
        self.answer == other.answer && self.rows.same(&other.rows) && self.other == other.other
    }

    fn shown(&self) -> String {
        let other = both_engines::shown(self.other.as_ref());
        format!("{:?}, {}{other}", self.answer, self.rows.shown())
    }
}

impl Left {
    /// With either engine.
    pub fn new(answer: FramesResult, rows: FrameRows) -> Self {
        Self { answer, rows, other: None }
    }
}

/// The Rust's own settings but for rate, notes, frame size and hop.
pub fn settings(rate: u32, notes: (u8, u8), frame_size: usize, hop_size: usize) -> Settings {
    Settings::for_rate(rate).with(|settings| {
        (settings.minimum_midi_note, settings.maximum_midi_note) = notes;
        (settings.frame_size, settings.hop_size) = (frame_size, hop_size);
    })
}

/// A call that passes: 256 samples of a tone at 8,000 Hz, seven frames.
pub fn whole() -> Asked {
    let settings = settings(8_000, (60, 72), 64, 32);
    let sheet = Arc::new(Sheet::for_call(&settings));
    let samples = (0..256).map(|at| (at as f32 * 0.3).sin()).collect();
    let whole = Asked { what: "whole", settings, sheet, samples, room: [7, 8, 9] };
    assert_eq!(whole.refusal(), None);
    whole
}

pub fn untouched(room: [usize; 3]) -> FrameRows {
    FrameRows {
        centres: vec![UNTOUCHED.into(); room[0]],
        values: vec![[UNTOUCHED; 12]; room[1]],
        energies: vec![UNTOUCHED; room[2]],
    }
}

/// The call as it is asked, and by the other engine.
pub fn ours(asked: Asked) -> Left {
    let (left, other) = by_both(asked.settings, |settings| {
        let mut rows = untouched(asked.room);
        let answer = frames(settings, &asked.sheet, &asked.samples, &mut rows);
        Left::new(answer, rows)
    });
    Left { other, ..left }
}

/// What a call leaves that the table refuses.
pub fn refused(asked: &Asked, refusal: u32) -> Left {
    Left::new(FramesResult { refusal, position: 0, count: 0 }, untouched(asked.room))
}

fn numbers(settings: &Settings) -> [f32; 5] {
    [
        settings.local_window_seconds,
        settings.local_hop_seconds,
        settings.alternate_coverage_threshold,
        settings.segment_confidence_threshold,
        settings.minimum_segment_seconds,
    ]
}

fn is_empty(settings: &Settings, samples: usize) -> bool {
    settings.rate == 0
        || settings.frame_size < 32
        || settings.hop_size == 0
        || samples < settings.frame_size
        || settings.minimum_midi_note > settings.maximum_midi_note
        || settings.local_window_seconds <= 0.0
        || settings.local_hop_seconds <= 0.0
}

/// The front of the table, on settings and so many samples: the number of the first check that applies, and 0 for the
/// empty answer.
pub fn refusal_of(settings: &Settings, samples: usize) -> Option<u32> {
    let tests = [
        (1, settings.rate > 192_000),
        (2, settings.frame_size > 65_536 || settings.hop_size > 1_048_576),
        (3, !numbers(settings).iter().all(|x| x.is_finite())),
        (13, ![0, 1].contains(&settings.engine.0)),
        (0, is_empty(settings, samples)),
        (4, samples as u64 > LONGEST * u64::from(settings.rate)),
    ];
    tests.into_iter().find(|&(_, applies)| applies).map(|(number, _)| number)
}

impl Asked {
    fn lacks_room(&self) -> bool {
        let Settings { frame_size, hop_size, .. } = self.settings;
        let positions = (self.samples.len() - frame_size) / hop_size + 1;
        self.room.iter().any(|&places| places < positions)
    }

    /// The number of the first check that applies, and 0 for the empty answer; none where the run begins.
    pub fn refusal(&self) -> Option<u32> {
        refusal_of(&self.settings, self.samples.len())
            .or_else(|| (!is_made_for(&self.settings, self.sheet.head)).then_some(6))
            .or_else(|| (!follows_the_rules(&self.sheet)).then_some(7))
            .or_else(|| self.lacks_room().then_some(8))
    }
}

/// Something that makes a check apply.
pub struct Breach {
    pub what: &'static str,
    pub breaks: fn(&mut Asked),
}

/// In the table's order.
pub const BREACHES: [Breach; 35] = [
    Breach { what: "rate above 192,000", breaks: |asked| asked.settings.rate = 192_001 },
    Breach { what: "frame size above 65,536", breaks: |asked| asked.settings.frame_size = 65_537 },
    Breach { what: "hop above 1,048,576", breaks: |asked| asked.settings.hop_size = 1_048_577 },
    Breach { what: "window not finite", breaks: |asked| asked.settings.local_window_seconds = f32::NAN },
    Breach { what: "local hop not finite", breaks: |asked| asked.settings.local_hop_seconds = f32::INFINITY },
    Breach {
        what: "coverage not finite",
        breaks: |asked| asked.settings.alternate_coverage_threshold = f32::NEG_INFINITY,
    },
    Breach {
        what: "confidence not finite",
        breaks: |asked| asked.settings.segment_confidence_threshold = f32::NAN,
    },
    Breach { what: "minimum not finite", breaks: |asked| asked.settings.minimum_segment_seconds = f32::NAN },
    Breach { what: "engine 2", breaks: |asked| asked.settings.engine = Engine(2) },
    Breach { what: "engine 3", breaks: |asked| asked.settings.engine = Engine(3) },
    Breach { what: "engine 256", breaks: |asked| asked.settings.engine = Engine(256) },
    Breach { what: "engine 65,536", breaks: |asked| asked.settings.engine = Engine(65_536) },
    Breach { what: "engine 2^32 - 1", breaks: |asked| asked.settings.engine = Engine(u32::MAX) },
    Breach { what: "rate 0", breaks: |asked| asked.settings.rate = 0 },
    Breach { what: "frame size 31", breaks: |asked| asked.settings.frame_size = 31 },
    Breach { what: "hop 0", breaks: |asked| asked.settings.hop_size = 0 },
    Breach { what: "fewer samples than a frame", breaks: |asked| asked.samples.truncate(63) },
    Breach { what: "no samples", breaks: |asked| asked.samples.clear() },
    Breach { what: "lowest note above highest", breaks: |asked| asked.settings.minimum_midi_note = 73 },
    Breach { what: "window 0", breaks: |asked| asked.settings.local_window_seconds = 0.0 },
    Breach { what: "local hop -0", breaks: |asked| asked.settings.local_hop_seconds = -0.0 },
    Breach { what: "local hop below 0", breaks: |asked| asked.settings.local_hop_seconds = -1.0 },
    Breach {
        what: "a sample more than a day",
        breaks: |asked| {
            asked.settings.rate = 1;
            asked.samples.resize(LONGEST as usize + 1, 0.5);
        },
    },
    Breach {
        what: "sheet of another rate",
        breaks: |asked| Arc::make_mut(&mut asked.sheet).head.rate = 44_100,
    },
    Breach {
        what: "sheet of another lowest note",
        breaks: |asked| Arc::make_mut(&mut asked.sheet).head.minimum_midi_note = 59,
    },
    Breach {
        what: "sheet of another highest note",
        breaks: |asked| Arc::make_mut(&mut asked.sheet).head.maximum_midi_note = 73,
    },
    Breach {
        what: "sheet of another frame size",
        breaks: |asked| Arc::make_mut(&mut asked.sheet).head.frame_size = 63,
    },
    Breach { what: "window value above 1", breaks: |asked| Arc::make_mut(&mut asked.sheet).window[5] = 1.5 },
    Breach { what: "weight of 0", breaks: |asked| Arc::make_mut(&mut asked.sheet).goertzel_weights[0] = 0.0 },
    Breach {
        what: "joined windows one longer",
        breaks: |asked| Arc::make_mut(&mut asked.sheet).constant_q_windows.push(0.5),
    },
    Breach { what: "too few centres", breaks: |asked| asked.room[0] = 6 },
    Breach { what: "too few values", breaks: |asked| asked.room[1] = 0 },
    Breach { what: "too few energies", breaks: |asked| asked.room[2] = 6 },
    Breach {
        what: "first frame too loud",
        breaks: |asked| asked.samples.iter_mut().take(9).for_each(|x| *x = 1e25),
    },
    Breach {
        what: "last frame too loud",
        breaks: |asked| asked.samples.iter_mut().skip(224).for_each(|x| *x = 1e25),
    },
];
