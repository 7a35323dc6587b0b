//! Key cards read, written again from what was read, and written from an analysis: nanoseconds for one card. The Rust
//! has no cards, so nothing stands beside them.
use crate::rounds::{median_of, seconds};
use ulyptesh::calls::LONGEST_CARD;
use ulyptesh::calls::{CardFields, CardRead, PackedFields, read_card, write_card, write_packed_card};

/// Segments of a card, and how many cards are a round.
const CARDS: [(usize, usize); 4] = [(5, 100_000), (1_023, 1_000), (1_024, 1_000), (4_095, 250)];

const ROUNDS: usize = 7;

/// So many milliseconds of a segment.
const LENGTH: u32 = 14_000;

/// The thousandths of confidence in a card's key.
const CONFIDENCE: u32 = 500;

/// Rows for segments.
struct Rows {
    starts: Vec<u32>,
    ends: Vec<u32>,
    keys: Vec<u8>,
    confidences: Vec<u16>,
}

impl Rows {
    /// Segments of one length, in all keys in turn.
    fn new(count: usize) -> Self {
        let borders = |first: u32| (first..).map(|border| border * LENGTH).take(count).collect();
        Self {
            starts: borders(0),
            ends: borders(1),
            keys: (0..24).cycle().take(count).collect(),
            confidences: (0..1_000).cycle().take(count).collect(),
        }
    }

    fn read(&mut self, card: &[u8]) -> CardRead {
        read_card(card, &mut self.starts, &mut self.ends, &mut self.keys, &mut self.confidences)
    }

    /// With so many thousandths of confidence in the key.
    fn write(&self, confidence: u32, bytes: &mut [u8]) -> usize {
        let fields = PackedFields {
            key: 0,
            dsp_key: 0,
            alternate: 1,
            coverage: 250,
            confidence,
            starts: &self.starts,
            ends: &self.ends,
            keys: &self.keys,
            confidences: &self.confidences,
        };
        write_packed_card(&fields, bytes).length
    }
}

/// A card of so many segments, with so many thousandths of confidence.
pub fn card(count: usize, confidence: u32) -> Vec<u8> {
    let mut card = vec![0; LONGEST_CARD];
    let length = Rows::new(count).write(confidence, &mut card);
    card.truncate(length);
    card
}

/// The same segments as an analysis tells them: times in seconds, parts of one.
struct Analysed {
    starts: Vec<f64>,
    ends: Vec<f64>,
    keys: Vec<u8>,
    confidences: Vec<f32>,
}

impl Analysed {
    fn new(rows: &Rows) -> Self {
        let times = |borders: &[u32]| borders.iter().map(|&border| f64::from(border) / 1e3).collect();
        Self {
            starts: times(&rows.starts),
            ends: times(&rows.ends),
            keys: rows.keys.clone(),
            confidences: rows.confidences.iter().map(|&part| f32::from(part) / 1e3).collect(),
        }
    }

    fn write(&self, bytes: &mut [u8]) -> usize {
        let fields = CardFields {
            key: 0,
            dsp_key: 0,
            alternate: 1,
            coverage: 0.25,
            confidence: 0.5,
            starts: &self.starts,
            ends: &self.ends,
            keys: &self.keys,
            confidences: &self.confidences,
        };
        write_card(&fields, bytes).length
    }
}

/// Nanoseconds of one turn.
fn nanoseconds(turns: usize, mut turn: impl FnMut() -> u64) -> f64 {
    median_of(ROUNDS, || seconds(|| (0..turns).map(|_| turn()).sum::<u64>()) * 1e9 / turns as f64)
}

fn print_row(count: usize, turns: usize) {
    let (mut rows, mut card) = (Rows::new(count), card(count, CONFIDENCE));
    let length = card.len();
    assert_eq!(rows.read(&card).segments, count as u64);
    let reading = nanoseconds(turns, || rows.read(&card).segments);
    let again = nanoseconds(turns, || rows.write(CONFIDENCE, &mut card) as u64);
    let analysed = Analysed::new(&rows);
    assert_eq!(analysed.write(&mut card), length);
    let first = nanoseconds(turns, || analysed.write(&mut card) as u64);
    println!("{:30} {reading:10.1} {again:10.1} {first:10.1}", format!("{count} segments"));
}

pub fn print_rows() {
    println!("{:30} {:>10} {:>10} {:>10}", "ns for one card, ours alone", "read", "again", "analysed");
    CARDS.into_iter().for_each(|(count, turns)| print_row(count, turns));
}
