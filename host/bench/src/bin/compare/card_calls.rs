//! Calls that read a card and that write one from packed numbers: what they are lent, and what they leave in all of it.
use crate::card_model::{Meaning, Segment, TOO_FEW_ROWS};
use crate::cards;
use crate::groups::{Compared, compared_as_shown};
use ulyptesh::calls::{CardRead, PackedFields, read_card, write_packed_card};

/// Rows behind those that are lent.
const BEYOND: usize = 2;

/// So many bytes of a card are shown.
const SHOWN: usize = 160;

/// Rows for segments: milliseconds and thousandths.
#[derive(Debug, Clone, PartialEq)]
pub struct Rows {
    pub starts: Vec<u32>,
    pub ends: Vec<u32>,
    pub keys: Vec<u8>,
    pub confidences: Vec<u16>,
}

/// A call that reads: the bytes, and how many starts, ends, keys and confidences are lent.
#[derive(Debug, Clone)]
pub struct Reading {
    pub bytes: Vec<u8>,
    pub rows: [usize; 4],
}

/// What a call that reads answers and leaves, in the rows behind those that are lent and in the bytes too.
#[derive(Debug, PartialEq)]
pub struct Read {
    pub answer: CardRead,
    pub rows: Rows,
    bytes: Vec<u8>,
}

/// A call that writes from packed numbers, and how many bytes are lent.
#[derive(Debug, Clone)]
pub struct Writing {
    pub key: u32,
    pub dsp_key: u32,
    pub alternate: u32,
    pub coverage: u32,
    pub confidence: u32,
    pub rows: Rows,
    pub lent: usize,
}

compared_as_shown!(Writing);

impl Compared for Reading {
    fn same(&self, other: &Self) -> bool {
        self.bytes == other.bytes && self.rows == other.rows
    }

    fn shown(&self) -> String {
        let front: String = self.bytes.iter().take(SHOWN).map(|byte| format!("{byte:02x}")).collect();
        format!("{} bytes, from {front}, rows {:?}", self.bytes.len(), self.rows)
    }
}

impl Compared for Read {
    fn same(&self, other: &Self) -> bool {
        self == other
    }

    fn shown(&self) -> String {
        let Rows { starts, ends, keys, confidences } = &self.rows;
        let rows = [starts.shown(), ends.shown(), keys.shown(), confidences.shown()].join("; ");
        format!("{:?}; starts, ends, keys, confidences: {rows}; {}", self.answer, self.bytes.shown())
    }
}

/// A number for each place that no card has, so that a row that moved is seen.
fn marked<A>(length: usize, mark: fn(usize) -> A) -> Vec<A> {
    (0..length + BEYOND).map(mark).collect()
}

impl Rows {
    /// What is lent, before the call, with the rows behind it.
    fn untouched([starts, ends, keys, confidences]: [usize; 4]) -> Self {
        Self {
            starts: marked(starts, |place| 0xa000_0000 + place as u32),
            ends: marked(ends, |place| 0xb000_0000 + place as u32),
            keys: marked(keys, |place| 0x80 + (place % 0x65) as u8),
            confidences: marked(confidences, |place| 0xc000 + place as u16),
        }
    }

    /// The rows of a meaning whose numbers they hold.
    pub fn of(said: &Meaning) -> Self {
        let each = |of: fn(&Segment) -> u64| said.segments.iter().map(of);
        Self {
            starts: said.starts().map(narrow).collect(),
            ends: each(|segment| segment.end).map(narrow).collect(),
            keys: each(|segment| segment.key).map(narrow).collect(),
            confidences: each(|segment| segment.confidence).map(narrow).collect(),
        }
    }

    /// These rows to the front of others.
    fn put_into(&self, lent: &mut Self) {
        let count = self.ends.len();
        lent.starts[..count].copy_from_slice(&self.starts);
        lent.ends[..count].copy_from_slice(&self.ends);
        lent.keys[..count].copy_from_slice(&self.keys);
        lent.confidences[..count].copy_from_slice(&self.confidences);
    }

    /// The first rows.
    fn front(&self, count: usize) -> Self {
        Self {
            starts: self.starts[..count].to_vec(),
            ends: self.ends[..count].to_vec(),
            keys: self.keys[..count].to_vec(),
            confidences: self.confidences[..count].to_vec(),
        }
    }
}

fn narrow<A: TryFrom<u64>>(number: u64) -> A {
    A::try_from(number).ok().expect("a number that the rows hold")
}

/// The answer to a call that reads a card.
fn answer(said: &Meaning) -> CardRead {
    CardRead {
        refusal: 0,
        key: narrow(said.key),
        dsp_key: narrow(said.dsp_key),
        alternate: narrow(said.alternate),
        coverage: narrow(said.coverage),
        confidence: narrow(said.confidence),
        segments: said.segments.len() as u64,
    }
}

fn refused(refusal: u32) -> CardRead {
    CardRead { refusal, ..answer(&Meaning::empty()) }
}

impl Reading {
    /// A row of each kind for so many segments, and so many more.
    pub fn new(bytes: Vec<u8>, segments: usize, more: [usize; 4]) -> Self {
        Self { bytes, rows: more.map(|more| segments + more) }
    }

    /// The number of the first refusal that applies.
    pub fn refusal(&self) -> Option<u32> {
        self.said().err()
    }

    fn said(&self) -> Result<Meaning, u32> {
        let said = Meaning::read(&self.bytes)?;
        let suffice = self.rows.iter().all(|&rows| rows >= said.segments.len());
        if suffice { Ok(said) } else { Err(TOO_FEW_ROWS) }
    }

    pub fn ours(&self) -> Read {
        let (bytes, mut rows) = (self.bytes.clone(), Rows::untouched(self.rows));
        let [starts, ends, keys, confidences] = self.rows;
        let answer = read_card(
            &bytes,
            &mut rows.starts[..starts],
            &mut rows.ends[..ends],
            &mut rows.keys[..keys],
            &mut rows.confidences[..confidences],
        );
        Read { answer, rows, bytes }
    }

    pub fn theirs(&self) -> Read {
        let (bytes, mut rows) = (self.bytes.clone(), Rows::untouched(self.rows));
        let answer = match self.said() {
            Err(refusal) => refused(refusal),
            Ok(said) => {
                Rows::of(&said).put_into(&mut rows);
                answer(&said)
            }
        };
        Read { answer, rows, bytes }
    }
}

impl Read {
    /// What reading this card of this meaning has to leave, with just its rows lent.
    pub fn wanted(said: &Meaning, card: Vec<u8>) -> Self {
        let mut rows = Rows::untouched([said.segments.len(); 4]);
        Rows::of(said).put_into(&mut rows);
        Self { answer: answer(said), rows, bytes: card }
    }

    /// The segments' ends.
    pub fn ends(&self) -> &[u32] {
        &self.rows.ends[..self.answer.segments as usize]
    }

    /// The call that writes what was read, into so many bytes.
    pub fn to_write(&self, lent: usize) -> Writing {
        let CardRead { key, dsp_key, alternate, coverage, confidence, segments, .. } = self.answer;
        let rows = self.rows.front(segments as usize);
        Writing { key, dsp_key, alternate, coverage, confidence, rows, lent }
    }
}

impl Writing {
    /// The call that writes a meaning's numbers.
    pub fn of(said: &Meaning, lent: usize) -> Self {
        let CardRead { key, dsp_key, alternate, coverage, confidence, .. } = answer(said);
        Self { key, dsp_key, alternate, coverage, confidence, rows: Rows::of(said), lent }
    }

    /// What its numbers mean; none where the slices are of unequal length or a start is not the end before it.
    pub fn said(&self) -> Option<Meaning> {
        let Rows { starts, ends, keys, confidences } = &self.rows;
        let count = ends.len();
        if [starts.len(), keys.len(), confidences.len()] != [count; 3] {
            return None;
        }
        let segment = |at: usize| Segment {
            end: ends[at].into(),
            key: keys[at].into(),
            confidence: confidences[at].into(),
        };
        let said = Meaning {
            key: self.key.into(),
            dsp_key: self.dsp_key.into(),
            alternate: self.alternate.into(),
            coverage: self.coverage.into(),
            confidence: self.confidence.into(),
            segments: (0..count).map(segment).collect(),
        };
        said.starts().eq(starts.iter().map(|&start| start.into())).then_some(said)
    }

    /// The card, or none where it is refused.
    pub fn card(&self) -> Option<Vec<u8>> {
        self.said()?.card()
    }

    pub fn as_lent(&self) -> PackedFields<'_> {
        PackedFields {
            key: self.key,
            dsp_key: self.dsp_key,
            alternate: self.alternate,
            coverage: self.coverage,
            confidence: self.confidence,
            starts: &self.rows.starts,
            ends: &self.rows.ends,
            keys: &self.rows.keys,
            confidences: &self.rows.confidences,
        }
    }

    pub fn ours(&self) -> cards::Left {
        cards::Left::by(self.lent, |bytes| write_packed_card(&self.as_lent(), bytes))
    }

    pub fn theirs(&self) -> cards::Left {
        cards::Left::wanted(self.lent, self.card())
    }
}
