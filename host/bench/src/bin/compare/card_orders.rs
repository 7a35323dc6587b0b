//! Each refusal of reading a card alone and with each later one, for cards of both layouts.
use crate::analyses::{Kind, kinds};
use crate::card_breaches::{BREACHES, broken, good};
use crate::card_calls::Reading;
use crate::card_model::{LAYOUT_1, LAYOUT_2, LAYOUTS, Layout, Meaning, NEEDLESS_LAYOUT, RULE_BROKEN};
use crate::card_reads::set_layout;

/// Streams of the seed from here on.
const STREAM: u64 = 210_000;

/// Most segments of the cards.
const MOST: usize = 12;

/// Something that is done to a call, and the number that it is given alone.
type Fault = (u32, fn(&mut Reading));

/// In the order of the request: the length, the layout, a filler bit, the rows. A broken rule has the filler bit's
/// number, and a needless layout one behind it.
const LENGTHS: [Fault; 4] = [
    (20, |reading| reading.bytes.truncate(6)),
    (20, |reading| reading.bytes.clear()),
    (20, |reading| reading.bytes.truncate(reading.bytes.len() - 1)),
    (20, |reading| reading.bytes.push(0)),
];
const NO_LAYOUTS: [Fault; 4] = [
    (21, |reading| set_layout(&mut reading.bytes, 0)),
    (21, |reading| set_layout(&mut reading.bytes, 3)),
    (21, |reading| set_layout(&mut reading.bytes, 9)),
    (21, |reading| set_layout(&mut reading.bytes, 15)),
];
const FILLERS: [Fault; 1] = [(22, |reading| *reading.bytes.last_mut().expect("a card is not empty") |= 1)];
const ROOMS: [Fault; 5] = [
    (24, |reading| reading.rows[0] = 0),
    (24, |reading| reading.rows[1] -= 1),
    (24, |reading| reading.rows[2] = 0),
    (24, |reading| reading.rows[3] -= 1),
    (24, |reading| reading.rows = [0; 4]),
];

/// One fault of each list or none, in every combination.
fn combinations(lists: [&'static [Fault]; 4]) -> impl Iterator<Item = [Option<Fault>; 4]> {
    let count: usize = lists.iter().map(|list| list.len() + 1).product();
    (0..count).map(move |mut nth| {
        lists.map(|list| {
            let choice = nth % (list.len() + 1);
            nth /= list.len() + 1;
            choice.checked_sub(1).map(|at| list[at])
        })
    })
}

/// The number that a call is given, of those of all its faults: the order of checks is that of the numbers. Under a
/// layout that is not known only a length below 7 counts.
fn number_of(bytes: usize, faults: [Option<Fault>; 4], own: Option<u32>) -> Option<u32> {
    let is_known = faults[1].is_none();
    let counts = |fault: &Fault| fault.0 != 20 || is_known || bytes < 7;
    faults.into_iter().flatten().filter(counts).map(|fault| fault.0).chain(own).min()
}

/// A card that is refused with this number or with none, and with each combination of other faults.
pub fn with_other_faults((said, layout, own): (Meaning, Layout, Option<u32>)) -> Vec<Reading> {
    let count = said.segments.len();
    let whole = Reading::new(said.joined(layout), count, [0; 4]);
    let fillers: &[Fault] = if layout.bits_of(count).is_multiple_of(8) { &[] } else { &FILLERS };
    let rooms: &[Fault] = if count == 0 { &[] } else { &ROOMS };
    let broken = combinations([&LENGTHS, &NO_LAYOUTS, fillers, rooms]).map(|faults| {
        let mut reading = whole.clone();
        faults.into_iter().rev().flatten().for_each(|(_, breaks)| breaks(&mut reading));
        assert_eq!(reading.refusal(), number_of(reading.bytes.len(), faults, own));
        reading
    });
    broken.collect()
}

/// Whole cards, each rule broken, and meanings that layout 1 holds in layout 2.
pub fn readings(seed: u64) -> Vec<Reading> {
    let of_kind = |(kind, stream): (Kind, u64)| (good(seed, stream, kind), kind.0, None);
    let whole = kinds(MOST).into_iter().zip(STREAM..).map(of_kind);
    let breached = LAYOUTS.into_iter().flat_map(|layout| {
        let said = move |(breach, stream)| broken(seed, stream, layout, breach).0;
        BREACHES.iter().zip(STREAM..).map(said).map(move |said| (said, layout, Some(RULE_BROKEN)))
    });
    let in_layout_1 = |(count, stream): (usize, u64)| good(seed, stream, (LAYOUT_1, count));
    let needless = (0..=MOST).zip(STREAM..).map(in_layout_1);
    let needless = needless.map(|said| (said, LAYOUT_2, Some(NEEDLESS_LAYOUT)));
    whole.chain(breached).chain(needless).flat_map(with_other_faults).collect()
}
