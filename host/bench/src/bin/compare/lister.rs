//! What the lister prints of its input, beside the request's words.
use crate::analyses::{Kind, kinds};
use crate::card_breaches::{BREACHES, broken, good};
use crate::card_model::{LAYOUT_1, LAYOUT_2, LAYOUTS, Layout, Meaning, listing};
use crate::card_reads::{ROW_O, ROW_P, largest};
use crate::groups::Groups;
use crate::tool_runs::{Folder, output_on, output_on_endless, programs, text};
use std::env::vars_os;
use std::path::{Path, PathBuf};
use std::process::{Command, Output};
use ulyptesh::calls::LONGEST_CARD;

/// Streams of the seed from here on.
const STREAM: u64 = 290_000;

/// Cards have every number of segments up to so many in either layout, and these.
const SOME: usize = 39;
#[rustfmt::skip]
const MANY: [Kind; 9] = [
    (LAYOUT_1, 100), (LAYOUT_1, 500), (LAYOUT_1, 1_022), (LAYOUT_1, 1_023),
    (LAYOUT_2, 500), (LAYOUT_2, 1_023), (LAYOUT_2, 1_024), (LAYOUT_2, 4_094), (LAYOUT_2, 4_095),
];

/// The program, where it was built.
pub fn program() -> Option<PathBuf> {
    let place = programs().join("../../bin/lister");
    place.exists().then_some(place)
}

/// The program, not yet run. It is compiled for x86-64; elsewhere the system's emulator runs it, as it does the
/// toolchain, without what the environment says to emulators.
fn command(program: &Path) -> Command {
    let mut command = Command::new(program);
    let names = vars_os().map(|(name, _)| name);
    for name in names.filter(|name| name.as_encoded_bytes().starts_with(b"QEMU_")) {
        command.env_remove(name);
    }
    command
}

/// What a program prints; where it does not end with 0 or complains, how.
pub fn printed(ended: &Output) -> String {
    if ended.status.success() && ended.stderr.is_empty() { text(&ended.stdout) } else { format!("{ended:?}") }
}

/// What the program prints of bytes.
pub fn listed(program: &Path, bytes: &[u8]) -> String {
    printed(&output_on(command(program), [bytes]))
}

/// Cards of this layout, the largest and each rule broken among them.
fn cards_of(layout: Layout, seed: u64) -> impl Iterator<Item = Vec<u8>> {
    let kinds = kinds(SOME).into_iter().chain(MANY).filter(move |kind| kind.0 == layout);
    let whole = kinds.zip(STREAM..).map(move |(kind, stream)| good(seed, stream, kind));
    let breached = BREACHES.iter().zip(STREAM..);
    let breached = breached.map(move |(breach, stream)| broken(seed, stream, layout, breach).0);
    whole.chain([largest(layout)]).chain(breached).map(move |said| said.joined(layout))
}

/// Cards of any number of segments in either layout, and rows o and p.
pub fn cards(seed: u64) -> impl Iterator<Item = Vec<u8>> {
    let in_layouts = LAYOUTS.into_iter().flat_map(move |layout| cards_of(layout, seed));
    in_layouts.chain([ROW_O.to_vec(), ROW_P.to_vec()])
}

/// Bytes that are no card: of every small length, of every other layout, longer than the card and than any card, with a
/// filler bit, and in layout 2 without need.
pub fn no_cards() -> impl Iterator<Item = Vec<u8>> {
    let cut = (0..ROW_O.len()).map(|length| ROW_O[..length].to_vec());
    let layouts = (0..16).filter(|&layout| layout != 1);
    let layouts = layouts.map(|layout| [&[layout << 4 | ROW_O[0] & 0xf], &ROW_O[1..]].concat());
    let lengths = [1, LONGEST_CARD - ROW_O.len(), LONGEST_CARD + 1 - ROW_O.len(), LONGEST_CARD, 1 << 20];
    let longer = lengths.map(|more| [&ROW_O[..], &vec![0; more]].concat());
    let filled = [0x01, 0x40].map(|bit| [&ROW_P[..ROW_P.len() - 1], &[bit]].concat());
    let above_largest = LAYOUTS.map(|layout| [&largest(layout).joined(layout)[..], &[0]].concat());
    let needless = [Meaning::empty(), largest(LAYOUT_1)].map(|said| said.joined(LAYOUT_2));
    let others = above_largest.into_iter().chain(needless).chain([vec![0xff; 1 << 16]]);
    cut.chain(layouts).chain(longer).chain(filled).chain(others)
}

/// What stands before the zeros of an endless input.
pub fn endless_fronts() -> [Vec<u8>; 6] {
    let [one, two] = LAYOUTS.map(|layout| largest(layout).joined(layout));
    [vec![], ROW_O.to_vec(), ROW_P.to_vec(), one, two, vec![0xff; LONGEST_CARD + 1]]
}

/// What is printed of such an input: more zeros than a card has bytes tell all.
pub fn endless_listing(front: &[u8]) -> String {
    listing(&[front, &[0; LONGEST_CARD + 1]].concat())
}

/// A folder can be opened and not read.
fn on_a_folder(program: &Path) -> String {
    let folder = Folder::new("lister");
    let ended = command(program).stdin(folder.open(".")).output();
    printed(&ended.expect("the program runs"))
}

pub fn compare(groups: &mut Groups) {
    let Some(program) = program() else {
        return println!("lister: left out, as the program is not there");
    };
    let on = |bytes: Vec<u8>| listed(&program, &bytes);
    let by_byte = |bytes: Vec<u8>| printed(&output_on(command(&program), bytes.chunks(1)));
    let by_part = |bytes: Vec<u8>| printed(&output_on(command(&program), bytes.chunks(700)));
    let rows = [(ROW_O.to_vec(), "A minor\n0 180000 A minor\n"), (ROW_P.to_vec(), "no key\n")];
    let nth_row = |nth: usize| rows[nth].1.to_string();
    groups.group("the lister on rows o and p", 0..rows.len(), |nth| listed(&program, &rows[nth].0), nth_row);
    let seed = groups.seed;
    let wanted = |bytes: Vec<u8>| listing(&bytes);
    groups.group("the lister on cards", cards(seed), on, wanted);
    groups.group("the lister on no cards", no_cards(), on, wanted);
    groups.group("the lister, byte by byte", rows.iter().map(|row| row.0.clone()), by_byte, wanted);
    let largest = LAYOUTS.into_iter().map(|layout| largest(layout).joined(layout));
    groups.group("the lister, part by part", largest, by_part, wanted);
    let on_endless =
        |front: Vec<u8>| output_on_endless(command(&program), &front).map(|ended| printed(&ended));
    let stops = |front: Vec<u8>| Some(endless_listing(&front));
    groups.group("the lister on endless input", endless_fronts().into_iter(), on_endless, stops);
    let unread = |_| on_a_folder(&program);
    groups.group("the lister on what can't be read", [0u32].into_iter(), unread, |_| listing(&[]));
}
