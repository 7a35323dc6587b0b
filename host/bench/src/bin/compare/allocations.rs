//! No call asks for memory: what is asked of the C library is counted, whichever language asks, while a call runs.
//! And an analysis takes no more of the stack than the header says.
use crate::analyses::{self, Told, all_writable, kinds};
use crate::analysis_calls::Asked;
use crate::analysis_left;
use crate::card_model::LAYOUT_2;
use crate::cards::packed;
use crate::frame_calls::{self, BREACHES, whole};
use crate::groups::Groups;
use bench::inputs::chromas::plain_kinds;
use bench::inputs::dice::Dice;
use bench::inputs::engines::ENGINES;
use bench::inputs::tracks::{KINDS, Maker};
use std::alloc::{Layout, alloc, dealloc};
use std::cell::Cell;
use std::ffi::{c_int, c_void};
use std::hint::black_box;
use std::sync::Arc;
use std::thread;
use ulyptesh::calls::{self, KEYS, LONGEST_NAME, Sheet, analyse, frames, write_card, write_key_name};
use ulyptesh::calls::{CardRead, PackedFields, read_card, write_packed_card};
use ulyptesh::calls::{SET_BYTES, SUMMARY_NUMBERS, add_card, remove_card};

/// Streams of the seed from here on.
const STREAM: u64 = 96_000;

/// So many chromas of each kind, and so many analyses for each broken rule of a card.
const OF_EACH_KIND: usize = 100;
const BROKEN: usize = 20;

/// Most segments of the cards for sets, a few more than fit a place.
const SET_SEGMENTS: usize = 120;

/// What the header says that an analysis may take of the stack.
const STACK: usize = 96 << 10;

thread_local! {
    static REQUESTS: Cell<u64> = const { Cell::new(0) };
}

/// The linker puts the first name in the place of the C library's function, which has the second (build.rs).
macro_rules! counted {
    ($($counting:ident, $real:ident($($given:ident: $kind:ty),*) -> $answer:ty;)*) => {$(
        unsafe extern "C" {
            fn $real($($given: $kind),*) -> $answer;
        }

        #[unsafe(no_mangle)]
        unsafe extern "C" fn $counting($($given: $kind),*) -> $answer {
            REQUESTS.set(REQUESTS.get() + 1);
            // SAFETY: what the caller promised is handed on.
            unsafe { $real($($given),*) }
        }
    )*};
}

counted! {
    __wrap_malloc, __real_malloc(size: usize) -> *mut c_void;
    __wrap_calloc, __real_calloc(count: usize, size: usize) -> *mut c_void;
    __wrap_realloc, __real_realloc(old: *mut c_void, size: usize) -> *mut c_void;
    __wrap_posix_memalign, __real_posix_memalign(place: *mut *mut c_void, align: usize, size: usize) -> c_int;
}

/// How often memory is asked for while the work is done.
fn requests<A>(work: impl FnOnce() -> A) -> u64 {
    let before = REQUESTS.get();
    black_box(work());
    REQUESTS.get() - before
}

/// Work that asks for memory, and how often.
type Asking = (fn(), u64);

const ASKING: [Asking; 5] = [
    (|| (), 0),
    (|| drop(black_box(Box::new(black_box(7)))), 1),
    (|| drop(black_box(vec![0; black_box(9)])), 1),
    (|| black_box(Vec::<u8>::with_capacity(black_box(1))).reserve(black_box(99)), 2),
    (
        || {
            let layout = Layout::from_size_align(640, 64).expect("a power of two");
            // SAFETY: as many bytes are given back as were asked for, and none is read.
            unsafe { dealloc(black_box(alloc(layout)), layout) }
        },
        1,
    ),
];

/// A few seconds of each kind of track, by each engine.
fn tracks(seed: u64) -> impl Iterator<Item = Asked> {
    let settings = frame_calls::settings(8_000, (36, 95), 1_024, 700).with(|settings| {
        settings.local_window_seconds = 1.0;
        settings.local_hop_seconds = 0.5;
        settings.minimum_segment_seconds = 0.0;
    });
    let sheet = Arc::new(Sheet::for_call(&settings));
    KINDS.iter().zip(STREAM..).flat_map(move |(kind, stream)| {
        let mut maker = Maker { dice: Dice::new(seed, stream), rate: settings.rate };
        let asked = Asked::new(kind.name, settings, &sheet, (kind.make)(&mut maker, 40_000));
        assert_eq!(asked.refusal(), None);
        ENGINES.map(|engine| asked.clone().by(engine))
    })
}

/// Each check of the table.
fn refused() -> impl Iterator<Item = Asked> {
    BREACHES.iter().map(|breach| {
        let mut call = whole();
        (breach.breaks)(&mut call);
        Asked { call, work: 7, rows: [1; 9] }
    })
}

fn by_analyse(asked: Asked) -> u64 {
    let (call, mut lent) = (&asked.call, analysis_left::untouched(&asked));
    requests(|| analyse(call.settings, &call.sheet, &call.samples, &mut lent))
}

fn key_told(asked: &Asked) -> u32 {
    let (call, mut lent) = (&asked.call, analysis_left::untouched(asked));
    analyse(call.settings, &call.sheet, &call.samples, &mut lent).key
}

/// An overflow ends the program.
fn key_on_small_stack(asked: Asked) -> u32 {
    thread::scope(|scope| {
        let thread = thread::Builder::new().stack_size(STACK).spawn_scoped(scope, || key_told(&asked));
        thread.expect("room for a thread").join().expect("an answer")
    })
}

fn by_frames(asked: Asked) -> u64 {
    let (call, mut rows) = (&asked.call, frame_calls::untouched(asked.call.room));
    requests(|| frames(call.settings, &call.sheet, &call.samples, &mut rows))
}

/// Scores with room and without, and the key.
fn by_scores(chroma: Vec<f32>) -> u64 {
    let mut places = [0.0; KEYS];
    requests(|| {
        calls::scores(&chroma, &mut places[1..]);
        calls::scores(&chroma, &mut places);
        calls::key(&chroma)
    })
}

fn by_key_name((number, lent): (u32, usize)) -> u64 {
    let mut bytes = [0; LONGEST_NAME];
    requests(|| write_key_name(number, &mut bytes[..lent]))
}

fn by_card(told: Told) -> u64 {
    let mut bytes = vec![0; told.lent];
    requests(|| write_card(&told.as_lent(), &mut bytes))
}

/// A card without its first byte, with a row too few and with rows enough; and what is read written again, with a
/// number too large, with a byte too few and as it is.
fn by_reading(told: Told) -> u64 {
    let card = packed(&told).expect("an analysis that a card holds");
    let (count, mut bytes) = (told.ends.len(), vec![0; card.len()]);
    let (mut starts, mut ends) = (vec![0; count], vec![0; count]);
    let (mut keys, mut confidences) = (vec![0; count], vec![0; count]);
    requests(|| {
        read_card(&card[1..], &mut starts, &mut ends, &mut keys, &mut confidences);
        read_card(&card, &mut starts, &mut ends, &mut keys[count.min(1)..], &mut confidences);
        let CardRead { key, dsp_key, alternate, coverage, confidence, .. } =
            read_card(&card, &mut starts, &mut ends, &mut keys, &mut confidences);
        let (starts, ends, keys, confidences) = (&starts[..], &ends[..], &keys[..], &confidences[..]);
        let fields =
            PackedFields { key, dsp_key, alternate, coverage, confidence, starts, ends, keys, confidences };
        write_packed_card(&PackedFields { confidence: 1_001, ..fields }, &mut bytes);
        write_packed_card(&fields, &mut bytes[1..]);
        write_packed_card(&fields, &mut bytes)
    })
}

/// A card added, taken out and not there any more; and a set a byte too short.
fn by_set(told: Told) -> u64 {
    let card = packed(&told).expect("an analysis that a card holds");
    let (mut set, mut summary) = (vec![0; SET_BYTES], [0; SUMMARY_NUMBERS]);
    requests(|| {
        add_card(&mut set, &mut summary, &card);
        remove_card(&mut set, &mut summary, &card);
        remove_card(&mut set, &mut summary, &card);
        add_card(&mut set[1..], &mut summary, &card)
    })
}

/// Chromas of every kind, the front of each, and none.
fn chromas(seed: u64) -> impl Iterator<Item = Vec<f32>> {
    let whole = plain_kinds(seed).flat_map(|kind| kind.chromas.take(OF_EACH_KIND));
    whole.flat_map(|chroma| [chroma.to_vec(), chroma[..11].to_vec(), vec![]])
}

fn names() -> impl Iterator<Item = (u32, usize)> {
    (0..26).flat_map(|number| (0..=LONGEST_NAME).map(move |lent| (number, lent)))
}

/// Of every number of segments, in each layout.
fn all_cards(seed: u64) -> impl Iterator<Item = Told> {
    all_writable(seed, STREAM, kinds(LAYOUT_2.most_segments))
}

/// The same, and such as break a rule.
fn cards(seed: u64) -> impl Iterator<Item = Told> {
    let broken = move |breach| analyses::broken(seed, STREAM, BROKEN, breach);
    all_cards(seed).chain(analyses::BREACHES.iter().flat_map(broken))
}

pub fn compare(groups: &mut Groups) {
    let seed = groups.seed;
    let calls = || tracks(seed).chain(refused());
    groups.group(
        "memory asked for, counted",
        0..ASKING.len(),
        |nth| requests(ASKING[nth].0),
        |nth| ASKING[nth].1,
    );
    groups.group("memory asked for by analyses", calls(), by_analyse, |_| 0);
    groups.group("analyses on a small stack", calls(), key_on_small_stack, |asked| key_told(&asked));
    groups.group("memory asked for by frames", calls(), by_frames, |_| 0);
    groups.group("memory asked for by scores and key", chromas(seed), by_scores, |_| 0);
    groups.group("memory asked for by key names", names(), by_key_name, |_| 0);
    groups.group("memory asked for by cards", cards(seed), by_card, |_| 0);
    let name = "memory asked for by reading cards and writing them again";
    groups.group(name, all_cards(seed), by_reading, |_| 0);
    let fitting_and_longer = all_writable(seed, STREAM, kinds(SET_SEGMENTS));
    groups.group("memory asked for by sets", fitting_and_longer, by_set, |_| 0);
}
