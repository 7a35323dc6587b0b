//! From frames to segments, beside the oracle's `estimate_segments`: estimates, segments with the windows behind each,
//! and the rows that stay.
use crate::estimate_lists::{put_estimates, untouched_estimates};
use crate::groups::{Compared, Groups, compared_exactly};
use crate::rows::windows_in_all;
use crate::segment_lists::{put_joined, untouched_segments};
use crate::segment_tracks::{Asked, Tracks};
use crate::windows::{duration, is_brief, rows_asked};
use bench::oracle::key_lime::KeySegment;
use bench::oracle::key_lime::expose::{
    Estimate, estimate_segments, estimated_chromas, estimates, key_from_index,
};
use bench::oracle::shapes::is_shapeless;
use bench::oracle::windows_behind::{cutting_by, groups};
use bench::oracle::{config, frames};
use bench::probe::segments::{NOT_RUN, ProbedSegments, Track, segments};
use ulyptesh::calls::{EstimateRows, SegmentRows};

/// Streams of the seed from here on are the segments'.
const STREAM: u64 = 60_100;

/// Each group has so many streams.
const STREAMS: usize = 100;

/// What the call answers and the rows that it leaves.
type Left = (ProbedSegments, (EstimateRows, SegmentRows));

compared_exactly!(ProbedSegments);

impl Compared for Asked {
    fn same(&self, other: &Self) -> bool {
        self.shown() == other.shown()
    }

    fn shown(&self) -> String {
        let Track { settings, samples, key, confidence, centres, .. } = &self.track;
        let room = self.room;
        format!(
            "{settings:?}, {samples} samples, key {key}, {confidence:?}, room {room:?}, {}",
            centres.shown()
        )
    }
}

fn untouched(room: [usize; 9]) -> (EstimateRows, SegmentRows) {
    let [middles, numbers, certainties, shapeless, starts, ends, keys, confidences, counts] = room;
    let segments = untouched_segments([starts, ends, keys, confidences, counts]);
    (untouched_estimates([middles, numbers, certainties, shapeless]), segments)
}

fn ours(asked: Asked) -> Left {
    let (mut found, mut left) = untouched(asked.room);
    let answer = segments(&asked.track, &mut found, &mut left);
    (answer, (found, left))
}

/// The oracle's estimates.
pub fn their_estimates(track: &Track) -> Vec<Estimate> {
    if is_brief(track) {
        return vec![];
    }
    estimates(&frames(track), duration(track), config(&track.settings))
}

/// Whether the chroma that was classified for each estimate has no shape.
pub fn their_shapeless(track: &Track) -> Vec<bool> {
    if is_brief(track) {
        return vec![];
    }
    let chromas = estimated_chromas(&frames(track), duration(track), config(&track.settings));
    chromas.iter().map(is_shapeless).collect()
}

fn their_segments(track: &Track) -> Vec<KeySegment> {
    let (key, config) = (key_from_index(track.key.into()), config(&track.settings));
    estimate_segments(&frames(track), duration(track), key, track.confidence, config)
}

/// Writes the oracle's segments of these estimates, with the windows behind each, and what joining has emptied.
pub fn put_segments_of(track: &Track, found: &[Estimate], left: &[KeySegment], rows: &mut SegmentRows) {
    let cutting = cutting_by(&config(&track.settings), duration(track), track.key, track.confidence);
    put_joined(&groups(cutting, found), cutting.minimum, left, rows);
}

fn answer(outcome: u32, estimates: usize, segments: usize) -> ProbedSegments {
    ProbedSegments { outcome, estimates, segments }
}

fn theirs(asked: Asked) -> Left {
    let Asked { track, room } = asked;
    let mut rows = untouched(room);
    let goes_on = track.settings.local_hop_seconds > 0.0;
    if !goes_on || room.into_iter().any(|lent| lent < rows_asked(&track)) {
        return (answer(NOT_RUN, 0, 0), rows);
    }
    let found = their_estimates(&track);
    put_estimates(&found, &their_shapeless(&track), &mut rows.0);
    let left = their_segments(&track);
    put_segments_of(&track, &found, &left, &mut rows.1);
    (answer(0, found.len(), left.len()), rows)
}

type Maker = fn(&mut Tracks) -> Asked;

/// Name, how many tracks, and how one is made.
const KINDS: [(&str, usize, Maker); 7] = [
    ("centres as the library makes them", 5_000, |tracks| {
        let track = tracks.regular();
        tracks.with_room(track)
    }),
    ("centres anywhere", 4_000, |tracks| {
        let track = tracks.irregular();
        tracks.with_room(track)
    }),
    ("as long as window and hop", 2_000, |tracks| {
        let track = tracks.at_window_and_hop();
        tracks.with_room(track)
    }),
    ("a row too few", 1_000, |tracks| {
        let track = tracks.regular();
        tracks.without_room(track)
    }),
    ("a hop that is not above 0", 100, |tracks| {
        let track = tracks.without_hop();
        tracks.with_room(track)
    }),
    ("centres in order", 4_000, |tracks| {
        let track = tracks.in_order();
        tracks.with_room(track)
    }),
    ("tracks of a day", 40, |tracks| {
        let track = tracks.longest();
        tracks.with_room(track)
    }),
];

/// Name, how many tracks, and whether all their windows are without shape or just some.
const SHAPELESS_KINDS: [(&str, usize, bool); 2] =
    [("some windows without shape", 2_000, false), ("all windows without shape", 1_000, true)];

fn compare_shapeless(groups: &mut Groups, stream: u64, (name, count, wholly): (&str, usize, bool)) {
    let mut tracks = Tracks::new(groups.seed, stream);
    let made = |_| {
        let track = tracks.without_shape(wholly);
        tracks.with_room(track)
    };
    let inputs: Vec<Asked> = (0..count).map(made).collect();
    let seen: Vec<bool> = inputs.iter().flat_map(|asked| their_shapeless(&asked.track)).collect();
    assert_eq!([true, false].map(|shapeless| seen.contains(&shapeless)), [true, !wholly], "{name}");
    groups.group(&format!("segments of frames, {name}"), inputs.into_iter(), ours, theirs);
}

/// Every fifth track of each kind: as many windows as estimates, and none where nothing is run.
fn compare_totals(groups: &mut Groups) {
    let seed = groups.seed;
    let tracks = (STREAM..).step_by(STREAMS).zip(KINDS).flat_map(|(stream, (_, count, make))| {
        let mut tracks = Tracks::new(seed, stream);
        (0..count).map(move |_| make(&mut tracks)).step_by(5)
    });
    let in_all = |asked| {
        let (answer, (_, rows)) = ours(asked);
        windows_in_all(&rows, answer.segments)
    };
    let estimates = |asked| theirs(asked).0.estimates as u64;
    groups.group("segments of frames, windows behind them in all", tracks, in_all, estimates);
}

pub fn compare(groups: &mut Groups) {
    let mut streams = (STREAM..).step_by(STREAMS);
    for (stream, (name, count, make)) in streams.by_ref().zip(KINDS) {
        let mut tracks = Tracks::new(groups.seed, stream);
        let inputs = (0..count).map(move |_| make(&mut tracks));
        groups.group(&format!("segments of frames, {name}"), inputs, ours, theirs);
    }
    for (stream, kind) in streams.zip(SHAPELESS_KINDS) {
        compare_shapeless(groups, stream, kind);
    }
    compare_totals(groups);
}
