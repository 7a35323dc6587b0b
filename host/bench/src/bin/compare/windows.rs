//! The local windows of a track, and the rows that are asked for them.
use crate::packed::LONGEST;
use bench::probe::segments::Track;

/// No more windows are counted: two a second of the longest track, and one. Only a call that is refused has more.
const MOST_WINDOWS: usize = 2 * LONGEST as usize + 1;

pub fn duration(track: &Track) -> f64 {
    track.samples as f64 / f64::from(track.settings.rate)
}

fn window_and_hop(track: &Track) -> (f64, f64) {
    (track.settings.local_window_seconds.into(), track.settings.local_hop_seconds.into())
}

pub fn is_brief(track: &Track) -> bool {
    let (window, hop) = window_and_hop(track);
    duration(track) < window + hop
}

/// How many rows of each list are asked for: one where the track is brief, else one for each window.
pub fn rows_asked(track: &Track) -> usize {
    let ((window, hop), duration) = (window_and_hop(track), duration(track));
    if is_brief(track) {
        return 1;
    }
    let starts = std::iter::successors(Some(0.0), |start| Some(start + hop));
    starts.take(MOST_WINDOWS).take_while(|start| start + window <= duration).count()
}
