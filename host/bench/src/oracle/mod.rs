//! The oracle, the Rust that was ported, and what it is given in its own form.
pub extern crate key_lime;

pub mod borderline;
pub mod floored;
pub mod magnitudes;
pub mod shapes;
pub mod tables;
pub mod windows_behind;

use self::key_lime::expose::key_number;
use self::key_lime::{ChromaFrame, KeyConfig, MusicalKey};
use crate::probe::segments::Track;
use ulyptesh::Settings;
use ulyptesh::calls::NO_KEY;

/// A key's number; 24 where it is missing.
pub fn number(key: Option<MusicalKey>) -> u32 {
    key.map_or(NO_KEY, |key| key_number(key).into())
}

/// A track's frames.
pub fn frames(track: &Track) -> Vec<ChromaFrame> {
    let frame = |(&center_seconds, &values)| ChromaFrame { center_seconds, values };
    track.centres.iter().zip(&track.values).map(frame).collect()
}

/// Settings but for the rate, which the oracle is given beside them.
pub fn config(settings: &Settings) -> KeyConfig {
    KeyConfig {
        frame_size: settings.frame_size,
        hop_size: settings.hop_size,
        minimum_midi_note: settings.minimum_midi_note,
        maximum_midi_note: settings.maximum_midi_note,
        local_window_seconds: settings.local_window_seconds,
        local_hop_seconds: settings.local_hop_seconds,
        alternate_coverage_threshold: settings.alternate_coverage_threshold,
        segment_confidence_threshold: settings.segment_confidence_threshold,
        minimum_segment_seconds: settings.minimum_segment_seconds,
        ..KeyConfig::default()
    }
}
