/// What the comparison calls: the private functions, each under its own name.
pub mod expose {
    use super::*;

    /// A Goertzel table for one rate.
    pub struct Goertzel(GoertzelTable);

    /// A constant-Q table for one rate.
    pub struct ConstantQ(cqt::CqtTable);

    /// A Goertzel row of the table.
    #[derive(Debug, Clone, Copy)]
    pub struct GoertzelRow {
        pub coefficient: f32,
        pub weight: f32,
        pub midi_note: u8,
        pub pitch_class: usize,
    }

    impl Goertzel {
        pub fn new(sample_rate: u32, config: KeyConfig) -> Self {
            Self(GoertzelTable::new(sample_rate, config))
        }
        /// The same table with these coefficients, one for each row.
        pub fn with_coefficients(mut self, coefficients: &[f32]) -> Self {
            let rows = self.0.notes.iter_mut().zip(coefficients);
            rows.for_each(|(note, &coefficient)| note.coefficient = coefficient);
            self
        }
        pub fn rows(&self) -> Vec<GoertzelRow> {
            self.0
                .notes
                .iter()
                .map(|n| GoertzelRow {
                    coefficient: n.coefficient,
                    weight: n.weight,
                    midi_note: n.midi_note,
                    pitch_class: n.pitch_class,
                })
                .collect()
        }
        /// For each row its harmonics' rows and weights.
        pub fn links(&self) -> Vec<Vec<(usize, f32)>> {
            self.0
                .harmonics_of
                .iter()
                .map(|links| links.iter().map(|l| (l.harmonic_index, l.weight)).collect())
                .collect()
        }
        pub fn pitch_class_weights(&self) -> [f32; 12] {
            self.0.pitch_class_weights
        }
        pub fn accumulate(&self, windowed_frame: &[f32], chroma: &mut [f32; 12]) {
            accumulate_chroma_windowed(windowed_frame, &self.0, chroma);
        }
    }

    impl ConstantQ {
        pub fn new(sample_rate: u32, min_midi: u8, max_midi: u8) -> Self {
            Self(cqt::CqtTable::new(sample_rate, min_midi, max_midi))
        }
        /// (MIDI note, pitch class, window length, coefficient, window) of each row.
        pub fn rows(&self) -> Vec<(u8, usize, usize, f32, Vec<f32>)> {
            cqt::expose::rows(&self.0)
        }
        pub fn chroma_at(&self, samples: &[f32], center: usize) -> [f32; 12] {
            self.0.chroma_at(samples, center)
        }
    }

    pub fn frame_chroma_sequence(
        s: &[f32],
        rate: u32,
        c: KeyConfig,
    ) -> Option<(Vec<ChromaFrame>, Vec<f32>)> {
        super::frame_chroma_sequence(s, rate, c)
    }
    /// What `analyze` makes of these loud frames and their energies; the samples are only counted.
    pub fn analysis_of_frames(
        s: &[f32],
        rate: u32,
        c: KeyConfig,
        frames: Vec<ChromaFrame>,
        energies: Vec<f32>,
    ) -> KeyAnalysis {
        super::analysis_of_frames(s, rate, c, frames, energies)
    }
    pub fn hanning_window(size: usize) -> Vec<f32> {
        super::hanning_window(size)
    }
    pub fn apply_window(frame: &[f32], window: &[f32], output: &mut [f32]) {
        super::apply_window(frame, window, output);
    }
    pub fn goertzel_power_prewindowed(samples: &[f32], coefficient: f32) -> f32 {
        super::goertzel_power_prewindowed(samples, coefficient)
    }
    pub fn goertzel_power_batch_4(samples: &[f32], coefficients: [f32; 4]) -> [f32; 4] {
        super::goertzel_power_batch_4(samples, coefficients)
    }
    pub fn normalize_pitch_class_weights(chroma: &mut [f32; 12], weights: &[f32; 12]) {
        super::normalize_pitch_class_weights(chroma, weights);
    }
    pub fn compute_onset_weights(energies: &[f32]) -> Vec<f32> {
        super::compute_onset_weights(energies)
    }
    pub fn estimate_tuning(frames: &[ChromaFrame]) -> f32 {
        super::estimate_tuning(frames)
    }
    pub fn shift_chroma(chroma: &[f32; 12], offset: f32) -> [f32; 12] {
        super::shift_chroma(chroma, offset)
    }
    pub fn whiten_chroma(chroma: &mut [f32; 12]) {
        super::whiten_chroma(chroma);
    }
    pub fn normalize_chroma(chroma: &mut [f32; 12]) {
        super::normalize_chroma(chroma);
    }
    pub fn key_confidence(best_score: f32, second_score: f32) -> f32 {
        super::key_confidence(best_score, second_score)
    }
    pub fn correlation(chroma: &[f32; 12], profile: &[f32; 12], root: usize) -> f32 {
        super::correlation(chroma, profile, root)
    }
    /// The divisor of `correlation` before the floor may replace it.
    pub fn divisor(chroma: &[f32; 12], profile: &[f32; 12], root: usize) -> f32 {
        super::numerator_and_divisor(chroma, profile, root).1
    }
    /// The profiles that a chroma is correlated with at each root: the major and the minor one of each pair.
    pub fn key_profiles() -> &'static [(&'static [f32; 12], &'static [f32; 12])] {
        super::key_profiles()
    }
    pub fn classify_key_impl(chroma: &[f32; 12]) -> (MusicalKey, f32, f32, [f32; 24]) {
        super::classify_key_impl(chroma)
    }
    pub fn disambiguate_relative_keys(
        chroma: &[f32; 12],
        best: MusicalKey,
        second: MusicalKey,
        best_score: f32,
        second_score: f32,
    ) -> MusicalKey {
        super::disambiguate_relative_keys(chroma, best, second, best_score, second_score)
    }
    pub fn are_relative_keys(a: MusicalKey, b: MusicalKey) -> bool {
        super::are_relative_keys(a, b)
    }
    pub fn key_from_index(index: usize) -> MusicalKey {
        super::key_from_index(index)
    }
    /// The key number: the tonic for major, 12 + tonic for minor.
    pub fn key_number(key: MusicalKey) -> u8 {
        key.tonic as u8 + if key.mode == Mode::Minor { 12 } else { 0 }
    }
    pub fn estimate_segments(
        frames: &[ChromaFrame],
        duration: f64,
        key: MusicalKey,
        confidence: f32,
        c: KeyConfig,
    ) -> Vec<KeySegment> {
        super::estimate_segments(frames, duration, key, confidence, c)
    }
    /// An estimate: the window's middle in seconds, its key and confidence.
    pub type Estimate = (f64, MusicalKey, f32);

    /// The estimates of the window loop, which runs where the duration is not below window + hop.
    pub fn estimates(frames: &[ChromaFrame], duration: f64, c: KeyConfig) -> Vec<Estimate> {
        let (window, hop) = (c.local_window_seconds.into(), c.local_hop_seconds.into());
        super::local_estimates(frames, duration, window, hop)
            .into_iter()
            .map(|e| (e.center_seconds, e.key, e.confidence))
            .collect()
    }
    /// The chromas that the same estimates were classified from.
    pub fn estimated_chromas(frames: &[ChromaFrame], duration: f64, c: KeyConfig) -> Vec<[f32; 12]> {
        let (window, hop) = (c.local_window_seconds.into(), c.local_hop_seconds.into());
        super::local_estimates(frames, duration, window, hop)
            .into_iter()
            .map(|e| e.chroma)
            .collect()
    }
    /// What `estimate_segments` makes of these estimates.
    pub fn segments_of_estimates(
        estimates: &[Estimate],
        duration: f64,
        key: MusicalKey,
        confidence: f32,
        c: KeyConfig,
    ) -> Vec<KeySegment> {
        let local: Vec<LocalEstimate> = estimates
            .iter()
            .map(|&(center_seconds, key, confidence)| LocalEstimate {
                chroma: [0.0; 12],
                center_seconds,
                key,
                confidence,
            })
            .collect();
        super::segments_of_estimates(&local, duration, key, confidence, c)
    }
    /// The majority key of estimates with these keys; at least one.
    pub fn majority_key(keys: &[MusicalKey]) -> MusicalKey {
        let estimates: Vec<LocalEstimate> = keys
            .iter()
            .map(|&key| LocalEstimate {
                chroma: [0.0; 12],
                center_seconds: 0.0,
                key,
                confidence: 0.0,
            })
            .collect();
        super::majority_key_in_range(&estimates)
    }
    pub fn merge_short_segments(segments: &mut Vec<KeySegment>, min_duration: f64) {
        super::merge_short_segments(segments, min_duration);
    }
    pub fn longest_segment_key(segments: &[KeySegment]) -> Option<MusicalKey> {
        super::longest_segment_key(segments)
    }
    pub fn significant_alternate_key(
        segments: &[KeySegment],
        primary: MusicalKey,
        threshold: f32,
    ) -> Option<(MusicalKey, f32)> {
        super::significant_alternate_key(segments, primary, threshold)
    }
    pub fn empty_analysis() -> KeyAnalysis {
        super::empty_analysis()
    }
}
