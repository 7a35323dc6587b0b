//! Whole tracks from a seed: chord progressions, and what may befall them.
use super::dice::Dice;
use std::f64::consts::TAU;

/// By how many semitones a chord's root lies above the tonic, and its third above the root.
type Chord = (usize, usize);

const MAJOR_CHORDS: [Chord; 4] = [(0, 4), (5, 4), (7, 4), (9, 3)];
const MINOR_CHORDS: [Chord; 4] = [(0, 3), (5, 3), (7, 3), (8, 4)];

/// Samples that are not finite, or whose squares are not.
const SPOILT: [f32; 6] = [f32::NAN, f32::INFINITY, f32::NEG_INFINITY, 1e19, 1e25, -f32::MAX];

/// Makes tracks at one rate.
pub struct Maker {
    pub dice: Dice,
    pub rate: u32,
}

/// A kind of track.
pub struct Kind {
    pub name: &'static str,
    pub make: fn(&mut Maker, usize) -> Vec<f32>,
}

pub const KINDS: [Kind; 9] = [
    Kind { name: "chord progression", make: |maker, length| maker.progression(length, 0.0) },
    Kind { name: "key change", make: |maker, length| maker.key_change(length, 0.0) },
    Kind { name: "noise bed", make: Maker::noise_bed },
    Kind { name: "silence with bursts", make: Maker::bursts },
    Kind { name: "detuned", make: Maker::detuned },
    Kind { name: "detuned key change", make: Maker::detuned_key_change },
    Kind { name: "clipped", make: Maker::clipped },
    Kind { name: "not finite here and there", make: Maker::spoilt },
    Kind { name: "key change over noise", make: Maker::key_change_over_noise },
];

/// The kind of this name.
pub fn kind(name: &str) -> &'static Kind {
    KINDS.iter().find(|kind| kind.name == name).expect("a kind of that name")
}

/// Adds three tones, by the recurrence of a sine: so many radians from one sample to the next.
fn add_tones(samples: &mut [f32], steps: [f64; 3], loudness: f32) {
    let turns = steps.map(|step| 2.0 * step.cos());
    let mut before = steps.map(|step| -step.sin());
    let mut now = [0.0; 3];
    for sample in samples {
        *sample += loudness * now.iter().sum::<f64>() as f32;
        for tone in 0..3 {
            (before[tone], now[tone]) = (now[tone], turns[tone] * now[tone] - before[tone]);
        }
    }
}

impl Maker {
    /// From so many seconds on, up to so many more, in samples.
    fn while_of(&mut self, least: f32, more: f32) -> usize {
        1 + ((least + more * self.dice.unit()) * self.rate as f32) as usize
    }

    /// A chord of the key, as loud as it happens.
    fn add_chord(&mut self, samples: &mut [f32], key: u8, offset: f64) {
        let chords = if key < 12 { MAJOR_CHORDS } else { MINOR_CHORDS };
        let (root, third) = self.dice.one_of(&chords);
        let lowest = 48 + 12 * self.dice.below(2) + (usize::from(key) + root) % 12;
        let tones = [0, third, 7 + 12 * self.dice.below(2)].map(|tone| (lowest + tone) as f64 + offset);
        let steps = tones.map(|note| TAU * 440.0 * ((note - 69.0) / 12.0).exp2() / f64::from(self.rate));
        add_tones(samples, steps, 0.01 + 0.2 * self.dice.unit());
    }

    /// Chords of one key, each for a while; the offset is in semitones.
    fn add_chords(&mut self, mut samples: &mut [f32], key: u8, offset: f64) {
        while !samples.is_empty() {
            let length = self.while_of(0.3, 3.0);
            let (chord, later) = samples.split_at_mut(length.min(samples.len()));
            self.add_chord(chord, key, offset);
            samples = later;
        }
    }

    fn add_noise(&mut self, samples: &mut [f32]) {
        let loudness = self.dice.one_of(&[0.001, 0.01, 0.1, 1.0]);
        samples.iter_mut().for_each(|x| *x += loudness * (self.dice.unit() - 0.5));
    }

    /// Up to half a semitone either way.
    fn offset(&mut self) -> f64 {
        f64::from(self.dice.unit()) - 0.5
    }

    fn progression(&mut self, length: usize, offset: f64) -> Vec<f32> {
        let mut samples = vec![0.0; length];
        let key = self.dice.key();
        self.add_chords(&mut samples, key, offset);
        samples
    }

    /// Two to five parts, of any length, each in one of a few keys.
    fn key_change(&mut self, length: usize, offset: f64) -> Vec<f32> {
        let mut samples = vec![0.0; length];
        let keys = [self.dice.key(), self.dice.key(), self.dice.key()];
        let mut borders: Vec<usize> = (0..1 + self.dice.below(4)).map(|_| self.dice.below(length)).collect();
        borders.extend([0, length]);
        borders.sort_unstable();
        for part in borders.windows(2) {
            let key = self.dice.one_of(&keys);
            self.add_chords(&mut samples[part[0]..part[1]], key, offset);
        }
        samples
    }

    fn noise_bed(&mut self, length: usize) -> Vec<f32> {
        let mut samples = self.progression(length, 0.0);
        self.add_noise(&mut samples);
        samples
    }

    fn key_change_over_noise(&mut self, length: usize) -> Vec<f32> {
        let mut samples = self.key_change(length, 0.0);
        self.add_noise(&mut samples);
        samples
    }

    /// Silence, and a chord or noise now and then.
    fn bursts(&mut self, length: usize) -> Vec<f32> {
        let (mut samples, key) = (vec![0.0; length], self.dice.key());
        for _ in 0..self.dice.below(12) {
            let from = self.dice.below(length);
            let most = self.dice.one_of(&[0.02, 0.3, 4.0]);
            let until = from + self.while_of(0.0, most);
            let burst = &mut samples[from..until.min(length)];
            if self.dice.one_in(3) { self.add_noise(burst) } else { self.add_chord(burst, key, 0.0) }
        }
        samples
    }

    fn detuned(&mut self, length: usize) -> Vec<f32> {
        let offset = self.offset();
        self.progression(length, offset)
    }

    fn detuned_key_change(&mut self, length: usize) -> Vec<f32> {
        let offset = self.offset();
        self.key_change(length, offset)
    }

    fn clipped(&mut self, length: usize) -> Vec<f32> {
        let mut samples = self.key_change(length, 0.0);
        let most = self.dice.one_of(&[0.02, 0.1, 0.3]);
        samples.iter_mut().for_each(|x| *x = x.clamp(-most, most));
        samples
    }

    /// A few samples are not finite, or too large.
    fn spoilt(&mut self, length: usize) -> Vec<f32> {
        let mut samples = self.key_change(length, 0.0);
        let kinds = [self.dice.one_of(&SPOILT), self.dice.one_of(&SPOILT)];
        for _ in 0..1 + self.dice.below(6) {
            samples[self.dice.below(length)] = self.dice.one_of(&kinds);
        }
        samples
    }
}

/// A click in each frame, the first at that place and the rest of it silent. The notes of one octave hear it alike, so
/// that such a track has no shape.
pub fn put_clicks(samples: &mut [f32], frame_size: usize, first: usize, loudness: f32) {
    samples.fill(0.0);
    samples.iter_mut().skip(first).step_by(frame_size).for_each(|x| *x = loudness);
}

/// So many samples with a soft click in each frame.
pub fn clicks(length: usize, frame_size: usize) -> Vec<f32> {
    let mut samples = vec![0.0; length];
    put_clicks(&mut samples, frame_size, 300, 0.01);
    samples
}

/// A click where the first frame begins, which its window leaves out, and silence behind it: the frame is loud, and no
/// note hears it.
pub fn put_unheard_click(samples: &mut [f32]) {
    samples.fill(0.0);
    samples[0] = 0.5;
}
