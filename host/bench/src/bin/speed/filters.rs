//! The filters beside the oracle's: nanoseconds for one note and sample.
use crate::engines::Pairs;
use crate::rounds::{Pair, header};
use crate::tracks::noise;
use bench::oracle::tables::Tables;
use bench::probe::sheet::{constant_q, goertzel};
use ulyptesh::Settings;

const RATES: [u32; 2] = [44_100, 48_000];

/// A second of noise and more, so that no window is cut.
const SAMPLES: usize = 60_000;

/// Frames of one turn, from the middle of the track on.
const FRAMES: [usize; 2] = [20_000, 22_048];

/// Notes and samples of one frame, by kind.
pub fn print_rows() {
    header("ns for one note and sample", "oracle");
    let track = noise(2, SAMPLES);
    for rate in RATES {
        let tables = Tables::new(Settings::for_rate(rate).head());
        let sheet = &tables.sheet;
        Pairs::of_steps(
            sheet.goertzel_coefficients.len() * sheet.window.len(),
            &FRAMES,
            |engine, start| goertzel(engine, sheet, &track, start)[0],
            |start| tables.goertzel(&track, start)[0],
        )
        .print("Goertzel", rate);
        Pair::of_steps(
            sheet.constant_q_windows.len(),
            &FRAMES,
            |centre| constant_q(sheet, &track, centre)[0],
            |centre| tables.constant_q(&track, centre)[0],
        )
        .print(&format!("constant-Q, {rate} Hz"));
    }
}
