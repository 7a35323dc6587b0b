//! Lent rows, compared bit for bit.
use crate::groups::Compared;
use ulyptesh::calls::{EstimateRows, FrameRows, SegmentRows};

impl Compared for FrameRows {
    fn same(&self, other: &Self) -> bool {
        self.centres.same(&other.centres)
            && self.values.same(&other.values)
            && self.energies.same(&other.energies)
    }

    fn shown(&self) -> String {
        format!("energies {}", self.energies.shown())
    }
}

impl Compared for EstimateRows {
    fn same(&self, other: &Self) -> bool {
        self.middles.same(&other.middles)
            && self.numbers == other.numbers
            && self.certainties.same(&other.certainties)
            && self.shapeless == other.shapeless
    }

    fn shown(&self) -> String {
        format!("{self:?}")
    }
}

impl Compared for SegmentRows {
    fn same(&self, other: &Self) -> bool {
        self.starts.same(&other.starts)
            && self.ends.same(&other.ends)
            && self.keys == other.keys
            && self.confidences.same(&other.confidences)
            && self.counts == other.counts
    }

    fn shown(&self) -> String {
        format!("{self:?}")
    }
}

/// How many windows stand behind the first segments in all.
pub fn windows_in_all(rows: &SegmentRows, segments: usize) -> u64 {
    rows.counts.iter().take(segments).map(|&windows| u64::from(windows)).sum()
}
