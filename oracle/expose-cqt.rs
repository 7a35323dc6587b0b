/// What the comparison reads of a constant-Q table.
pub(crate) mod expose {
    use super::CqtTable;

    /// (MIDI note, pitch class, window length, coefficient, window) of each row.
    pub fn rows(table: &CqtTable) -> Vec<(u8, usize, usize, f32, Vec<f32>)> {
        table
            .notes
            .iter()
            .map(|n| {
                (
                    n.midi,
                    n.pitch_class,
                    n.window_len,
                    n.coeff,
                    n.window.clone(),
                )
            })
            .collect()
    }
}
