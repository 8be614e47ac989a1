//! What a sheet in order forces for a word, worked out apart from both compilers.

/// The outputs forced to 0, and to 1. A stop record decides where it names an output.
pub fn forced(sheet: &[u8], word: u16) -> (u8, u8) {
    let by = |stop: u8| {
        let mut outputs = (0, 0);
        for r in sheet.chunks_exact(8).filter(|r| r[6] == stop) {
            let mask = u16::from_le_bytes([r[0], r[1]]);
            if word & mask == u16::from_le_bytes([r[2], r[3]]) {
                outputs = (outputs.0 | r[4], outputs.1 | r[5]);
            }
        }
        outputs
    };
    let (ordinary, stop) = (by(0), by(1));
    let left = !(stop.0 | stop.1);
    (stop.0 | ordinary.0 & left, stop.1 | ordinary.1 & left)
}
