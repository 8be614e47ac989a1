//! The rules for records, said once more cell by cell.

/// The inputs and outputs of each cell, rails counted in.
pub fn plain_shape(bytes: &[u8], most_outputs: u32) -> Option<Vec<(u32, u32)>> {
    let list: Vec<&[u8]> = bytes.chunks(4).collect();
    let variables: Vec<u8> = list.iter().map(|r| r[0]).collect();
    let fits = list.len() >= 1 && list.len() <= 20 && list.iter().all(|r| r.len() == 4);
    let bytes_fit = fits
        && list
            .iter()
            .all(|r| r[3] == 0 && r[1] < 2 && (r[1] == 1 || r[2] == 0));
    let once = variables
        .iter()
        .enumerate()
        .all(|(i, v)| !variables[..i].contains(v));
    let known = variables.iter().all(|&v| v < 12 || (v >= 128 && v < 136));
    if !(bytes_fit && once && known && list[list.len() - 1][1..3] == [1, 0]) {
        return None;
    }
    let mut shape = vec![];
    let mut upper = 0;
    for cell in list.split_inclusive(|r| r[1] == 1) {
        let outputs = cell.iter().filter(|r| r[0] >= 128).count() as u32;
        let lower = u32::from(cell[cell.len() - 1][2]);
        shape.push((upper + cell.len() as u32 - outputs, outputs + lower));
        upper = lower;
    }
    let fits = shape.iter().all(|&(i, o)| i <= 12 && o <= most_outputs);
    let rows = || shape.iter().map(|&(i, _)| 1 << i).sum::<u32>();
    (fits && rows() <= 32_768).then_some(shape)
}
