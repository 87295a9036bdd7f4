//! Which columns of a mask's rows have ink, by the sentences of document 02's change 9. femtovg has none: this scan and
//! this print loop are written for the comparison, and have nothing of Beamnettle's.

/// 'The first column whose byte is not 0 and the column after the last such one, or 0 and 0 for a blank row.'
pub fn stretch(row: &[u8]) -> [u16; 2] {
    let inked = |byte: &u8| *byte != 0;
    match (row.iter().position(inked), row.iter().rposition(inked)) {
        (Some(first), Some(last)) => [first, last + 1].map(|column| column as u16),
        _ => [0, 0],
    }
}

/// Writes what a scan of a mask finds, two numbers a row.
pub fn scan(mask: &[u8], [width, height]: [usize; 2], ink: &mut [u16]) {
    for row in 0..height {
        let line = &mask[row * width..][..width];
        ink[2 * row..][..2].copy_from_slice(&stretch(line));
    }
}

/// What a print loop leaves on blank paper that sends each row's stretch and nothing else.
pub fn printed(mask: &[u8], [width, height]: [usize; 2], ink: &[u16]) -> Vec<u8> {
    let mut paper = vec![0; width * height];
    for row in 0..height {
        let [first, end] = [0, 1].map(|at| row * width + ink[2 * row + at] as usize);
        paper[first..end].copy_from_slice(&mask[first..end]);
    }
    paper
}

#[cfg(test)]
mod tests {
    use super::*;

    #[test]
    fn rows() {
        assert!(stretch(&[]) == [0, 0]);
        assert!(stretch(&[0, 0, 0]) == [0, 0]);
        assert!(stretch(&[5, 0, 0]) == [0, 1]);
        assert!(stretch(&[0, 0, 5]) == [2, 3]);
        assert!(stretch(&[5, 0, 7]) == [0, 3]);
        let mut wide = [0; 4096];
        wide[4095] = 1;
        assert!(stretch(&wide) == [4095, 4096]);
        assert!(stretch(&[255; 4096]) == [0, 4096]);
    }

    #[test]
    fn scanned() {
        let mut ink = [9; 8];
        scan(&[0, 5, 0, 0, 0, 0, 5, 0, 5, 77], [3, 3], &mut ink);
        assert!(ink == [1, 2, 0, 0, 0, 3, 9, 9]);
        scan(&[], [0, 3], &mut ink);
        assert!(ink == [0, 0, 0, 0, 0, 0, 9, 9]);
        let mut ink = [9; 1];
        scan(&[77], [3, 0], &mut ink);
        assert!(ink == [9]);
    }

    /// The stretches print the mask, and one that is too short, at either end, does not.
    #[test]
    fn stretches_print_the_mask() {
        let (mask, size) = ([0, 1, 0, 2, 0, 0, 0, 0, 3, 0, 0, 4], [4, 3]);
        let mut ink = [0; 6];
        scan(&mask, size, &mut ink);
        assert!(printed(&mask, size, &ink) == mask);
        assert!(printed(&mask, size, &[0, 4, 0, 4, 0, 4]) == mask);
        assert!(printed(&mask, size, &[0; 6]) == [0; 12]);
        for (at, by) in [(0, 1), (1, -1), (4, 1), (5, -1)] {
            let mut short = ink;
            short[at] = (short[at] as i16 + by) as u16;
            assert!(printed(&mask, size, &short) != mask);
        }
    }
}
