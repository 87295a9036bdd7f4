//! A mask's ink: how much is lent for it, and what is counted of it.
use crate::{random::Random, scan::printed};

/// As many numbers as so many rows take, one too few, fewer, or more.
pub fn lent(random: &mut Random, rows: usize) -> usize {
    let needed = 2 * rows.min(4097);
    match random.below(20) {
        0 | 1 => needed.saturating_sub(1),
        2 => random.below(needed + 1),
        3..=8 => needed + random.below(12),
        _ => needed,
    }
}

pub fn rubbish(random: &mut Random, length: usize) -> Vec<u16> {
    (0..length).map(|_| random.bits() as u16).collect()
}

/// What is counted of ink: rows that are inked and rows that are blank, after each done call, and calls that are
/// refused though they would be done with more ink.
#[derive(Default)]
pub struct Counts {
    inked: u64,
    blank: u64,
    refused: u64,
}

impl Counts {
    /// The rows of a mask that a done call wrote, whose ink is what a scan finds. A print loop that sends only the
    /// stretches prints the same cells.
    pub fn done(&mut self, mask: &[u8], size: [usize; 2], ink: &[u16]) -> Result<(), String> {
        let [width, height] = size;
        let rows = ink[..2 * height].chunks(2);
        let blank = rows.filter(|row| **row == [0, 0]).count();
        self.blank += blank as u64;
        self.inked += (height - blank) as u64;
        if printed(mask, size, ink) != mask[..width * height] {
            return Err("the stretches print other cells".into());
        }
        Ok(())
    }

    pub fn refused(&mut self) {
        self.refused += 1;
    }

    pub fn show(&self) {
        let Counts {
            inked,
            blank,
            refused,
        } = self;
        println!("ink: inked rows compared {inked}, blank rows {blank}; calls refused for ink alone {refused}");
    }
}

#[cfg(test)]
mod tests {
    use super::*;

    #[test]
    fn one_in_ten_is_one_too_few() {
        let random = &mut Random::new(1);
        let mut counts = [0; 3];
        for _ in 0..10_000 {
            let length = lent(random, 40);
            counts[(length >= 79) as usize + (length >= 80) as usize] += 1;
        }
        let [fewer, one_too_few, enough] = counts;
        assert!(fewer > 300 && one_too_few > 900 && enough > 8000);
        assert!((0..100).all(|_| lent(random, 0) < 12));
        assert!((0..100).all(|_| lent(random, usize::MAX) < 8206));
    }

    #[test]
    fn counted() {
        let mut counts = Counts::default();
        let mask = [0, 7, 0, 0, 0, 0, 7, 7, 9];
        assert!(counts.done(&mask, [2, 4], &[1, 2, 0, 0, 0, 0, 0, 2, 5]) == Ok(()));
        assert!((counts.inked, counts.blank) == (2, 2));
        assert!(counts.done(&[], [0, 3], &[0; 6]) == Ok(()));
        assert!((counts.inked, counts.blank) == (2, 5));
        assert!(counts.done(&mask, [2, 1], &[0, 1]).is_err());
    }
}
