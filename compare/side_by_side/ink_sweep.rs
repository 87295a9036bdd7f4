//! The sweep over ink: rows of few cells, and rows with ink beside the ends of the blocks that a scan may take at a
//! time, read, laid on and drawn; and calls that are lent just enough numbers, too few or more.
use crate::{
    chain::{Chain, Step},
    chains::one,
    drawings::{points, scratch, written, Group, LIMIT},
    netpbm,
    pgm::{Call, Made},
    random::Random,
};

type Size = [usize; 2];

// ---- rows

/// The bytes of short rows.
const BYTES: [u8; 4] = [0, 1, 128, 255];

/// Every row of one to four cells with these bytes.
fn short_rows() -> impl Iterator<Item = Vec<u8>> {
    (1..=4).flat_map(|width| {
        let rows = 0..BYTES.len().pow(width);
        rows.map(move |row| {
            let places = (0..width).map(|at| row / BYTES.len().pow(at) % BYTES.len());
            places.map(|place| BYTES[place]).collect()
        })
    })
}

/// Widths about those of blocks, and the widest.
const WIDTHS: [usize; 20] = [
    15, 16, 17, 31, 32, 33, 63, 64, 65, 127, 128, 129, 255, 256, 257, 511, 512, 513, 4095, 4096,
];

/// The columns at either side of where a block ends, counted from either end of the row.
fn border_columns(width: usize) -> Vec<usize> {
    let blocks = [16, 32, 64, 128].into_iter();
    let ends = blocks.chain((0..=width).step_by(256));
    let ends = ends.filter(|end| *end <= width);
    let ends = ends.flat_map(|end| [end, width - end]);
    let columns = ends.flat_map(|end| [end.wrapping_sub(1), end, end + 1]);
    let mut columns: Vec<usize> = columns.filter(|column| *column < width).collect();
    columns.sort();
    columns.dedup();
    columns
}

/// Two of these columns, or one twice. Of many columns each stands with itself, the next, the first and the last.
fn column_pairs(columns: &[usize]) -> Vec<[usize; 2]> {
    let last = columns.len() - 1;
    let mut pairs = vec![];
    for (at, first) in columns.iter().enumerate() {
        for (behind, second) in columns.iter().enumerate().skip(at) {
            if last < 60 || at == 0 || behind <= at + 1 || behind == last {
                pairs.push([*first, *second]);
            }
        }
    }
    pairs
}

/// Rows of these widths with ink in one cell or two, beside the ends of blocks.
fn wide_rows() -> impl Iterator<Item = Vec<u8>> {
    WIDTHS.into_iter().flat_map(|width| {
        let pairs = column_pairs(&border_columns(width)).into_iter();
        pairs.map(move |pair| {
            let mut row = vec![0; width];
            pair.iter()
                .for_each(|column| row[*column] = 1 << (column % 8));
            row
        })
    })
}

/// Left, top, right and bottom, in 256ths of a cell.
type Rectangle = [i32; 4];

fn group(rectangles: &[Rectangle]) -> Group {
    let contour = |[left, top, right, bottom]: &Rectangle| {
        [[left, top], [right, top], [right, bottom], [left, bottom]]
            .map(|[x, y]| [*x, *y])
            .to_vec()
    };
    let contours = rectangles.iter().map(contour).collect();
    Group { rule: 0, contours }
}

/// A mask of two rows, the second of which is the first from right to left.
pub struct Rows {
    cells: Vec<u8>,
    size: Size,
}

pub fn rows() -> impl Iterator<Item = Rows> {
    short_rows().chain(wide_rows()).map(|row| {
        let mirrored = row.iter().rev().copied();
        Rows {
            cells: row.iter().copied().chain(mirrored).collect(),
            size: [row.len(), 2],
        }
    })
}

impl Rows {
    /// How many numbers are lent for the ink: just enough, or up to two more.
    fn numbers(&self, random: &mut Random) -> usize {
        2 * self.size[1] + random.below(3)
    }

    pub fn read(&self, random: &mut Random) -> Call {
        let text = netpbm::header(self.size);
        Call::Read {
            made: Made::Row,
            file: [text.as_bytes(), &self.cells].concat(),
            lent: [self.cells.len(), self.numbers(random), 2, 2],
        }
    }

    /// Laid on a mask of 255s, which becomes these rows.
    pub fn laid(&self, random: &mut Random) -> Chain {
        let masks = [vec![255; self.cells.len()].into(), self.cells[..].into()];
        let (sizes, offset) = ([self.size; 2], [0, 0]);
        let numbers = self.numbers(random);
        one(masks, numbers, Step::Lay { sizes, offset }, random)
    }

    /// The inked cells, each as a rectangle as wide as its share.
    fn inked(&self) -> Vec<Rectangle> {
        let cells = self.cells.iter().enumerate();
        let inked = cells.filter(|(_, byte)| **byte != 0);
        inked
            .map(|(at, byte)| {
                let [left, top] = [at % self.size[0], at / self.size[0]].map(|at| 256 * at as i32);
                let share = *byte as i32 + (*byte == 255) as i32;
                [left, top, left + share, top + 256]
            })
            .collect()
    }

    /// Groups of rectangles: the inked cells in one group; in a group each, the last first; each with all that lies
    /// right of it; with all that lies left of it; and the first alone, with a group for each other whose byte stays 0.
    fn groups(&self) -> [Vec<Vec<Rectangle>>; 5] {
        let cells = self.inked();
        let beyond = (256 * self.size[0] as i32 + 600).min(LIMIT);
        let to_the_right = |[left, top, _, bottom]: &Rectangle| [*left, *top, beyond, *bottom];
        let to_the_left = |[_, top, right, bottom]: &Rectangle| [-600, *top, *right, *bottom];
        let sliver = |[left, top, ..]: &Rectangle| vec![[*left, *top, left + 1, top + 1]];
        let first = vec![cells.iter().take(1).copied().collect()];
        let slivers = cells.iter().skip(1).map(sliver);
        [
            vec![cells.clone()],
            cells.iter().rev().map(|cell| vec![*cell]).collect(),
            vec![cells.iter().map(to_the_right).collect()],
            vec![cells.iter().map(to_the_left).collect()],
            first.into_iter().chain(slivers).collect(),
        ]
    }

    /// These groups drawn.
    pub fn drawn(&self, random: &mut Random) -> Vec<Chain> {
        let draw = |groups: Vec<Vec<Rectangle>>| {
            let groups: Vec<Group> = groups.iter().map(|cells| group(cells)).collect();
            Step::Draw {
                mask: 0,
                size: self.size,
                corner: [0, 0],
                words: written(&groups),
                scratch: scratch(self.size, points(&groups)),
            }
        };
        let chain = |step| {
            let mask = (0..self.cells.len()).map(|_| random.bits() as u8).collect();
            one([mask, [].into()], self.numbers(random), step, random)
        };
        self.groups().map(draw).map(chain).into()
    }
}

// ---- lent numbers

/// A size and how many numbers are lent for its ink: none, just enough, up to two more, and all between.
fn lent_numbers() -> impl Iterator<Item = (Size, usize)> {
    let sizes = (0..=2).flat_map(|width| (0..=3).map(move |height| [width, height]));
    let small = sizes.flat_map(|size| (0..=2 * size[1] + 2).map(move |ink| (size, ink)));
    small.chain((8191..=8193).map(|ink| ([1, 4096], ink)))
}

/// A rectangle over the first cell, whose contour has four points.
const CELL: [i32; 11] = [0, 1, 4, 0, 0, 256, 0, 256, 256, 0, 256];

/// Drawings of a size: done, with a faulty list, and with scratch that is too short by a float or a counter.
fn drawings(size: Size) -> Vec<Step> {
    let [floats, counters] = scratch(size, 4);
    let enough = [floats, counters];
    let draw = |words: &[i32], scratch| Step::Draw {
        mask: 0,
        size,
        corner: [0, 0],
        words: words.to_vec(),
        scratch,
    };
    vec![
        draw(&CELL, enough),
        draw(&[], enough),
        draw(&[0], enough),
        draw(&[0, -1], enough),
        draw(&[0, 1, 1, LIMIT + 1, 0], enough),
        draw(&CELL, [floats - 1, counters]),
        draw(&CELL, [floats, counters - 1]),
    ]
}

/// Layings-on of another mask, which has two bytes: done, with the other too short or too large, with a corner out of
/// range, and with all of these.
fn layings(size: Size) -> Vec<Step> {
    let (near, far) = ([[3, 4], [3, 4]], [[3, 4], [3, LIMIT + 1]]);
    let mut steps = vec![];
    for met in [[2, 1], [3, 1], [2, 4097]] {
        let (sizes, offset) = ([size, met], [0, 0]);
        steps.push(Step::Lay { sizes, offset });
        steps.extend([near, far].map(|corners| Step::LayPlaced { sizes, corners }));
    }
    steps
}

/// Drawings and layings-on with just enough numbers, fewer and more, on a mask that is whole or short by a byte.
pub fn lengths(random: &mut Random) -> Vec<Chain> {
    let mut chains = vec![];
    for (size, ink) in lent_numbers() {
        for step in drawings(size).into_iter().chain(layings(size)) {
            let cells = size[0] * size[1];
            for bytes in [Some(cells), cells.checked_sub(1)].into_iter().flatten() {
                let mask = (0..bytes).map(|_| random.bits() as u8).collect();
                let masks = [mask, vec![255, 254].into()];
                chains.push(one(masks, ink, step.clone(), random));
            }
        }
    }
    chains
}

/// Files read with as many numbers: whole, or with a byte of the raster too few.
pub fn files() -> impl Iterator<Item = Call> {
    let sizes = lent_numbers().filter(|([width, height], _)| width * height > 0);
    sizes.flat_map(|(size, ink)| {
        let cells = size[0] * size[1];
        let file = move |raster| {
            let text = netpbm::header(size);
            [text.as_bytes(), &vec![7; raster]].concat()
        };
        [(cells, cells), (cells, cells - 1), (cells - 1, cells)].map(|(raster, bytes)| Call::Read {
            made: Made::Row,
            file: file(raster),
            lent: [bytes, ink, 2, 2],
        })
    })
}

#[cfg(test)]
mod tests {
    use super::*;
    use crate::scan::stretch;
    use std::collections::BTreeSet;

    #[test]
    fn every_short_row() {
        let rows: BTreeSet<Vec<u8>> = short_rows().collect();
        assert!(rows.len() == 4 + 16 + 64 + 256 && short_rows().count() == rows.len());
    }

    /// Wherever a block of 256 ends, from either end of the row, ink begins and ends at it, before it and behind it.
    #[test]
    fn ink_at_every_end_of_a_block() {
        for width in [257, 513, 4095, 4096] {
            let rows = wide_rows().filter(|row| row.len() == width);
            let stretches: Vec<[u16; 2]> = rows.map(|row| stretch(&row)).collect();
            let ends = (256..width).step_by(256);
            for end in ends.flat_map(|end| [end, width - end]) {
                for column in end - 1..(end + 2).min(width) {
                    let column = column as u16;
                    assert!(stretches.iter().any(|[first, _]| *first == column));
                    assert!(stretches.iter().any(|[_, end]| *end == column + 1));
                }
            }
        }
    }

    #[test]
    fn mirrored() {
        for Rows { cells, size } in rows() {
            let (row, mirrored) = cells.split_at(size[0]);
            assert!(row.iter().eq(mirrored.iter().rev()));
        }
    }

    #[test]
    fn every_answer_with_every_length() {
        let random = &mut Random::new(1);
        let answers = lengths(random).into_iter().map(|chain| {
            let masks = chain.masks.each_ref().map(|mask| mask.len());
            let ink = chain.ink.each_ref().map(|ink| ink.len());
            chain.steps[0].answer(masks, ink).err().unwrap_or(0)
        });
        let mut counts = [0; 17];
        answers.for_each(|number| counts[number as usize] += 1);
        assert!([0, 3, 4, 5, 6, 7, 16].iter().all(|at| counts[*at] > 20));
    }
}
