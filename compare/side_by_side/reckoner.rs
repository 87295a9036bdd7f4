//! Document 01's reckoner: what each cell of a chain's two masks should be, in exact fractions,
//! and how far its byte may lie from that. Written from the paragraphs 'Exact winding' and 'The
//! reckoner', for corners from document 02's change 8 and for ink's length from its change 9; it is given
//! the arguments of the calls and nothing of the engines'.
use crate::{chain::NAMES, fraction::Fraction};

const LARGEST_SIDE: usize = 4096;
const MOST_POINTS: usize = 2048;
const LARGEST_COORDINATE: i64 = 1_048_576;
const LARGEST_CORNER: i64 = 1_048_576;

/// A number of the table of causes.
pub type Refused = u8;

/// An edge that is not level, from its upper end to its lower one; coordinates in 256ths of a cell.
struct Edge {
    upper: [i64; 2],
    lower: [i64; 2],
    /// '+1 (y grows along the contour) or -1'
    way: i64,
}

struct Group {
    rule: i32,
    edges: Vec<Edge>,
}

/// Where an edge crosses a row.
struct Crossing {
    /// q - p, with the edge's sign
    height: Fraction,
    at_p: Fraction,
    at_q: Fraction,
}

#[derive(Clone)]
struct Cell {
    share: Fraction,
    allowed: Fraction,
}

#[derive(Default)]
struct Mask {
    size: [usize; 2],
    corner: [i32; 2],
    cells: Vec<Cell>,
}

/// 'For the running and the next mask it holds a width, a height and, per cell, a share and an
/// allowed difference. At first both are 0 by 0.' It 'also holds each mask's corner, (0, 0) at first
/// and then the one given with that mask's last done drawing'.
#[derive(Default)]
pub struct Reckoner {
    masks: [Mask; 2],
    strayed: bool,
}

/// How close bytes came to 255 times their shares.
#[derive(Default)]
pub struct Closeness {
    /// the largest share of the allowed difference
    pub largest: f64,
    pub drawings: u64,
    pub layings: u64,
    /// layings-on by corners
    pub placed: u64,
    pub cells: u64,
}

fn half() -> Fraction {
    Fraction::of(1, 2)
}

// ---- the word list

struct Words<'a> {
    left: &'a [i32],
    points: usize,
}

impl Words<'_> {
    fn next(&mut self) -> Result<i32, Refused> {
        let (first, left) = self.left.split_first().ok_or(5)?;
        self.left = left;
        Ok(*first)
    }

    fn count(&mut self) -> Result<usize, Refused> {
        usize::try_from(self.next()?).map_err(|_| 6)
    }

    fn coordinate(&mut self) -> Result<i64, Refused> {
        let word = self.next()? as i64;
        if word.abs() > LARGEST_COORDINATE {
            return Err(7);
        }
        Ok(word)
    }

    fn contour(&mut self) -> Result<Vec<[i64; 2]>, Refused> {
        let count = self.count()?;
        self.points += count;
        if self.points > MOST_POINTS {
            return Err(6);
        }
        (0..count)
            .map(|_| Ok([self.coordinate()?, self.coordinate()?]))
            .collect()
    }

    fn group(&mut self) -> Result<Group, Refused> {
        let rule = self.next()?;
        let mut edges = Vec::new();
        for _ in 0..self.count()? {
            edges.extend(closed(&self.contour()?));
        }
        Ok(Group { rule, edges })
    }
}

/// 'A contour closes from its last point to its first. Level edges are dropped.'
fn closed(contour: &[[i64; 2]]) -> Vec<Edge> {
    let ends = contour.iter().skip(1).chain(contour.first());
    let edges = contour.iter().zip(ends);
    edges
        .filter(|(from, to)| from[1] != to[1])
        .map(|(from, to)| Edge::between(*from, *to))
        .collect()
}

// ---- exact winding

impl Edge {
    fn between(from: [i64; 2], to: [i64; 2]) -> Self {
        let grows = from[1] < to[1];
        let (upper, lower) = if grows { (from, to) } else { (to, from) };
        let way = if grows { 1 } else { -1 };
        Self { upper, lower, way }
    }

    /// 'x(y) is its exact crossing', in cells; the height is in 256ths.
    fn crossing(&self, y: i64) -> Fraction {
        let ([x1, y1], [x2, y2]) = (self.upper, self.lower);
        let across = Fraction::of((y - y1) * (x2 - x1), y2 - y1);
        Fraction::whole(x1)
            .plus(&across)
            .times(&Fraction::of(1, 256))
    }

    /// 'An edge "crosses" a row when it is not level and overlaps the row in more than a point.'
    fn across(&self, row: usize) -> Option<Crossing> {
        let (top, bottom) = (256 * row as i64, 256 * (row as i64 + 1));
        let (p, q) = (self.upper[1].max(top), self.lower[1].min(bottom));
        (p < q).then(|| Crossing {
            height: Fraction::of(self.way * (q - p), 256),
            at_p: self.crossing(p),
            at_q: self.crossing(q),
        })
    }
}

/// 'Let H(t) be 0 for t up to 0, t x t / 2 for t up to 1, and t - 1/2 beyond.'
fn h(t: &Fraction) -> Fraction {
    if *t <= Fraction::whole(0) {
        Fraction::whole(0)
    } else if *t <= Fraction::whole(1) {
        t.times(t).times(&half())
    } else {
        t.minus(&half())
    }
}

fn held_between_0_and_1(u: Fraction) -> Fraction {
    u.max(Fraction::whole(0)).min(Fraction::whole(1))
}

impl Crossing {
    /// The edge's part in the cell at a column.
    fn part(&self, column: usize) -> Fraction {
        let right = Fraction::whole(column as i64 + 1);
        let (u, v) = (right.minus(&self.at_p), right.minus(&self.at_q));
        if u == v {
            return self.height.times(&held_between_0_and_1(u));
        }
        let grown = h(&v).minus(&h(&u));
        self.height.times(&grown).over(&v.minus(&u))
    }
}

fn sum(of: impl Iterator<Item = Fraction>) -> Fraction {
    of.fold(Fraction::whole(0), |sum, part| sum.plus(&part))
}

/// 'Non-zero share: its size, at most 1. Even-odd share: its size modulo 2, taken from 2 when
/// over 1.'
fn share(rule: i32, winding: Fraction) -> Fraction {
    let (one, two) = (Fraction::whole(1), Fraction::whole(2));
    let mut size = winding.size();
    if rule == 0 {
        return size.min(one);
    }
    while size >= two {
        size = size.minus(&two);
    }
    if size > one {
        two.minus(&size)
    } else {
        size
    }
}

// ---- the masks

/// The cells of a row: 'A cell's share is the sum of its groups' shares, at most 1. Its allowed
/// difference is 1 for each edge that crosses its row, plus a half for each group.'
fn row_of_cells(groups: &[Group], width: usize, row: usize) -> Vec<Cell> {
    let crossings: Vec<(i32, Vec<Crossing>)> = groups
        .iter()
        .map(|group| {
            let across = group.edges.iter().filter_map(|edge| edge.across(row));
            (group.rule, across.collect())
        })
        .collect();
    let edges: usize = crossings.iter().map(|(_, across)| across.len()).sum();
    let allowed = Fraction::of(2 * edges as i64 + groups.len() as i64, 2);
    let cell = |column| {
        let shares = crossings.iter().map(|(rule, across)| {
            let winding = sum(across.iter().map(|crossing| crossing.part(column)));
            share(*rule, winding)
        });
        let (share, allowed) = (sum(shares).min(Fraction::whole(1)), allowed.clone());
        Cell { share, allowed }
    };
    (0..width).map(cell).collect()
}

impl Mask {
    fn drawn(size: [usize; 2], corner: [i32; 2], groups: &[Group]) -> Self {
        let rows = 0..size[1];
        let cells = rows.flat_map(|row| row_of_cells(groups, size[0], row));
        let cells = cells.collect();
        Self {
            size,
            corner,
            cells,
        }
    }

    /// The cell at a column and a row, if there is one.
    fn at(&self, [column, row]: [i64; 2]) -> Option<&Cell> {
        let [width, height] = self.size.map(|side| side as i64);
        let inside = (0..width).contains(&column) && (0..height).contains(&row);
        inside.then(|| &self.cells[(row * width + column) as usize])
    }

    /// 'Where the next mask has a cell at the place met, the running cell's share is multiplied by
    /// that cell's, and its allowed difference grows by that cell's and a half. Elsewhere the share
    /// becomes 0, and the allowed difference grows by a half.'
    fn lay(&mut self, next: &Mask, offset: [i64; 2]) {
        let width = self.size[0];
        for (at, cell) in self.cells.iter_mut().enumerate() {
            let place = [at % width, at / width];
            let met = [0, 1].map(|axis| place[axis] as i64 + offset[axis]);
            cell.allowed = cell.allowed.plus(&half());
            if let Some(other) = next.at(met) {
                cell.share = cell.share.times(&other.share);
                cell.allowed = cell.allowed.plus(&other.allowed);
            } else {
                cell.share = Fraction::whole(0);
            }
        }
    }
}

// ---- the calls

fn check_sides(sizes: &[[usize; 2]]) -> Result<(), Refused> {
    if sizes.iter().flatten().any(|side| *side > LARGEST_SIDE) {
        return Err(3);
    }
    Ok(())
}

fn check_length(length: usize, [width, height]: [usize; 2]) -> Result<(), Refused> {
    if length < width * height {
        return Err(4);
    }
    Ok(())
}

/// 'Two 16-bit numbers a row', and 'too little memory for it is number 4, with the mask'.
fn check_ink(numbers: usize, [_, height]: [usize; 2]) -> Result<(), Refused> {
    if numbers < height + height {
        return Err(4);
    }
    Ok(())
}

fn check_lent(sizes: [[usize; 2]; 2], lent: [usize; 3]) -> Result<(), Refused> {
    check_length(lent[0], sizes[0])?;
    check_ink(lent[1], sizes[0])?;
    check_length(lent[2], sizes[1])
}

fn check_corner(corner: [i32; 2]) -> Result<(), Refused> {
    let beyond = |number: &i32| (*number as i64).abs() > LARGEST_CORNER;
    if corner.iter().any(beyond) {
        return Err(16);
    }
    Ok(())
}

impl Reckoner {
    /// A drawing of the running mask (0) or the next (1). `lent` is how many mask bytes, numbers of ink,
    /// scratch floats and scratch counters there are.
    pub fn draw(
        &mut self,
        mask: usize,
        size: [usize; 2],
        corner: [i32; 2],
        words: &[i32],
        lent: [usize; 4],
    ) -> Result<(), Refused> {
        check_sides(&[size])?;
        check_length(lent[0], size)?;
        check_ink(lent[1], size)?;
        let mut words = Words {
            left: words,
            points: 0,
        };
        let mut groups = Vec::new();
        while !words.left.is_empty() {
            groups.push(words.group()?);
        }
        let [width, height] = size;
        let counters = (width + 63) / 64 + height + 1;
        if lent[2] < width + 15 * words.points || lent[3] < counters {
            return Err(4);
        }
        if self.follows() {
            self.masks[mask] = Mask::drawn(size, corner, &groups);
        }
        Ok(())
    }

    /// The next mask laid on the running one, with the sizes given for both. `lent` is how many bytes of the
    /// running mask, numbers of its ink and bytes of the next mask there are.
    pub fn lay(
        &mut self,
        sizes: [[usize; 2]; 2],
        offset: [i32; 2],
        lent: [usize; 3],
    ) -> Result<(), Refused> {
        check_sides(&sizes)?;
        check_lent(sizes, lent)?;
        self.laid(sizes, offset.map(i64::from));
        Ok(())
    }

    /// The same by corners: 'Laying on then takes the offset as own corner minus the other's.'
    pub fn lay_placed(
        &mut self,
        sizes: [[usize; 2]; 2],
        corners: [[i32; 2]; 2],
        lent: [usize; 3],
    ) -> Result<(), Refused> {
        check_sides(&sizes)?;
        check_corner(corners[0])?;
        check_corner(corners[1])?;
        check_lent(sizes, lent)?;
        let [own, other] = self.masks.each_ref().map(|mask| mask.corner);
        self.strayed |= corners != [own, other];
        self.laid(
            sizes,
            [0, 1].map(|axis| own[axis] as i64 - other[axis] as i64),
        );
        Ok(())
    }

    /// A done laying-on, with the sizes given for both.
    fn laid(&mut self, sizes: [[usize; 2]; 2], offset: [i64; 2]) {
        let [run, next] = &mut self.masks;
        self.strayed |= sizes != [run.size, next.size];
        if !self.strayed {
            run.lay(next, offset);
        }
    }

    /// 'In the lists meant, a done laying-on is given the sizes held', and one by corners 'is given the
    /// corners held'. Others are not followed beyond that call.
    pub fn follows(&self) -> bool {
        !self.strayed
    }

    pub fn sizes(&self) -> [[usize; 2]; 2] {
        self.masks.each_ref().map(|mask| mask.size)
    }

    /// Holds every cell's byte to its share and allowed difference.
    pub fn check(&self, buffers: [&[u8]; 2], closeness: &mut Closeness) -> Result<(), String> {
        for ((name, mask), buffer) in NAMES.iter().zip(&self.masks).zip(buffers) {
            for (at, (cell, byte)) in mask.cells.iter().zip(buffer).enumerate() {
                let checked = cell.check(*byte, closeness);
                checked.map_err(|found| format!("byte {at} of {name}: {found}"))?;
            }
        }
        Ok(())
    }
}

impl Cell {
    fn check(&self, byte: u8, closeness: &mut Closeness) -> Result<(), String> {
        let exact = self.share.times(&Fraction::whole(255));
        let difference = Fraction::whole(byte as i64).minus(&exact).size();
        if difference > self.allowed {
            let (exact, allowed) = (exact.near(), self.allowed.near());
            return Err(format!("{byte}, exactly {exact}, allowed {allowed}"));
        }
        if !difference.is_zero() {
            let part = difference.over(&self.allowed).near();
            closeness.largest = closeness.largest.max(part);
        }
        closeness.cells += 1;
        Ok(())
    }
}

#[cfg(test)]
mod tests {
    use super::*;

    const SQUARE: [i32; 9] = [4, 0, 0, 256, 0, 256, 256, 0, 256];
    const HALF: [i32; 9] = [4, 0, 0, 128, 0, 128, 256, 0, 256];

    /// The shares of a drawing two cells wide and one high, with their allowed differences.
    fn drawn(words: &[i32]) -> Vec<(Fraction, Fraction)> {
        let mut reckoner = Reckoner::default();
        assert!(reckoner.draw(0, [2, 1], [0, 0], words, [2, 2, 1000, 3]) == Ok(()));
        let cells = &reckoner.masks[0].cells;
        let pair = |cell: &Cell| (cell.share.clone(), cell.allowed.clone());
        cells.iter().map(pair).collect()
    }

    fn expect(words: &[i32], first: Fraction, second: Fraction, allowed: Fraction) {
        assert!(drawn(words) == [(first, allowed.clone()), (second, allowed)]);
    }

    #[test]
    fn examples() {
        let (none, all) = (Fraction::whole(0), Fraction::whole(1));
        let (two, four) = (Fraction::of(5, 2), Fraction::of(9, 2));
        let one = |rule, contour: &[i32]| [&[rule, 1], contour].concat();
        let twice = |rule| [&[rule, 2][..], &SQUARE, &SQUARE].concat();
        expect(&one(0, &SQUARE), all.clone(), none.clone(), two.clone());
        expect(&one(0, &HALF), half(), none.clone(), two);
        expect(&twice(1), none.clone(), none.clone(), four.clone());
        expect(&twice(0), all.clone(), none.clone(), four);
        let groups = [one(0, &HALF), one(0, &HALF)].concat();
        expect(&groups, all, none.clone(), Fraction::whole(5));
        expect(&[], none.clone(), none.clone(), none);
    }

    #[test]
    fn slanted_edges() {
        // The triangle (0,0) (2,0) (0,1): three quarters of the first cell, a quarter of the second.
        let words = [0, 1, 3, 0, 0, 512, 0, 0, 256];
        let quarter = |n| Fraction::of(n, 4);
        expect(&words, quarter(3), quarter(1), Fraction::of(5, 2));
        // Half of a cell wound once, half of it twice, even-odd: 3/2 is taken from 2.
        let words = [
            1, 2, 4, 0, 0, 256, 0, 256, 256, 0, 256, 3, 0, 0, 256, 0, 0, 256,
        ];
        expect(&words, half(), Fraction::whole(0), Fraction::of(9, 2));
    }

    #[test]
    fn layings() {
        let mut reckoner = Reckoner::default();
        let lent = [3, 2, 1000, 5];
        assert!(reckoner.lay([[0, 0]; 2], [7, -7], [0, 0, 0]) == Ok(()));
        assert!(reckoner.draw(0, [3, 1], [0, 0], &WIDE, lent) == Ok(()));
        assert!(reckoner.draw(1, [2, 1], [0, 0], &WIDE, lent) == Ok(()));
        assert!(reckoner.lay([[3, 1], [2, 1]], [-1, 0], [3, 2, 3]) == Ok(()));
        let cells = &reckoner.masks[0].cells;
        for (cell, (share, allowed)) in cells.iter().zip([(0, 6), (2, 11), (1, 11)]) {
            assert!(cell.share == Fraction::of(share, 2));
            assert!(cell.allowed == Fraction::of(allowed, 2));
        }
        assert!(reckoner.lay([[3, 1], [1, 1]], [0, 0], [3, 2, 3]) == Ok(()));
        assert!(!reckoner.follows());
    }

    const WIDE: [i32; 11] = [0, 1, 4, 0, 0, 640, 0, 640, 256, 0, 256];

    /// A reckoner that has drawn both masks, three cells wide and two, at these corners.
    fn both_drawn(corners: [[i32; 2]; 2]) -> Reckoner {
        let mut reckoner = Reckoner::default();
        for (mask, width) in [(0, 3), (1, 2)] {
            let drawn = reckoner.draw(mask, [width, 1], corners[mask], &WIDE, [3, 2, 1000, 5]);
            assert!(drawn == Ok(()));
        }
        reckoner
    }

    /// The shares of the running mask, in halves.
    fn halves(reckoner: &Reckoner) -> Vec<f64> {
        let cells = reckoner.masks[0].cells.iter();
        cells.map(|cell| 2.0 * cell.share.near()).collect()
    }

    #[test]
    fn layings_by_corners() {
        let far = 1_048_576;
        for (corners, shares) in [
            ([[4, -7], [4, -7]], [2.0, 2.0, 0.0]),
            ([[1, 0], [0, 0]], [2.0, 0.0, 0.0]),
            ([[0, 5], [1, 5]], [0.0, 2.0, 1.0]),
            ([[0, 1], [0, 0]], [0.0, 0.0, 0.0]),
            ([[far - 1, -far], [far, -far]], [0.0, 2.0, 1.0]),
            ([[far, far], [-far, -far]], [0.0, 0.0, 0.0]),
        ] {
            let mut reckoner = both_drawn(corners);
            assert!(reckoner.lay_placed([[3, 1], [2, 1]], corners, [3, 2, 3]) == Ok(()));
            assert!(reckoner.follows() && halves(&reckoner) == shares);
        }
    }

    #[test]
    fn corners_held() {
        let mut reckoner = Reckoner::default();
        let held = |reckoner: &Reckoner| reckoner.masks.each_ref().map(|mask| mask.corner);
        assert!(reckoner.lay_placed([[0, 0]; 2], [[0, 0]; 2], [0, 0, 0]) == Ok(()));
        assert!(reckoner.follows());
        let mut reckoner = both_drawn([[1, 2], [3, 4]]);
        assert!(held(&reckoner) == [[1, 2], [3, 4]]);
        assert!(reckoner.draw(0, [3, 1], [9, 9], &WIDE[1..], [3, 2, 1000, 5]) == Err(5));
        assert!(held(&reckoner) == [[1, 2], [3, 4]]);
        assert!(reckoner.draw(0, [3, 1], [5, i32::MIN], &WIDE, [3, 2, 1000, 5]) == Ok(()));
        assert!(held(&reckoner) == [[5, i32::MIN], [3, 4]]);
        assert!(reckoner.lay([[3, 1], [2, 1]], [0, 0], [3, 2, 3]) == Ok(()));
        assert!(held(&reckoner) == [[5, i32::MIN], [3, 4]]);
        assert!(reckoner.draw(0, [3, 1], [5, 4], &WIDE, [3, 2, 1000, 5]) == Ok(()));
        assert!(reckoner.lay_placed([[3, 1], [2, 1]], [[5, 4], [3, 4]], [3, 2, 3]) == Ok(()));
        assert!(held(&reckoner) == [[5, 4], [3, 4]] && reckoner.follows());
    }

    #[test]
    fn layings_not_followed() {
        let (sizes, corners) = ([[3, 1], [2, 1]], [[1, 2], [3, 4]]);
        for (mask, axis) in [(0, 0), (0, 1), (1, 0), (1, 1)] {
            let mut other = corners;
            other[mask][axis] += 1;
            let mut reckoner = both_drawn(corners);
            assert!(reckoner.lay_placed(sizes, other, [3, 2, 3]) == Ok(()));
            assert!(!reckoner.follows());
        }
        let mut reckoner = both_drawn(corners);
        assert!(reckoner.lay_placed([[2, 1], [2, 1]], corners, [3, 2, 3]) == Ok(()));
        assert!(!reckoner.follows());
    }

    #[test]
    fn refused_corners() {
        let lay = |sizes, corners, lent| Reckoner::default().lay_placed(sizes, corners, lent);
        for (mask, axis) in [(0, 0), (0, 1), (1, 0), (1, 1)] {
            let at = |number| {
                let mut corners = [[0, 0]; 2];
                corners[mask][axis] = number;
                corners
            };
            for number in [1_048_576, -1_048_576] {
                assert!(lay([[1, 1]; 2], at(number), [1, 2, 1]) == Ok(()));
                assert!(lay([[1, 1]; 2], at(number), [1, 2, 0]) == Err(4));
                assert!(lay([[1, 1]; 2], at(number), [1, 1, 1]) == Err(4));
            }
            for number in [1_048_577, -1_048_577, i32::MAX, i32::MIN] {
                assert!(lay([[1, 1]; 2], at(number), [0, 0, 0]) == Err(16));
                assert!(lay([[1, 1]; 2], at(number), [1, 1, 1]) == Err(16));
                assert!(lay([[1, 1], [1, 4097]], at(number), [1, 1, 1]) == Err(3));
            }
        }
    }

    #[test]
    fn refusals() {
        let mut reckoner = Reckoner::default();
        let mut draw = |size, words: &[i32], lent| reckoner.draw(0, size, [0, 0], words, lent);
        assert!(draw([4097, 1], &[0], [0; 4]) == Err(3));
        assert!(draw([2, 1], &[0], [1, 2, 0, 0]) == Err(4));
        assert!(draw([2, 1], &[0], [2, 1, 0, 0]) == Err(4));
        assert!(draw([2, 1], &[0], [2, 2, 0, 0]) == Err(5));
        assert!(draw([2, 1], &[0, -1], [2, 2, 0, 0]) == Err(6));
        assert!(draw([2, 1], &[0, 1, 2049], [2, 2, 0, 0]) == Err(6));
        assert!(draw([2, 1], &[0, 1, 2048], [2, 2, 0, 0]) == Err(5));
        assert!(draw([2, 1], &[0, 1, 1, 1_048_577], [2, 2, 0, 0]) == Err(7));
        assert!(draw([2, 1], &[0, 1, 1, 1_048_576, 0], [2, 2, 16, 3]) == Err(4));
        assert!(draw([2, 1], &[0, 1, 1, 1_048_576, 0], [2, 2, 17, 2]) == Err(4));
        assert!(draw([2, 1], &[0, 1, 1, 1_048_576, 0], [2, 1, 17, 3]) == Err(4));
        assert!(draw([2, 1], &[0, 1, 1, 1_048_576, 0], [2, 2, 17, 3]) == Ok(()));
        let mut lay = |sizes, lent| reckoner.lay(sizes, [0, 0], lent);
        assert!(lay([[1, 1], [1, 4097]], [0, 0, 0]) == Err(3));
        assert!(lay([[2, 1], [1, 1]], [1, 2, 1]) == Err(4));
        assert!(lay([[2, 1], [1, 2]], [2, 2, 1]) == Err(4));
        assert!(lay([[2, 1], [1, 2]], [2, 1, 2]) == Err(4));
        assert!(lay([[2, 1], [1, 2]], [2, 2, 2]) == Ok(()));
    }

    #[test]
    fn rows_without_columns_have_ink() {
        let mut reckoner = Reckoner::default();
        let mut draw = |size, ink| reckoner.draw(0, size, [0, 0], &[], [0, ink, 9, 9]);
        assert!(draw([0, 3], 5) == Err(4));
        assert!(draw([0, 3], 6) == Ok(()));
        assert!(draw([3, 0], 0) == Ok(()));
        assert!(reckoner.sizes() == [[3, 0], [0, 0]]);
    }
}
