//! Random and hostile chains.
use crate::{
    chain::{Chain, Step},
    drawings::{self, LIMIT},
    ink,
    random::Random,
};
use std::rc::Rc;

/// Bytes enough for a long mask.
const LONG: usize = 400;

/// What a chain's calls are made from.
struct Maker<'a> {
    random: &'a mut Random,
    /// few cells and points, for the reckoner
    few: bool,
    /// whether layings are given sizes and corners that are not those held
    loose: bool,
    lengths: [usize; 2],
    /// how many numbers are lent for the masks' ink
    ink: [usize; 2],
    held: [[usize; 2]; 2],
    /// the corners held
    corners: [[i32; 2]; 2],
    /// each mask's last done drawing
    drawn: [Option<Step>; 2],
    /// whether every done laying-on is given the sizes held, and every one by corners the corners held
    meant: bool,
}

/// Few cells, or one long column or row where the buffer has room for it.
fn few_cells(random: &mut Random, length: usize) -> [usize; 2] {
    let small = 1 + random.below(12);
    if length >= LONG && random.one_in(3) {
        return random.pick(&[[1, length], [length, 1], [2, length / 2], [length / 2, 2]]);
    }
    match random.below(24) {
        0 => [0, small],
        1 => [small, 0],
        2 => [40, 3],
        3 => [3, 40],
        4 => [1, 1],
        5 => [small, 1],
        _ => [small, 1 + random.below(12)],
    }
}

fn few_bytes(random: &mut Random) -> usize {
    match random.below(36) {
        0 => 0,
        1 => random.below(20),
        2..=4 => random.below(150),
        5..=10 => 144,
        11 => LONG + random.below(LONG),
        _ => 144 + random.below(60),
    }
}

fn many_bytes(random: &mut Random) -> usize {
    match random.below(8) {
        0 => random.below(100),
        1 => 300 * 300,
        2 => 64 * 64,
        _ => random.below(30_000),
    }
}

/// How many numbers are lent for the ink of a mask of so many bytes: mostly enough for all rows that it may have, at
/// times fewer.
fn ink_numbers(random: &mut Random, bytes: usize) -> usize {
    let most = 2 * bytes.min(4097);
    match random.below(32) {
        0 => random.below(most + 1),
        1..=8 => 11 + random.below(15),
        9 => 79 + random.below(3),
        _ => most + random.below(4),
    }
}

/// Corner numbers that turn a laying-on by corners away.
const OUT_OF_RANGE: [i32; 6] = [
    -LIMIT - 1,
    LIMIT + 1,
    i32::MIN,
    i32::MIN + 1,
    i32::MAX - 1,
    i32::MAX,
];

/// A side that is too large.
fn oversize(random: &mut Random) -> usize {
    random.pick(&[4097, 4098, 65_536, usize::MAX])
}

impl Maker<'_> {
    /// Whether a mask's ink is enough for few rows only.
    fn few_inked(&self, mask: usize) -> bool {
        self.ink[mask] < 100
    }

    /// As many rows as a mask's ink has numbers for, and so many more, and few columns.
    fn inked_rows(&mut self, mask: usize, more: usize) -> [usize; 2] {
        let height = self.ink[mask].min(8192) / 2 + more;
        let most = self.lengths[mask].checked_div(height).unwrap_or(9);
        let width = match most.min(12) {
            0 => 0,
            _ if self.random.one_in(12) => 0,
            most => 1 + self.random.below(most),
        };
        [width, height]
    }

    fn size(&mut self, mask: usize) -> [usize; 2] {
        if self.few_inked(mask) && self.random.one_in(6) {
            let more = self.random.below(2);
            return self.inked_rows(mask, more);
        }
        let other = self.held[1 - mask];
        let mut size = if other != [0, 0] && self.random.one_in(2) {
            other
        } else if self.few {
            few_cells(self.random, self.lengths[mask])
        } else {
            [drawings::side(self.random), drawings::side(self.random)]
        };
        if self.random.one_in(30) {
            size[self.random.below(2)] = oversize(self.random);
        }
        size
    }

    /// A corner for a mask, mostly near the other's.
    fn corner(&mut self, mask: usize) -> [i32; 2] {
        let near = self.corners[1 - mask];
        near.map(|near| drawings::corner_number(self.random, near))
    }

    /// The last done drawing of a mask, at another corner.
    fn again(&mut self, mask: usize) -> Option<Step> {
        let mut step = self.drawn[mask].clone()?;
        if let Step::Draw { corner, .. } = &mut step {
            *corner = self.corner(mask);
        }
        Some(step)
    }

    fn draw(&mut self, mask: usize) -> Step {
        if self.random.one_in(5) {
            if let Some(step) = self.again(mask) {
                return step;
            }
        }
        let (size, corner) = (self.size(mask), self.corner(mask));
        let random = &mut *self.random;
        let groups = if self.few {
            drawings::few_groups(random, size)
        } else {
            drawings::groups(random, size)
        };
        let mut words = drawings::written(&groups);
        if random.one_in(16) {
            drawings::spoil(random, &mut words);
        }
        let mut scratch = drawings::scratch(size, drawings::points(&groups));
        if random.one_in(4) {
            scratch = scratch.map(|needed| drawings::lent(random, needed));
        }
        Step::Draw {
            mask,
            size,
            corner,
            words,
            scratch,
        }
    }

    /// A size that fits a mask's buffer.
    fn fitting(&mut self, mask: usize) -> [usize; 2] {
        let length = self.lengths[mask];
        let width = self.random.below(length.min(60) + 1);
        let most = length.checked_div(width).unwrap_or(9).min(60);
        let mut size = [width, self.random.below(most + 1)];
        if self.random.one_in(2) {
            size.reverse();
        }
        size
    }

    /// A size that a laying is turned away for, or one side more than is held.
    fn unfitting(&mut self, mask: usize) -> [usize; 2] {
        let mut size = self.held[mask];
        let side = self.random.below(2);
        match self.random.below(4) {
            0 => size[side] = oversize(self.random),
            1 => size = [4096, 4096],
            2 => {
                size = [
                    (self.lengths[mask] + 1).min(4096),
                    1 + self.random.below(30),
                ]
            }
            _ => {
                size = [
                    1 + self.random.below(30),
                    (self.lengths[mask] + 1).min(4096),
                ]
            }
        }
        size
    }

    /// How far the place met lies, for a side of the mask and of the other.
    fn offset(&mut self, side: usize, other: usize) -> i32 {
        let (side, other) = (side.min(4097) as i32, other.min(4097) as i32);
        match self.random.below(48) {
            0..=24 => 0,
            25..=36 => self.random.whole(-2, 2),
            37..=40 => self.random.whole(-side, other),
            41 | 42 => self.random.pick(&[other - 1, 1 - side]),
            43 => self.random.pick(&[other, -side]),
            44 => self.random.pick(&[i32::MIN, i32::MIN + 1, i32::MAX]),
            45 => self.random.pick(&[i32::MAX - side, i32::MIN + other]),
            46 => self.random.whole(-LIMIT, LIMIT),
            _ => self.random.bits() as i32,
        }
    }

    /// The sizes that a laying-on is given.
    fn sizes(&mut self) -> [[usize; 2]; 2] {
        let mut sizes = self.held;
        if self.loose && self.random.one_in(2) {
            sizes = [0, 1].map(|mask| self.fitting(mask));
        }
        match self.random.below(24) {
            0..=2 => {
                let mask = self.random.below(2);
                sizes[mask] = self.unfitting(mask);
            }
            3..=9 if self.few_inked(0) => sizes[0] = self.inked_rows(0, 1),
            _ => {}
        }
        sizes
    }

    fn lay(&mut self) -> Step {
        let sizes = self.sizes();
        let [size, other] = sizes;
        let offset = [0, 1].map(|axis| self.offset(size[axis], other[axis]));
        Step::Lay { sizes, offset }
    }

    /// The corners that a laying-on is given: mostly those held, at times with one number another or out of range.
    fn given_corners(&mut self) -> [[i32; 2]; 2] {
        let mut corners = self.corners;
        if self.loose && self.random.one_in(2) {
            corners = [0, 1].map(|mask| self.corner(mask));
        }
        let number = &mut corners[self.random.below(2)][self.random.below(2)];
        match self.random.below(16) {
            0 | 1 => *number = drawings::corner_number(self.random, *number),
            2 => *number = self.random.pick(&OUT_OF_RANGE),
            _ => {}
        }
        corners
    }

    fn lay_placed(&mut self) -> Step {
        let (sizes, corners) = (self.sizes(), self.given_corners());
        Step::LayPlaced { sizes, corners }
    }

    fn step(&mut self) -> Step {
        let undrawn = self.drawn.iter().position(Option::is_none);
        if let Some(mask) = undrawn.filter(|_| !self.random.one_in(4)) {
            return self.draw(mask);
        }
        match self.random.below(8) {
            0 | 1 => self.draw(0),
            2 | 3 => self.draw(1),
            4 | 5 => self.lay(),
            _ => self.lay_placed(),
        }
    }

    fn refused(&self, step: &Step) -> bool {
        step.answer(self.lengths, self.ink).is_err()
    }

    /// Keeps the size and the corner of a done drawing, and whether a done laying-on is given what is held.
    fn hold(&mut self, step: &Step) {
        if self.refused(step) {
            return;
        }
        match step {
            Step::Draw {
                mask, size, corner, ..
            } => {
                (self.held[*mask], self.corners[*mask]) = (*size, *corner);
                self.drawn[*mask] = Some(step.clone());
            }
            Step::Lay { sizes, .. } => self.meant &= *sizes == self.held,
            Step::LayPlaced { sizes, corners } => {
                self.meant &= (*sizes, *corners) == (self.held, self.corners);
            }
        }
    }

    fn steps(&mut self) -> Vec<Step> {
        let count = match self.random.below(12) {
            0 => 0,
            1..=8 => 1 + self.random.below(6),
            _ => 4 + self.random.below(10),
        };
        let (only_refusals, drawn_first) = (self.random.one_in(16), !self.random.one_in(4));
        let mut steps: Vec<Step> = Vec::new();
        while steps.len() < count {
            let step = match steps.len() {
                mask @ (0 | 1) if drawn_first && !only_refusals => self.draw(mask),
                _ => self.step(),
            };
            if only_refusals && !self.refused(&step) {
                continue;
            }
            self.hold(&step);
            steps.push(step);
        }
        steps
    }
}

fn rubbish(random: &mut Random, length: usize) -> Rc<[u8]> {
    (0..length).map(|_| random.bits() as u8).collect()
}

/// A chain of any calls; `few` is one that the reckoner follows.
pub fn chain(random: &mut Random, few: bool) -> Chain {
    let lengths = [0, 1].map(|_| {
        if few {
            few_bytes(random)
        } else {
            many_bytes(random)
        }
    });
    let masks = lengths.map(|length| rubbish(random, length));
    let ink = lengths.map(|bytes| ink_numbers(random, bytes));
    let held_ink = ink.map(|numbers| ink::rubbish(random, numbers).into());
    let loose = random.one_in(8);
    let mut maker = Maker {
        random,
        few,
        loose,
        lengths,
        ink,
        held: [[0, 0]; 2],
        corners: [[0, 0]; 2],
        drawn: [None, None],
        meant: true,
    };
    let steps = maker.steps();
    Chain {
        masks,
        ink: held_ink,
        steps,
        reckoned: few,
        meant: Some(maker.meant),
    }
}

// ---- the sweep

/// Every two sizes with sides up to here are laid on each other.
const SWEPT_SIDE: usize = 3;

/// The offsets along an axis of small masks: overlapping, touching, just apart, and an offset's ends.
fn swept_offsets() -> impl Iterator<Item = i32> {
    let apart = SWEPT_SIDE as i32 + 1;
    (-apart..=apart).chain([i32::MIN, i32::MIN + 1, i32::MAX - 1, i32::MAX])
}

/// The sizes and the offset of a laying-on.
pub type Laid = ([[usize; 2]; 2], [i32; 2]);

/// All layings-on of small masks.
fn small_layings() -> impl Iterator<Item = Laid> {
    let sides = || 0..=SWEPT_SIDE;
    let size = move || sides().flat_map(move |width| sides().map(move |height| [width, height]));
    let sizes = size().flat_map(move |own| size().map(move |other| [own, other]));
    let offset = || swept_offsets().flat_map(|x| swept_offsets().map(move |y| [x, y]));
    sizes.flat_map(move |sizes| offset().map(move |offset| (sizes, offset)))
}

/// Masks with the most rows, of unequal widths, that meet in all rows, all but one, one or none.
fn tall_layings() -> impl Iterator<Item = Laid> {
    let widths = [[1, 2], [2, 1], [3, 64], [64, 3], [4095, 4096], [4096, 4095]];
    let rows = [0, 1, -1, 2048, -2048, 4095, -4095, 4096, -4096];
    let sizes = widths.map(|widths| widths.map(|width| [width, 4096]));
    let laid = move |sizes| rows.map(|row| (sizes, [0, row]));
    sizes.into_iter().flat_map(laid)
}

pub fn swept_layings() -> impl Iterator<Item = Laid> {
    small_layings().chain(tall_layings())
}

/// A chain of one laying-on, of rubbish on rubbish, with up to two bytes behind each mask, and numbers behind the ink.
pub fn laying((sizes, offset): Laid, random: &mut Random) -> Chain {
    let masks = sizes.map(|[width, height]| {
        let past = random.below(3);
        rubbish(random, width * height + past)
    });
    let ink = 2 * sizes[0][1] + random.below(3);
    one(masks, ink, Step::Lay { sizes, offset }, random)
}

/// A chain of one call, with so many numbers for the running mask's ink.
pub fn one(masks: [Rc<[u8]>; 2], ink: usize, step: Step, random: &mut Random) -> Chain {
    Chain {
        masks,
        ink: [ink::rubbish(random, ink).into(), [].into()],
        steps: vec![step],
        reckoned: false,
        meant: None,
    }
}

// ---- the sweep by corners

/// The sizes and the corners of a laying-on by corners, and whether the mask and the other are short by one byte and
/// the ink by one number.
pub type Placed = ([[usize; 2]; 2], [[i32; 2]; 2], [bool; 3]);

/// Every two sizes with sides up to here are laid on each other by corners.
const PLACED_SIDE: usize = 2;

/// All layings-on by corners of small masks that overlap, touch or lie just apart.
fn small_placed() -> impl Iterator<Item = Placed> {
    let sides = || 0..=PLACED_SIDE;
    let size = move || sides().flat_map(move |width| sides().map(move |height| [width, height]));
    let sizes = size().flat_map(move |own| size().map(move |other| [own, other]));
    let apart = || -(PLACED_SIDE as i32) - 1..=PLACED_SIDE as i32 + 1;
    let corners = move || {
        let place = [5, -2];
        let own = apart().flat_map(move |x| apart().map(move |y| [place[0] + x, place[1] + y]));
        own.map(move |own| [own, place])
    };
    sizes.flat_map(move |sizes| corners().map(move |corners| (sizes, corners, [false; 3])))
}

/// Corner numbers at the limits, one inside and one beyond them, and at the ends of 32 bits.
const ENDS: [i32; 10] = [
    0,
    -LIMIT,
    LIMIT,
    1 - LIMIT,
    LIMIT - 1,
    -LIMIT - 1,
    LIMIT + 1,
    i32::MIN,
    i32::MAX,
    -1,
];

/// Every two of these numbers along either axis, for masks that are lent whole, are short or are too large.
fn far_placed() -> impl Iterator<Item = Placed> {
    let sizes = [[3, 2], [2, 3]];
    let given = [
        (sizes, [false, false, false]),
        (sizes, [true, false, false]),
        (sizes, [false, true, false]),
        (sizes, [true, true, false]),
        (sizes, [false, false, true]),
        (sizes, [true, true, true]),
        ([[3, 4097], [2, 3]], [true, false, false]),
        ([[3, 4097], [2, 3]], [false, false, true]),
        ([[3, 2], [4097, 3]], [false, true, false]),
        ([[3, 2], [4097, 3]], [false, false, true]),
    ];
    let pairs = || ENDS.iter().flat_map(|own| ENDS.map(|other| [*own, other]));
    let across = pairs().map(|[own, other]| [[own, 1], [other, 0]]);
    let down = pairs().map(|[own, other]| [[0, own], [1, other]]);
    let corners = across.chain(down);
    corners.flat_map(move |corners| given.map(|(sizes, short)| (sizes, corners, short)))
}

pub fn swept_placed() -> impl Iterator<Item = Placed> {
    small_placed().chain(far_placed())
}

/// A chain of one laying-on by corners, of rubbish on rubbish.
pub fn placed((sizes, corners, short): Placed, random: &mut Random) -> Chain {
    let masks = [0, 1].map(|mask| {
        let ([width, height], past) = (sizes[mask], random.below(3));
        let cells = width * height;
        rubbish(random, if short[mask] { cells - 1 } else { cells + past })
    });
    let (numbers, past) = (2 * sizes[0][1], random.below(3));
    let ink = if short[2] {
        numbers - 1
    } else {
        numbers + past
    };
    one(masks, ink, Step::LayPlaced { sizes, corners }, random)
}

#[cfg(test)]
mod tests {
    use super::*;

    #[test]
    fn swept() {
        let sides = SWEPT_SIDE + 1;
        let offsets = 2 * sides + 1 + 4;
        assert!(small_layings().count() == sides.pow(4) * offsets.pow(2));
        assert!(tall_layings().count() == 54);
        let random = &mut Random::new(1);
        assert!(small_layings().all(|laid| {
            let Chain { masks, ink, .. } = laying(laid, random);
            let mut sizes = laid.0.iter().zip(&masks);
            sizes.all(|([width, height], mask)| (0..3).contains(&(mask.len() - width * height)))
                && (0..3).contains(&(ink[0].len() - 2 * laid.0[0][1]))
        }));
    }

    #[test]
    fn swept_by_corners() {
        let (sides, apart) = (PLACED_SIDE + 1, 2 * PLACED_SIDE + 3);
        assert!(small_placed().count() == sides.pow(4) * apart.pow(2));
        assert!(far_placed().count() == 2 * ENDS.len().pow(2) * 10);
        for (mask, axis) in [(0, 0), (0, 1), (1, 0), (1, 1)] {
            for number in ENDS {
                let at = |(_, corners, _): &Placed| corners[mask][axis] == number;
                assert!(far_placed().filter(at).count() >= 10 * ENDS.len());
            }
        }
    }

    /// Whether two masks at corners have cells in common.
    fn overlap(sizes: &[[usize; 2]; 2], corners: &[[i32; 2]; 2]) -> bool {
        (0..2).all(|axis| {
            let by = corners[0][axis] as i64 - corners[1][axis] as i64;
            -(sizes[0][axis] as i64) < by && by < sizes[1][axis] as i64
        })
    }

    #[test]
    fn layings_by_corners() {
        let random = &mut Random::new(1);
        let chains: Vec<Chain> = (0..4000).map(|_| chain(random, true)).collect();
        let steps = || chains.iter().flat_map(|chain| &chain.steps);
        let placed = || {
            steps().filter_map(|step| match step {
                Step::LayPlaced { sizes, corners } => Some((sizes, corners)),
                _ => None,
            })
        };
        let all = placed().count();
        let overlapping = placed().filter(|(sizes, corners)| overlap(sizes, corners));
        let beyond = |number: &i32| OUT_OF_RANGE.contains(number);
        let refused = placed().filter(|(_, corners)| corners.iter().flatten().any(beyond));
        assert!(all > 2000 && overlapping.count() > all / 2);
        assert!(refused.count() > all / 20);
        let meant = chains.iter().filter(|chain| chain.meant == Some(true));
        let meant = meant.count();
        assert!(meant > 2000 && chains.len() - meant > 150);
    }

    /// Of the calls of chains, some are refused for ink alone, drawings and layings-on; most masks have enough.
    #[test]
    fn short_ink_in_chains() {
        let random = &mut Random::new(1);
        let chains: Vec<Chain> = (0..4000).map(|at| chain(random, at % 2 == 0)).collect();
        let lengths = |chain: &Chain| {
            let masks = chain.masks.each_ref().map(|mask| mask.len());
            (masks, chain.ink.each_ref().map(|ink| ink.len()))
        };
        let (mut all, mut alone) = ([0; 2], [0; 2]);
        for chain in &chains {
            let (masks, ink) = lengths(chain);
            for step in &chain.steps {
                let drawing = matches!(step, Step::Draw { .. }) as usize;
                let done = step.answer(masks, ink).is_ok();
                all[drawing] += 1;
                alone[drawing] += (!done && step.answer(masks, [usize::MAX; 2]).is_ok()) as usize;
            }
        }
        for at in [0, 1] {
            assert!(alone[at] > all[at] / 25 && alone[at] < all[at] / 5);
        }
    }
}
