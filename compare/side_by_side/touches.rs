//! Random and hostile touch lists.
use crate::{
    boxes::{beside, fringe, near, number, shape, LIMIT},
    call::Call,
    random::Random,
};
use femtovg::calls::{self, Box10};

/// A box that is not refused.
pub fn proper(random: &mut Random) -> Box10 {
    loop {
        let one = shape(random);
        if calls::bounds(one).is_ok() {
            return one;
        }
    }
}

pub fn length(random: &mut Random) -> usize {
    match random.below(40) {
        0 => random.pick(&[255, 256, 257]),
        1 => random.below(261),
        2..=4 => 0,
        5..=9 => 1,
        _ => 2 + random.below(9),
    }
}

/// Makes a box one that is likely refused.
pub fn spoil(random: &mut Random, one: &mut Box10) {
    let (at, side) = (random.below(10), 6 + random.below(2));
    match random.below(4) {
        0 => one[at] = number(random),
        1 => one[at] = random.pick(&[f32::NAN, f32::INFINITY, -f32::INFINITY, 2.0 * LIMIT]),
        2 => one[side] = -1e-40,
        _ => one[side + 2] = f32::from_bits(one[side].to_bits() + 1),
    }
}

/// Makes a few boxes of one list in four such.
pub fn spoil_some(random: &mut Random, boxes: &mut [Box10]) {
    if random.one_in(4) && !boxes.is_empty() {
        for _ in 0..random.pick(&[1, 1, 2, 3]) {
            let at = random.below(boxes.len());
            spoil(random, &mut boxes[at]);
        }
    }
}

/// A point on the frame of a box, by its sides.
fn on_frame(random: &mut Random, one: Box10) -> [f32; 2] {
    let [a, b, c, d, x, y, width, height, ..] = one;
    let (mut along, mut across) = (random.float(-1.0, 1.0), random.float(-1.0, 1.0));
    let side = random.pick(&[-1.0, 1.0]);
    match random.below(3) {
        0 => along = side,
        1 => across = side,
        _ => (along, across) = (side, random.pick(&[-1.0, 0.0, 1.0])),
    }
    let (along, across) = (along * width, across * height);
    [x + a * along + c * across, y + b * along + d * across]
}

/// On a ray from the centre of a box, the last point where it holds a touch by its Rust, or the first where it
/// does not.
fn at_edge(random: &mut Random, one: Box10, fringe: f32) -> [f32; 2] {
    let [a, b, c, d, x, y, width, height, ..] = one;
    let along = random.float(-2.0, 2.0) * width;
    let across = random.float(-2.0, 2.0) * height;
    let (right, down) = (a * along + c * across, b * along + d * across);
    let point = |t: f32| [x + t * right, y + t * down];
    let held = |t| calls::touch(&[one], fringe, point(t)) == Ok(Some(0));
    let (mut inside, mut outside) = (0.0, 8.0);
    for _ in 0..40 {
        let middle = 0.5 * (inside + outside);
        if held(middle) {
            inside = middle;
        } else {
            outside = middle;
        }
    }
    point(random.pick(&[inside, outside]))
}

/// Boxes that lie on one another: most hold a point that one of them holds. The first few may lie elsewhere.
fn pile(random: &mut Random) -> Vec<Box10> {
    let (n, one) = (length(random), proper(random));
    let elsewhere = random.pick(&[0, 0, 1, 2, n / 2]);
    let another = |at| {
        if at < elsewhere || random.one_in(8) {
            return proper(random);
        }
        let two = beside(random, one);
        calls::bounds(two).map_or(one, |_| two)
    };
    (0..n).map(another).collect()
}

/// A box that holds its centre, if one is found soon.
fn held(random: &mut Random, fringe: f32) -> Box10 {
    let mut one = proper(random);
    for _ in 0..20 {
        if calls::touch(&[one], fringe, [one[4], one[5]]) == Ok(Some(0)) {
            break;
        }
        one = proper(random);
    }
    one
}

/// The length of a long list.
pub fn sheet_length(random: &mut Random) -> usize {
    match random.below(4) {
        0 => random.pick(&[4095, 4096, 4097, 4100]),
        1 => random.pick(&[256, 257, 258, 511, 512, 513]),
        _ => 1 + random.below(4100),
    }
}

/// A long list: a few kinds of boxes, most of them far away, and at a few places the box near which the point is to be.
fn sheet(random: &mut Random, fringe: f32) -> (Vec<Box10>, Box10) {
    let n = sheet_length(random);
    let far = [(); 8].map(|_| {
        let mut one = proper(random);
        one[4] += random.pick(&[-500_000.0, 500_000.0]);
        calls::bounds(one).map_or_else(|_| proper(random), |_| one)
    });
    let mut boxes: Vec<Box10> = (0..n).map(|_| random.pick(&far)).collect();
    let aim = held(random, fringe);
    for _ in 0..random.pick(&[1, 1, 2, 4]) {
        boxes[random.below(n)] = aim;
    }
    (boxes, aim)
}

/// Boxes that lie in one another's way, on one another, or so far apart that a point touches few.
fn boxes(random: &mut Random) -> Vec<Box10> {
    if random.one_in(3) {
        return pile(random);
    }
    let mut boxes: Vec<Box10> = (0..length(random)).map(|_| proper(random)).collect();
    if random.one_in(2) {
        for (at, one) in boxes.iter_mut().enumerate() {
            one[4] = 4000.0 * at as f32 + random.float(-9.0, 9.0);
        }
    }
    boxes
}

/// A list, and a box of it near which the point is to be.
fn aimed(random: &mut Random, fringe: f32) -> (Vec<Box10>, Box10) {
    if random.one_in(12) {
        return sheet(random, fringe);
    }
    let boxes = boxes(random);
    let aim = if boxes.is_empty() {
        shape(random)
    } else {
        boxes[random.below(boxes.len())]
    };
    (boxes, aim)
}

pub fn list(random: &mut Random) -> Call {
    let fringe = fringe(random);
    let (mut boxes, aim) = aimed(random, fringe);
    spoil_some(random, &mut boxes);
    let point = match random.below(6) {
        _ if boxes.len() > 256 && random.one_in(2) => [aim[4], aim[5]],
        0 => on_frame(random, aim),
        1 | 2 => at_edge(random, aim, fringe),
        _ => near(random, aim),
    };
    Call::Touch {
        boxes,
        fringe,
        point,
    }
}

/// The boxes before the first at fault, if one is.
pub fn before_fault(boxes: &[Box10]) -> Option<&[Box10]> {
    let faulty = |one: &Box10| calls::bounds(*one).is_err();
    boxes.iter().position(faulty).map(|at| &boxes[..at])
}

/// What is counted of touch lists.
#[derive(Default)]
pub struct Counts {
    /// lists in which at least two boxes hold the touch, and at least ten
    several: u64,
    ten: u64,
    /// lists whose place is not 0, though a later box holds the touch too
    above: u64,
    /// refused lists in which a box before the first at fault holds the touch
    behind: u64,
    /// lists of more than 256 boxes, and those whose place is more than 255
    long: u64,
    past_byte: u64,
}

impl Counts {
    pub fn count(&mut self, call: &Call) {
        let Call::Touch {
            boxes,
            fringe,
            point,
        } = call
        else {
            return;
        };
        let places = calls::touched(boxes, *fringe, *point).unwrap_or_default();
        self.several += (places.len() >= 2) as u64;
        self.ten += (places.len() >= 10) as u64;
        self.above += (places.len() >= 2 && places[0] > 0) as u64;
        self.long += (boxes.len() > 256) as u64;
        self.past_byte += places.first().is_some_and(|place| *place > 255) as u64;
        if let Some(before) = before_fault(boxes) {
            let touched = calls::touch(before, *fringe, *point);
            self.behind += matches!(touched, Ok(Some(_))) as u64;
        }
    }

    pub fn show(&self) {
        let Counts {
            several,
            ten,
            above,
            behind,
            long,
            past_byte,
        } = self;
        println!(
            "touch lists of more than 256 boxes: {long}; the place more than 255: {past_byte}"
        );
        println!(
            "touch lists in which several boxes hold the touch: {several} (ten or more: {ten}, place not 0: {above}); refused behind a box that holds it: {behind}"
        );
    }
}

#[cfg(test)]
mod tests {
    use super::*;

    #[test]
    fn many_long_lists_name_a_place_past_a_byte() {
        let random = &mut Random::new(1);
        let mut counts = Counts::default();
        (0..4000).for_each(|_| counts.count(&list(random)));
        assert!(counts.long > 200 && 6 * counts.past_byte > counts.long);
    }
}
