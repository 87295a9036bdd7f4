//! Random and hostile calls on boxes.
use crate::{call::Call, curves, insides, random::Random, scissors, touches};
use femtovg::calls::{self, Box10, Coverage11, Frame};

pub const LIMIT: f32 = 1_048_576.0;

pub fn number(random: &mut Random) -> f32 {
    match random.below(40) {
        0 => random.pick(&[f32::NAN, f32::INFINITY, f32::NEG_INFINITY]),
        1 => random.pick(&[LIMIT, -LIMIT, 1_048_576.1, -1_048_576.1]),
        2 => random.pick(&[f32::MIN_POSITIVE, 1e-40, -1e-40, 1e-6, -1e-6, 1e-3, 1e-4]),
        3 => f32::from_bits(random.bits() as u32),
        4..=7 => random.pick(&[0.0, -0.0, 1.0, -1.0, 0.5]),
        8..=15 => random.whole(-40, 40) as f32,
        16..=23 => random.whole(-160, 160) as f32 * 0.25,
        24 => random.float(-LIMIT, LIMIT),
        _ => random.float(-100.0, 100.0),
    }
}

/// A number that no call refuses.
pub fn tame(random: &mut Random) -> f32 {
    loop {
        let x = number(random);
        if x.abs() <= LIMIT {
            return x;
        }
    }
}

fn linear(random: &mut Random) -> [f32; 4] {
    let angle = random.float(-7.0, 7.0);
    let scale = random.pick(&[1.0, 1.0, 1.0, 0.5, 2.0, 0.001, 300.0]);
    match random.below(16) {
        0..=3 => [1.0, 0.0, 0.0, 1.0],
        4 => random.pick(&[
            [0.0, 1.0, -1.0, 0.0],
            [-1.0, 0.0, 0.0, -1.0],
            [0.0, -1.0, 1.0, 0.0],
            [-1.0, -0.0, 0.0, 1.0],
        ]),
        5 | 6 => [scale, 0.0, 0.0, random.pick(&[scale, -scale, 1.0])],
        7..=10 => [
            scale * angle.cos(),
            scale * angle.sin(),
            -scale * angle.sin(),
            scale * angle.cos(),
        ],
        11 => [1.0, random.float(-1.0, 1.0), random.float(-1.0, 1.0), 1.0],
        12 => [scale, scale, scale, scale],
        13 => random.pick(&[
            [0.0; 4],
            [1.0, 0.0, 0.0, 0.0],
            [1e-3, 0.0, 0.0, 1e-3],
            [0.0, 0.0, 0.0, 1.0],
        ]),
        14 => [0; 4].map(|_| tame(random)),
        _ => [0; 4].map(|_| number(random)),
    }
}

pub fn frame(random: &mut Random) -> Frame {
    let [a, b, c, d] = linear(random);
    [a, b, c, d, tame(random), tame(random)]
}

pub fn extent(random: &mut Random) -> f32 {
    match random.below(12) {
        0 => random.pick(&[0.0, 0.4375, 0.5, 0.25, 1e-3, LIMIT]),
        1 => tame(random).abs(),
        2 | 3 => random.float(0.0, 2.0),
        4..=7 => random.below(50) as f32,
        _ => random.float(0.0, 100.0),
    }
}

pub fn radius(random: &mut Random, extent: f32) -> f32 {
    match random.below(8) {
        0..=2 => 0.0,
        3 => extent,
        4 => extent.min(random.pick(&[0.4375, 0.5, 1.0, 3.0])),
        _ => extent * random.float(0.0, 1.0),
    }
}

pub fn shape(random: &mut Random) -> Box10 {
    let [a, b, c, d, x, y] = frame(random);
    let (width, height) = (extent(random), extent(random));
    let (mut rx, mut ry) = (radius(random, width), radius(random, height));
    if random.one_in(4) {
        (rx, ry) = (0.0, 0.0);
    }
    let mut shape = [a, b, c, d, x, y, width, height, rx, ry];
    if random.one_in(16) {
        let at = random.below(10);
        shape[at] = number(random);
    }
    shape
}

/// Another box, which often has the first one's sides or lies in it.
pub fn beside(random: &mut Random, one: Box10) -> Box10 {
    let mut two = one;
    let [a, b, c, d, ..] = one;
    match random.below(8) {
        0 => return shape(random),
        1 => return one,
        2 => {
            // a quarter turn
            two[..4].copy_from_slice(&[-c, -d, a, b]);
            two[6..].copy_from_slice(&[one[7], one[6], one[9], one[8]]);
        }
        3 => two[..4].copy_from_slice(&[a * 2.0, b * 2.0, c * 2.0, d * 2.0]),
        4 => two[..4].copy_from_slice(&[
            a + random.float(-2e-4, 2e-4),
            b,
            c,
            d + random.float(-2e-4, 2e-4),
        ]),
        _ => {}
    }
    let (along, across) = match random.below(4) {
        0 => (0.0, 0.0),
        1 => (random.whole(-3, 3) as f32, random.whole(-3, 3) as f32),
        _ => (
            random.float(-1.0, 1.0) * one[6],
            random.float(-1.0, 1.0) * one[7],
        ),
    };
    two[4] += a * along + c * across;
    two[5] += b * along + d * across;
    if random.one_in(2) {
        for side in [6, 7] {
            let other = extent(random);
            two[side] = random.pick(&[one[side], one[side] * 0.5, one[side] * 2.0, other]);
        }
        two[8] = radius(random, two[6]);
        two[9] = radius(random, two[7]);
    }
    if random.one_in(3) {
        (two[8], two[9]) = (0.0, 0.0);
    }
    two
}

pub fn fringe(random: &mut Random) -> f32 {
    match random.below(8) {
        0 => number(random),
        1 => random.pick(&[0.0, -0.0, -1.0, 1e-6, 64.0]),
        2 => random.float(0.0, 3.0),
        _ => random.pick(&[1.0, 1.0, 0.5, 2.0]),
    }
}

/// A box's coverage, or any floats.
fn coverage(random: &mut Random, shape: Box10) -> Coverage11 {
    if !random.one_in(6) {
        if let Ok(Some(coverage)) = calls::coverage(shape, fringe(random)) {
            return coverage;
        }
    }
    [0; 11].map(|_| number(random))
}

pub fn near(random: &mut Random, shape: Box10) -> [f32; 2] {
    let [a, b, c, d, x, y, width, height, ..] = shape;
    let (along, across) = (
        random.float(-1.5, 1.5) * width,
        random.float(-1.5, 1.5) * height,
    );
    match random.below(8) {
        0 => [number(random), number(random)],
        1 => [x, y],
        _ => [x + a * along + c * across, y + b * along + d * across],
    }
}

/// The corners of a box, maybe with further points on its sides, in either direction.
fn outline(random: &mut Random) -> (Vec<u8>, Vec<f32>) {
    let [a, b, c, d, x, y, width, height, ..] = shape(random);
    let corner = |along: f32, across: f32| [x + a * along + c * across, y + b * along + d * across];
    let mut corners = vec![
        corner(-width, -height),
        corner(width, -height),
        corner(width, height),
        corner(-width, height),
    ];
    if random.one_in(3) {
        corners.insert(1, corner(random.float(-1.0, 1.0) * width, -height));
    }
    if random.one_in(6) {
        let at = random.below(corners.len());
        corners[at][0] += random.pick(&[1e-4, 1e-2, 1.0]);
    }
    if random.one_in(2) {
        corners.reverse();
    }
    if random.one_in(4) {
        let again = corners[0];
        corners.push(again);
    }
    if random.one_in(8) {
        let twice = random.below(corners.len());
        corners.insert(twice, corners[twice]);
    }
    let mut verbs = vec![1; corners.len()];
    verbs[0] = 0;
    if random.one_in(2) {
        verbs.push(5);
    }
    (verbs, corners.concat())
}

/// How many floats verbs take.
pub fn floats_of(verbs: &[u8]) -> usize {
    let floats = |verb: &u8| [2, 2, 6].get(*verb as usize).copied().unwrap_or(0);
    verbs.iter().map(floats).sum()
}

pub fn spoil(random: &mut Random, verbs: &mut Vec<u8>, positions: &mut Vec<f32>) {
    let at = random.below(verbs.len() + 1);
    match random.below(8) {
        0 => verbs.insert(at, random.pick(&[3, 4, 5])),
        1 => verbs.insert(at, random.pick(&[2, 6, 255])),
        2 => positions.push(number(random)),
        3 => positions.truncate(positions.len().saturating_sub(1)),
        4 => verbs.extend(std::iter::repeat(5).take(250 + random.below(8))),
        5 => {
            let verb = random.pick(&[0, 1, 2]);
            verbs.push(verb);
            positions.extend((0..floats_of(&[verb])).map(|_| number(random)));
        }
        6 if !positions.is_empty() => {
            let at = random.below(positions.len());
            positions[at] = number(random);
        }
        _ => {
            *verbs = (0..random.below(12))
                .map(|_| random.below(7) as u8)
                .collect();
            *positions = (0..floats_of(verbs)).map(|_| number(random)).collect();
        }
    }
}

pub fn call(random: &mut Random) -> Call {
    if random.below(5) < 2 {
        return scissors::call(random);
    }
    let one = shape(random);
    match random.below(12) {
        0 | 1 => {
            let (mut verbs, mut positions) = outline(random);
            for _ in 0..random.pick(&[0, 0, 1, 2]) {
                spoil(random, &mut verbs, &mut positions);
            }
            curves::fitting(random, verbs, positions)
        }
        2 => Call::Transformed {
            one,
            frame: frame(random),
        },
        3 | 4 => Call::Intersection {
            one,
            two: beside(random, one),
            fringe: fringe(random),
        },
        5 => Call::RectIntersection {
            one,
            two: beside(random, one),
        },
        6 => Call::Coverage {
            one,
            fringe: fringe(random),
        },
        7 => Call::Parallel {
            one,
            two: beside(random, one),
        },
        8 => {
            let two = beside(random, one);
            Call::Contains {
                coverage: coverage(random, one),
                one: two,
            }
        }
        9 => touches::list(random),
        10 => insides::list(random),
        _ if random.one_in(3) => Call::Bounds { one },
        _ => Call::Distance {
            coverage: coverage(random, one),
            point: near(random, one),
        },
    }
}
