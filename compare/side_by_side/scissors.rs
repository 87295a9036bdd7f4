//! Random and hostile scissors, fills and upright rectangles. A window and a picture lie apart, or
//! share sides to within some 64ths of a fringe width.
use crate::{
    boxes::{beside, extent, frame, fringe, number, radius, shape, spoil, tame},
    call::Call,
    holds,
    random::Random,
    touches,
};
use femtovg::calls::{self, Box10, Frame};
use std::f32::consts::FRAC_PI_2;

/// Frames that take all to a point or to a line.
const FLAT: [Frame; 4] = [
    [0.0; 6],
    [1.0, 0.0, 0.0, 0.0, 0.0, 0.0],
    [0.0, 0.0, 0.0, 1.0, 0.0, 0.0],
    [0.0, 1.0, 0.0, 0.0, 3.0, 4.0],
];

/// Axes that lie along the device's, or all but do.
fn upright(random: &mut Random) -> [f32; 4] {
    let along = random.pick(&[1.0, 1.0, 2.0, 0.5, -1.0, 3.0, 0.001]);
    let across = random.pick(&[along, 1.0, 0.25, -2.0]);
    let lean = random.pick(&[0.0, 0.0, 0.0, 1e-4, -1e-4, 1.001e-4]);
    match random.below(4) {
        0 => [1.0, 0.0, 0.0, 1.0],
        1 => [lean, along, -across, 0.0],
        _ => [along, lean, 0.0, across],
    }
}

/// A clip, which is often upright.
pub fn clip(random: &mut Random) -> Box10 {
    let mut one = shape(random);
    match random.below(12) {
        0..=7 => one[..4].copy_from_slice(&upright(random)),
        8 => one[..6].copy_from_slice(&random.pick(&FLAT)),
        _ => {}
    }
    one
}

/// The float, or one beside it where it is not 0.
pub fn nudged(random: &mut Random, x: f32) -> f32 {
    let step = random.pick(&[0, 0, 1, u32::MAX]);
    if x == 0.0 {
        return x;
    }
    f32::from_bits(x.to_bits().wrapping_add(step))
}

/// Some 64ths of a width to either side: one is the slack.
fn away(random: &mut Random, width: f32) -> f32 {
    let parts = random.pick(&[0, 0, 1, -1, 1, -1, 2, -2, 32, -32, 64, -64, 128]);
    width * parts as f32 / 64.0
}

/// A half extent at, near or unlike another.
fn half(random: &mut Random, one: f32, width: f32) -> f32 {
    let (near, other) = (one + away(random, width), extent(random));
    let half = random.pick(&[one, near, near, one * 0.5, one * 2.0, other]);
    nudged(random, half).abs()
}

/// A centre at which a side lies at or near one of the other's, or apart from it.
fn centre(random: &mut Random, one: f32, half: f32, width: f32) -> f32 {
    let at = match random.below(12) {
        0 | 1 => one - half,
        2 | 3 => half - one,
        4 => one + half,
        5 => -one - half,
        6..=8 => 0.0,
        _ => random.float(-1.5, 1.5) * (one + half),
    };
    let at = at + away(random, width);
    nudged(random, at)
}

/// A centre and a half extent beside a half extent, with a fringe of that width. One that covers
/// reaches past both of its sides, or all but does.
fn side(random: &mut Random, one: f32, width: f32, covers: bool) -> [f32; 2] {
    if covers {
        let at: f32 = random.pick(&[0.0, 0.0, 1.0, -2.5, one * 0.5]);
        let half = one + at.abs() + away(random, width);
        return [at, nudged(random, half).abs()];
    }
    let half = half(random, one, width);
    [centre(random, one, half, width), half]
}

/// A box along a clip's sides, at times turned by a quarter or scaled.
fn along(random: &mut Random, clip: Box10, fringe: f32, covers: bool) -> Box10 {
    let [a, b, c, d, x, y, width, height, ..] = clip;
    let widths =
        [a.hypot(b), c.hypot(d)].map(|axis| if axis > 0.0 { fringe / axis } else { fringe });
    let [along, width] = side(random, width, widths[0], covers);
    let [across, height] = side(random, height, widths[1], covers);
    let x = x + a * along + c * across;
    let y = y + b * along + d * across;
    let scale: f32 = random.pick(&[1.0, 1.0, 1.0, 2.0, 0.5, -1.0, 3.0]);
    let lean = random.pick(&[0.0, 0.0, 0.0, 0.0, 0.0, 5e-5, 9e-5, -9e-5]);
    let [a, b, c, d] = [a, b + lean, c, d].map(|axis| axis * scale);
    let [width, height] = [width, height].map(|half| half / scale.abs());
    if random.one_in(3) {
        return [c, d, -a, -b, x, y, height, width, 0.0, 0.0];
    }
    [a, b, c, d, x, y, width, height, 0.0, 0.0]
}

/// A clip and a scissor on the device's axes, each side of which lies just where it cuts or not.
fn tight(random: &mut Random, fringe: f32) -> [Box10; 2] {
    let [x, y] = [random.float(-1.0, 1.0), random.float(-1.0, 1.0)];
    let halves = [random.float(1.0, 9.0), random.float(1.0, 9.0)];
    let slack = fringe / 64.0;
    let mut limit = |at: f32, half: f32| {
        let [low, high] = [at - half + slack, at + half - slack];
        let half = random.pick(&[-low, high]);
        nudged(random, half).abs()
    };
    let [width, height] = [limit(x, halves[0]), limit(y, halves[1])];
    [
        [1.0, 0.0, 0.0, 1.0, x, y, halves[0], halves[1], 0.0, 0.0],
        [1.0, 0.0, 0.0, 1.0, 0.0, 0.0, width, height, 0.0, 0.0],
    ]
}

fn round(random: &mut Random, mut one: Box10) -> Box10 {
    one[8] = radius(random, one[6]);
    one[9] = radius(random, one[7]);
    one
}

/// A clip and another box.
fn boxes(random: &mut Random, fringe: f32, covers: bool) -> [Box10; 2] {
    let mut one = clip(random);
    if covers {
        one = round(random, one);
    } else if random.one_in(2) {
        one[8..].fill(0.0);
    }
    let two = along(random, one, fringe, covers);
    match random.below(12) {
        0 => [one, shape(random)],
        1 | 2 => [one, beside(random, one)],
        3 => [one, round(random, two)],
        4 => tight(random, fringe),
        _ => [one, two],
    }
}

/// A clip, another box and a fringe; now and then a box is a trim, which may be negative, or has a fault.
fn pair(random: &mut Random, covers: bool) -> (Box10, Box10, f32) {
    let fringe = fringe(random);
    let [mut one, mut two] = boxes(random, fringe, covers);
    if random.one_in(10) {
        if let Ok(Some(trim)) = calls::trimmed_scissor(one, two, fringe) {
            (one, two) = random.pick(&[(one, trim), (trim, two)]);
        }
    }
    for shape in [&mut one, &mut two] {
        if random.one_in(14) {
            touches::spoil(random, shape);
        }
    }
    (one, two, fringe)
}

/// The outline of a rectangle that is turned by an angle.
fn outline(random: &mut Random, angle: f32) -> (Vec<u8>, Vec<f32>) {
    let [x, y] = [tame(random), tame(random)];
    let [width, height] = [extent(random), extent(random)];
    let (sin, cos) = angle.sin_cos();
    let corner = |[along, across]: [f32; 2]| {
        let (along, across) = (along * width, across * height);
        [
            x + cos * along - sin * across,
            y + sin * along + cos * across,
        ]
    };
    let mut corners = [[-1.0, -1.0], [1.0, -1.0], [1.0, 1.0], [-1.0, 1.0]]
        .map(corner)
        .to_vec();
    corners.rotate_left(random.below(4));
    if random.one_in(2) {
        corners.reverse();
    }
    if random.one_in(2) {
        corners.push(corners[0]);
    }
    if random.one_in(4) {
        let twice = random.below(corners.len());
        corners.insert(twice, corners[twice]);
    }
    let mut verbs = vec![1; corners.len()];
    verbs[0] = 0;
    if !random.one_in(3) {
        verbs.push(5);
    }
    for _ in 0..random.below(4) {
        let at = random.below(verbs.len() + 1);
        verbs.insert(at, random.pick(&[3, 4]));
    }
    (verbs, corners.concat())
}

/// A frame that turns an angle back to whole quarters, or all but does.
fn turned_back(random: &mut Random, angle: f32) -> Frame {
    let lean = random.pick(&[0.0, 0.0, 0.0, 9e-5, 1e-4, -1e-4, 1.1e-4]);
    let (sin, cos) = (random.below(4) as f32 * FRAC_PI_2 - angle + lean).sin_cos();
    let scale = random.pick(&[1.0, 1.0, 0.5, -3.0]);
    let [a, b] = [cos, sin].map(|axis| axis * scale);
    [a, b, -sin, cos, tame(random), tame(random)]
}

/// A frame for a rectangle that is turned by an angle, at times with a fault.
pub fn through(random: &mut Random, angle: f32) -> Frame {
    let mut through = match random.below(10) {
        0 => frame(random),
        1 | 2 => random.pick(&FLAT),
        3..=5 => {
            let [a, b, c, d] = upright(random);
            [a, b, c, d, tame(random), tame(random)]
        }
        _ => turned_back(random, angle),
    };
    if random.one_in(10) {
        through[random.below(6)] = number(random);
    }
    through
}

fn upright_rect(random: &mut Random) -> Call {
    let turn = random.float(-3.0, 3.0);
    let angle = random.pick(&[0.0, 0.0, turn]);
    let (mut verbs, mut positions) = outline(random, angle);
    let frame = through(random, angle);
    if random.one_in(5) {
        spoil(random, &mut verbs, &mut positions);
    }
    Call::UprightRect {
        verbs,
        positions,
        frame,
    }
}

pub fn call(random: &mut Random) -> Call {
    match random.below(10) {
        0 | 1 => {
            let covers = random.one_in(4);
            let (one, two, fringe) = pair(random, covers);
            Call::WithScissor { one, two, fringe }
        }
        2 | 3 => {
            let (one, two, fringe) = pair(random, false);
            Call::TrimmedScissor { one, two, fringe }
        }
        4 | 5 => {
            let covers = random.one_in(2);
            let (one, two, fringe) = pair(random, covers);
            Call::RectFill { one, two, fringe }
        }
        6 | 7 => upright_rect(random),
        _ => holds::call(random),
    }
}
