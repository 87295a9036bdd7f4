//! Random and hostile coverages, and bounds in, at and about them.
use crate::{
    boxes::{fringe, number, shape},
    call::Call,
    random::Random,
    scissors::{clip, nudged},
};
use femtovg::calls::{self, Bounds4, Coverage11};

/// Any float.
fn any(random: &mut Random) -> f32 {
    match random.below(4) {
        0 => f32::from_bits(random.bits() as u32),
        1 => random.pick(&[0.0, -0.0, 1e-30, -1e-30, 1e-45, f32::MAX, -f32::MAX]),
        2 => random.pick(&[f32::NAN, f32::INFINITY, f32::NEG_INFINITY]),
        _ => number(random),
    }
}

/// The coverage of a box.
fn covered(random: &mut Random) -> Coverage11 {
    loop {
        if let Ok(Some(coverage)) = calls::coverage(clip(random), fringe(random)) {
            return coverage;
        }
    }
}

/// The coverage of a box, with strays of any size and some floats replaced now and then; or any floats.
fn coverage(random: &mut Random) -> Coverage11 {
    let mut coverage = covered(random);
    match random.below(16) {
        0 => coverage = [0; 11].map(|_| any(random)),
        1 => coverage[random.below(11)] = any(random),
        2 => coverage[..4].fill(random.pick(&[0.0, -0.0, 1.0])),
        3 => coverage[8 + random.below(2)] = 0.0,
        _ => {}
    }
    if random.one_in(2) {
        coverage[10] = random.pick(&[f32::NAN, f32::INFINITY, -0.5, 0.01, 0.25, 1.0]);
    }
    coverage
}

/// Bounds that the coverage's own box has, or the rectangle between four points of its corners'
/// arcs, some 64ths of a fringe width further in or out.
fn own(random: &mut Random, coverage: Coverage11) -> Option<Bounds4> {
    let (sin, cos) = random.float(0.0, 1.6).sin_cos();
    let [across, along] = random.pick(&[[sin, cos], [0.0, 1.0], [1.0, 0.0], [1.0, 1.0]]);
    let margin = random.pick(&[0.0, 0.0, 1.0, 1.0, -1.0, 2.0, -16.0, 32.0]) / 64.0;
    let strays = random.pick(&[0.0, 0.0, coverage[10]]);
    let mut inner = coverage;
    for (axis, part) in [(0, along), (1, across)] {
        let corner = coverage[8 + axis] * (1.0 - part);
        // a reach is half a fringe width further out
        inner[6 + axis] = coverage[6 + axis] - corner + margin + strays - 0.5;
    }
    calls::reach(inner)
}

/// Bounds with one of their corners, and the sides off it further in.
fn cornered(random: &mut Random, bounds: Bounds4) -> Bounds4 {
    let mut corner = bounds;
    for axis in [0, 1] {
        let part = random.float(0.0, 1.0);
        let at = bounds[axis] + (bounds[axis + 2] - bounds[axis]) * part;
        corner[axis + 2 * random.below(2)] = at;
    }
    corner
}

/// Bounds about a coverage, with sides moved, exchanged or replaced now and then.
fn bounds(random: &mut Random, coverage: Coverage11) -> Bounds4 {
    let other = shape(random);
    let found = match random.below(6) {
        0 => calls::bounds(other).ok(),
        1 => None,
        _ => own(random, coverage),
    };
    let mut bounds = found.unwrap_or_else(|| [0; 4].map(|_| any(random)));
    let [least_x, least_y, most_x, most_y] = bounds;
    match random.below(12) {
        0 => bounds = [most_x, most_y, least_x, least_y],
        1 => bounds = [most_x, least_y, least_x, most_y],
        2 => bounds[random.below(4)] = any(random),
        3 => (bounds[0], bounds[2]) = (f32::NEG_INFINITY, f32::INFINITY),
        4..=7 => bounds = cornered(random, bounds),
        _ => {}
    }
    bounds.map(|side| nudged(random, side))
}

pub fn call(random: &mut Random) -> Call {
    let coverage = coverage(random);
    if random.one_in(3) {
        return Call::Reach { coverage };
    }
    Call::Holds {
        coverage,
        bounds: bounds(random, coverage),
    }
}
