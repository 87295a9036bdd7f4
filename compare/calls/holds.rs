//! What a coverage reaches and holds.
use crate::{
    list::{with, List, Random},
    scissors::OUTSIDE,
};
use femtovg::calls;

/// A coverage of one everywhere.
const EVERYWHERE: [f32; 11] = [0.0, 0.0, 0.0, 0.0, 0.0, 0.0, 1.0, 1.0, 0.0, 0.0, 0.0];

impl List {
    fn holds(&mut self, coverage: [f32; 11], bounds: [f32; 4]) {
        self.call("holds", &[&coverage[..], &bounds].concat());
    }
}

/// Half extents 4 and 4 around the origin, as a coverage.
fn four(radii: [f32; 2], strays: f32) -> [f32; 11] {
    let [rx, ry] = radii;
    [1.0, 0.0, 0.0, 1.0, 0.0, 0.0, 4.0, 4.0, rx, ry, strays]
}

/// Bounds as far out in x to either side, and in y.
fn about(x: f32, y: f32) -> [f32; 4] {
    [-x, -y, x, y]
}

fn reaches(l: &mut List) {
    l.line("# reach: a box out to its ramps' ends, or everywhere");
    for linear in [
        [1e-30, 0.0, 0.0, 1e-30],
        [1e-30, 0.0, 0.0, -1e-30],
        [0.0; 4],
        [-0.0; 4],
        [1.0; 4],
        [f32::NAN, 0.0, 0.0, 1.0],
        [1.0, 0.0, 0.0, 1.0],
        [0.0, 2.0, -4.0, 0.0],
        [3.0, 1.0, -2.0, 4.0],
        [f32::INFINITY, 0.0, 0.0, 1.0],
        [1e-20, 0.0, 0.0, 1e-20],
        [f32::MAX, 1.0, 1.0, f32::MAX],
    ] {
        for [x, y, width, height] in [[5.0, 7.0, 4.0, 3.0], [0.0, 0.0, -4.0, 4.0]] {
            let mut c = [0.0, 0.0, 0.0, 0.0, x, y, width, height, 1.0, 2.0, 3.0];
            c[..4].copy_from_slice(&linear);
            l.call("reach", &c);
        }
    }
}

fn held(l: &mut List) {
    l.line("# holds: square corners");
    let c = four([0.0; 2], 0.0);
    let quarter = [0.0, 2.0, 1.0, 0.0, 1.0, 0.5, 8.0, 4.0, -0.0, 0.0, 9.0];
    for bounds in [
        about(-9.0, -9.0),
        about(-9.0, -3.0),
        about(4.015_625, 4.0),
        about(4.0, 4.015_625),
        about(OUTSIDE, 4.0),
        about(4.0, OUTSIDE),
        about(f32::INFINITY, 1.0),
        about(1.0, f32::NAN),
        [0.0, 0.0, 4.0, f32::MAX],
        [-3.0, -2.0, 4.0, 1.0],
        [-3.0, -2.0, 1.0, 5.0],
    ] {
        l.holds(c, bounds);
        l.holds(with(c, 3, -0.5), bounds);
        l.holds(with(c, 1, 0.25), bounds);
        l.holds(quarter, bounds);
        l.holds(EVERYWHERE, bounds);
    }
}

/// Corners that are neither square nor round.
fn held_half(l: &mut List) {
    l.line("# holds: one radius of 0");
    for radii in [[0.0, 1.0], [1.0, 0.0], [-0.0, 0.0], [-1.0, 1.0]] {
        for strays in [0.0, 1.0, f32::NAN] {
            for bounds in [
                about(4.0, 5.0),
                about(3.0, 5.0),
                about(4.0, 4.0),
                about(-9.0, -9.0),
            ] {
                l.holds(four(radii, strays), bounds);
            }
        }
    }
}

fn held_round(l: &mut List) {
    l.line("# holds: round corners, and strays off them");
    for x in [3.0, 2.9999, 2.0, 4.0] {
        l.holds(four([1.0; 2], 1.0), about(x, 5.0));
        l.holds(four([1.0; 2], 1.0), about(5.0, x));
    }
    for strays in [f32::NAN, f32::INFINITY, -1.0, 0.0, 0.4, 0.415, 0.01] {
        for far in [2.0, 3.0, 3.5, 3.7, 3.75, 4.0] {
            l.holds(four([1.0; 2], strays), about(far, far));
        }
    }
    for bounds in [
        [-1.0, -1.0, 4.0, 4.0],
        [-4.0, -1.0, 1.0, 4.0],
        [-4.0, -4.0, 1.0, 1.0],
        [-1.0, -4.0, 4.0, 1.0],
        about(-9.0, -9.0),
        about(-3.0, -3.0),
        about(f32::INFINITY, 1.0),
        about(f32::NAN, 1.0),
    ] {
        l.holds(four([2.0, 1.0], 0.0), bounds);
        l.holds(four([2.0, 1.0], 0.5), bounds);
        l.holds(four([0.5, 3.0], 0.5), bounds);
    }
}

/// Any floats at every place of `reach` and `holds`.
fn hostile(l: &mut List) {
    l.line("# reach and holds: any floats, at every place");
    for c in [four([0.0; 2], 0.5), four([1.0, 2.0], 0.5)] {
        for x in [
            f32::INFINITY,
            f32::NEG_INFINITY,
            f32::MAX,
            -0.0,
            1e-45,
            -3.0,
        ] {
            (0..8).for_each(|at| l.call("reach", &with(c, at, x)));
            (0..11).for_each(|at| l.holds(with(c, at, x), about(3.5, 3.25)));
            (0..4).for_each(|at| l.holds(c, with(about(3.5, 3.25), at, x)));
        }
    }
}

/// The coverage of a box, or floats that are nearly one.
fn coverage(r: &mut Random) -> [f32; 11] {
    let any = r.coverage();
    let fringe = [1.0, 0.5, 2.0, 0.25][r.below(4) as usize];
    let own = calls::coverage(r.boxed(), fringe).ok().flatten();
    let strays = [0.0, 0.01, 0.25, 1.0][r.below(4) as usize];
    match own {
        Some(c) if r.below(4) > 0 => with(c, 10, strays),
        _ => any,
    }
}

/// Bounds about a coverage's middle, some of which it holds.
fn bounds(r: &mut Random, c: [f32; 11]) -> [f32; 4] {
    let part = [0.4, 0.65, 0.8, 0.95, 1.0][r.below(5) as usize];
    let Some([least_x, least_y, most_x, most_y]) = calls::reach(c) else {
        return [0.0; 4].map(|_: f32| r.float(-20.0, 20.0));
    };
    let (x, y) = ((least_x + most_x) * 0.5, (least_y + most_y) * 0.5);
    let (width, height) = ((most_x - x) * part, (most_y - y) * part);
    [x - width, y - height, x + width, y + height]
}

fn random(l: &mut List) {
    let r = &mut Random(0x9fb2_1c65_1e98_df25);
    l.line("# random reaches and holds");
    for _ in 0..100 {
        let c = coverage(r);
        l.call("reach", &c);
        let bounds = bounds(r, c);
        l.holds(c, bounds);
    }
}

pub fn holds(l: &mut List) {
    for part in [reaches, held, held_half, held_round, hostile, random] {
        part(l);
    }
}
