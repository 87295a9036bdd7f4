//! Outlines with curves.
use crate::{
    list::{up, List, Random, LARGEST, UNIT},
    ring::{Point, Ring, Segment, KAPPA},
};

const SQUARE: Point = [0.0; 2];
const FITS: [&str; 3] = ["fit", "fit_outline", "fit_with_cut"];

impl List {
    /// An outline given to each call that fits one.
    fn fits(&mut self, verbs: &[u8], positions: &[f32]) {
        FITS.iter()
            .for_each(|name| self.outline(name, verbs, positions, &[]));
    }

    fn ring(&mut self, ring: &Ring) {
        let (verbs, positions) = ring.written(true);
        self.fits(&verbs, &positions);
    }
}

fn moved(mut ring: Ring, by: Point) -> Ring {
    ring.map(|[x, y]| [x + by[0], y + by[1]]);
    ring
}

fn scaled(mut ring: Ring, by: f32) -> Ring {
    ring.map(|point| point.map(|at| at * by));
    ring
}

fn ellipse(extent: Point) -> Ring {
    Ring::rounded(extent, [extent; 4], KAPPA)
}

/// Eight wide and four high around the origin.
fn wide(radii: [Point; 4]) -> Ring {
    Ring::rounded([4.0, 2.0], radii, KAPPA)
}

/// The corners' radii of a tab whose square side is this one.
fn tab_radii(side: usize, radii: Point) -> [Point; 4] {
    let mut corners = [radii; 4];
    corners[side] = SQUARE;
    corners[(side + 1) % 4] = SQUARE;
    corners
}

/// From (0, 0) to (4, 2), from its lower left corner.
fn rectangle() -> Ring {
    Ring::polygon(&[[0.0, 0.0], [4.0, 0.0], [4.0, 2.0], [0.0, 2.0]])
}

/// A ring with an empty curve at its start.
fn stopped(mut ring: Ring) -> Ring {
    ring.add_empty_curve(0);
    ring
}

fn started_at(mut ring: Ring, segment: usize) -> Ring {
    ring.start_at(segment);
    ring
}

fn ellipses(l: &mut List) {
    l.line("# circles, ellipses and rounded rectangles");
    let circle = ellipse([1.0, 1.0]);
    l.ring(&circle);
    for at in [[1e6, 1e6], [1e3, 1e3], [4.0, -2.0]] {
        l.ring(&moved(circle.clone(), at));
    }
    for size in [LARGEST, 1e-20, 1e-38, 1e-40, 1e-42, 1e-44] {
        l.ring(&scaled(circle.clone(), size));
    }
    for kappa in [0.54, 0.544, 0.55, 0.556, 0.56, 0.565] {
        l.ring(&Ring::rounded([1.0, 1.0], [[1.0, 1.0]; 4], kappa));
        l.ring(&Ring::rounded([4.0, 2.0], [[1.0, 0.5]; 4], kappa));
    }
    for radii in [
        [1.0, 1.0],
        [2.0, 2.0],
        [4.0, 2.0],
        [4.0, 1.0],
        [0.5, 2.0],
        [0.01, 0.01],
        [up(0.01), up(0.01)],
        [0.011, 0.011],
        [0.011, 0.01],
        [3.99, 1.99],
        [3.98, 1.98],
    ] {
        l.ring(&wide([radii; 4]));
        l.ring(&moved(wide([radii; 4]), [4.0, 2.0]));
    }
}

/// Every start, from the middle of a segment too, in both directions.
fn starts(l: &mut List) {
    l.line("# any start, both directions, split curves");
    for corners in [[[1.0, 0.5]; 4], tab_radii(2, [1.0, 1.0])] {
        let ring = wide(corners);
        for at in 0..ring.0.len() {
            let mut one = started_at(ring.clone(), at);
            l.ring(&one);
            one.split(0, 0.5);
            one.start_at(1);
            one.reverse();
            l.ring(&one);
        }
    }
    for t in [0.01, 0.1, 0.25, 0.5, 0.9] {
        for mut ring in [ellipse([2.0, 1.0]), wide([[1.0, 1.0]; 4])] {
            ring.split(0, t);
            l.ring(&ring);
        }
    }
}

fn tabs(l: &mut List) {
    l.line("# tabs on all four sides");
    for side in 0..4 {
        for radii in [
            [1.0, 1.0],
            [2.0, 0.5],
            [4.0, 2.0],
            [0.01, 0.01],
            [0.011, 0.011],
        ] {
            let ring = wide(tab_radii(side, radii));
            l.ring(&ring);
            l.ring(&moved(ring, [4.0, 2.0]));
        }
        let corners = tab_radii(side, [1e6, 1e6]);
        l.ring(&Ring::rounded([LARGEST; 2], corners, KAPPA));
    }
}

fn mixes(l: &mut List) {
    l.line(
        "# one, three or opposite round corners, and radii that differ by about the slack of 0.01",
    );
    let one = [1.0, 1.0];
    for at in 0..4 {
        let mut corners = [SQUARE; 4];
        corners[at] = one;
        l.ring(&wide(corners));
        corners[(at + 2) % 4] = one;
        l.ring(&wide(corners));
        let mut corners = [one; 4];
        corners[at] = SQUARE;
        l.ring(&wide(corners));
        for radius in [1.005, 1.008, 1.009, 1.011, 1.02, 0.992, 0.989] {
            let mut corners = [one; 4];
            corners[at] = [radius, radius];
            l.ring(&wide(corners));
            corners[at] = [1.0, radius];
            l.ring(&wide(corners));
        }
        for radius in [1.009, 1.011] {
            let mut corners = tab_radii(at, one);
            corners[(at + 3) % 4] = [radius, radius];
            l.ring(&wide(corners));
        }
    }
}

fn empty_curves(l: &mut List) {
    l.line("# straight outlines with an empty curve, and without");
    let half_way = Ring::polygon(&[[2.0, 0.0], [4.0, 0.0], [4.0, 2.0], [0.0, 2.0], [0.0, 0.0]]);
    let diamond = Ring::polygon(&[[2.0, 0.0], [4.0, 1.0], [2.0, 2.0], [0.0, 1.0]]);
    let leaning = Ring::polygon(&[[0.0, 0.0], [4.0, 1.0], [3.0, 5.0], [-1.0, 4.0]]);
    for ring in [rectangle(), half_way, diamond, leaning] {
        l.ring(&ring);
        for at in 0..ring.0.len() {
            l.ring(&stopped(started_at(ring.clone(), at)));
            let mut curved = ring.clone();
            curved.0[at] = curved.0[at].as_curve();
            l.ring(&curved);
        }
    }
    for sides in [3, 4, 8, 12, 16, 24, 32, 36, 40, 48, 64, 128] {
        let polygon = Ring::regular(sides);
        l.ring(&polygon);
        l.ring(&stopped(polygon));
    }
}

/// An ellipse's verbs and positions, with others before and behind them that stay at its start.
fn among(before: &[u8], behind: &[u8]) -> (Vec<u8>, Vec<f32>) {
    let stay = |verbs: &[u8]| {
        let places = verbs.iter().map(|verb| [1, 1, 3, 0, 0, 0][*verb as usize]);
        [2.0, 0.0].repeat(places.sum())
    };
    let (verbs, positions) = ellipse([2.0, 1.0]).written(true);
    (
        [before, &verbs, behind].concat(),
        [stay(before), positions, stay(behind)].concat(),
    )
}

fn walks(l: &mut List) {
    l.line("# curves before a MoveTo and after a Close, two contours, some arcs and their chord");
    let none: &[u8] = &[];
    for before in [
        none,
        &[3],
        &[0],
        &[0, 1],
        &[0, 2],
        &[1],
        &[2],
        &[5],
        &[0, 5],
    ] {
        let (verbs, positions) = among(before, none);
        l.fits(&verbs, &positions);
    }
    for behind in [
        &[5][..],
        &[0],
        &[1],
        &[2],
        &[5, 0],
        &[5, 1],
        &[5, 2],
        &[1, 5],
        &[2, 5],
        &[4, 5, 3, 5],
    ] {
        let (verbs, positions) = among(none, behind);
        l.fits(&verbs, &positions);
    }
    let (verbs, positions) = among(none, none);
    for at in 1..verbs.len() {
        l.fits(&[&verbs[..at], &[5], &verbs[at..]].concat(), &positions);
        l.fits(&verbs[..at], &positions[..6 * at - 4]);
    }
}

fn turns(l: &mut List) {
    l.line("# twice around, and a curve there, back and there again");
    for mut ring in [ellipse([2.0, 1.0]), wide(tab_radii(0, [1.0, 1.0]))] {
        ring.again();
        l.ring(&ring);
    }
    let mut ring = ellipse([2.0, 1.0]);
    let there = ring.0[1];
    let mut back = Ring(vec![there]);
    back.reverse();
    ring.0.splice(1..1, [there, back.0[0]]);
    l.ring(&ring);
}

fn small_and_signed(l: &mut List) {
    l.line("# -0 for 0, middles of -0, and the arctangent's jump at a square corner");
    for ring in [ellipse([2.0, 1.0]), stopped(rectangle())] {
        let (verbs, mut positions) = ring.written(true);
        l.fits(&verbs, &positions);
        positions.iter_mut().for_each(|at| *at += 0.0);
        l.fits(&verbs, &positions);
        let zeros = positions.iter_mut().filter(|at| **at == 0.0);
        zeros.for_each(|at| *at = -0.0);
        l.fits(&verbs, &positions);
    }
    // one more of the least floats below 0 than above it: the middle is -0
    for side in 0..4 {
        let mut small = scaled(wide(tab_radii(side, [1.0, 1.0])), 1e-40);
        let lower = |at: f32| if at < 0.0 { at - f32::from_bits(1) } else { at };
        small.map(|point| point.map(lower));
        l.ring(&small);
    }
    let corner = [-2.0, -1.0];
    for x in [-1.9999, -1.99999, -1.999, -2.0] {
        let from = [x, -1.0];
        let mut ring = Ring::polygon(&[from, [2.0, -1.0], [2.0, 1.0], [-2.0, 1.0]]);
        ring.0.insert(0, Segment::curve(from, from, corner, corner));
        l.ring(&ring);
    }
}

/// A tab's verbs and positions, without its last side.
fn tab_outline() -> (Vec<u8>, Vec<f32>) {
    wide(tab_radii(0, [1.0, 1.0])).written(false)
}

/// 256 verbs and one more, and as many curves as there may be.
fn most_verbs(l: &mut List) {
    l.line("# curves: number 11, and before 8 and 9");
    let (verbs, positions) = tab_outline();
    for n in [255, 256, 257] {
        let mut padded = [&verbs[..], &[5]].concat();
        padded.resize(n, 3);
        l.fits(&padded, &positions);
        padded[n - 1] = 6;
        l.fits(&padded, &positions[1..]);
    }
    let circle = ellipse([2.0, 1.0]).0;
    let empty = Segment::empty_curve(circle[0].from);
    for n in [256, 257] {
        let filled = Ring([&vec![empty; n - 5], &circle[..]].concat());
        let (verbs, positions) = filled.written(true);
        l.outline("fit_with_cut", &verbs, &positions, &[]);
    }
    l.outline("fit_outline", &[2; 256], &[0.0; 1536], &[]);
    l.outline("fit", &[2; 257], &[0.0; 1542], &[]);
}

/// Numbers 8, 9 and 1, in this order.
fn causes(l: &mut List) {
    l.line("# curves: numbers 8, 9 and 1, and their order");
    let (verbs, positions) = tab_outline();
    let with = |at: usize, x: f32| [&positions[..at], &[x], &positions[at + 1..]].concat();
    for byte in [6, 255] {
        for at in 0..verbs.len() {
            let mut verbs = verbs.clone();
            verbs[at] = byte;
            l.fits(&verbs, &with(3, f32::NAN)[1..]);
        }
    }
    for n in 0..positions.len() {
        l.outline("fit_with_cut", &verbs, &with(0, f32::NAN)[..n], &[]);
    }
    for n in [1, 2, 6] {
        l.fits(&verbs, &[&with(0, f32::NAN)[..], &vec![1.0; n]].concat());
        l.fits(&verbs, &positions[n..]);
    }
    for at in 0..positions.len() {
        for x in [LARGEST, -up(LARGEST)] {
            l.outline("fit_with_cut", &verbs, &with(at, x), &[]);
        }
        l.fits(&verbs, &with(at, f32::NAN));
    }
    l.fits(&[], &[]);
}

fn rects(l: &mut List) {
    l.line("# upright_rect of outlines with curves");
    let quarter = [0.0, 3.0, -2.0, 0.0, 5.0, 7.0];
    let leaning = [1.0, 1.0, 0.0, 1.0, 0.0, 0.0];
    let bad = [1.0, 0.0, 0.0, 1.0, 0.0, f32::NAN];
    let (verbs, positions) = stopped(rectangle()).written(true);
    for frame in [UNIT, quarter, leaning, [0.0; 6], bad] {
        for n in [0, 1, 2, 3, 100, 250, 251] {
            let padded = [&verbs[..], &vec![3; n]].concat();
            l.upright_rect(&padded, &positions, frame);
        }
        for ring in [ellipse([1.0, 1.0]), wide(tab_radii(0, [1.0, 1.0]))] {
            let (verbs, positions) = ring.written(false);
            l.upright_rect(&verbs, &positions, frame);
        }
        l.upright_rect(&[0, 2], &positions[..8], frame);
        l.upright_rect(&[0, 2], &positions[..7], frame);
        l.upright_rect(&[0, 2, 6], &positions[..7], frame);
        l.upright_rect(&[2; 9], &[0.0; 54], frame);
        l.upright_rect(&[2; 9], &[f32::NAN; 54], frame);
    }
    let mut corners = [SQUARE; 4];
    for radius in [0.005, 0.01, 0.011] {
        corners[1] = [radius, radius];
        let (verbs, positions) = wide(corners).written(false);
        l.upright_rect(&verbs, &positions, UNIT);
    }
}

// ---- random outlines

fn pick<T: Copy>(r: &mut Random, of: &[T]) -> T {
    of[r.below(of.len() as u64) as usize]
}

/// Half extents, and radii of round corners.
fn sizes(r: &mut Random) -> [Point; 2] {
    let extent = [r.float(1.0, 20.0), r.float(1.0, 20.0)];
    let small = extent[0].min(extent[1]);
    let part = (1 + r.below(16)) as f32 / 16.0;
    let apart = extent.map(|half| half * (1 + r.below(16)) as f32 / 16.0);
    let radii = pick(r, &[[small * part; 2], apart, extent, [small; 2]]);
    [extent, radii]
}

fn whole(r: &mut Random) -> Ring {
    let [extent, radii] = sizes(r);
    Ring::rounded(extent, [radii; 4], KAPPA)
}

fn tab(r: &mut Random) -> Ring {
    let [extent, radii] = sizes(r);
    Ring::rounded(extent, tab_radii(r.below(4) as usize, radii), KAPPA)
}

fn other_corner(r: &mut Random) -> Ring {
    let [extent, radii] = sizes(r);
    let mut corners = [radii; 4];
    let by = pick(r, &[0.99, 0.996, 1.0, 1.004, 1.01, 0.0]);
    corners[r.below(4) as usize] = radii.map(|radius| radius * by);
    Ring::rounded(extent, corners, KAPPA)
}

fn straight(r: &mut Random) -> Ring {
    let [extent, _] = sizes(r);
    stopped(Ring::rounded(extent, [SQUARE; 4], KAPPA))
}

fn twice(r: &mut Random) -> Ring {
    let mut ring = whole(r);
    ring.again();
    ring
}

/// A ring the other way round, from another start, split, wobbling, elsewhere.
fn changed(r: &mut Random, mut ring: Ring) -> Ring {
    if r.below(2) == 0 {
        ring.reverse();
    }
    if r.below(2) == 0 {
        let (at, t) = (r.below(ring.0.len() as u64), r.below(15) + 1);
        ring.split(at as usize, t as f32 / 16.0);
    }
    ring.start_at(r.below(ring.0.len() as u64) as usize);
    let far = pick(r, &[0.0, 0.0, 1e-5, 1e-4, 1e-3]);
    ring.map(|point| point.map(|at| at + far * (r.below(2001) as f32 / 1000.0 - 1.0)));
    let by = pick(r, &[1.0, 1.0, 1e-30, 1e-41, 2e4]);
    scaled(
        moved(ring, [r.float(-20.0, 20.0), r.float(-20.0, 20.0)]),
        by,
    )
}

fn random(l: &mut List) {
    let r = &mut Random(0x6a09_e667_f3bc_c908);
    l.line("# random outlines with curves");
    for (family, count) in [
        (whole as fn(&mut Random) -> Ring, 40),
        (tab, 40),
        (other_corner, 12),
        (straight, 20),
        (twice, 4),
    ] {
        for _ in 0..count {
            let ring = family(r);
            let (mut verbs, positions) = changed(r, ring).written(r.below(2) == 0);
            verbs.extend(pick(r, &[&[][..], &[5], &[3, 5]]));
            l.fits(&verbs, &positions);
            let frame = pick(r, &[UNIT, [0.0, 2.0, -3.0, 0.0, 1.0, 2.0], [0.0; 6]]);
            l.upright_rect(&verbs, &positions, frame);
        }
    }
}

/// Lines of the new calls with a field missing, one too many and one that is none.
fn bad_curves(l: &mut List) {
    l.line("# bad lines of fit_outline and fit_with_cut");
    for name in ["fit_outline", "fit_with_cut"] {
        for fields in [
            "",
            " 1",
            " -1 0",
            " 1 256 0",
            " 1 x 0",
            " 2 0",
            " 513",
            " 99999999999",
            " 0",
            " 0 -1",
            " 0 2573",
            " 0 2574",
            " 1 0 2",
            " 1 0 2 00000000",
            " 1 0 2 00000000 0000000g",
            " 1 0 2 00000000 0",
            " 1 0 2 00000000 00000000 00000000",
            " 1 0 0 00000000",
        ] {
            l.line(&format!("{name}{fields}"));
        }
    }
    for name in [
        "fit_outlines",
        "fit_",
        "fitoutline",
        "fit_with_cuts",
        "fit_with",
    ] {
        l.line(&format!("{name} 0 0"));
    }
}

pub fn curves(l: &mut List) {
    for part in [
        ellipses,
        starts,
        tabs,
        mixes,
        empty_curves,
        walks,
        turns,
        small_and_signed,
        most_verbs,
        causes,
        rects,
        random,
        bad_curves,
    ] {
        part(l);
    }
}
