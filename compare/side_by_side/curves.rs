//! Random and hostile outlines with curves. Most draw a box: a rounded rectangle, an ellipse, or a tab,
//! which has two square corners.
use crate::{
    boxes::{floats_of, number, spoil, LIMIT},
    call::Call,
    random::Random,
    ring::{Point, Ring, Segment, KAPPA},
    scissors,
};
use femtovg::calls::{self, Fitted};
use std::collections::BTreeMap;

const SQUARE: Point = [0.0; 2];

/// How far femtovg lets a side lie off its place, or two radii differ, by the smaller half extent.
const SLACK: f32 = 0.005;

/// The least float above 0.
const LEAST: f32 = f32::from_bits(1);

fn smaller([width, height]: Point) -> f32 {
    width.min(height)
}

fn extent(random: &mut Random) -> Point {
    let [one, two] = [random.float(0.5, 60.0), random.float(0.5, 60.0)];
    match random.below(8) {
        0 => [1.0, 1.0],
        1 => [one, one],
        2 | 3 => [one, two].map(f32::ceil),
        4 => [one, two].map(|half| (4.0 * half).ceil() / 4.0),
        _ => [one, two],
    }
}

/// Radii of a round corner, now and then so small that it may count as square, or all but the half extents.
fn radii(random: &mut Random, extent: Point) -> Point {
    let small = smaller(extent);
    let one = small * random.float(0.02, 1.0);
    let [slack, other] = [0; 2].map(|_| small * SLACK * random.float(0.5, 2.0));
    match random.below(14) {
        0..=3 => [one, one],
        4..=6 => extent.map(|half| half * random.float(0.02, 1.0)),
        7..=9 => extent,
        10 | 11 => [small, small],
        12 => [slack, random.pick(&[slack, other])],
        _ => [extent[0] - slack, extent[1] - other],
    }
}

/// The usual control points, or some that stray further.
fn kappa(random: &mut Random) -> f32 {
    if random.one_in(4) {
        return KAPPA + random.float(-0.012, 0.012);
    }
    KAPPA
}

// ---- rings around the origin

/// Four corners alike.
fn whole(random: &mut Random) -> Ring {
    let extent = extent(random);
    let radii = radii(random, extent);
    Ring::rounded(extent, [radii; 4], kappa(random))
}

/// The two corners of a side are square, the others alike.
fn tab(random: &mut Random) -> Ring {
    let (extent, side) = (extent(random), random.below(4));
    let mut corners = [radii(random, extent); 4];
    corners[side] = SQUARE;
    corners[(side + 1) % 4] = SQUARE;
    Ring::rounded(extent, corners, kappa(random))
}

/// One corner, or two, differ from the others by about the slack.
fn all_but_alike(random: &mut Random) -> Ring {
    let extent = extent(random);
    let one = smaller(extent) * random.float(0.3, 0.9);
    let mut corners = [[one, one]; 4];
    for _ in 0..random.pick(&[1, 1, 2]) {
        let (corner, axis) = (random.below(4), random.below(2));
        let part = random.pick(&[0.5, -0.5, 0.9, 0.999, 1.0, 1.001, -0.999, -1.001, 2.0]);
        corners[corner][axis] += part * SLACK * smaller(extent);
    }
    Ring::rounded(extent, corners, KAPPA)
}

/// One corner is round, or all but one, or two that are opposite.
fn mixed(random: &mut Random) -> Ring {
    let extent = extent(random);
    let radii = radii(random, extent);
    let [one, other] = random.pick(&[[radii, SQUARE], [SQUARE, radii]]);
    let mut corners = [one; 4];
    let at = random.below(4);
    corners[at] = other;
    if random.one_in(3) {
        corners[(at + 2) % 4] = other;
    }
    Ring::rounded(extent, corners, KAPPA)
}

/// A rectangle with curves that are empty or run straight.
fn straight(random: &mut Random) -> Ring {
    let mut ring = Ring::rounded(extent(random), [SQUARE; 4], KAPPA);
    let side = random.below(4);
    if random.one_in(3) {
        ring.0[side] = ring.0[side].as_curve();
    } else {
        ring.add_empty_curve(side);
    }
    ring
}

/// A polygon on an ellipse, with an empty curve.
fn polygon(random: &mut Random) -> Ring {
    let any = 3 + random.below(80);
    let mut ring = Ring::regular(random.pick(&[8, 12, 16, 20, 24, 32, 36, 64, any]));
    let [width, height] = extent(random);
    ring.map(|[x, y]| [x * width, y * height]);
    let at = random.below(ring.0.len());
    ring.add_empty_curve(at);
    ring
}

/// Some arcs of an ellipse, closed by their chord.
fn part(random: &mut Random) -> Ring {
    let extent = extent(random);
    let mut ring = Ring::rounded(extent, [extent; 4], KAPPA);
    ring.start_at(random.below(4));
    ring.0.truncate(1 + random.below(3));
    let [start, end] = [ring.0[0].from, ring.0[ring.0.len() - 1].end];
    ring.0.push(Segment::line(end, start));
    ring
}

/// Twice around, or a segment there, back and there again.
fn not_once(random: &mut Random) -> Ring {
    let mut ring = random.pick(&[whole, tab])(random);
    if random.one_in(2) {
        ring.again();
        return ring;
    }
    let at = random.below(ring.0.len());
    let there = ring.0[at];
    let mut back = Ring(vec![there]);
    back.reverse();
    ring.0.splice(at..at, [there, back.0[0]]);
    ring
}

fn ring(random: &mut Random) -> Ring {
    match random.below(40) {
        0..=15 => whole(random),
        16..=28 => tab(random),
        29 | 30 => all_but_alike(random),
        31 => mixed(random),
        32..=35 => straight(random),
        36 | 37 => polygon(random),
        38 => part(random),
        _ => not_once(random),
    }
}

// ---- the same ring otherwise

/// The other way round, from another start, in more segments.
fn redraw(random: &mut Random, ring: &mut Ring) {
    if random.one_in(2) {
        ring.reverse();
    }
    for _ in 0..random.pick(&[0, 0, 0, 1, 1, 3]) {
        let t = random.float(0.1, 0.9);
        ring.split(random.below(ring.0.len()), random.pick(&[0.5, t]));
    }
    ring.start_at(random.below(ring.0.len()));
    if random.one_in(10) {
        ring.add_empty_curve(random.below(ring.0.len()));
    }
    if random.one_in(10) {
        let at = random.below(ring.0.len());
        ring.0[at] = ring.0[at].as_curve();
    }
}

/// How far a ring around the origin reaches along each axis.
fn half_extents(ring: &Ring) -> Point {
    let reach = |axis: usize| ring.0.iter().map(move |segment| segment.end[axis].abs());
    [0, 1].map(|axis| reach(axis).fold(0.0, f32::max))
}

/// Moves every point a little.
fn wobble(random: &mut Random, ring: &mut Ring) {
    let far = smaller(half_extents(ring)) * random.pick(&[1e-5, 1e-5, 1e-4, 3e-4, 1e-3]);
    ring.map(|point| point.map(|at| at + far * random.float(-1.0, 1.0)));
}

/// What the larger half extent becomes.
fn size(random: &mut Random, larger: f32) -> f32 {
    match random.below(24) {
        0 => LIMIT,
        1 => random.pick(&[1e-39, 1e-40, 1e-41, 1e-42, 1e-43]),
        2 => random.pick(&[1e-3, 1e-6, 1e-20, 1e-30, 1e-37]),
        3 => random.float(0.0, LIMIT),
        4 | 5 => larger * random.pick(&[2.0, 3.0, 10.0, 1000.0]),
        _ => larger,
    }
}

/// Where the middle lies, in half extents.
fn middle(random: &mut Random) -> Point {
    let [x, y] = [random.float(-3.0, 3.0), random.float(-3.0, 3.0)];
    match random.below(8) {
        0..=2 => [0.0, 0.0],
        3 => [1.0, 1.0],
        4 => random.pick(&[[100.0 * x, y], [1000.0 * x, 1000.0 * y], [x, 1e6 * y]]),
        _ => [x, y],
    }
}

/// Makes a ring larger or smaller and moves it.
fn place(random: &mut Random, ring: &mut Ring) {
    let [width, height] = half_extents(ring);
    let (larger, [x, y]) = (width.max(height), middle(random));
    let most = LIMIT / (1.0 + x.abs().max(y.abs()));
    let scale = size(random, larger).min(most) / larger;
    let [x, y] = [x * width * scale, y * height * scale];
    ring.map(|[along, across]| [along * scale + x, across * scale + y]);
    if random.one_in(2) {
        // the middle of a subnormal ring becomes -0
        let lower = |at: f32| if at < 0.0 { at - LEAST } else { at };
        ring.map(|point| point.map(lower));
    }
    ring.map(|point| point.map(|at| at.clamp(-LIMIT, LIMIT)));
}

// ---- verbs and positions

/// A line to where the outline is, which adds nothing.
fn line_to_last(random: &mut Random, verbs: &mut Vec<u8>, positions: &mut Vec<f32>) {
    let at = 1 + random.below(verbs.len());
    let before = floats_of(&verbs[..at]);
    let last = [positions[before - 2], positions[before - 1]];
    verbs.insert(at, 1);
    positions.splice(before..before, last);
}

/// Empty curves to about the most verbs, before the outline's own.
fn fill_up(random: &mut Random, verbs: &mut Vec<u8>, positions: &mut Vec<f32>) {
    let more = (255 + random.below(3)).saturating_sub(verbs.len());
    let start = [positions[0], positions[1]];
    verbs.splice(1..1, vec![2; more]);
    positions.splice(2..2, start.repeat(3 * more));
}

/// Verbs that end an outline early, or start another.
fn break_off(random: &mut Random, verbs: &mut Vec<u8>, positions: &mut Vec<f32>) {
    let at = 1 + random.below(verbs.len());
    match random.below(4) {
        0 => verbs.insert(at, 5),
        1 => verbs.insert(0, 5),
        2 => {
            verbs.extend(random.pick(&[[5, 1], [5, 0]]));
            positions.extend([positions[0], positions[1]]);
        }
        _ => {
            verbs.insert(0, 2);
            positions.splice(0..0, [1.0; 6]);
        }
    }
}

/// Verbs that draw nothing, and a few that draw too much.
fn decorate(random: &mut Random, verbs: &mut Vec<u8>, positions: &mut Vec<f32>) {
    if random.one_in(8) {
        line_to_last(random, verbs, positions);
    }
    if random.one_in(150) {
        fill_up(random, verbs, positions);
    }
    if random.one_in(16) {
        // a start that draws nothing, with a line to itself or without
        let before = random.pick(&[&[0][..], &[0, 1]]);
        verbs.splice(0..0, before.iter().copied());
        positions.splice(0..0, [3.0, -4.0].repeat(before.len()));
    }
    if random.one_in(32) {
        break_off(random, verbs, positions);
    }
    for _ in 0..random.pick(&[0, 0, 0, 1, 2]) {
        let at = random.below(verbs.len() + 1);
        verbs.insert(at, random.pick(&[3, 4]));
    }
    if random.one_in(2) {
        verbs.push(5);
    }
    if random.one_in(60) {
        verbs.resize(255 + random.below(3), random.pick(&[3, 4, 5]));
    }
}

/// Changes a byte or a float, or leaves one out.
fn damage(random: &mut Random, verbs: &mut Vec<u8>, positions: &mut Vec<f32>) {
    if verbs.is_empty() || positions.is_empty() {
        return spoil(random, verbs, positions);
    }
    let (verb, at) = (random.below(verbs.len()), random.below(positions.len()));
    match random.below(6) {
        0 => verbs[verb] = random.below(8) as u8,
        1 => positions[at] = number(random),
        2 => positions[at] *= 1.0 + random.pick(&[1e-6, 1e-4, 1e-3, 1e-2]),
        3 => {
            positions.remove(at);
        }
        4 => {
            verbs.remove(verb);
        }
        _ => spoil(random, verbs, positions),
    }
}

/// A ring's verbs and positions.
fn written(random: &mut Random, mut ring: Ring) -> (Vec<u8>, Vec<f32>) {
    redraw(random, &mut ring);
    if random.one_in(3) {
        wobble(random, &mut ring);
    }
    place(random, &mut ring);
    let (verbs, mut positions) = ring.written(random.one_in(2));
    if random.one_in(8) {
        let zeros = positions.iter_mut().filter(|at| **at == 0.0);
        zeros.for_each(|at| *at = random.pick(&[0.0, -0.0]));
    }
    (verbs, positions)
}

fn outline(random: &mut Random) -> (Vec<u8>, Vec<f32>) {
    let ring = ring(random);
    let (mut verbs, mut positions) = written(random, ring);
    decorate(random, &mut verbs, &mut positions);
    if random.one_in(10) {
        damage(random, &mut verbs, &mut positions);
    }
    (verbs, positions)
}

// ---- calls

/// An outline given to one of the calls that fit it.
pub fn fitting(random: &mut Random, verbs: Vec<u8>, positions: Vec<f32>) -> Call {
    match random.below(3) {
        0 => Call::Fit { verbs, positions },
        1 => Call::FitOutline { verbs, positions },
        _ => Call::FitWithCut { verbs, positions },
    }
}

/// A rectangle of few verbs, most often, through a frame.
fn upright_rect(random: &mut Random) -> Call {
    let ring = match random.below(6) {
        0 => ring(random),
        1 => tiny_corner(random),
        _ => straight(random),
    };
    let (mut verbs, mut positions) = written(random, ring);
    if random.one_in(2) {
        verbs.push(random.pick(&[5, 5, 3]));
    }
    if random.one_in(8) {
        damage(random, &mut verbs, &mut positions);
    }
    let frame = scissors::through(random, 0.0);
    Call::UprightRect {
        verbs,
        positions,
        frame,
    }
}

/// A rectangle with one round corner that is all but square.
fn tiny_corner(random: &mut Random) -> Ring {
    let (extent, mut corners) = (extent(random), [SQUARE; 4]);
    let radius = smaller(extent) * SLACK * random.float(0.2, 1.2);
    corners[random.below(4)] = [radius, radius];
    Ring::rounded(extent, corners, KAPPA)
}

pub fn call(random: &mut Random) -> Call {
    if random.one_in(8) {
        return upright_rect(random);
    }
    let (verbs, positions) = outline(random);
    fitting(random, verbs, positions)
}

// ---- what is counted

/// What the curved outlines given to a call draw, but for those refused.
#[derive(Default)]
struct Drawn {
    whole: u64,
    cut: u64,
    none: u64,
}

#[derive(Default)]
pub struct Counts(BTreeMap<&'static str, Drawn>);

impl Counts {
    pub fn count(&mut self, call: &Call) {
        let Some((verbs, positions)) = call.outline() else {
            return;
        };
        if !verbs.contains(&2) {
            return;
        }
        let Ok(fitted) = calls::fit_with_cut(verbs, positions) else {
            return;
        };
        let drawn = self.0.entry(call.kind()).or_default();
        match fitted {
            Some(Fitted::Whole(_)) => drawn.whole += 1,
            Some(Fitted::Cut(_)) => drawn.cut += 1,
            None => drawn.none += 1,
        }
    }

    pub fn show(&self) {
        for (kind, Drawn { whole, cut, none }) in &self.0 {
            println!("curved outlines of {kind}: whole {whole}, cut {cut}, none {none}");
        }
    }
}

#[cfg(test)]
mod tests {
    use super::*;

    /// The answer to a ring, which is not refused.
    fn fitted(ring: &Ring) -> Option<Fitted> {
        let (verbs, positions) = ring.written(true);
        calls::fit_with_cut(&verbs, &positions).expect("no refusal")
    }

    /// The ring from every start, in both directions, also from the middle of each segment.
    fn drawn_otherwise(ring: &Ring) -> Vec<Ring> {
        let mut all = vec![];
        for at in 0..ring.0.len() {
            let mut started = ring.clone();
            started.start_at(at);
            let mut split = started.clone();
            split.split(0, 0.5);
            split.start_at(1);
            for mut one in [started, split] {
                all.push(one.clone());
                one.reverse();
                all.push(one);
            }
        }
        all
    }

    #[test]
    fn corners_alike_draw_a_whole_box() {
        for (extent, radii) in [
            ([4.0, 2.0], [1.0, 1.0]),
            ([4.0, 2.0], [2.0, 0.5]),
            ([4.0, 2.0], [4.0, 2.0]),
            ([1.0, 1.0], [1.0, 1.0]),
            ([4.0, 2.0], [2.0, 2.0]),
        ] {
            let ring = Ring::rounded(extent, [radii; 4], KAPPA);
            for ring in drawn_otherwise(&ring) {
                let Some(Fitted::Whole(outline)) = fitted(&ring) else {
                    panic!("{ring:?}")
                };
                let [_, _, _, _, x, y, width, height, rx, ry, strays] = outline;
                assert!([x, y] == [0.0, 0.0] && [width, height] == extent);
                assert!([rx, ry] == radii && strays > 0.0);
            }
        }
    }

    #[test]
    fn a_tab_draws_a_cut_box() {
        let (extent, radii) = ([4.0, 2.0], [1.0, 0.5]);
        for (side, past) in [[0.0, 1.0], [-1.0, 0.0], [0.0, -1.0], [1.0, 0.0]]
            .iter()
            .enumerate()
        {
            let mut corners = [radii; 4];
            corners[side] = SQUARE;
            corners[(side + 1) % 4] = SQUARE;
            for ring in drawn_otherwise(&Ring::rounded(extent, corners, KAPPA)) {
                let Some(Fitted::Cut(floats)) = fitted(&ring) else {
                    panic!("{ring:?}")
                };
                let [_, _, _, _, x, y, width, height, rx, ry, ..] = floats;
                let [along, across] = [past[0] * radii[0], past[1] * radii[1]];
                assert!([x, y] == [along, across] && [rx, ry] == radii);
                assert!([width, height] == [4.0 + along.abs(), 2.0 + across.abs()]);
                assert!(floats[11..] == [1.0, 0.0, 0.0, 1.0, 0.0, 0.0, 4.0, 2.0, 0.0, 0.0]);
            }
        }
    }

    #[test]
    fn twice_around_draws_none() {
        let mut ring = Ring::rounded([4.0, 2.0], [[1.0, 1.0]; 4], KAPPA);
        ring.again();
        assert!(fitted(&ring).is_none());
    }

    #[test]
    fn well_over_half_draw_a_box() {
        let random = &mut Random::new(1);
        let mut counts = Counts::default();
        (0..20_000).for_each(|_| counts.count(&call(random)));
        for (kind, Drawn { whole, cut, none }) in &counts.0 {
            let boxes = if *kind == "upright_rect" {
                *whole
            } else {
                assert!(*whole > 800 && *cut > 800, "{kind}: {whole} {cut}");
                whole + cut
            };
            assert!(5 * boxes > 3 * (boxes + none), "{kind}: {boxes} {none}");
        }
        assert!(counts.0.len() == 4);
    }
}
