//! Rings of lines and curves, and the verbs and positions that draw them.

pub type Point = [f32; 2];

/// How far the control points of a quarter circle lie from its ends, in radii.
pub const KAPPA: f32 = 0.552_284_8;

/// A rectangle's corners in order around it, by their signs. Side `i` lies between corner `i` and the next.
const CORNERS: [Point; 4] = [[1.0, 1.0], [-1.0, 1.0], [-1.0, -1.0], [1.0, -1.0]];

/// A line, or with control points a curve.
#[derive(Copy, Clone, Debug, PartialEq)]
pub struct Segment {
    pub from: Point,
    pub controls: Option<[Point; 2]>,
    pub end: Point,
}

fn between(one: Point, two: Point, t: f32) -> Point {
    [0, 1].map(|axis| one[axis] + (two[axis] - one[axis]) * t)
}

impl Segment {
    pub fn line(from: Point, end: Point) -> Self {
        Self {
            from,
            controls: None,
            end,
        }
    }

    pub fn curve(from: Point, one: Point, two: Point, end: Point) -> Self {
        Self {
            from,
            controls: Some([one, two]),
            end,
        }
    }

    /// A curve of four equal points.
    pub fn empty_curve(at: Point) -> Self {
        Self::curve(at, at, at, at)
    }

    /// A curve that runs along a line, or the curve that it is.
    pub fn as_curve(self) -> Self {
        let Self { from, end, .. } = self;
        let straight = [1.0 / 3.0, 2.0 / 3.0].map(|t| between(from, end, t));
        let controls = Some(self.controls.unwrap_or(straight));
        Self { controls, ..self }
    }

    /// The two parts that meet at `t`, by de Casteljau's rule.
    pub fn split(self, t: f32) -> [Self; 2] {
        let Self {
            from,
            controls,
            end,
        } = self;
        let Some([one, two]) = controls else {
            let middle = between(from, end, t);
            return [Self::line(from, middle), Self::line(middle, end)];
        };
        let [a, b, c] = [(from, one), (one, two), (two, end)].map(|(p, q)| between(p, q, t));
        let [d, e] = [(a, b), (b, c)].map(|(p, q)| between(p, q, t));
        let middle = between(d, e, t);
        [
            Self::curve(from, a, d, middle),
            Self::curve(middle, e, c, end),
        ]
    }

    fn reversed(self) -> Self {
        Self {
            from: self.end,
            controls: self.controls.map(|[one, two]| [two, one]),
            end: self.from,
        }
    }
}

/// Segments of which each starts where the one before it ends, and the first where the last ends.
#[derive(Clone, Debug)]
pub struct Ring(pub Vec<Segment>);

/// The curve of a corner, counterclockwise; of a square corner a line of no length.
fn corner(at: usize, extent: Point, radii: Point, kappa: f32) -> Segment {
    let ([sx, sy], [width, height], [rx, ry]) = (CORNERS[at], extent, radii);
    let point = [sx * width, sy * height];
    let upright = [sx * width, sy * (height - ry)];
    let level = [sx * (width - rx), sy * height];
    let [from, end] = if at % 2 == 0 {
        [upright, level]
    } else {
        [level, upright]
    };
    if radii == [0.0, 0.0] {
        return Segment::line(point, point);
    }
    let [one, two] = [from, end].map(|end| between(end, point, kappa));
    Segment::curve(from, one, two, end)
}

impl Ring {
    /// A rectangle around the origin, counterclockwise from the first corner, whose corners have these radii,
    /// and control points so far from their ends.
    pub fn rounded(extent: Point, radii: [Point; 4], kappa: f32) -> Self {
        let corners = [0, 1, 2, 3].map(|at| corner(at, extent, radii[at], kappa));
        let mut segments = vec![];
        for (at, corner) in corners.iter().enumerate() {
            let next = corners[(at + 1) % 4].from;
            segments.push(*corner);
            segments.push(Segment::line(corner.end, next));
        }
        segments.retain(|segment| segment.controls.is_some() || segment.from != segment.end);
        Self(segments)
    }

    pub fn polygon(points: &[Point]) -> Self {
        let next = points.iter().cycle().skip(1);
        let sides = points.iter().zip(next);
        Self(
            sides
                .map(|(from, end)| Segment::line(*from, *end))
                .collect(),
        )
    }

    /// A regular polygon on a circle of radius 1.
    pub fn regular(sides: usize) -> Self {
        let angle = |at: usize| std::f64::consts::TAU * at as f64 / sides as f64;
        let point = |at| [angle(at).cos() as f32, angle(at).sin() as f32];
        Self::polygon(&(0..sides).map(point).collect::<Vec<Point>>())
    }

    pub fn start_at(&mut self, segment: usize) {
        self.0.rotate_left(segment);
    }

    pub fn reverse(&mut self) {
        self.0.reverse();
        self.0
            .iter_mut()
            .for_each(|segment| *segment = segment.reversed());
    }

    pub fn split(&mut self, segment: usize, t: f32) {
        let parts = self.0[segment].split(t);
        self.0.splice(segment..=segment, parts);
    }

    /// Puts an empty curve before a segment.
    pub fn add_empty_curve(&mut self, segment: usize) {
        let at = self.0[segment].from;
        self.0.insert(segment, Segment::empty_curve(at));
    }

    /// Goes round once more.
    pub fn again(&mut self) {
        self.0.extend(self.0.clone());
    }

    /// Takes every point to another; a point at which two segments meet is taken once.
    pub fn map(&mut self, mut to: impl FnMut(Point) -> Point) {
        for segment in &mut self.0 {
            segment.controls = segment.controls.map(|points| points.map(&mut to));
            segment.end = to(segment.end);
        }
        let mut last = self.0.last().map_or([0.0; 2], |segment| segment.end);
        for segment in &mut self.0 {
            segment.from = last;
            last = segment.end;
        }
    }

    /// Its verbs and positions. A line that closes it may be left out.
    pub fn written(&self, whole: bool) -> (Vec<u8>, Vec<f32>) {
        let Some(first) = self.0.first() else {
            return (vec![], vec![]);
        };
        let mut segments = &self.0[..];
        if let (false, [before @ .., last]) = (whole, segments) {
            if last.controls.is_none() {
                segments = before;
            }
        }
        let (mut verbs, mut positions) = (vec![0], first.from.to_vec());
        for segment in segments {
            verbs.push(if segment.controls.is_some() { 2 } else { 1 });
            positions.extend(segment.controls.iter().flatten().flatten());
            positions.extend(segment.end);
        }
        (verbs, positions)
    }
}

#[cfg(test)]
mod tests {
    use super::*;

    fn at(segment: Segment, t: f32) -> Point {
        segment.split(t)[0].end
    }

    fn near(one: Point, two: Point) -> bool {
        let mut axes = one.iter().zip(two);
        axes.all(|(one, two)| (one - two).abs() < 1e-5)
    }

    fn samples() -> [Segment; 2] {
        let (from, end) = ([1.0, 2.0], [5.0, -3.0]);
        [
            Segment::line(from, end),
            Segment::curve(from, [4.0, 8.0], [-2.0, 0.5], end),
        ]
    }

    #[test]
    fn a_split_segment_is_the_same_line_or_curve() {
        for segment in samples() {
            for t in [0.25, 0.5, 0.625] {
                let [one, two] = segment.split(t);
                assert!(one.from == segment.from && two.end == segment.end);
                assert!(one.end == two.from);
                for u in [0.125, 0.5, 0.75] {
                    assert!(near(at(one, u), at(segment, t * u)));
                    assert!(near(at(two, u), at(segment, t + (1.0 - t) * u)));
                }
            }
        }
    }

    #[test]
    fn a_line_as_a_curve_is_the_same_line() {
        let [line, curve] = samples();
        assert!(curve.as_curve() == curve);
        for t in [0.125, 0.5, 0.75] {
            assert!(near(at(line.as_curve(), t), at(line, t)));
        }
    }

    fn closed(ring: &Ring) -> bool {
        let next = ring.0.iter().cycle().skip(1);
        ring.0
            .iter()
            .zip(next)
            .all(|(one, two)| one.end == two.from)
    }

    fn ring() -> Ring {
        let radii = [[1.0, 1.0], [0.0, 0.0], [2.0, 0.5], [4.0, 2.0]];
        Ring::rounded([4.0, 2.0], radii, KAPPA)
    }

    #[test]
    fn a_ring_stays_closed() {
        let mut ring = ring();
        assert!(closed(&ring) && closed(&Ring::regular(7)));
        ring.split(3, 0.5);
        ring.start_at(2);
        ring.add_empty_curve(1);
        assert!(closed(&ring));
        ring.reverse();
        assert!(closed(&ring));
        ring.again();
        assert!(closed(&ring));
        let mut shift = 0.0;
        ring.map(|[x, y]| {
            shift += 0.25;
            [x + shift, y - shift]
        });
        assert!(closed(&ring));
    }

    #[test]
    fn verbs_and_positions() {
        let (verbs, positions) = Ring::rounded([2.0, 1.0], [[0.0; 2]; 4], KAPPA).written(false);
        assert!(verbs == [0, 1, 1, 1]);
        assert!(positions == [2.0, 1.0, -2.0, 1.0, -2.0, -1.0, 2.0, -1.0]);
        let (verbs, positions) = ring().written(true);
        assert!(verbs == [0, 2, 1, 1, 2, 1, 2, 1]);
        assert!(positions.len() == 2 + 3 * 6 + 4 * 2);
        assert!(ring().written(false).0 == verbs[..7]);
    }
}
