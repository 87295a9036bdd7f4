//! The calls of documents 01 and 02, over femtovg. A box is ten floats (frame, half extents, radii),
//! a coverage eleven (linear part by rows, offset, half extents, radii, strays), bounds four (least
//! x, least y, most x, most y).
use crate::{
    clip::{
        coverage::{self, Coverage},
        mask::MaskKey,
        shape::{ClipCoverage, RectFill, RoundedBox},
    },
    geometry::{Bounds, Transform2D},
    path::Solidity,
    Path,
};

pub type Box10 = [f32; 10];
pub type Frame = [f32; 6];
pub type Coverage11 = [f32; 11];
pub type Bounds4 = [f32; 4];
/// A box and its strays.
pub type Outline11 = [f32; 11];
/// A box, its strays and the cut box.
pub type Cut21 = [f32; 21];

/// A number of document 01's table.
pub type Refused = u8;

const NUMBER: Refused = 1;
const SHAPE: Refused = 2;
const MASK_TOO_LARGE: Refused = 3;
const TOO_SHORT: Refused = 4;
const LIST_ENDS: Refused = 5;
const COUNT: Refused = 6;
const COORDINATE: Refused = 7;
const VERB: Refused = 8;
const POSITIONS: Refused = 9;
const VERBS: Refused = 11;
const BOXES: Refused = 12;
const CORNER: Refused = 16;

const LARGEST: f32 = 1_048_576.0;

fn check(number: f32) -> Result<(), Refused> {
    if number.is_finite() && number.abs() <= LARGEST {
        Ok(())
    } else {
        Err(NUMBER)
    }
}

fn check_all(numbers: &[f32]) -> Result<(), Refused> {
    numbers.iter().try_for_each(|x| check(*x))
}

fn check_box(b: &Box10) -> Result<(), Refused> {
    check_all(b)?;
    let [.., width, height, rx, ry] = *b;
    if width < 0.0 || height < 0.0 || rx < 0.0 || ry < 0.0 || rx > width || ry > height {
        return Err(SHAPE);
    }
    Ok(())
}

fn check_pair(one: &Box10, two: &Box10, fringe: f32) -> Result<(), Refused> {
    check_box(one)?;
    check_box(two)?;
    check(fringe)
}

pub(crate) fn boxed([a, b, c, d, x, y, width, height, rx, ry]: Box10) -> RoundedBox {
    RoundedBox {
        frame: Transform2D([a, b, c, d, x, y]),
        extent: [width, height],
        radii: [rx, ry],
    }
}

fn floats(shape: RoundedBox) -> Box10 {
    let Transform2D([a, b, c, d, x, y]) = shape.frame;
    [
        a,
        b,
        c,
        d,
        x,
        y,
        shape.extent[0],
        shape.extent[1],
        shape.radii[0],
        shape.radii[1],
    ]
}

pub(crate) fn covering(c: &Coverage11) -> ClipCoverage {
    ClipCoverage {
        linear: [c[0], c[1], c[2], c[3]],
        offset: [c[4], c[5]],
        extent: [c[6], c[7]],
        radii: [c[8], c[9]],
        strays: c[10],
    }
}

fn covered(c: ClipCoverage) -> Coverage11 {
    let [a, b, d, e] = c.linear;
    [
        a,
        b,
        d,
        e,
        c.offset[0],
        c.offset[1],
        c.extent[0],
        c.extent[1],
        c.radii[0],
        c.radii[1],
        c.strays,
    ]
}

pub(crate) fn bounding([minx, miny, maxx, maxy]: Bounds4) -> Bounds {
    Bounds {
        minx,
        miny,
        maxx,
        maxy,
    }
}

fn bounded(bounds: Bounds) -> Bounds4 {
    [bounds.minx, bounds.miny, bounds.maxx, bounds.maxy]
}

// ---- masks

/// The points of a word list, or the number of the first word at fault.
fn check_list(words: &[i32]) -> Result<usize, Refused> {
    let mut words = words.iter().copied();
    let mut points = 0;
    while words.next().is_some() {
        let contours = words.next().ok_or(LIST_ENDS)?;
        if contours < 0 {
            return Err(COUNT);
        }
        for _ in 0..contours {
            let count = words.next().ok_or(LIST_ENDS)?;
            if count < 0 || points + count as usize > 2048 {
                return Err(COUNT);
            }
            for _ in 0..2 * count {
                if !(-1_048_576..=1_048_576).contains(&words.next().ok_or(LIST_ENDS)?) {
                    return Err(COORDINATE);
                }
            }
            points += count as usize;
        }
    }
    Ok(points)
}

/// femtovg's drawing, with what it keeps from one to the next.
#[derive(Default)]
pub struct Drawing {
    coverage: Coverage,
    mask: Vec<u8>,
}

impl Drawing {
    /// The answer to a drawing, before anything is drawn. `lent` is how many mask bytes, numbers of ink, scratch
    /// floats and scratch counters there are.
    pub fn check(size: [usize; 2], words: &[i32], lent: [usize; 4]) -> Result<(), Refused> {
        let [width, height] = size;
        if width > 4096 || height > 4096 {
            return Err(MASK_TOO_LARGE);
        }
        let [bytes, ink, floats, counters] = lent;
        if bytes < width * height || ink < 2 * height {
            return Err(TOO_SHORT);
        }
        let points = check_list(words)?;
        if floats < width + 15 * points || counters < (width + 63) / 64 + height + 1 {
            return Err(TOO_SHORT);
        }
        Ok(())
    }

    /// The cells of a drawing that is not refused. At width or height 0 there are none (at height 0
    /// femtovg may stop: docs/DIFFERENCES.md).
    pub fn cells(&mut self, size: [usize; 2], words: Vec<i32>) -> &[u8] {
        let [width, height] = size;
        if width * height == 0 {
            return &[];
        }
        MaskKey::of([width as u32, height as u32], words)
            .rasterize_into(&mut self.coverage, &mut self.mask);
        &self.mask
    }
}

fn check_sides(sizes: [[usize; 2]; 2]) -> Result<(), Refused> {
    if sizes.iter().flatten().any(|side| *side > 4096) {
        return Err(MASK_TOO_LARGE);
    }
    Ok(())
}

/// The answer to a laying-on, before anything is laid. `lent` is how many bytes of the mask, numbers of its ink and
/// bytes of the other mask there are.
pub fn check_laying(sizes: [[usize; 2]; 2], lent: [usize; 3]) -> Result<(), Refused> {
    check_sides(sizes)?;
    let ([size, other], [bytes, ink, other_bytes]) = (sizes, lent);
    if bytes < size[0] * size[1] || ink < 2 * size[1] || other_bytes < other[0] * other[1] {
        return Err(TOO_SHORT);
    }
    Ok(())
}

/// The same by corners.
pub fn check_placed(
    sizes: [[usize; 2]; 2],
    corners: [[i32; 2]; 2],
    lent: [usize; 3],
) -> Result<(), Refused> {
    check_sides(sizes)?;
    check_corner(corners[0])?;
    check_corner(corners[1])?;
    check_laying(sizes, lent)
}

/// Lays the other mask on a mask, where so many numbers are lent for its ink.
pub fn lay(
    mask: &mut [u8],
    ink: usize,
    size: [usize; 2],
    other: &[u8],
    other_size: [usize; 2],
    offset: [i32; 2],
) -> Result<(), Refused> {
    check_laying([size, other_size], [mask.len(), ink, other.len()])?;
    let cells = size[0] * size[1];
    if cells > 0 {
        coverage::intersect(&mut mask[..cells], size, other, other_size, offset);
    }
    Ok(())
}

fn check_corner(corner: [i32; 2]) -> Result<(), Refused> {
    let within = |number| (-1_048_576..=1_048_576).contains(number);
    if corner.iter().all(within) {
        Ok(())
    } else {
        Err(CORNER)
    }
}

/// Document 02, change 8: lays the other mask on a mask by their corners on the sheet. femtovg has no
/// corners and is given how far they lie apart.
pub fn lay_placed(
    mask: &mut [u8],
    ink: usize,
    size: [usize; 2],
    corner: [i32; 2],
    other: &[u8],
    other_size: [usize; 2],
    other_corner: [i32; 2],
) -> Result<(), Refused> {
    let (sizes, corners) = ([size, other_size], [corner, other_corner]);
    check_placed(sizes, corners, [mask.len(), ink, other.len()])?;
    let offset = [0, 1].map(|axis| {
        let apart = corner[axis] as i64 - other_corner[axis] as i64;
        i32::try_from(apart).expect("corners within their limits")
    });
    lay(mask, ink, size, other, other_size, offset)
}

// ---- boxes

fn check_outline(verbs: &[u8], positions: &[f32]) -> Result<(), Refused> {
    if verbs.len() > 256 {
        return Err(VERBS);
    }
    let mut needed = 0;
    for verb in verbs {
        needed += match verb {
            0 | 1 => 2,
            2 => 6,
            3..=5 => 0,
            _ => return Err(VERB),
        };
    }
    if needed != positions.len() {
        return Err(POSITIONS);
    }
    check_all(positions)
}

/// What an outline draws: one box, or a box that a rectangle cuts.
#[derive(Copy, Clone, Debug, PartialEq)]
pub enum Fitted {
    Whole(Outline11),
    Cut(Cut21),
}

pub fn fit(verbs: &[u8], positions: &[f32]) -> Result<Option<Box10>, Refused> {
    check_outline(verbs, positions)?;
    Ok(RoundedBox::fit(&path(verbs, positions)).map(floats))
}

pub fn fit_outline(verbs: &[u8], positions: &[f32]) -> Result<Option<Outline11>, Refused> {
    check_outline(verbs, positions)?;
    let fitted = RoundedBox::fit_outline(&path(verbs, positions));
    Ok(fitted.map(|(shape, strays)| outlined(shape, strays)))
}

pub fn fit_with_cut(verbs: &[u8], positions: &[f32]) -> Result<Option<Fitted>, Refused> {
    check_outline(verbs, positions)?;
    let fitted = RoundedBox::fit_with_cut(&path(verbs, positions));
    Ok(fitted.map(|(shape, strays, cut)| {
        let outline = outlined(shape, strays);
        cut.map_or(Fitted::Whole(outline), |cut| {
            Fitted::Cut(joined(&outline, &floats(cut)))
        })
    }))
}

fn outlined(shape: RoundedBox, strays: f32) -> Outline11 {
    joined(&floats(shape), &[strays])
}

/// Floats, and others behind them, so many in all.
fn joined<const N: usize>(one: &[f32], two: &[f32]) -> [f32; N] {
    let all = [one, two].concat();
    all.try_into().expect("so many")
}

/// The path of an outline without a fault.
pub(crate) fn path(verbs: &[u8], positions: &[f32]) -> Path {
    let mut path = Path::new();
    let mut numbers = positions.iter().copied();
    for verb in verbs {
        let mut next = || numbers.next().expect("checked");
        match verb {
            0 => path.move_to(next(), next()),
            1 => path.line_to(next(), next()),
            2 => path.bezier_to(next(), next(), next(), next(), next(), next()),
            3 => path.solidity(Solidity::Solid),
            4 => path.solidity(Solidity::Hole),
            _ => path.close(),
        }
    }
    path
}

pub fn transformed(b: Box10, frame: Frame) -> Result<Box10, Refused> {
    check_box(&b)?;
    check_all(&frame)?;
    Ok(floats(boxed(b).transformed(&Transform2D(frame))))
}

pub fn coverage(b: Box10, fringe: f32) -> Result<Option<Coverage11>, Refused> {
    check_box(&b)?;
    check(fringe)?;
    Ok(boxed(b).coverage(fringe).map(covered))
}

pub fn intersection(one: Box10, two: Box10, fringe: f32) -> Result<Option<Box10>, Refused> {
    check_pair(&one, &two, fringe)?;
    Ok(boxed(one).intersection(&boxed(two), fringe).map(floats))
}

pub fn rect_intersection(one: Box10, two: Box10) -> Result<Option<Box10>, Refused> {
    check_box(&one)?;
    check_box(&two)?;
    Ok(boxed(one).rect_intersection(&boxed(two)).map(floats))
}

pub fn parallel(one: Box10, two: Box10) -> Result<bool, Refused> {
    check_box(&one)?;
    check_box(&two)?;
    Ok(boxed(one).parallel(&boxed(two)))
}

pub fn bounds(b: Box10) -> Result<Bounds4, Refused> {
    check_box(&b)?;
    Ok(bounded(boxed(b).bounds()))
}

pub fn distance(c: Coverage11, point: [f32; 2]) -> Result<f32, Refused> {
    check_all(&point)?;
    Ok(covering(&c).distance(point))
}

pub fn contains(c: Coverage11, b: Box10) -> Result<bool, Refused> {
    check_box(&b)?;
    Ok(covering(&c).contains(&boxed(b)))
}

/// The most boxes of a list, since document 02's change 7.
const MOST_BOXES: usize = 4096;

/// Number 12, then 1 or 2 for each box in order.
pub fn check_boxes(boxes: &[Box10]) -> Result<(), Refused> {
    if boxes.len() > MOST_BOXES {
        return Err(BOXES);
    }
    boxes.iter().try_for_each(check_box)
}

/// The places of all boxes that hold a touch: at a distance of at most 0.5.
pub fn touched(boxes: &[Box10], fringe: f32, point: [f32; 2]) -> Result<Vec<usize>, Refused> {
    check_boxes(boxes)?;
    check(fringe)?;
    check_all(&point)?;
    let touches = |at: &usize| {
        let coverage = boxed(boxes[*at]).coverage(fringe);
        coverage.is_some_and(|coverage| coverage.distance(point) <= 0.5)
    };
    Ok((0..boxes.len()).filter(touches).collect())
}

/// Document 02, change 3: the lowest of these places.
pub fn touch(boxes: &[Box10], fringe: f32, point: [f32; 2]) -> Result<Option<usize>, Refused> {
    Ok(touched(boxes, fringe, point)?.first().copied())
}

/// How a list of boxes lies to a safe area.
#[derive(Copy, Clone, Debug, PartialEq, Eq)]
pub enum Inside {
    All,
    /// the lowest place whose box is not inside
    Not(usize),
    /// the safe area has no coverage
    NoBox,
}

/// The places of all boxes that the safe area's coverage does not contain, each tested by itself, if it has one.
pub fn outside(boxes: &[Box10], safe: Box10, fringe: f32) -> Result<Option<Vec<usize>>, Refused> {
    check_boxes(boxes)?;
    let Some(area) = coverage(safe, fringe)? else {
        return Ok(None);
    };
    let fails = |at: &usize| contains(area, boxes[*at]) != Ok(true);
    Ok(Some((0..boxes.len()).filter(fails).collect()))
}

/// Document 02, change 10.
pub fn inside(boxes: &[Box10], safe: Box10, fringe: f32) -> Result<Inside, Refused> {
    let outside = outside(boxes, safe, fringe)?;
    Ok(match outside.as_deref() {
        None => Inside::NoBox,
        Some([]) => Inside::All,
        Some([lowest, ..]) => Inside::Not(*lowest),
    })
}

// ---- scissors and fills

/// The box of a clip and a scissor, and its coverage.
pub type Both = (Box10, Coverage11);

/// What a rect that is filled under a clip is drawn as.
#[derive(Copy, Clone, Debug, PartialEq, Eq)]
pub enum Fill {
    Shared,
    Covered,
}

pub fn with_scissor(clip: Box10, scissor: Box10, fringe: f32) -> Result<Option<Both>, Refused> {
    check_pair(&clip, &scissor, fringe)?;
    let both = boxed(clip).with_scissor(&boxed(scissor), fringe);
    Ok(both.map(|(shape, coverage)| (floats(shape), covered(coverage))))
}

pub fn trimmed_scissor(clip: Box10, scissor: Box10, fringe: f32) -> Result<Option<Box10>, Refused> {
    check_pair(&clip, &scissor, fringe)?;
    let trimmed = boxed(clip).trimmed_scissor(&boxed(scissor), fringe);
    Ok(trimmed.map(floats))
}

pub fn rect_fill(clip: Box10, fill: Box10, fringe: f32) -> Result<Option<(Fill, Box10)>, Refused> {
    check_pair(&clip, &fill, fringe)?;
    let drawn = boxed(clip).rect_fill(&boxed(fill), fringe);
    Ok(drawn.map(|drawn| match drawn {
        RectFill::Shared(shape) => (Fill::Shared, floats(shape)),
        RectFill::Covered(shape) => (Fill::Covered, floats(shape)),
    }))
}

pub fn upright_rect(
    verbs: &[u8],
    positions: &[f32],
    frame: Frame,
) -> Result<Option<Box10>, Refused> {
    check_outline(verbs, positions)?;
    check_all(&frame)?;
    let path = path(verbs, positions);
    Ok(RoundedBox::upright_rect(&path, &Transform2D(frame)).map(floats))
}

pub fn reach(c: Coverage11) -> Option<Bounds4> {
    covering(&c).reach().map(bounded)
}

pub fn holds(c: Coverage11, bounds: Bounds4) -> bool {
    covering(&c).holds(&bounding(bounds))
}
