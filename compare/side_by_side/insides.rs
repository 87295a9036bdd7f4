//! Random and hostile lists of boxes in a safe area.
use crate::{
    boxes::{beside, fringe, radius, LIMIT},
    call::Call,
    random::Random,
    scissors::nudged,
    touches::{before_fault, length, proper, sheet_length, spoil, spoil_some},
};
use femtovg::calls::{self, Box10, Inside};

/// Fringes that are refused.
const REFUSED: [f32; 4] = [f32::NAN, f32::INFINITY, -f32::INFINITY, 2.0 * LIMIT];

/// A fringe: at times one that is refused, or at which distances are hardly numbers.
fn width(random: &mut Random) -> f32 {
    match random.below(40) {
        0 => random.pick(&REFUSED),
        1 => random.pick(&[1e-45, 1e-40, 1e-36, 1e-30, LIMIT, -LIMIT]),
        _ => fringe(random),
    }
}

/// A safe area, three times in four one with a coverage, if such is found soon.
fn area(random: &mut Random, fringe: f32) -> Box10 {
    let mut safe = proper(random);
    for _ in 0..random.pick(&[0, 20, 20, 20]) {
        if matches!(calls::coverage(safe, fringe), Ok(Some(_))) {
            break;
        }
        safe = proper(random);
    }
    safe
}

fn holds(safe: Box10, fringe: f32, one: Box10) -> bool {
    calls::inside(&[one], safe, fringe) == Ok(Inside::All)
}

/// The axes of a safe area turned by an angle, by its own measure.
fn turned([a, b, c, d, ..]: Box10, angle: f32) -> [f32; 4] {
    let (sin, cos) = angle.sin_cos();
    [
        cos * a + sin * c,
        cos * b + sin * d,
        cos * c - sin * a,
        cos * d - sin * b,
    ]
}

/// A box in a safe area's sides: along them or turned, of any part of its size, scaled at times, round or square.
fn within(random: &mut Random, safe: Box10) -> Box10 {
    let [.., x, y, width, height, _, _] = safe;
    let mut halves = [width, height].map(|half| half * random.pick(&[1.0, 0.5, 0.25, 0.75]));
    let mut reach = halves;
    let mut angle = 0.0;
    if random.one_in(3) {
        angle = random.float(-3.2, 3.2);
        halves = [0; 2].map(|_| random.float(0.0, 0.5) * width.min(height));
        reach = [halves[0] + halves[1]; 2];
    }
    let along = random.float(-1.0, 1.0) * (width - reach[0]);
    let across = random.float(-1.0, 1.0) * (height - reach[1]);
    let [a, b, c, d, ..] = safe;
    let [x, y] = [x + a * along + c * across, y + b * along + d * across];
    let scale = random.pick(&[1.0, 1.0, 1.0, 2.0, 0.5, -1.0]);
    let [a, b, c, d] = turned(safe, angle).map(|axis| axis * scale);
    let [width, height] = halves.map(|half| half / scale.abs());
    let [rx, ry] = [radius(random, width), radius(random, height)];
    [a, b, c, d, x, y, width, height, rx, ry]
}

/// A box that the safe area contains by its Rust, if one is found soon.
fn inner(random: &mut Random, safe: Box10, fringe: f32) -> Box10 {
    let mut one = within(random, safe);
    for _ in 0..8 {
        if holds(safe, fringe, one) {
            break;
        }
        one = within(random, safe);
    }
    calls::bounds(one).map_or(safe, |_| one)
}

/// Of the boxes on the way out of a safe area, moved or grown, the last that it contains by its Rust, or the first
/// that it does not.
fn at_edge(random: &mut Random, safe: Box10, fringe: f32) -> Box10 {
    let one = inner(random, safe, fringe);
    let [a, b, c, d, _, _, width, height, ..] = safe;
    let along = random.float(-1.0, 1.0) * width;
    let across = random.float(-1.0, 1.0) * height;
    let grows = random.one_in(2);
    let out = |t: f32| {
        let mut out = one;
        if grows {
            out[6] += t * along.abs();
            out[7] += t * across.abs();
        } else {
            out[4] += t * (a * along + c * across);
            out[5] += t * (b * along + d * across);
        }
        out
    };
    let (mut last, mut first) = (0.0, 8.0);
    for _ in 0..40 {
        let middle = 0.5 * (last + first);
        if holds(safe, fringe, out(middle)) {
            last = middle;
        } else {
            first = middle;
        }
    }
    out(random.pick(&[last, first]))
}

/// The safe area, larger by some part of a fringe width: by a half it is still inside.
fn grown(random: &mut Random, safe: Box10, fringe: f32) -> Box10 {
    let [a, b, c, d, ..] = safe;
    let part = random.pick(&[0.5, 0.5, 0.5, 0.0, 0.25, 1.0, -0.5]);
    let mut one = safe;
    for (side, axis) in [(6, a.hypot(b)), (7, c.hypot(d))] {
        one[side] = nudged(random, safe[side] + part * fringe / axis);
    }
    one
}

/// A box of which it is open whether the safe area contains it.
fn doubtful(random: &mut Random, safe: Box10, fringe: f32) -> Box10 {
    let one = match random.below(8) {
        0..=3 => at_edge(random, safe, fringe),
        4 | 5 => grown(random, safe, fringe),
        6 => beside(random, safe),
        _ => proper(random),
    };
    calls::bounds(one).map_or(safe, |_| one)
}

/// A few kinds of boxes that the safe area contains by its Rust, if any are found.
fn kinds(random: &mut Random, safe: Box10, fringe: f32) -> Vec<Box10> {
    let mut kinds = vec![safe];
    kinds.extend((0..8).map(|_| inner(random, safe, fringe)));
    if kinds.iter().any(|one| holds(safe, fringe, *one)) {
        kinds.retain(|one| holds(safe, fringe, *one));
    }
    kinds
}

/// A few kinds of boxes inside, and at a few places, at times of the second half alone, one that may not be; or boxes
/// anywhere. One list in twelve is long.
fn boxes(random: &mut Random, safe: Box10, fringe: f32) -> Vec<Box10> {
    if random.one_in(10) {
        return (0..length(random)).map(|_| proper(random)).collect();
    }
    let n = if random.one_in(12) {
        sheet_length(random)
    } else {
        length(random)
    };
    let kinds = kinds(random, safe, fringe);
    let mut boxes: Vec<Box10> = (0..n).map(|_| random.pick(&kinds)).collect();
    let behind = &mut boxes[random.pick(&[0, n / 2])..];
    if !behind.is_empty() {
        for _ in 0..random.pick(&[0, 1, 1, 2, 4]) {
            behind[random.below(behind.len())] = doubtful(random, safe, fringe);
        }
    }
    boxes
}

/// Makes a box behind the lowest place that is not inside one that is likely refused.
fn spoil_behind(random: &mut Random, boxes: &mut [Box10], safe: Box10, fringe: f32) {
    if let Ok(Inside::Not(place)) = calls::inside(boxes, safe, fringe) {
        let behind = boxes.get_mut(place + 1..).unwrap_or_default();
        if !behind.is_empty() {
            let at = random.below(behind.len());
            spoil(random, &mut behind[at]);
        }
    }
}

pub fn list(random: &mut Random) -> Call {
    let mut fringe = width(random);
    let mut safe = area(random, fringe);
    let mut boxes = boxes(random, safe, fringe);
    if random.one_in(8) {
        spoil_behind(random, &mut boxes, safe, fringe);
    }
    spoil_some(random, &mut boxes);
    if random.one_in(10) {
        spoil(random, &mut safe);
        if random.one_in(3) {
            fringe = random.pick(&REFUSED);
        }
    }
    Call::Inside {
        boxes,
        safe,
        fringe,
    }
}

/// What is counted of these lists.
#[derive(Default)]
pub struct Counts {
    /// lists of boxes that are all inside, and those of at least ten
    all: u64,
    ten: u64,
    /// lists that name place 0, one up to 255, and a later one
    first: u64,
    later: u64,
    past_byte: u64,
    /// lists in which at least two boxes are not inside
    several: u64,
    /// empty lists with a coverage, and without one
    empty: u64,
    empty_none: u64,
    /// refused lists in which a box before the first at fault is not inside
    behind: u64,
    /// lists of more than 256 boxes
    long: u64,
}

impl Counts {
    pub fn count(&mut self, call: &Call) {
        let Call::Inside {
            boxes,
            safe,
            fringe,
        } = call
        else {
            return;
        };
        self.long += (boxes.len() > 256) as u64;
        match calls::outside(boxes, *safe, *fringe) {
            Ok(Some(places)) => self.count_places(boxes.len(), &places),
            Ok(None) => self.empty_none += boxes.is_empty() as u64,
            Err(_) => {
                let before = before_fault(boxes).unwrap_or_default();
                let answer = calls::inside(before, *safe, *fringe);
                self.behind += matches!(answer, Ok(Inside::Not(_))) as u64;
            }
        }
    }

    /// A list of so many boxes, of which those at these places are not inside.
    fn count_places(&mut self, boxes: usize, places: &[usize]) {
        match places.first() {
            None if boxes == 0 => self.empty += 1,
            None => self.all += 1,
            Some(0) => self.first += 1,
            Some(1..=255) => self.later += 1,
            Some(_) => self.past_byte += 1,
        }
        self.ten += (boxes >= 10 && places.is_empty()) as u64;
        self.several += (places.len() >= 2) as u64;
    }

    pub fn show(&self) {
        let Counts {
            all,
            ten,
            first,
            later,
            past_byte,
            several,
            empty,
            empty_none,
            behind,
            long,
        } = self;
        println!(
            "lists in a safe area, of more than 256 boxes: {long}; all inside: {all} (ten or more boxes: {ten}); place 0: {first}, 1 to 255: {later}, more than 255: {past_byte}; several not inside: {several}"
        );
        println!(
            "empty lists in a safe area: {empty}, without a coverage {empty_none}; refused behind a box that is not inside: {behind}"
        );
    }
}

#[cfg(test)]
mod tests {
    use super::*;
    use crate::{call, lending::Lending, library};
    use femtovg::calls::Refused;
    use std::collections::BTreeMap;

    fn square(extent: f32) -> Box10 {
        [1.0, 0.0, 0.0, 1.0, 0.0, 0.0, extent, extent, 0.0, 0.0]
    }

    fn at_fault() -> [Box10; 2] {
        let [mut improper, mut no_number] = [square(4.0); 2];
        (improper[6], no_number[0]) = (-1.0, f32::NAN);
        [improper, no_number]
    }

    #[test]
    fn lines() {
        let call = Call::Inside {
            boxes: vec![square(4.0)],
            safe: square(2.0),
            fringe: 0.5,
        };
        let linear = "3f800000 00000000 00000000 3f800000 00000000 00000000";
        let one = format!("{linear} 40800000 40800000 00000000 00000000");
        let safe = format!("{linear} 40000000 40000000 00000000 00000000");
        assert!(call.to_string() == format!("inside 1 {one} {safe} 3f000000"));
    }

    /// Document 02, change 10: no coverage before the list's answer.
    #[test]
    fn no_box_whatever_the_list() {
        let [thin, four, large] = [0.4375, 4.0, 9.0].map(square);
        for boxes in [&[][..], &[four], &[large], &[large, four]] {
            assert!(calls::inside(boxes, thin, 1.0) == Ok(Inside::NoBox));
            assert!(calls::inside(boxes, four, 0.0) == Ok(Inside::NoBox));
            assert!(calls::inside(boxes, four, -1.0) == Ok(Inside::NoBox));
        }
        assert!(calls::inside(&[], four, 1.0) == Ok(Inside::All));
        // a coverage of infinities, whose distances are NaN
        assert!(calls::inside(&[], four, 1e-45) == Ok(Inside::All));
        assert!(calls::inside(&[four], four, 1e-45) == Ok(Inside::Not(0)));
    }

    #[test]
    fn the_lowest_place() {
        let [four, half, past, large] = [4.0, 4.5, 4.500_000_5, 5.0].map(square);
        let place = |boxes: &[Box10]| calls::inside(boxes, four, 1.0);
        assert!(place(&[four, half]) == Ok(Inside::All));
        assert!(place(&[past]) == Ok(Inside::Not(0)));
        assert!(place(&[four, large, four, large]) == Ok(Inside::Not(1)));
        let mut boxes = vec![four; 4096];
        boxes[4095] = large;
        assert!(place(&boxes) == Ok(Inside::Not(4095)));
    }

    #[test]
    fn refusals_in_their_order() {
        let (four, large) = (square(4.0), square(9.0));
        let [improper, no_number] = at_fault();
        assert!(calls::inside(&[no_number; 4097], improper, f32::NAN) == Err(12));
        assert!(calls::inside(&[large, improper], four, 1.0) == Err(2));
        assert!(calls::inside(&[large, improper, no_number], four, 0.0) == Err(2));
        assert!(calls::inside(&[no_number], improper, 1.0) == Err(1));
        assert!(calls::inside(&[improper], no_number, 1.0) == Err(2));
        assert!(calls::inside(&[four], improper, f32::NAN) == Err(2));
        assert!(calls::inside(&[four], four, f32::NAN) == Err(1));
        assert!(calls::inside(&[], square(0.0), 2.0 * LIMIT) == Err(1));
    }

    /// So many lists, each with what is to be done with it.
    fn lists(n: usize, mut each: impl FnMut(&[Box10], Box10, f32, &mut Random)) {
        let random = &mut Random::new(1);
        for _ in 0..n {
            let Call::Inside {
                boxes,
                safe,
                fringe,
            } = list(random)
            else {
                panic!("another call")
            };
            each(&boxes, safe, fringe, random);
        }
    }

    type Reference = fn(&[Box10], Box10, f32) -> Result<Inside, Refused>;

    /// The number of each list, with how many differ from this answer counted as 255.
    fn compared(reference: Reference) -> BTreeMap<u8, u64> {
        let mut numbers = BTreeMap::new();
        lists(4000, |boxes, safe, fringe, random| {
            let answer = reference(boxes, safe, fringe);
            let compared = call::inside(Lending(random), answer, boxes, &safe, fringe);
            *numbers.entry(compared.unwrap_or(255)).or_default() += 1;
        });
        numbers
    }

    #[test]
    fn each_outcome_is_frequent() {
        let numbers = compared(calls::inside);
        let least = [
            (library::YES, 800),
            (library::DONE, 800),
            (library::NONE, 300),
            (1, 200),
            (2, 200),
            (library::TOO_SHORT, 50),
            (12, 10),
        ];
        for (number, least) in least {
            assert!(numbers[&number] >= least, "{numbers:?}");
        }
        assert!(numbers.len() == least.len(), "{numbers:?}");
    }

    #[test]
    fn each_kind_of_place_is_frequent() {
        let (random, mut counts) = (&mut Random::new(1), Counts::default());
        (0..4000).for_each(|_| counts.count(&list(random)));
        assert!(counts.ten > 20 && counts.first > 200 && counts.later > 200);
        assert!(counts.several > 200 && counts.behind > 100);
        assert!(counts.empty > 50 && counts.empty_none > 20);
        assert!(counts.long > 150 && 8 * counts.past_byte > counts.long);
    }

    /// Whether the answer is another for a safe area a 1,000th larger or smaller.
    #[test]
    fn many_are_nearly_inside() {
        let (mut near, mut all) = (0, 0);
        lists(2000, |boxes, safe, fringe, _| {
            let answer = calls::inside(boxes, safe, fringe);
            let changed = |by: &f32| {
                let mut other = safe;
                other[6..].iter_mut().for_each(|length| *length *= by);
                let other = calls::inside(boxes, other, fringe);
                other.is_ok() && other != answer
            };
            near += (answer.is_ok() && [0.999, 1.001].iter().any(changed)) as u64;
            all += answer.is_ok() as u64;
        });
        assert!(4 * near > all, "{near} of {all}");
    }

    // ---- the answer made wrong

    fn all_inside_untried(boxes: &[Box10], safe: Box10, fringe: f32) -> Result<Inside, Refused> {
        Ok(match calls::inside(boxes, safe, fringe)? {
            Inside::Not(_) => Inside::All,
            answer => answer,
        })
    }

    fn empty_list_before_no_box(
        boxes: &[Box10],
        safe: Box10,
        fringe: f32,
    ) -> Result<Inside, Refused> {
        Ok(match calls::inside(boxes, safe, fringe)? {
            Inside::NoBox if boxes.is_empty() => Inside::All,
            answer => answer,
        })
    }

    fn place_before_no_box(boxes: &[Box10], safe: Box10, fringe: f32) -> Result<Inside, Refused> {
        Ok(match calls::inside(boxes, safe, fringe)? {
            Inside::NoBox if !boxes.is_empty() => Inside::Not(0),
            answer => answer,
        })
    }

    fn last_place(boxes: &[Box10], safe: Box10, fringe: f32) -> Result<Inside, Refused> {
        let places = calls::outside(boxes, safe, fringe)?;
        Ok(places.map_or(Inside::NoBox, |places| {
            places.last().map_or(Inside::All, |at| Inside::Not(*at))
        }))
    }

    fn safe_area_first(boxes: &[Box10], safe: Box10, fringe: f32) -> Result<Inside, Refused> {
        calls::bounds(safe)?;
        calls::inside(boxes, safe, fringe)
    }

    fn fringe_before_safe_area(
        boxes: &[Box10],
        safe: Box10,
        fringe: f32,
    ) -> Result<Inside, Refused> {
        calls::inside(boxes, square(4.0), fringe)?;
        calls::inside(boxes, safe, fringe)
    }

    fn no_box_before_refusals(
        boxes: &[Box10],
        safe: Box10,
        fringe: f32,
    ) -> Result<Inside, Refused> {
        if calls::coverage(safe, fringe) == Ok(None) {
            return Ok(Inside::NoBox);
        }
        calls::inside(boxes, safe, fringe)
    }

    /// Whether the safe area is touched at a box's centre.
    fn touch_for_contains(boxes: &[Box10], safe: Box10, fringe: f32) -> Result<Inside, Refused> {
        let answer = calls::inside(boxes, safe, fringe)?;
        if answer == Inside::NoBox {
            return Ok(answer);
        }
        let missed = |one: &Box10| calls::touch(&[safe], fringe, [one[4], one[5]]) != Ok(Some(0));
        let place = boxes.iter().position(missed);
        Ok(place.map_or(Inside::All, Inside::Not))
    }

    /// A list read up to its lowest place that is not inside.
    fn fault_passed_over(boxes: &[Box10], safe: Box10, fringe: f32) -> Result<Inside, Refused> {
        let before = before_fault(boxes).unwrap_or_default();
        match calls::inside(before, safe, fringe) {
            Ok(Inside::Not(at)) if boxes.len() <= 4096 => Ok(Inside::Not(at)),
            _ => calls::inside(boxes, safe, fringe),
        }
    }

    fn counted_from_1(boxes: &[Box10], safe: Box10, fringe: f32) -> Result<Inside, Refused> {
        Ok(match calls::inside(boxes, safe, fringe)? {
            Inside::Not(at) => Inside::Not(at + 1),
            answer => answer,
        })
    }

    fn modulo_256(boxes: &[Box10], safe: Box10, fringe: f32) -> Result<Inside, Refused> {
        Ok(match calls::inside(boxes, safe, fringe)? {
            Inside::Not(at) => Inside::Not(at % 256),
            answer => answer,
        })
    }

    #[test]
    fn wrong_answers_are_noticed() {
        let wrong: [(&str, Reference); 11] = [
            ("all inside untried", all_inside_untried),
            ("an empty list before no box", empty_list_before_no_box),
            ("a place before no box", place_before_no_box),
            ("the last place", last_place),
            ("the safe area first", safe_area_first),
            ("the fringe before the safe area", fringe_before_safe_area),
            ("no box before refusals", no_box_before_refusals),
            ("touch for contains", touch_for_contains),
            ("a fault passed over", fault_passed_over),
            ("places counted from 1", counted_from_1),
            ("places modulo 256", modulo_256),
        ];
        for (name, reference) in wrong {
            let differ = compared(reference).remove(&255).unwrap_or(0);
            assert!(differ >= 10, "{name}: {differ}");
        }
    }
}
