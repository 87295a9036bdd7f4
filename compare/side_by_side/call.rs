//! A call on boxes, put to both engines.
use crate::{
    lending::{answer, done, place, plain, Counted, Floats, Lending},
    library,
    random::Random,
};
use femtovg::calls::{self, Bounds4, Box10, Coverage11, Fill, Fitted, Frame, Inside, Refused};
use std::fmt;

pub enum Call {
    Fit {
        verbs: Vec<u8>,
        positions: Vec<f32>,
    },
    FitOutline {
        verbs: Vec<u8>,
        positions: Vec<f32>,
    },
    FitWithCut {
        verbs: Vec<u8>,
        positions: Vec<f32>,
    },
    Transformed {
        one: Box10,
        frame: Frame,
    },
    Intersection {
        one: Box10,
        two: Box10,
        fringe: f32,
    },
    RectIntersection {
        one: Box10,
        two: Box10,
    },
    Coverage {
        one: Box10,
        fringe: f32,
    },
    Parallel {
        one: Box10,
        two: Box10,
    },
    Contains {
        coverage: Coverage11,
        one: Box10,
    },
    Bounds {
        one: Box10,
    },
    Distance {
        coverage: Coverage11,
        point: [f32; 2],
    },
    Touch {
        boxes: Vec<Box10>,
        fringe: f32,
        point: [f32; 2],
    },
    Inside {
        boxes: Vec<Box10>,
        safe: Box10,
        fringe: f32,
    },
    WithScissor {
        one: Box10,
        two: Box10,
        fringe: f32,
    },
    TrimmedScissor {
        one: Box10,
        two: Box10,
        fringe: f32,
    },
    RectFill {
        one: Box10,
        two: Box10,
        fringe: f32,
    },
    UprightRect {
        verbs: Vec<u8>,
        positions: Vec<f32>,
        frame: Frame,
    },
    Reach {
        coverage: Coverage11,
    },
    Holds {
        coverage: Coverage11,
        bounds: Bounds4,
    },
}

/// The call as a line of a call list.
impl fmt::Display for Call {
    fn fmt(&self, f: &mut fmt::Formatter) -> fmt::Result {
        write!(f, "{}", self.kind())?;
        if let Some((verbs, positions)) = self.outline() {
            write!(f, " {}", verbs.len())?;
            verbs.iter().try_for_each(|verb| write!(f, " {verb}"))?;
            write!(f, " {}", positions.len())?;
        }
        if let Call::Touch { boxes, .. } | Call::Inside { boxes, .. } = self {
            write!(f, " {}", boxes.len())?;
        }
        write!(f, "{}", Floats(&self.floats()))
    }
}

impl Call {
    pub fn kind(&self) -> &'static str {
        match self {
            Call::Fit { .. } => "fit",
            Call::FitOutline { .. } => "fit_outline",
            Call::FitWithCut { .. } => "fit_with_cut",
            Call::Transformed { .. } => "transformed",
            Call::Intersection { .. } => "intersection",
            Call::RectIntersection { .. } => "rect_intersection",
            Call::Coverage { .. } => "coverage",
            Call::Parallel { .. } => "parallel",
            Call::Contains { .. } => "contains",
            Call::Bounds { .. } => "bounds",
            Call::Distance { .. } => "distance",
            Call::Touch { .. } => "touch",
            Call::Inside { .. } => "inside",
            Call::WithScissor { .. } => "with_scissor",
            Call::TrimmedScissor { .. } => "trimmed_scissor",
            Call::RectFill { .. } => "rect_fill",
            Call::UprightRect { .. } => "upright_rect",
            Call::Reach { .. } => "reach",
            Call::Holds { .. } => "holds",
        }
    }

    /// The verbs and positions of a call on an outline.
    pub fn outline(&self) -> Option<(&[u8], &[f32])> {
        match self {
            Call::Fit { verbs, positions }
            | Call::FitOutline { verbs, positions }
            | Call::FitWithCut { verbs, positions }
            | Call::UprightRect {
                verbs, positions, ..
            } => Some((verbs, positions)),
            _ => None,
        }
    }

    /// Its floats, in the order in which they stand in a line.
    fn floats(&self) -> Vec<f32> {
        match self {
            Call::Fit { positions, .. }
            | Call::FitOutline { positions, .. }
            | Call::FitWithCut { positions, .. } => positions.clone(),
            Call::UprightRect {
                positions, frame, ..
            } => [&positions[..], frame].concat(),
            Call::Transformed { one, frame } => [&one[..], frame].concat(),
            Call::Intersection { one, two, fringe }
            | Call::WithScissor { one, two, fringe }
            | Call::TrimmedScissor { one, two, fringe }
            | Call::RectFill { one, two, fringe } => [&one[..], two, &[*fringe]].concat(),
            Call::RectIntersection { one, two } | Call::Parallel { one, two } => {
                [&one[..], two].concat()
            }
            Call::Coverage { one, fringe } => [&one[..], &[*fringe]].concat(),
            Call::Contains { coverage, one } => [&coverage[..], one].concat(),
            Call::Bounds { one } => one.to_vec(),
            Call::Distance { coverage, point } => [&coverage[..], point].concat(),
            Call::Touch {
                boxes,
                fringe,
                point,
            } => [&boxes.concat()[..], &[*fringe], point].concat(),
            Call::Inside {
                boxes,
                safe,
                fringe,
            } => [&boxes.concat()[..], safe, &[*fringe]].concat(),
            Call::Reach { coverage } => coverage.to_vec(),
            Call::Holds { coverage, bounds } => [&coverage[..], bounds].concat(),
        }
    }

    /// The answer of both engines, or how they differ.
    pub fn compare(&self, random: &mut Random) -> Compared {
        let lending = Lending(random);
        match self {
            Call::Fit { verbs, positions } => fit(lending, verbs, positions),
            Call::FitOutline { verbs, positions } => fit_outline(lending, verbs, positions),
            Call::FitWithCut { verbs, positions } => fit_with_cut(lending, verbs, positions),
            Call::Transformed { one, frame } => transformed(lending, one, frame),
            Call::Intersection { one, two, fringe } => intersection(lending, one, two, *fringe),
            Call::RectIntersection { one, two } => rect_intersection(lending, one, two),
            Call::Coverage { one, fringe } => coverage_of(lending, one, *fringe),
            Call::Parallel { one, two } => parallel(lending, one, two),
            Call::Contains { coverage, one } => contains(lending, coverage, one),
            Call::Bounds { one } => bounds(lending, one),
            Call::Distance { coverage, point } => distance(lending, coverage, *point),
            Call::Touch {
                boxes,
                fringe,
                point,
            } => touch(lending, boxes, *fringe, *point),
            Call::Inside {
                boxes,
                safe,
                fringe,
            } => {
                let old = calls::inside(boxes, *safe, *fringe);
                inside(lending, old, boxes, safe, *fringe)
            }
            Call::WithScissor { one, two, fringe } => with_scissor(lending, one, two, *fringe),
            Call::TrimmedScissor { one, two, fringe } => {
                trimmed_scissor(lending, one, two, *fringe)
            }
            Call::RectFill { one, two, fringe } => rect_fill(lending, one, two, *fringe),
            Call::UprightRect {
                verbs,
                positions,
                frame,
            } => upright_rect(lending, verbs, positions, frame),
            Call::Reach { coverage } => reach(lending, coverage),
            Call::Holds { coverage, bounds } => holds(lending, coverage, bounds),
        }
    }
}

/// The number that both engines answer, or how they differ.
pub type Compared = Result<u8, String>;

fn fit(lending: Lending, verbs: &[u8], positions: &[f32]) -> Compared {
    let old = done(calls::fit(verbs, positions));
    lending.written(old, [10], [], |[], [out]| {
        library::fit(verbs, positions, out)
    })
}

fn fit_outline(lending: Lending, verbs: &[u8], positions: &[f32]) -> Compared {
    let old = done(calls::fit_outline(verbs, positions));
    lending.written(old, [11], [], |[], [out]| {
        library::fit_outline(verbs, positions, out)
    })
}

/// A whole outline writes 11 of the 21 floats that are lent for it.
fn fit_with_cut(lending: Lending, verbs: &[u8], positions: &[f32]) -> Compared {
    let old = answer(
        calls::fit_with_cut(verbs, positions),
        |fitted| match fitted {
            Fitted::Whole(floats) => (library::DONE, [floats.to_vec()]),
            Fitted::Cut(floats) => (library::CUT, [floats.to_vec()]),
        },
    );
    lending.written(old, [21], [], |[], [out]| {
        library::fit_with_cut(verbs, positions, out)
    })
}

fn transformed(lending: Lending, one: &Box10, frame: &Frame) -> Compared {
    let old = done(calls::transformed(*one, *frame).map(Some));
    lending.written(old, [10], [one, frame], |[one, frame], [out]| {
        library::transformed(one, frame, out)
    })
}

fn intersection(lending: Lending, one: &Box10, two: &Box10, fringe: f32) -> Compared {
    let old = done(calls::intersection(*one, *two, fringe));
    lending.written(old, [10], [one, two], |[one, two], [out]| {
        library::intersection(one, two, fringe, out)
    })
}

fn rect_intersection(lending: Lending, one: &Box10, two: &Box10) -> Compared {
    let old = done(calls::rect_intersection(*one, *two));
    lending.written(old, [10], [one, two], |[one, two], [out]| {
        library::rect_intersection(one, two, out)
    })
}

fn coverage_of(lending: Lending, one: &Box10, fringe: f32) -> Compared {
    let old = done(calls::coverage(*one, fringe));
    lending.written(old, [11], [one], |[one], [out]| {
        library::coverage(one, fringe, out)
    })
}

fn parallel(lending: Lending, one: &Box10, two: &Box10) -> Compared {
    let old = calls::parallel(*one, *two);
    lending.tested(old, [one, two], |[one, two]| library::parallel(one, two))
}

fn contains(lending: Lending, coverage: &Coverage11, one: &Box10) -> Compared {
    let old = calls::contains(*coverage, *one);
    lending.tested(old, [coverage, one], |[coverage, one]| {
        library::contains(coverage, one)
    })
}

fn bounds(lending: Lending, one: &Box10) -> Compared {
    let old = done(calls::bounds(*one).map(Some));
    lending.written(old, [4], [one], |[one], [out]| library::bounds(one, out))
}

fn distance(lending: Lending, coverage: &Coverage11, point: [f32; 2]) -> Compared {
    let old = done(calls::distance(*coverage, point).map(|distance| Some([distance])));
    lending.written(old, [1], [coverage], |[coverage], [out]| {
        library::distance(coverage, point, out)
    })
}

fn touch(lending: Lending, boxes: &[Box10], fringe: f32, point: [f32; 2]) -> Compared {
    let old = match calls::touch(boxes, fringe, point) {
        Ok(Some(at)) => place(at),
        Ok(None) => plain(library::NO_FRAME),
        Err(number) => plain(number),
    };
    lending.listed(old, boxes, [], |boxes, []| {
        library::touch(boxes, fringe, point)
    })
}

fn placed(old: Result<Inside, Refused>) -> Counted {
    match old {
        Ok(Inside::All) => plain(library::YES),
        Ok(Inside::Not(at)) => place(at),
        Ok(Inside::NoBox) => plain(library::NONE),
        Err(number) => plain(number),
    }
}

/// Compares the library's answer with this one.
pub fn inside(
    lending: Lending,
    old: Result<Inside, Refused>,
    boxes: &[Box10],
    safe: &Box10,
    fringe: f32,
) -> Compared {
    lending.listed(placed(old), boxes, [safe], |boxes, [safe]| {
        library::inside(boxes, safe, fringe)
    })
}

fn with_scissor(lending: Lending, one: &Box10, two: &Box10, fringe: f32) -> Compared {
    let old = answer(
        calls::with_scissor(*one, *two, fringe),
        |(shape, coverage)| (library::DONE, [shape.to_vec(), coverage.to_vec()]),
    );
    lending.written(old, [10, 11], [one, two], |[one, two], [out, coverage]| {
        library::with_scissor(one, two, fringe, out, coverage)
    })
}

fn trimmed_scissor(lending: Lending, one: &Box10, two: &Box10, fringe: f32) -> Compared {
    let old = done(calls::trimmed_scissor(*one, *two, fringe));
    lending.written(old, [10], [one, two], |[one, two], [out]| {
        library::trimmed_scissor(one, two, fringe, out)
    })
}

fn rect_fill(lending: Lending, one: &Box10, two: &Box10, fringe: f32) -> Compared {
    let number = |fill| match fill {
        Fill::Shared => library::SHARED,
        Fill::Covered => library::COVERED,
    };
    let old = answer(calls::rect_fill(*one, *two, fringe), |(fill, shape)| {
        (number(fill), [shape.to_vec()])
    });
    lending.written(old, [10], [one, two], |[one, two], [out]| {
        library::rect_fill(one, two, fringe, out)
    })
}

fn upright_rect(lending: Lending, verbs: &[u8], positions: &[f32], frame: &Frame) -> Compared {
    let old = done(calls::upright_rect(verbs, positions, *frame));
    lending.written(old, [10], [frame], |[frame], [out]| {
        library::upright_rect(verbs, positions, frame, out)
    })
}

fn reach(lending: Lending, coverage: &Coverage11) -> Compared {
    let old = done(Ok(calls::reach(*coverage)));
    lending.written(old, [4], [coverage], |[coverage], [out]| {
        library::reach(coverage, out)
    })
}

fn holds(lending: Lending, coverage: &Coverage11, bounds: &Bounds4) -> Compared {
    let old = Ok(calls::holds(*coverage, *bounds));
    lending.tested(old, [coverage, bounds], |[coverage, bounds]| {
        library::holds(coverage, bounds)
    })
}
