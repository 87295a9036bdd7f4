//! femtovg's own calls, without document 01's refusals, for timing.
use crate::{
    calls::{bounding, boxed, covering, path, Bounds4, Box10, Coverage11, Frame},
    clip::{
        coverage::Coverage,
        mask::MaskKey,
        shape::{ClipCoverage, RoundedBox},
    },
    geometry::Transform2D,
    Path,
};
use std::hint::black_box;

/// A drawing's key, as the engine keeps it.
pub struct Key(MaskKey);

/// What the engine keeps between drawings.
#[derive(Default)]
pub struct Scratch {
    coverage: Coverage,
    mask: Vec<u8>,
}

impl Key {
    pub fn new(size: [usize; 2], words: Vec<i32>) -> Self {
        Self(MaskKey::of(size.map(|cells| cells as u32), words))
    }

    pub fn draw<'a>(&self, scratch: &'a mut Scratch) -> &'a [u8] {
        self.0
            .rasterize_into(&mut scratch.coverage, &mut scratch.mask);
        &scratch.mask
    }
}

pub struct Shape(RoundedBox);
pub struct Covering(ClipCoverage);
pub struct Outline(Path);

impl Shape {
    pub fn new(floats: Box10) -> Self {
        Self(boxed(floats))
    }

    pub fn transformed(&self, frame: Frame) {
        black_box(black_box(&self.0).transformed(&Transform2D(frame)));
    }

    pub fn coverage(&self, fringe: f32) {
        black_box(black_box(&self.0).coverage(fringe));
    }

    pub fn intersection(&self, other: &Shape, fringe: f32) {
        black_box(black_box(&self.0).intersection(&other.0, fringe));
    }

    pub fn rect_intersection(&self, other: &Shape) {
        black_box(black_box(&self.0).rect_intersection(&other.0));
    }

    pub fn parallel(&self, other: &Shape) {
        black_box(black_box(&self.0).parallel(&other.0));
    }

    pub fn bounds(&self) {
        black_box(black_box(&self.0).bounds());
    }

    pub fn with_scissor(&self, scissor: &Shape, fringe: f32) {
        black_box(black_box(&self.0).with_scissor(&scissor.0, fringe));
    }

    pub fn trimmed_scissor(&self, scissor: &Shape, fringe: f32) {
        black_box(black_box(&self.0).trimmed_scissor(&scissor.0, fringe));
    }

    pub fn rect_fill(&self, fill: &Shape, fringe: f32) {
        black_box(black_box(&self.0).rect_fill(&fill.0, fringe));
    }

    pub fn covering(&self, fringe: f32) -> Option<Covering> {
        black_box(&self.0).coverage(fringe).map(Covering)
    }

    /// femtovg has no touch: its coverage, then its distance.
    pub fn touches(&self, fringe: f32, point: [f32; 2]) -> bool {
        let coverage = black_box(&self.0).coverage(fringe);
        coverage.is_some_and(|coverage| coverage.distance(point) <= 0.5)
    }
}

impl Covering {
    pub fn new(floats: &Coverage11) -> Self {
        Self(covering(floats))
    }

    pub fn distance(&self, point: [f32; 2]) {
        black_box(black_box(&self.0).distance(point));
    }

    pub fn contains(&self, shape: &Shape) -> bool {
        black_box(&self.0).contains(&shape.0)
    }

    pub fn reach(&self) {
        black_box(black_box(&self.0).reach());
    }

    pub fn holds(&self, bounds: Bounds4) {
        black_box(black_box(&self.0).holds(&bounding(bounds)));
    }
}

impl Outline {
    pub fn new(verbs: &[u8], positions: &[f32]) -> Self {
        Self(path(verbs, positions))
    }

    pub fn fit(&self) {
        black_box(RoundedBox::fit(black_box(&self.0)));
    }

    pub fn fit_outline(&self) {
        black_box(RoundedBox::fit_outline(black_box(&self.0)));
    }

    pub fn fit_with_cut(&self) {
        black_box(RoundedBox::fit_with_cut(black_box(&self.0)));
    }

    pub fn upright_rect(&self, frame: Frame) {
        let frame = Transform2D(frame);
        black_box(RoundedBox::upright_rect(black_box(&self.0), &frame));
    }
}
