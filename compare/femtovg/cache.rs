//! Stand-ins for the flattened paths, which no call here asks for.
use crate::{geometry::Transform2D, Verb};

#[derive(Copy, Clone, Debug)]
pub(crate) struct OutlineWidth;

#[derive(Clone, Debug)]
pub struct PathCache;

impl PathCache {
    pub fn new(_: impl Iterator<Item = Verb>, _: &Transform2D, _: f32, _: f32) -> Self {
        Self
    }
}
