//! The Rust that is compared: femtovg's files as `prepare` leaves them, what they import, and
//! the calls of documents 01 and 02 over them, with their refusals in front.
#![allow(dead_code, unexpected_cfgs, unused_imports)]

pub mod calls;
mod cache;
mod clip {
    pub(crate) mod coverage;
    pub(crate) mod mask;
    pub(crate) mod shape;
}
mod geometry;
mod meanings;
mod path;
pub mod plain;

pub(crate) use path::{Path, Verb};

/// How a shape that overlaps itself is filled.
#[derive(Copy, Clone, Debug, PartialEq, Eq, Hash)]
pub(crate) enum FillRule {
    EvenOdd,
    NonZero,
}

/// A stand-in: no call here keeps an image.
#[derive(Copy, Clone, Debug, PartialEq, Eq, Hash)]
pub(crate) struct ImageId;
