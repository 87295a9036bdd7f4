//! Lent memory, between guards.
use crate::random::Random;
use std::fmt::Display;

/// A lent buffer between guards, and what all of it held before.
pub struct Lent<T> {
    all: Vec<T>,
    before: Vec<T>,
    length: usize,
}

const GUARD: usize = 64;

impl<T: Copy> Lent<T> {
    /// A buffer that holds rubbish.
    pub fn new(length: usize, rubbish: impl FnMut() -> T) -> Self {
        let all: Vec<T> = std::iter::repeat_with(rubbish)
            .take(length + 2 * GUARD)
            .collect();
        let before = all.clone();
        Self {
            all,
            before,
            length,
        }
    }

    pub fn holding(held: &[T], mut rubbish: impl FnMut() -> T) -> Self {
        let mut all: Vec<T> = (0..GUARD).map(|_| rubbish()).collect();
        all.extend(held);
        all.extend((0..GUARD).map(|_| rubbish()));
        let before = all.clone();
        Self {
            all,
            before,
            length: held.len(),
        }
    }

    pub fn lend(&mut self) -> &mut [T] {
        &mut self.all[GUARD..GUARD + self.length]
    }

    pub fn lent(&self) -> &[T] {
        &self.all[GUARD..GUARD + self.length]
    }

    /// Whether all is as it was but for the first `changed` that were lent.
    pub fn kept(&self, changed: usize, same: impl Fn(&T, &T) -> bool) -> bool {
        let kept = |range: std::ops::Range<usize>| {
            let pair = self.all[range.clone()].iter().zip(&self.before[range]);
            pair.into_iter().all(|(now, before)| same(now, before))
        };
        kept(0..GUARD) && kept(GUARD + changed..self.all.len())
    }

    /// Whether the guards are as they were.
    pub fn guarded(&self, same: impl Fn(&T, &T) -> bool) -> bool {
        self.kept(self.length, same)
    }
}

impl<T: Copy + PartialEq + Display> Lent<T> {
    /// Whether what is lent holds what is expected, and the guards are as they were.
    pub fn holds(&self, name: &str, expected: &[T]) -> Result<(), String> {
        let mut pairs = self.lent().iter().zip(expected).enumerate();
        if let Some((at, (new, old))) = pairs.find(|(_, (new, old))| new != old) {
            return Err(format!("{name}, place {at}: {new}, expected {old}"));
        }
        if !self.guarded(T::eq) {
            return Err(changed());
        }
        Ok(())
    }
}

pub fn same_bits(now: &f32, before: &f32) -> bool {
    now.to_bits() == before.to_bits()
}

pub fn changed() -> String {
    "memory changed that must be left as it was".into()
}

/// The scratch of a drawing.
pub struct Scratch {
    pub floats: Lent<f32>,
    pub counters: Lent<u64>,
}

impl Scratch {
    pub fn new([floats, counters]: [usize; 2], random: &mut Random) -> Self {
        Self {
            floats: Lent::new(floats, || f32::from_bits(random.bits() as u32)),
            counters: Lent::new(counters, || random.bits()),
        }
    }

    /// All zero after a done drawing, as it was after another.
    pub fn check(&self, done: bool) -> Result<(), String> {
        let Self { floats, counters } = self;
        let cleared = |length| if done { length } else { 0 };
        if !floats.kept(cleared(floats.length), same_bits)
            || !counters.kept(cleared(counters.length), u64::eq)
        {
            return Err(changed());
        }
        let zero = floats.lent().iter().all(|x| x.to_bits() == 0)
            && counters.lent().iter().all(|n| *n == 0);
        if done && !zero {
            return Err("scratch is not all zero".into());
        }
        Ok(())
    }
}
