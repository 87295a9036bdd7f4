//! Lends floats to a call on boxes and checks what comes of it.
use crate::{
    lent::{changed, same_bits, Lent},
    library,
    random::Random,
};
use femtovg::calls::{Box10, Refused};
use std::fmt;

/// The bits of a float; every NaN counts as one value.
fn bits(x: f32) -> u32 {
    if x.is_nan() {
        0x7fc0_0000
    } else {
        x.to_bits()
    }
}

/// Floats as they stand in a line of a call list.
pub struct Floats<'a>(pub &'a [f32]);

impl fmt::Display for Floats<'_> {
    fn fmt(&self, f: &mut fmt::Formatter) -> fmt::Result {
        self.0
            .iter()
            .try_for_each(|x| write!(f, " {:08x}", bits(*x)))
    }
}

/// What a call is to return, and to write to each of the buffers lent for it.
pub type Answer<const M: usize> = (u8, [Vec<f32>; M]);

/// The answer to a call whose outcome carries something or nothing.
pub fn answer<T, const M: usize>(
    old: Result<Option<T>, Refused>,
    carried: impl Fn(T) -> Answer<M>,
) -> Answer<M> {
    let without = |number| (number, [(); M].map(|()| vec![]));
    match old {
        Ok(Some(outcome)) => carried(outcome),
        Ok(None) => without(library::NONE),
        Err(number) => without(number),
    }
}

/// The answer to a call that is done where it writes its floats.
pub fn done<const N: usize>(old: Result<Option<[f32; N]>, Refused>) -> Answer<1> {
    answer(old, |floats| (library::DONE, [floats.to_vec()]))
}

/// Lends floats to a box call: now and then too few, and number 4 is expected, or more than it takes.
pub struct Lending<'a>(pub &'a mut Random);

impl Lending<'_> {
    fn rubbish(&mut self) -> f32 {
        f32::from_bits(self.0.bits() as u32)
    }

    /// A box, frame, coverage or bounds as lent.
    fn part(&mut self, floats: &[f32]) -> Lent<f32> {
        let mut lent = floats.to_vec();
        match self.0.below(40) {
            0 => lent.truncate(self.0.below(floats.len())),
            1..=3 => lent.extend((0..=self.0.below(9)).map(|_| self.rubbish())),
            _ => {}
        }
        Lent::holding(&lent, || self.rubbish())
    }

    /// What is lent of each, and whether that is too little.
    fn parts<const N: usize>(&mut self, floats: [&[f32]; N]) -> ([Lent<f32>; N], bool) {
        let parts = floats.map(|floats| self.part(floats));
        let short = too_short(&parts, floats.map(<[f32]>::len));
        (parts, short)
    }

    /// What is lent for an answer of so many floats: at times one too few, or fewer.
    fn out(&mut self, needed: usize) -> Lent<f32> {
        let fewer = self.0.below(needed);
        let length = match self.0.below(16) {
            0 => self.0.pick(&[fewer, needed - 1]),
            1..=3 => needed + self.0.below(9),
            _ => needed,
        };
        Lent::new(length, || self.rubbish())
    }

    /// Compares a call that writes floats to one buffer or to several.
    pub fn written<const N: usize, const M: usize>(
        mut self,
        answer: Answer<M>,
        needed: [usize; M],
        floats: [&[f32]; N],
        call: impl Fn([&[f32]; N], [&mut [f32]; M]) -> u8,
    ) -> Result<u8, String> {
        let (parts, short) = self.parts(floats);
        let mut outs = needed.map(|needed| self.out(needed));
        let new = call(
            parts.each_ref().map(Lent::lent),
            outs.each_mut().map(Lent::lend),
        );
        let (number, floats) = if short || too_short(&outs, needed) {
            (library::TOO_SHORT, [(); M].map(|()| vec![]))
        } else {
            answer
        };
        expected(new, number, &parts)?;
        let mut pairs = outs.iter().zip(&floats);
        pairs.try_for_each(|(out, floats)| wrote(out, floats))?;
        Ok(number)
    }

    /// Compares a call that answers yes or no.
    pub fn tested<const N: usize>(
        mut self,
        old: Result<bool, Refused>,
        floats: [&[f32]; N],
        call: impl Fn([&[f32]; N]) -> u8,
    ) -> Result<u8, String> {
        let (parts, short) = self.parts(floats);
        let new = call(parts.each_ref().map(Lent::lent));
        let number = match old {
            _ if short => library::TOO_SHORT,
            Err(number) => number,
            Ok(true) => library::YES,
            Ok(false) => library::NO,
        };
        expected(new, number, &parts)?;
        Ok(number)
    }

    /// Compares a call on a list of boxes, and on floats besides, place by place.
    pub fn listed<const N: usize>(
        mut self,
        answer: Counted,
        boxes: &[Box10],
        floats: [&[f32]; N],
        call: impl Fn(&[Box10], [&[f32]; N]) -> u32,
    ) -> Result<u8, String> {
        let (parts, short) = self.parts(floats);
        let boxes = Lent::holding(boxes, || [0; 10].map(|_| self.rubbish()));
        let new = call(boxes.lent(), parts.each_ref().map(Lent::lent));
        let same = |now: &Box10, before: &Box10| {
            let mut pairs = now.iter().zip(before);
            pairs.all(|(now, before)| same_bits(now, before))
        };
        if !boxes.kept(0, same) {
            return Err(changed());
        }
        let (number, counted) = if short {
            plain(library::TOO_SHORT)
        } else {
            answer
        };
        expected(new, number, &parts)?;
        Ok(counted)
    }
}

/// What a call on a list is to return, and as which number that counts.
pub type Counted = (u32, u8);

pub fn plain(number: u8) -> Counted {
    (number.into(), number)
}

/// A place counts as done.
pub fn place(at: usize) -> Counted {
    (library::FIRST_PLACE + at as u32, library::DONE)
}

/// Whether less is lent somewhere than is needed.
fn too_short<const N: usize>(lent: &[Lent<f32>; N], needed: [usize; N]) -> bool {
    let mut pairs = lent.iter().zip(needed);
    pairs.any(|(lent, needed)| lent.lent().len() < needed)
}

/// Whether the number is the one expected, and what was lent to be read is as it was.
fn expected<T: PartialEq + fmt::Display>(
    new: T,
    number: T,
    parts: &[Lent<f32>],
) -> Result<(), String> {
    if new != number {
        return Err(format!("number {new}, expected {number}"));
    }
    if !parts.iter().all(|part| part.kept(0, same_bits)) {
        return Err(changed());
    }
    Ok(())
}

/// Whether these floats were written, and nothing past them.
fn wrote(out: &Lent<f32>, floats: &[f32]) -> Result<(), String> {
    if !out.kept(floats.len(), same_bits) {
        return Err(changed());
    }
    let found = &out.lent()[..floats.len()];
    let differs = |(new, old): (&f32, &f32)| bits(*new) != bits(*old);
    if found.iter().zip(floats).any(differs) {
        let (found, floats) = (Floats(found), Floats(floats));
        return Err(format!("answer{found}, the Rust{floats}"));
    }
    Ok(())
}
