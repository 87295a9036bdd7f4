//! Whole numbers of any size.
use std::cmp::Ordering;

/// A sign and a size: 64 bits a limb, the lowest first, no zero at the top.
#[derive(Clone, PartialEq, Eq)]
pub struct Whole {
    negative: bool,
    size: Vec<u64>,
}

fn trimmed(mut limbs: Vec<u64>) -> Vec<u64> {
    while limbs.last() == Some(&0) {
        limbs.pop();
    }
    limbs
}

fn compared(one: &[u64], two: &[u64]) -> Ordering {
    let lengths = one.len().cmp(&two.len());
    lengths.then_with(|| one.iter().rev().cmp(two.iter().rev()))
}

fn sum(one: &[u64], two: &[u64]) -> Vec<u64> {
    let limb = |of: &[u64], at: usize| of.get(at).copied().unwrap_or(0);
    let mut carry = 0;
    let mut limbs = Vec::new();
    for at in 0..=one.len().max(two.len()) {
        let total = limb(one, at) as u128 + limb(two, at) as u128 + carry;
        limbs.push(total as u64);
        carry = total >> 64;
    }
    trimmed(limbs)
}

/// One less two, which is not the larger.
fn rest(one: &[u64], two: &[u64]) -> Vec<u64> {
    let mut borrowed = false;
    let mut limbs = Vec::new();
    for (at, limb) in one.iter().enumerate() {
        let taken = two.get(at).copied().unwrap_or(0);
        let (left, below) = limb.overflowing_sub(taken);
        let (left, again) = left.overflowing_sub(borrowed as u64);
        borrowed = below || again;
        limbs.push(left);
    }
    trimmed(limbs)
}

fn product(one: &[u64], two: &[u64]) -> Vec<u64> {
    let mut limbs = vec![0; one.len() + two.len()];
    for (i, a) in one.iter().enumerate() {
        let mut carry = 0;
        for (j, b) in two.iter().enumerate() {
            let total = *a as u128 * *b as u128 + limbs[i + j] as u128 + carry;
            limbs[i + j] = total as u64;
            carry = total >> 64;
        }
        limbs[i + two.len()] = carry as u64;
    }
    trimmed(limbs)
}

impl Whole {
    fn new(negative: bool, size: Vec<u64>) -> Self {
        let negative = negative && !size.is_empty();
        Self { negative, size }
    }

    pub fn is_zero(&self) -> bool {
        self.size.is_empty()
    }

    pub fn is_negative(&self) -> bool {
        self.negative
    }

    pub fn size(&self) -> Self {
        Self::new(false, self.size.clone())
    }

    pub fn negated(&self) -> Self {
        Self::new(!self.negative, self.size.clone())
    }

    pub fn plus(&self, other: &Self) -> Self {
        if self.negative == other.negative {
            return Self::new(self.negative, sum(&self.size, &other.size));
        }
        if compared(&self.size, &other.size).is_ge() {
            Self::new(self.negative, rest(&self.size, &other.size))
        } else {
            Self::new(other.negative, rest(&other.size, &self.size))
        }
    }

    pub fn times(&self, other: &Self) -> Self {
        let negative = self.negative != other.negative;
        Self::new(negative, product(&self.size, &other.size))
    }

    /// The size, if 128 bits hold it.
    pub fn small(&self) -> Option<u128> {
        match self.size[..] {
            [] => Some(0),
            [low] => Some(low as u128),
            [low, high] => Some((high as u128) << 64 | low as u128),
            _ => None,
        }
    }

    pub fn of_size(negative: bool, size: u128) -> Self {
        let limbs = vec![size as u64, (size >> 64) as u64];
        Self::new(negative, trimmed(limbs))
    }

    /// About the size: a float, to be multiplied so many times by 2^64.
    pub fn near(&self) -> (f64, i32) {
        let top = self.size.iter().rev().take(3);
        let float = top.fold(0.0, |sum, limb| sum * 2f64.powi(64) + *limb as f64);
        (float, self.size.len().saturating_sub(3) as i32)
    }
}

impl From<i64> for Whole {
    fn from(number: i64) -> Self {
        Self::of_size(number < 0, number.unsigned_abs() as u128)
    }
}

impl Ord for Whole {
    fn cmp(&self, other: &Self) -> Ordering {
        match (self.negative, other.negative) {
            (false, false) => compared(&self.size, &other.size),
            (true, true) => compared(&other.size, &self.size),
            (one, two) => two.cmp(&one),
        }
    }
}

impl PartialOrd for Whole {
    fn partial_cmp(&self, other: &Self) -> Option<Ordering> {
        Some(self.cmp(other))
    }
}

#[cfg(test)]
mod tests {
    use super::*;
    use crate::random::Random;

    fn any(random: &mut Random) -> i64 {
        let bits = random.bits() as i64;
        random.pick(&[bits, bits >> 32, bits >> 60, 0, 1, -1, i64::MAX, i64::MIN])
    }

    /// 128 bits of a number, which they hold.
    fn value(of: &Whole) -> i128 {
        let size = of.small().expect("128 bits") as i128;
        if of.is_negative() {
            -size
        } else {
            size
        }
    }

    #[test]
    fn as_128_bits_have_it() {
        let random = &mut Random::new(1);
        for _ in 0..100_000 {
            let (a, b) = (any(random), any(random));
            let (one, two) = (Whole::from(a), Whole::from(b));
            let (a, b) = (a as i128, b as i128);
            assert!(value(&one.plus(&two)) == a + b);
            assert!(value(&one.plus(&two.negated())) == a - b);
            assert!(value(&one.times(&two)) == a * b);
            assert!(one.cmp(&two) == a.cmp(&b));
        }
    }

    #[test]
    fn beyond_128_bits() {
        let random = &mut Random::new(2);
        for _ in 0..10_000 {
            let mut number = || (0..4).fold(Whole::from(1), |n, _| n.times(&any(random).into()));
            let (a, b, c) = (number(), number(), number());
            let both = a.plus(&b);
            assert!(both.times(&c) == a.times(&c).plus(&b.times(&c)));
            assert!(both.plus(&b.negated()) == a);
            assert!(both.times(&both.negated()).is_negative() != both.is_zero());
            assert!((both > a) == (b > Whole::from(0)));
        }
    }
}
