//! Fractions of whole numbers of any size.
use crate::whole::Whole;
use std::cmp::Ordering;

/// A whole number over another, which is above 0.
#[derive(Clone)]
pub struct Fraction {
    top: Whole,
    bottom: Whole,
}

/// The greatest number that divides both; the second is not 0.
fn common(mut a: u128, mut b: u128) -> u128 {
    if a == 0 {
        return b;
    }
    let twos = (a | b).trailing_zeros();
    a >>= a.trailing_zeros();
    while b != 0 {
        b >>= b.trailing_zeros();
        if a > b {
            (a, b) = (b, a);
        }
        b -= a;
    }
    a << twos
}

impl Fraction {
    /// In lowest terms where both fit 128 bits; longer ones stay as they are.
    fn new(top: Whole, bottom: Whole) -> Self {
        assert!(!bottom.is_zero());
        if let (Some(a), Some(b)) = (top.small(), bottom.small()) {
            let common = common(a, b);
            let negative = top.is_negative() != bottom.is_negative();
            let top = Whole::of_size(negative, a / common);
            let bottom = Whole::of_size(false, b / common);
            return Self { top, bottom };
        }
        if bottom.is_negative() {
            let (top, bottom) = (top.negated(), bottom.negated());
            return Self { top, bottom };
        }
        Self { top, bottom }
    }

    pub fn of(top: i64, bottom: i64) -> Self {
        Self::new(top.into(), bottom.into())
    }

    pub fn whole(number: i64) -> Self {
        Self::of(number, 1)
    }

    pub fn plus(&self, other: &Self) -> Self {
        if self.bottom == other.bottom {
            return Self::new(self.top.plus(&other.top), self.bottom.clone());
        }
        let (one, two) = (self.top.times(&other.bottom), other.top.times(&self.bottom));
        Self::new(one.plus(&two), self.bottom.times(&other.bottom))
    }

    pub fn minus(&self, other: &Self) -> Self {
        self.plus(&Self {
            top: other.top.negated(),
            bottom: other.bottom.clone(),
        })
    }

    pub fn times(&self, other: &Self) -> Self {
        Self::new(self.top.times(&other.top), self.bottom.times(&other.bottom))
    }

    /// The quotient by a fraction that is not 0.
    pub fn over(&self, other: &Self) -> Self {
        Self::new(self.top.times(&other.bottom), self.bottom.times(&other.top))
    }

    pub fn size(&self) -> Self {
        Self {
            top: self.top.size(),
            bottom: self.bottom.clone(),
        }
    }

    pub fn is_zero(&self) -> bool {
        self.top.is_zero()
    }

    /// About the size.
    pub fn near(&self) -> f64 {
        let ((top, up), (bottom, down)) = (self.top.near(), self.bottom.near());
        top / bottom * 2f64.powi(64 * (up - down))
    }
}

impl Ord for Fraction {
    fn cmp(&self, other: &Self) -> Ordering {
        let (one, two) = (self.top.times(&other.bottom), other.top.times(&self.bottom));
        one.cmp(&two)
    }
}

impl PartialOrd for Fraction {
    fn partial_cmp(&self, other: &Self) -> Option<Ordering> {
        Some(self.cmp(other))
    }
}

impl PartialEq for Fraction {
    fn eq(&self, other: &Self) -> bool {
        self.cmp(other).is_eq()
    }
}

impl Eq for Fraction {}

#[cfg(test)]
mod tests {
    use super::*;
    use crate::random::Random;

    fn any(random: &mut Random) -> Fraction {
        let top = random.bits() as i64 >> random.pick(&[1, 20, 40, 60]);
        let bottom = random.bits() as i64 >> random.pick(&[1, 20, 40, 60]);
        Fraction::of(top, if bottom == 0 { 1 } else { bottom })
    }

    #[test]
    fn as_a_field_has_it() {
        let random = &mut Random::new(1);
        for _ in 0..10_000 {
            let (a, b, c) = (any(random), any(random), any(random));
            assert!(a.plus(&b).times(&c) == a.times(&c).plus(&b.times(&c)));
            assert!(a.plus(&b).minus(&b) == a);
            assert!(b.is_zero() || a.over(&b).times(&b) == a);
            assert!((a < b) == (a.minus(&b) < Fraction::whole(0)));
            assert!(a.times(&b).size() == a.size().times(&b.size()));
        }
    }

    #[test]
    fn as_floats_have_it() {
        let random = &mut Random::new(2);
        for _ in 0..10_000 {
            let (a, b) = (any(random), any(random));
            let near = a.times(&b).times(&b).near() / (a.near() * b.near() * b.near());
            assert!(a.is_zero() || b.is_zero() || (near - 1.0).abs() < 1e-12);
        }
        assert!(Fraction::of(-1, 4).near() == 0.25);
    }
}
