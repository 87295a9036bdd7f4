//! Document 01: 'minimum and maximum keep the first unless the second is strictly better or the
//! first is NaN; .. hypot is the f64 root of the f64 sum of squares, then rounded to f32'. Document
//! 02, change 5: the arctangent of y over x.

pub(crate) trait Meanings: PartialOrd + Copy {
    fn is_nan01(self) -> bool;

    fn min01(self, other: Self) -> Self {
        if other < self || self.is_nan01() {
            other
        } else {
            self
        }
    }

    fn max01(self, other: Self) -> Self {
        if other > self || self.is_nan01() {
            other
        } else {
            self
        }
    }

    fn hypot01(self, other: Self) -> Self;

    /// The arctangent of this number, y, over x.
    fn arctan02(self, x: Self) -> Self;
}

impl Meanings for f32 {
    fn is_nan01(self) -> bool {
        self.is_nan()
    }

    fn hypot01(self, other: Self) -> Self {
        let (x, y) = (f64::from(self), f64::from(other));
        (x * x + y * y).sqrt() as Self
    }

    fn arctan02(self, x: Self) -> Self {
        let y = self;
        let y_is_larger = x.abs() < y.abs();
        let a = if x == 0.0 && y == 0.0 {
            0.0
        } else if y_is_larger {
            x.abs() / y.abs()
        } else {
            y.abs() / x.abs()
        };
        let s = a * a;
        let mut r = (((-0.046_496_474_9 * s + 0.159_314_22) * s - 0.327_622_764) * s) * a + a;
        if y_is_larger {
            r = 1.570_796_37 - r;
        }
        if x < 0.0 {
            r = 3.141_592_74 - r;
        }
        if y < 0.0 {
            r = -r;
        }
        r
    }
}

impl Meanings for usize {
    fn is_nan01(self) -> bool {
        false
    }

    fn hypot01(self, _: Self) -> Self {
        unreachable!("no caller")
    }

    fn arctan02(self, _: Self) -> Self {
        unreachable!("no caller")
    }
}
