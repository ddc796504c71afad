//! Exact fractions, so that the data sheet's formulas can be written as they stand.

use std::ops::{Add, Div, Mul, Sub};

/// `top / bottom`, always reduced and with `bottom` above 0, so that equal fractions are the same.
#[derive(Clone, Copy, Debug, PartialEq, Eq)]
pub struct Fraction {
    top: i128,
    bottom: i128,
}

/// The fraction n / 1.
pub fn whole(n: impl Into<i128>) -> Fraction {
    Fraction::new(n.into(), 1)
}

impl Fraction {
    /// The fraction top / bottom. A bottom of 0 is a mistake.
    pub fn new(top: i128, bottom: i128) -> Fraction {
        assert!(bottom != 0, "a fraction over 0");
        let divisor = greatest_common_divisor(top, bottom);
        let sign = bottom.signum();
        Fraction {
            top: sign * top / divisor,
            bottom: sign * bottom / divisor,
        }
    }

    /// The greatest whole number that is not above this.
    pub fn rounded_down(self) -> i128 {
        self.top.div_euclid(self.bottom)
    }

    /// The least whole number that is not below this.
    pub fn rounded_up(self) -> i128 {
        -(whole(0) - self).rounded_down()
    }

    /// The nearest whole number, halves up.
    pub fn nearest(self) -> i128 {
        (self + Fraction::new(1, 2)).rounded_down()
    }

    /// Is this a whole number and a half?
    pub fn is_tie(self) -> bool {
        self.bottom == 2
    }

    /// Is this a whole number?
    pub fn is_whole(self) -> bool {
        self.bottom == 1
    }
}

impl Add for Fraction {
    type Output = Fraction;
    fn add(self, other: Fraction) -> Fraction {
        let top = sum(
            product(self.top, other.bottom),
            product(other.top, self.bottom),
        );
        Fraction::new(top, product(self.bottom, other.bottom))
    }
}

impl Sub for Fraction {
    type Output = Fraction;
    fn sub(self, other: Fraction) -> Fraction {
        let negative = Fraction {
            top: -other.top,
            bottom: other.bottom,
        };
        self + negative
    }
}

impl Mul for Fraction {
    type Output = Fraction;
    fn mul(self, other: Fraction) -> Fraction {
        Fraction::new(
            product(self.top, other.top),
            product(self.bottom, other.bottom),
        )
    }
}

impl Div for Fraction {
    type Output = Fraction;
    fn div(self, other: Fraction) -> Fraction {
        Fraction::new(
            product(self.top, other.bottom),
            product(self.bottom, other.top),
        )
    }
}

fn sum(a: i128, b: i128) -> i128 {
    a.checked_add(b).expect("a sum beyond 128 bits")
}

fn product(a: i128, b: i128) -> i128 {
    a.checked_mul(b).expect("a product beyond 128 bits")
}

/// Euclid's algorithm; above 0 unless both numbers are 0.
fn greatest_common_divisor(a: i128, b: i128) -> i128 {
    let (mut a, mut b) = (a.abs(), b.abs());
    while b != 0 {
        (a, b) = (b, remainder(a, b));
    }
    a
}

/// a % b, for numbers not below 0. Division in 64 bits is much faster, and nearly always enough.
fn remainder(a: i128, b: i128) -> i128 {
    match (u64::try_from(a), u64::try_from(b)) {
        (Ok(a), Ok(b)) => i128::from(a % b),
        _ => a % b,
    }
}

#[cfg(test)]
mod tests {
    use super::*;

    #[test]
    fn fractions_are_reduced() {
        assert_eq!(Fraction::new(6, -4), Fraction::new(-3, 2));
        assert_eq!(Fraction::new(0, -5), whole(0));
        let large = 1_i128 << 70;
        assert_eq!(Fraction::new(3 * large, 6 * large), Fraction::new(1, 2));
    }

    #[test]
    fn the_four_operations() {
        let (a, b) = (Fraction::new(1, 6), Fraction::new(-3, 4));
        assert_eq!(a + b, Fraction::new(-7, 12));
        assert_eq!(a - b, Fraction::new(11, 12));
        assert_eq!(a * b, Fraction::new(-1, 8));
        assert_eq!(a / b, Fraction::new(-2, 9));
    }

    #[test]
    fn roundings_on_both_sides_of_zero() {
        // top, bottom, rounded down, rounded up, nearest
        let rows = [
            (7, 2, 3, 4, 4),
            (-7, 2, -4, -3, -3),
            (1, 3, 0, 1, 0),
            (-1, 3, -1, 0, 0),
            (-2, 3, -1, 0, -1),
            (5, 1, 5, 5, 5),
            (-5, 1, -5, -5, -5),
        ];
        for (top, bottom, down, up, nearest) in rows {
            let fraction = Fraction::new(top, bottom);
            assert_eq!(fraction.rounded_down(), down, "{top}/{bottom}");
            assert_eq!(fraction.rounded_up(), up, "{top}/{bottom}");
            assert_eq!(fraction.nearest(), nearest, "{top}/{bottom}");
            assert_eq!(fraction.is_tie(), bottom == 2);
            assert_eq!(fraction.is_whole(), bottom == 1);
        }
    }

    #[test]
    #[should_panic(expected = "beyond 128 bits")]
    fn too_large_a_product_is_noticed() {
        let large = whole(1_i128 << 70);
        let _ = large * large;
    }
}
