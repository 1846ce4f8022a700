//! Exact fractions, and doubles taken apart into whole numbers: nothing here is worked out by a float's operation.
use std::cmp::Ordering;
use std::iter::Sum;
use std::ops::Add;

#[derive(Debug, Clone, Copy)]
pub struct Fraction {
    num: i128,
    den: i128,
}

/// A double as the whole number and the power of two that it holds.
fn parts(double: f64) -> (i128, i32) {
    assert!(double.is_finite(), "{double} holds no number");
    let bits = double.to_bits();
    let digits = i128::from(bits & ((1 << 52) - 1));
    let (size, exponent) = match (bits >> 52 & 0x7ff) as i32 {
        0 => (digits, -1074),
        field => (digits + (1 << 52), field - 1075),
    };
    let sign = if double.is_sign_negative() { -1 } else { 1 };
    (sign * size, exponent)
}

/// How many binary digits a number above 0 has.
fn digits(n: i128) -> i32 {
    n.ilog2() as i32 + 1
}

/// The greatest common divisor of two numbers above 0.
fn common(a: i128, b: i128) -> i128 {
    match a % b {
        0 => b,
        rest => common(b, rest),
    }
}

/// n times a power of two. It panics where that is too large, as a shift would not.
fn scaled(n: i128, power: i32) -> i128 {
    n * 2i128.pow(u32::try_from(power).unwrap())
}

impl Fraction {
    pub fn new(num: i128, den: i128) -> Fraction {
        assert!(den > 0, "{num} / {den}");
        Fraction { num, den }
    }

    /// What a double holds.
    pub fn of(double: f64) -> Fraction {
        match parts(double) {
            (0, _) => Fraction::new(0, 1),
            (whole, exponent) if exponent < 0 => Fraction::new(whole, scaled(1, -exponent)),
            (whole, exponent) => Fraction::new(scaled(whole, exponent), 1),
        }
    }

    pub fn times(self, whole: i128) -> Fraction {
        Fraction::new(self.num * whole, self.den)
    }

    /// How far it is from a whole number.
    pub fn apart(self, whole: i128) -> Fraction {
        Fraction::new((self.num - whole * self.den).abs(), self.den)
    }

    pub fn rounded_down(self) -> i128 {
        self.num.div_euclid(self.den)
    }

    pub fn is_whole(self) -> bool {
        self.num % self.den == 0
    }

    pub fn is_zero(self) -> bool {
        self.num == 0
    }

    /// The double nearest to it, of two as near the one whose last bit is 0; plus zero where it is zero.
    pub fn nearest(self) -> f64 {
        if self.is_zero() {
            return 0.0;
        }
        let size = self.num.abs();
        let over = |exponent: i32| {
            let num = scaled(size, -exponent.min(0));
            let den = scaled(self.den, exponent.max(0));
            (num / den, num % den, den)
        };
        // Over this power of two it has 53 binary digits before the point, or 54 and then 53 over the next.
        let low = digits(size) - digits(self.den) - 53;
        let exponent = low + digits(over(low).0) - 53;
        let (whole, rest, den) = over(exponent);
        let up = 2 * rest > den || 2 * rest == den && whole % 2 == 1;
        // Where rounding up leaves 54 digits, the carry raises the exponent's field by one, as it should.
        let bits = scaled((exponent + 1075).into(), 52) + whole - (1 << 52) + i128::from(up);
        f64::from_bits(u64::try_from(bits).unwrap() | u64::from(self.num < 0) << 63)
    }

    /// Whether a double is the nearest one, by its neighbours: neither is nearer, and where one is as near this one's last bit is 0.
    pub fn is_nearest(self, double: f64) -> bool {
        let bits = double.to_bits();
        if self.is_zero() || double == 0.0 {
            return self.is_zero() && bits == 0;
        }
        // Fine enough for a neighbour whose power of two is the next below.
        let scale = (1 - parts(double).1).max(0);
        let off = |bits: u64| {
            let (whole, exponent) = parts(f64::from_bits(bits));
            (scaled(self.num, scale) - self.den * scaled(whole, exponent + scale)).abs()
        };
        let here = off(bits);
        [bits - 1, bits + 1]
            .into_iter()
            .map(off)
            .all(|there| here < there || here == there && bits.is_multiple_of(2))
    }

    /// Document 01's bound on a drawn float, multiplied out: within one millionth, and equal where the fraction is whole.
    pub fn is_drawn_by(self, double: f64) -> bool {
        let held = Fraction::of(double);
        let apart = (held.num * self.den - self.num * held.den).abs();
        match self.is_whole() {
            true => apart == 0,
            false => 1_000_000 * apart <= self.den * held.den,
        }
    }
}

/// Of a numerator and a denominator.
impl From<(i64, i64)> for Fraction {
    fn from((num, den): (i64, i64)) -> Fraction {
        Fraction::new(num.into(), den.into())
    }
}

/// Over the least common denominator, so that a sum of many with few denominators stays small.
impl Add for Fraction {
    type Output = Fraction;

    fn add(self, other: Fraction) -> Fraction {
        let shared = common(self.den, other.den);
        let num = self.num * (other.den / shared) + other.num * (self.den / shared);
        Fraction::new(num, self.den / shared * other.den)
    }
}

impl Sum for Fraction {
    fn sum<I: Iterator<Item = Fraction>>(fractions: I) -> Fraction {
        fractions.fold(Fraction::new(0, 1), Fraction::add)
    }
}

impl PartialEq<i128> for Fraction {
    fn eq(&self, whole: &i128) -> bool {
        self.partial_cmp(whole) == Some(Ordering::Equal)
    }
}

impl PartialOrd<i128> for Fraction {
    fn partial_cmp(&self, whole: &i128) -> Option<Ordering> {
        self.num.partial_cmp(&(whole * self.den))
    }
}
