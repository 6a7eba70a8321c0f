//! Stand-in for the crate of this name, which is not at hand: only what the Rust uses, as document 01 has it.

use core::fmt;
use core::ops::{Add, AddAssign, Div, Mul, Sub};

#[derive(Clone, Copy, Debug, PartialEq)]
pub struct Complex64 {
    pub re: f64,
    pub im: f64,
}

impl Complex64 {
    #[inline]
    pub const fn new(re: f64, im: f64) -> Self {
        Self { re, im }
    }

    #[inline]
    pub fn conj(self) -> Self {
        Self::new(self.re, -self.im)
    }

    /// Document 01's magnitude. A single NaN part is replaced by the other part before both are compared.
    #[inline]
    pub fn norm(self) -> f64 {
        let (a, b) = (self.re.abs(), self.im.abs());
        let (a, b) = (if a.is_nan() { b } else { a }, if b.is_nan() { a } else { b });
        let (m, s) = if a < b { (b, a) } else { (a, b) };
        if m == 0.0 {
            return 0.0;
        }
        let ratio = s / m;
        m * (1.0 + ratio * ratio).sqrt()
    }
}

impl From<f64> for Complex64 {
    #[inline]
    fn from(re: f64) -> Self {
        Self::new(re, 0.0)
    }
}

impl Add for Complex64 {
    type Output = Self;
    #[inline]
    fn add(self, other: Self) -> Self {
        Self::new(self.re + other.re, self.im + other.im)
    }
}

impl AddAssign for Complex64 {
    #[inline]
    fn add_assign(&mut self, other: Self) {
        *self = *self + other;
    }
}

impl Sub for Complex64 {
    type Output = Self;
    #[inline]
    fn sub(self, other: Self) -> Self {
        Self::new(self.re - other.re, self.im - other.im)
    }
}

impl Mul for Complex64 {
    type Output = Self;
    #[inline]
    fn mul(self, other: Self) -> Self {
        Self::new(
            self.re * other.re - self.im * other.im,
            self.re * other.im + self.im * other.re,
        )
    }
}

impl Mul<f64> for Complex64 {
    type Output = Self;
    #[inline]
    fn mul(self, factor: f64) -> Self {
        Self::new(self.re * factor, self.im * factor)
    }
}

impl Div<f64> for Complex64 {
    type Output = Self;
    #[inline]
    fn div(self, divisor: f64) -> Self {
        Self::new(self.re / divisor, self.im / divisor)
    }
}

/// A part is NaN or infinite.
#[derive(Clone, Copy, Debug, PartialEq, Eq)]
pub struct QuantumError;

impl fmt::Display for QuantumError {
    fn fmt(&self, f: &mut fmt::Formatter<'_>) -> fmt::Result {
        f.write_str("non-finite part")
    }
}

#[derive(Clone, Debug, PartialEq)]
pub struct Operator {
    dimension: usize,
    values: Vec<Complex64>,
}

impl Operator {
    /// Refuses non-finite parts and nothing else.
    pub fn try_new(dimension: usize, values: Vec<Complex64>) -> Result<Self, QuantumError> {
        assert_eq!(values.len(), dimension * dimension, "the callers give squares");
        if values.iter().all(|z| z.re.is_finite() && z.im.is_finite()) {
            Ok(Self { dimension, values })
        } else {
            Err(QuantumError)
        }
    }

    #[inline]
    pub fn get(&self, row: usize, column: usize) -> Option<Complex64> {
        if row < self.dimension && column < self.dimension {
            Some(self.values[row * self.dimension + column])
        } else {
            None
        }
    }

    pub fn dimension(&self) -> usize {
        self.dimension
    }

    pub fn as_slice(&self) -> &[Complex64] {
        &self.values
    }
}

#[cfg(test)]
mod tests {
    use super::*;

    #[test]
    fn magnitude() {
        let norm = |re, im| Complex64::new(re, im).norm();
        let (nan, inf) = (f64::NAN, f64::INFINITY);
        assert_eq!(norm(3.0, -4.0), 5.0);
        assert_eq!(norm(-0.0, 0.0).to_bits(), 0);
        assert_eq!(norm(-2.0, 0.0), 2.0);
        assert_eq!(norm(inf, 1.0), inf);
        assert!(norm(inf, -inf).is_nan());
        assert!(norm(inf, nan).is_nan());
        assert!(norm(nan, nan).is_nan());
        assert_eq!(norm(nan, 0.0).to_bits(), 0);
        assert_eq!(norm(nan, 3.0), 3.0 * 2f64.sqrt());
        assert_eq!(norm(-3.0, nan), 3.0 * 2f64.sqrt());
        assert_eq!(norm(f64::MAX, f64::MAX), inf);
    }

    #[test]
    fn only_non_finite_parts_are_refused() {
        let of = |re, im| Operator::try_new(1, vec![Complex64::new(re, im)]);
        assert!(of(f64::MAX, 7.0).is_ok());
        assert!(of(f64::NAN, 0.0).is_err());
        assert!(of(0.0, f64::INFINITY).is_err());
    }
}
