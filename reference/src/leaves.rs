//! The numbers' leaves that document 01 fixes, as methods, so that a call in the Rust changes by its name alone.

use core::cmp::Ordering;

pub trait Leaves {
    fn ln_by_document_01(self) -> f64;
    fn max_by_document_01(self, other: f64) -> f64;
    fn order_by_document_01(&self, other: &f64) -> Ordering;
}

impl Leaves for f64 {
    #[inline]
    fn ln_by_document_01(self) -> f64 {
        crate::ln::ln(self)
    }

    /// The larger one. A NaN is passed over, and +0 counts as larger than -0.
    #[inline]
    fn max_by_document_01(self, other: f64) -> f64 {
        if self.is_nan() || self < other {
            other
        } else if self == 0.0 && other == 0.0 {
            self + other
        } else {
            self
        }
    }

    /// All NaNs are one value above +infinity; -0 stands before +0.
    #[inline]
    fn order_by_document_01(&self, other: &f64) -> Ordering {
        match (self.is_nan(), other.is_nan()) {
            (true, true) => Ordering::Equal,
            (true, false) => Ordering::Greater,
            (false, true) => Ordering::Less,
            (false, false) => self.total_cmp(other),
        }
    }
}

#[cfg(test)]
mod tests {
    use super::*;

    #[test]
    fn an_empty_sum_is_negative_zero() {
        let none: [f64; 0] = [];
        assert_eq!(none.iter().sum::<f64>().to_bits(), 1 << 63);
        assert_eq!([-0.0f64, -0.0].iter().sum::<f64>().to_bits(), 1 << 63);
        assert_eq!(none.iter().product::<f64>().to_bits(), 1f64.to_bits());
    }

    #[test]
    fn a_clamped_negative_zero_stays() {
        assert_eq!((-0.0f64).clamp(0.0, 1.0).to_bits(), 1 << 63);
    }

    #[test]
    fn a_square_is_one_product() {
        for x in [3.7f64, -1e200, 1e-200, 0.1] {
            assert_eq!(std::hint::black_box(x).powi(2).to_bits(), (x * x).to_bits());
        }
    }

    #[test]
    fn max() {
        let max = |a: f64, b: f64| a.max_by_document_01(b);
        assert_eq!(max(0.0, -0.0).to_bits(), 0);
        assert_eq!(max(-0.0, 0.0).to_bits(), 0);
        assert_eq!(max(-0.0, -0.0).to_bits(), 1 << 63);
        assert_eq!(max(f64::NAN, -3.0), -3.0);
        assert_eq!(max(-3.0, f64::NAN), -3.0);
        assert!(max(f64::NAN, f64::NAN).is_nan());
        assert_eq!(max(1.0, 2.0), 2.0);
        assert_eq!(max(2.0, 1.0), 2.0);
        assert_eq!(max(f64::NEG_INFINITY, 0.0), 0.0);
    }

    #[test]
    fn order() {
        let order = |a: f64, b: f64| a.order_by_document_01(&b);
        let payload = f64::from_bits(0x7ff0000000000001);
        assert_eq!(order(f64::NAN, -f64::NAN), Ordering::Equal);
        assert_eq!(order(-payload, f64::NAN), Ordering::Equal);
        assert_eq!(order(-f64::NAN, f64::INFINITY), Ordering::Greater);
        assert_eq!(order(f64::INFINITY, payload), Ordering::Less);
        assert_eq!(order(-0.0, 0.0), Ordering::Less);
        assert_eq!(order(0.0, -0.0), Ordering::Greater);
        assert_eq!(order(1.0, 1.0), Ordering::Equal);
    }
}
