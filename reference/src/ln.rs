//! Document 01's logarithm.

include!(concat!(env!("OUT_DIR"), "/tables.rs"));

const TWO_43: f64 = (1u64 << 43) as f64;
const TWO_70: f64 = (1u128 << 70) as f64;
const LOW: u64 = (1 << 44) - 1;

pub fn ln(x: f64) -> f64 {
    if x.is_nan() || x <= 0.0 {
        return f64::NAN;
    }
    if x == f64::INFINITY {
        return x;
    }
    let (hi, lo, rest) = parts(x);
    hi + (lo + rest)
}

/// What the last step adds up, for a positive finite x.
#[inline]
pub fn parts(x: f64) -> (f64, f64, f64) {
    let bits = x.to_bits();
    let fraction = bits & ((1 << 52) - 1);
    let (m, e) = match (bits >> 52) as i64 {
        0 => {
            let shift = fraction.leading_zeros() - 11;
            (fraction << shift, -1022 - i64::from(shift))
        }
        biased => (fraction | 1 << 52, biased - 1023),
    };
    let j = (m >> 44 & 255) as usize;
    // Both sums are below 2^53 in size, so that they are exact as floats.
    let hi = (e * QUOTIENTS[256] + QUOTIENTS[j]) as f64 / TWO_43;
    let lo = (e * REMAINDERS[256] + REMAINDERS[j]) as f64 / TWO_70;
    let t = (m & LOW) as f64 / ((256 + j as u64) << 44) as f64;
    (hi, lo, t - t * t * (1.0 / 2.0 - t * (1.0 / 3.0 - t * (1.0 / 4.0 - t * (1.0 / 5.0 - t / 6.0)))))
}

#[cfg(test)]
mod tests {
    use super::*;
    use crate::random::Rng;

    #[test]
    fn tables_are_the_series() {
        for (j, (quotient, remainder)) in crate::series::tables().into_iter().enumerate() {
            assert_eq!((QUOTIENTS[j], REMAINDERS[j]), (quotient as i64, remainder as i64));
            assert_eq!(u128::from(quotient) << 27 | u128::from(remainder), crate::series::entry(j as u32));
        }
    }

    #[test]
    fn ends() {
        assert_eq!(ln(1.0).to_bits(), 0);
        assert_eq!(ln(f64::INFINITY), f64::INFINITY);
        for x in [0.0, -0.0, -1.0, f64::NEG_INFINITY, f64::NAN, -f64::NAN, -5e-324] {
            assert!(ln(x).is_nan());
        }
        assert!((ln(5e-324) + 744.4400719213812).abs() < 2f64.powi(-40));
        assert!((ln(f64::MAX) - 709.782712893384).abs() < 2f64.powi(-40));
    }

    #[test]
    fn within_the_stated_error() {
        let mut rng = Rng::new(7);
        for _ in 0..400_000 {
            let any = f64::from_bits(rng.next() >> 1);
            if any.is_finite() && any > 0.0 {
                assert!((ln(any) - any.ln()).abs() < 2f64.powi(-40), "{any:e}");
            }
            let near = f64::from_bits(0.5f64.to_bits() + rng.below(2 << 52));
            assert!((ln(near) - near.ln()).abs() < 2f64.powi(-48), "{near:e}");
        }
        for x in [0.5, 2.0, 1.0 - f64::EPSILON / 2.0, 1.0 + f64::EPSILON] {
            assert!((ln(x) - x.ln()).abs() < 2f64.powi(-48), "{x:e}");
        }
    }
}
