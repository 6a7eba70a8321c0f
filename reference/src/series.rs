//! The logarithm's tables by whole numbers alone.
//!
//! ln(1 + j/256) = 2·atanh(z) with z = j/(512 + j), at most 1/3. The series is summed in fixed point with 200 bits after
//! the point, 130 more than the tables need, so that the rounding to the nearest whole number is never in doubt.

/// 256 bits, lowest limb first.
#[derive(Clone, Copy, Debug, PartialEq, Eq)]
struct Whole([u32; 8]);

const POINT: u32 = 200;
const WANTED: u32 = 70;

/// All floors together take less than this from the sum: under 70 terms, each short by less than 5, and the tail.
const SHORT: u32 = 512;

impl Whole {
    fn power_of_two(exponent: u32) -> Self {
        let mut limbs = [0; 8];
        limbs[exponent as usize / 32] = 1 << (exponent % 32);
        Whole(limbs)
    }

    fn times(mut self, factor: u32) -> Self {
        let mut carry = 0u64;
        for limb in self.0.iter_mut() {
            let product = u64::from(*limb) * u64::from(factor) + carry;
            *limb = product as u32;
            carry = product >> 32;
        }
        assert_eq!(carry, 0, "256 bits do not hold the product");
        self
    }

    /// The quotient without its fraction.
    fn over(mut self, divisor: u32) -> Self {
        let mut rest = 0u64;
        for limb in self.0.iter_mut().rev() {
            let part = (rest << 32) | u64::from(*limb);
            *limb = (part / u64::from(divisor)) as u32;
            rest = part % u64::from(divisor);
        }
        self
    }

    fn plus(mut self, other: Self) -> Self {
        let mut carry = 0u64;
        for (limb, more) in self.0.iter_mut().zip(other.0) {
            let sum = u64::from(*limb) + u64::from(more) + carry;
            *limb = sum as u32;
            carry = sum >> 32;
        }
        assert_eq!(carry, 0, "256 bits do not hold the sum");
        self
    }

    fn plus_small(self, small: u32) -> Self {
        let mut limbs = [0; 8];
        limbs[0] = small;
        self.plus(Whole(limbs))
    }

    fn is_zero(&self) -> bool {
        self.0.iter().all(|&limb| limb == 0)
    }

    /// The whole number nearest self / 2^(POINT - WANTED).
    fn rounded(self) -> u128 {
        let halved = self.plus(Whole::power_of_two(POINT - WANTED - 1));
        let shift = (POINT - WANTED) as usize;
        let mut value = 0u128;
        for bit in (shift..256).rev() {
            assert!(value < 1 << 127, "128 bits do not hold the entry");
            value = 2 * value + u128::from(halved.0[bit / 32] >> (bit % 32) & 1);
        }
        value
    }
}

/// 2^POINT·ln(1 + j/256), less than SHORT too low.
fn scaled_logarithm(j: u32) -> Whole {
    let mut sum = Whole([0; 8]);
    let mut power = Whole::power_of_two(POINT + 1).times(j).over(512 + j);
    let mut odd = 1;
    while !power.is_zero() {
        sum = sum.plus(power.over(odd));
        power = power.times(j).over(512 + j).times(j).over(512 + j);
        odd += 2;
    }
    assert!(odd < 140, "more terms than the error bound counts");
    sum
}

/// The whole number nearest 2^70·ln(1 + j/256), j from 0 to 256.
pub fn entry(j: u32) -> u128 {
    assert!(j <= 256);
    let low = scaled_logarithm(j);
    let below = low.rounded();
    let above = low.plus_small(SHORT).rounded();
    assert_eq!(below, above, "entry {j} needs more bits to be rounded");
    below
}

/// Quotient and remainder by 2^27 of each entry.
pub fn tables() -> Vec<(u64, u64)> {
    (0..=256)
        .map(entry)
        .map(|w| ((w >> 27) as u64, (w & ((1 << 27) - 1)) as u64))
        .collect()
}

#[cfg(test)]
mod tests {
    use super::*;

    #[test]
    fn whole_numbers_multiply_and_divide() {
        let x = Whole::power_of_two(199).plus_small(12345);
        assert_eq!(x.times(768).over(768), x);
        assert_eq!(Whole::power_of_two(64).over(3).times(3).plus_small(1), Whole::power_of_two(64));
        assert!(Whole([0; 8]).is_zero());
    }

    #[test]
    fn entries_are_near_the_floats() {
        for j in 0..=256u32 {
            let wanted = (f64::from(j) / 256.0).ln_1p();
            let found = entry(j) as f64 / 2f64.powi(70);
            assert!((wanted - found).abs() <= 2f64.powi(-52), "entry {j}");
        }
    }

    #[test]
    fn entry_256_is_ln_2() {
        // 2^70·ln 2 from the published digits of ln 2, 0.693147180559945309417232121458176568...
        let digits = "693147180559945309417232121458176568";
        let mut fraction: Vec<u32> = digits.bytes().map(|b| u32::from(b - b'0')).collect();
        let mut value = 0u128;
        for _ in 0..71 {
            let mut carry = 0;
            for digit in fraction.iter_mut().rev() {
                let doubled = 2 * *digit + carry;
                *digit = doubled % 10;
                carry = doubled / 10;
            }
            value = 2 * value + u128::from(carry);
        }
        assert_eq!(entry(256), value.div_ceil(2));
    }

    #[test]
    fn logarithms_of_products_add_up() {
        // (1 + 128/256)·(1 + 64/256) = 1 + 224/256, each entry within half a unit.
        let difference = entry(128) as i128 + entry(64) as i128 - entry(224) as i128;
        assert!(difference.abs() <= 1);
        // 1.5·1.5 = 2·1.125.
        let difference = 2 * entry(128) as i128 - entry(256) as i128 - entry(32) as i128;
        assert!(difference.abs() <= 2);
    }
}
