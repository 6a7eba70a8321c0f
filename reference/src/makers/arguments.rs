//! Arguments of sqrt and ln, as bits: sweeps that are always tried, and random ones.

use super::numbers::{power, SPECIALS};
use crate::ln::parts;
use crate::random::Rng;

const SIGN: u64 = 1 << 63;
const TOP: u64 = 1 << 52;

/// How many random numbers of one sort a sweep has.
const MANY: usize = 100_000;

/// Every exponent alike, any digits; one in 16 is negative.
pub fn any(rng: &mut Rng) -> u64 {
    let sign = if rng.below(16) == 0 { SIGN } else { 0 };
    rng.next() >> 1 | sign
}

/// A number and the two on each side, as far as there are any.
fn around(bits: u64) -> impl Iterator<Item = u64> {
    bits.saturating_sub(2)..=bits + 2
}

/// What both functions are tried on, with both signs.
fn ends_and_powers(rng: &mut Rng) -> Vec<u64> {
    let mut list = SPECIALS.to_vec();
    for exponent in 0..2048 {
        let first = exponent << 52;
        list.extend(around(first));
        list.extend(around(first + TOP / 2));
        list.extend((0..52).map(|k| first | 1 << k));
    }
    for k in 0..52 {
        list.extend(around(1 << k));
        list.extend((0..100).map(|_| 1 << k | rng.below(1 << k)));
    }
    // NaNs
    list.extend((0..100).map(|_| 0x7ff << 52 | rng.between(1, TOP - 1)));
    list.extend((0..52).map(|k| 0x7ff << 52 | (TOP - 1) >> k));
    let other: Vec<u64> = list.iter().map(|bits| bits ^ SIGN).collect();
    list.extend(other);
    list
}

/// w·4^k for a random k; w is from 2^52 to 2^54, and even from 2^53 on.
fn scaled(w: u64, rng: &mut Rng) -> u64 {
    let k = rng.below(1023);
    if w < 2 * TOP {
        ((2 * k + 1) << 52) + (w - TOP)
    } else {
        ((2 * k + 2) << 52) + (w / 2 - TOP)
    }
}

/// The numbers of 53 digits on both sides of s/2^52; s is from 2^104 to 2^106.
fn sides(s: u128) -> [u64; 2] {
    let unit = if s >> 105 == 0 { 1 } else { 2 };
    let low = (s >> 52) as u64 / unit * unit;
    [low, low + unit]
}

/// w whose root is nearest to the middle of two numbers: w·2^54 = y² - a, with y odd and a = 8k + 1 for k from -limit to
/// below limit. The root of w·2^52 is then about y/2.
fn nearly_halves(limit: i64) -> Vec<u64> {
    let mut list = Vec::new();
    for a in (-limit..limit).map(|k| 8 * k + 1) {
        // A root of a modulo 2^55, digit by digit.
        let mut root = 1u64;
        for digit in 3..55 {
            if root.wrapping_mul(root).wrapping_sub(a as u64) >> digit & 1 == 1 {
                root += 1 << (digit - 1);
            }
        }
        // An even w is needed where w has 54 digits.
        for digits in [54, 55] {
            let half = 1u64 << (digits - 1);
            let opposite = root.wrapping_neg();
            for y in [root, opposite, root.wrapping_add(half), opposite.wrapping_add(half)] {
                let y = y & (2 * half - 1);
                let square = u128::from(y) * u128::from(y);
                if y >> 53 == 1 && (square >> 107 == 1) == (digits == 55) {
                    list.push(((square as i128 - i128::from(a)) >> 54) as u64);
                }
            }
        }
    }
    list
}

/// Squares and the middles between them, beside what both functions have.
pub fn for_sqrt(rng: &mut Rng) -> Vec<u64> {
    let mut list = ends_and_powers(rng);
    for p in 1..=10_000u64 {
        list.extend(around(((p * p) as f64).to_bits()));
    }
    for _ in 0..MANY {
        let p = rng.between(1 << 25, (1 << 26) - 1);
        list.extend(around(((p * p) as f64).to_bits()));
        list.extend(around(scaled(4 * p * p, rng)));
        let p = u128::from(rng.between(TOP, 2 * TOP - 1));
        for w in sides(p * p).into_iter().chain(sides(p * p + p)) {
            list.push(scaled(w, rng));
        }
    }
    for w in nearly_halves(20_000) {
        list.push(scaled(w, rng));
    }
    list
}

/// For each table entry two numbers, from 3/4 to 3/2, that tell it from the entry one above and one below: with that the
/// logarithm would be another.
fn telling_entries(rng: &mut Rng) -> Vec<u64> {
    let mut list = Vec::new();
    for j in 128..384 {
        let first = 0.5f64.to_bits() + (j << 44);
        let mut units = vec![power(-70), -power(-70)];
        while !units.is_empty() {
            // A larger rest would take up the difference.
            let bits = first + rng.below(1 << 34);
            let (hi, lo, rest) = parts(f64::from_bits(bits));
            units.retain(|unit| {
                let other = hi + (lo + unit + rest) != hi + (lo + rest);
                if other {
                    list.push(bits);
                }
                !other
            });
        }
    }
    list
}

/// Both ends of each table entry's range at every exponent and what is near 1, beside what both functions have.
pub fn for_ln(rng: &mut Rng) -> Vec<u64> {
    let mut list = ends_and_powers(rng);
    for j in 0..256 {
        for exponent in 1..2047 {
            let first = exponent << 52 | j << 44;
            list.extend([first, first + 1, first + (1 << 44) - 1]);
        }
        // Subnormal ones, 2^k the first digit.
        for k in 0..52 {
            list.extend(around((256 + j) << 44 >> (52 - k)));
        }
    }
    let one = 1f64.to_bits();
    list.extend(one - 5000..=one + 5000);
    for k in 1..=52 {
        list.extend(around((1.0 + power(-k)).to_bits()));
        list.extend(around((1.0 - power(-k)).to_bits()));
    }
    list.extend(telling_entries(rng));
    for _ in 0..MANY {
        // From 1/2 to 2, and from 1 to 257/256, where the polynomial is all.
        list.extend((0..5).map(|_| one - TOP + rng.below(2 * TOP)));
        list.extend((0..10).map(|_| one + rng.below(1 << 44)));
        // Few or many digits after j, at any exponent and from 1/2 to 2.
        let after_j = rng.next() >> (20 + rng.below(44));
        list.push(rng.between(1, 2046) << 52 | rng.below(256) << 44 | after_j);
        list.push(one - TOP + (rng.below(512) << 44 | after_j));
    }
    list
}

#[cfg(test)]
mod tests {
    use super::*;

    /// x as w·4^k with 2^52 <= w < 2^54, and the bits of the root's exponent.
    fn whole(x: u64) -> (u64, u64) {
        let fraction = x & (TOP - 1);
        let (m, biased) = match x >> 52 {
            0 => {
                let shift = u64::from(fraction.leading_zeros()) - 11;
                (fraction << shift, 1 - shift as i64)
            }
            biased => (fraction | TOP, biased as i64),
        };
        let odd = (biased - 1) & 1;
        (m << odd, ((biased - 1 - odd) / 2 + 512) as u64)
    }

    #[test]
    fn roots_are_the_nearest() {
        let mut rng = Rng::new(5);
        for x in for_sqrt(&mut rng) {
            if x == 0 || x >= 0x7ff << 52 {
                continue;
            }
            let (w, biased) = whole(x);
            let s = u128::from(w) << 52;
            let down = s.isqrt();
            let root = if s > down * down + down { down + 1 } else { down } as u64;
            assert_eq!(f64::from_bits(x).sqrt().to_bits(), (biased << 52) + (root - TOP), "{x:016x}");
        }
    }

    #[test]
    fn nearly_halves_are_that() {
        let list = nearly_halves(1000);
        assert!(list.len() > 2700, "{}", list.len());
        for w in list {
            assert!((TOP..4 * TOP).contains(&w) && (w < 2 * TOP || w % 2 == 0), "{w:x}");
            let s = u128::from(w) << 52;
            let y = 2 * s.isqrt() + 1;
            assert!((4 * s).abs_diff(y * y) <= 8000, "{w:x}");
        }
    }

    #[test]
    fn sides_are_neighbours_of_53_digits() {
        let mut rng = Rng::new(6);
        for _ in 0..10_000 {
            let p = u128::from(rng.between(TOP, 2 * TOP - 1));
            let s = p * p + p;
            let [low, high] = sides(s);
            assert!(u128::from(low) << 52 <= s && s < u128::from(high) << 52);
            for w in [low, high] {
                assert_eq!(w as f64 as u64, w);
                let number = scaled(w, &mut rng);
                assert_eq!(whole(number).0, if w == 4 * TOP { TOP } else { w });
            }
            assert_eq!((low as f64).to_bits() + 1, (high as f64).to_bits());
        }
    }

    #[test]
    fn every_table_entry_is_met_at_every_exponent() {
        let list = for_ln(&mut Rng::new(4));
        let mut met = vec![0u8; 2048 * 256];
        for x in list {
            if x < 0x7ff << 52 {
                met[(x >> 44) as usize] |= match x & ((1 << 44) - 1) {
                    0 => 1,
                    1 => 2,
                    low if low == (1 << 44) - 1 => 4,
                    _ => 0,
                };
            }
        }
        assert!(met[256..2047 * 256].iter().all(|&ends| ends == 7));
    }
}
