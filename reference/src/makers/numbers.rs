//! Numbers that are worth trying.

use crate::random::Rng;

/// Both signs of zero and of the ends of each range, and NaNs of several payloads.
pub const SPECIALS: &[u64] = &[
    0x0000000000000000,
    0x8000000000000000,
    0x0000000000000001,
    0x8000000000000001,
    0x000fffffffffffff,
    0x800fffffffffffff,
    0x0010000000000000,
    0x8010000000000000,
    0x3ff0000000000000,
    0xbff0000000000000,
    0x3ff0000000000001,
    0x3fefffffffffffff,
    0x43b0000000000000,
    0xc3b0000000000000,
    0x7fdfffffffffffff,
    0x7fe0000000000000,
    0xffe0000000000000,
    0x7fefffffffffffff,
    0xffefffffffffffff,
    0x7ff0000000000000,
    0xfff0000000000000,
    0x7ff0000000000001,
    0xfff0000000000001,
    0x7ff4000000000000,
    0x7ff8000000000000,
    0xfff8000000000000,
    0x7fffffffffffffff,
    0xffffffffffffffff,
];

pub fn special(rng: &mut Rng) -> f64 {
    f64::from_bits(rng.pick(SPECIALS))
}

/// Quarters from -2 to 2, and -0: equal sizes and exact sums.
pub fn grid(rng: &mut Rng) -> f64 {
    let x = (rng.below(17) as f64 - 8.0) / 4.0;
    if x == 0.0 && rng.chance(30) {
        -0.0
    } else {
        x
    }
}

/// 2^exponent; below the normal range too.
pub fn power(exponent: i64) -> f64 {
    match exponent {
        -1022..=1023 => f64::from_bits(((exponent + 1023) as u64) << 52),
        -1074..=-1023 => f64::from_bits(1 << (exponent + 1074)),
        _ => panic!("2^{exponent} is no float"),
    }
}

/// A number in (-1, 1) times a power of two.
pub fn scaled(rng: &mut Rng, low: i64, high: i64) -> f64 {
    rng.signed() * power(low + rng.below((high - low + 1) as u64) as i64)
}

/// Any finite number, all exponents alike.
pub fn finite(rng: &mut Rng) -> f64 {
    loop {
        let x = f64::from_bits(rng.next());
        if x.is_finite() {
            return x;
        }
    }
}

/// Mostly finite and positive.
pub fn tolerance(rng: &mut Rng) -> f64 {
    match rng.below(20) {
        0 => special(rng),
        1 => finite(rng).abs(),
        2 => power(rng.below(64) as i64 - 1074),
        3 => rng.unit(),
        4..=7 => power(-(rng.below(8) as i64)),
        8..=11 => rng.unit() * power(-(rng.below(40) as i64)),
        _ => power(-10 - rng.below(40) as i64),
    }
}

/// A tolerance that is finite and positive.
pub fn good_tolerance(rng: &mut Rng) -> f64 {
    loop {
        let t = tolerance(rng);
        if t.is_finite() && t > 0.0 {
            return t;
        }
    }
}

/// The bits of a NaN that arithmetic made depend on how this was compiled, and stored cards must not.
pub fn settled(x: f64) -> f64 {
    if x.is_nan() {
        f64::from_bits(0x7ff8000000000000)
    } else {
        x
    }
}

/// An identity expectation: mostly 1, often just inside or outside the tolerance.
pub fn identity(rng: &mut Rng, tolerance: f64) -> f64 {
    let edge = settled(if rng.chance(50) { 1.0 + tolerance } else { 1.0 - tolerance });
    match rng.below(10) {
        0 => edge,
        1 => next(edge, true),
        2 => next(edge, false),
        3 => settled(1.0 + tolerance * rng.signed()),
        4 if rng.chance(30) => special(rng),
        4 => settled(1.0 + 2.0 * tolerance * rng.signed()),
        _ => 1.0,
    }
}

/// The neighbour above or below; a number without one is kept.
pub fn next(x: f64, up: bool) -> f64 {
    if up {
        x.next_up()
    } else {
        x.next_down()
    }
}
