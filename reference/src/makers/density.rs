//! Kind 1.

use super::numbers::{self, power};
use super::words_of;
use crate::card::Head;
use crate::random::Rng;

pub fn card(rng: &mut Rng) -> Vec<u64> {
    let n = rng.pick(&[1, 1, 1, 2, 2, 3]);
    let tolerance = numbers::tolerance(rng);
    let style = rng.below(10);
    let mut expectations: Vec<f64> = (0..1 << (2 * n))
        .map(|_| match style {
            0..=2 => rng.signed(),
            3 => numbers::grid(rng),
            4 => numbers::scaled(rng, -60, 60),
            5 => numbers::finite(rng),
            6 => rng.pick(&[f64::MAX, -f64::MAX, f64::MAX / 2.0, -f64::MAX / 8.0, 1.0, 0.0]),
            7 => numbers::scaled(rng, -1074, -1000),
            8 => rng.pick(&[0.0, -0.0, 5e-324, -5e-324, f64::MIN_POSITIVE, 1.5e-323, -1e-310]),
            // Few terms, so that zeros of both signs and cancelling pairs meet.
            _ if rng.chance(80) => rng.pick(&[0.0, -0.0]),
            _ => rng.pick(&[1.0, -1.0, power(60), -power(60), 0.1]),
        })
        .collect();
    expectations[0] = numbers::identity(rng, tolerance);
    let mut words = vec![Head { kind: 1, n, ..Head::default() }.word(), tolerance.to_bits()];
    words.extend(words_of(&expectations));
    words
}
