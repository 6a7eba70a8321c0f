//! Kind 2.

use super::numbers::{self, power};
use super::{least_rotations, words_of};
use crate::card::Head;
use crate::random::Rng;

pub fn card(rng: &mut Rng) -> Vec<u64> {
    let d = match rng.below(20) {
        0..=2 => 1,
        3..=7 => 2,
        8..=11 => 3,
        12..=15 => 4,
        16..=18 => rng.between(5, 8) as usize,
        _ => rng.between(9, 16) as usize,
    };
    let tolerance = numbers::tolerance(rng);
    let estimate = estimate(d, rng);
    let most = 64 * (d * d) as u64;
    let rotations = match rng.below(10) {
        0 => rng.below(4),
        1 | 2 => rng.below(4 * (d * d) as u64 + 2).min(most),
        _ => most,
    };
    let mut words = vec![Head { kind: 2, d, ..Head::default() }.word(), tolerance.to_bits(), rotations];
    words.extend(estimate.iter().flat_map(|&(re, im)| words_of(&[re, im])));
    if rng.chance(15) {
        // Just enough rotations, or one less.
        if let Some(least) = least_rotations(&words, most) {
            words[2] = least - rng.below(2);
        }
    }
    words
}

fn estimate(d: usize, rng: &mut Rng) -> Vec<(f64, f64)> {
    let style = rng.below(12);
    let mut a: Vec<(f64, f64)> = (0..d * d)
        .map(|_| match style {
            0..=3 => (rng.signed(), rng.signed()),
            4 => (numbers::grid(rng), numbers::grid(rng)),
            5 => (numbers::scaled(rng, -30, 30), numbers::scaled(rng, -30, 30)),
            6 => (numbers::finite(rng), numbers::finite(rng)),
            7 => (rng.signed() * power(1023) * 2.0, rng.signed() * power(1023)),
            8 => (numbers::scaled(rng, -1074, -1000), numbers::scaled(rng, -1074, -1000)),
            9 => (rng.signed() * power(60), 0.0),
            // Mostly zero: blocks, ties, matrices that are diagonal from the start.
            10 if rng.chance(70) => (0.0, -0.0),
            _ => (numbers::grid(rng), if rng.chance(50) { 0.0 } else { numbers::grid(rng) }),
        })
        .collect();
    if rng.chance(20) {
        for i in 0..d {
            for j in 0..d {
                if i != j {
                    a[i * d + j] = (0.0, 0.0);
                }
            }
        }
    }
    if rng.chance(60) {
        for i in 0..d {
            for j in 0..i {
                a[i * d + j] = (a[j * d + i].0, -a[j * d + i].1);
            }
            a[i * d + i].1 = 0.0;
        }
    }
    if rng.chance(40) {
        // Trace one and near a density.
        for i in 0..d {
            a[i * d + i].0 = a[i * d + i].0 * 0.25 + 1.0 / d as f64;
        }
    }
    a
}
