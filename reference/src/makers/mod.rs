//! Cards and library calls to try, made from a seed.

pub mod arguments;
pub mod calls;
pub mod damage;
mod density;
pub mod fits;
pub mod fixed;
mod gate_set;
pub mod numbers;
mod projection;
pub mod readings;
mod transfer;

use crate::card::{bytes_of, Refusal};
use crate::random::Rng;
use crate::sheet::{outcome, Outcome};

/// Words of a card of this kind, mostly one that the reader accepts.
pub fn card_of_kind(kind: u8, rng: &mut Rng) -> Vec<u64> {
    match kind {
        1 => density::card(rng),
        2 => projection::card(rng),
        3 => transfer::process(rng),
        4 => transfer::physical(rng),
        5 => fits::card(rng),
        6 => gate_set::gauge(rng),
        7 => gate_set::diagnostics(rng),
        _ => panic!("no kind {kind}"),
    }
}

/// A card of this kind with up to two faults.
pub fn card(kind: u8, rng: &mut Rng) -> Vec<u8> {
    let mut words = card_of_kind(kind, rng);
    let faults = rng.pick(&[0, 0, 0, 0, 0, 0, 1, 1, 1, 2]);
    let mut in_bytes = 0;
    for _ in 0..faults {
        match rng.below(10) {
            0 => damage::break_rule(&mut words, rng),
            1 => {
                words[0] = damage::head(words[0], rng);
                damage::fit_length(&mut words, rng);
            }
            2 => in_bytes += 1,
            _ => damage::poison(&mut words, rng),
        }
    }
    fits::limit_cost(&mut words, rng);
    let mut bytes = bytes_of(&words);
    for _ in 0..in_bytes {
        bytes = damage::damage(bytes, rng);
    }
    bytes
}

pub(crate) fn words_of(values: &[f64]) -> Vec<u64> {
    values.iter().map(|x| x.to_bits()).collect()
}

/// The least rotations, in word 2, with which this card is not refused for them.
fn least_rotations(words: &[u64], most: u64) -> Option<u64> {
    let mut words = words.to_vec();
    let mut enough = |rotations| {
        words[2] = rotations;
        outcome(&bytes_of(&words)) != Outcome::Refused(Refusal::new(12, 0, 0))
    };
    if !enough(most) || enough(0) {
        return None;
    }
    // 0 is too few, `high` is enough.
    let (mut low, mut high) = (0, most);
    while high - low > 1 {
        let middle = (low + high) / 2;
        if enough(middle) {
            high = middle;
        } else {
            low = middle;
        }
    }
    Some(high)
}
