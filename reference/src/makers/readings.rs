//! Cards for the reader: every layout with any numbers, since the reader looks at no number.

use super::damage;
use crate::card::{self, bytes_of, Head, Role};
use crate::random::Rng;

/// Fields within the kind's limits, small ones more often.
fn head_of(kind: u8, rng: &mut Rng) -> Head {
    let mut size = |most: usize| match rng.below(8) {
        0 => most,
        1 => 0,
        2 => rng.index(most + 1),
        _ => rng.index(most.min(4) + 1),
    };
    let (d, effects, gates, records, coordinates) = (
        size(card::MOST_D),
        size(card::MOST_EFFECTS),
        size(card::MOST_GATES),
        size(card::MOST_RECORDS),
        size(card::MOST_COORDINATES),
    );
    let mut head = Head { kind, ..Head::default() };
    match kind {
        1 => head.n = rng.between(1, 3) as usize,
        3 | 4 => head.n = rng.between(1, 2) as usize,
        2 => head.d = d.max(1),
        5 => head = Head { kind, d, effects, gates, records, coordinates, ..head },
        6 => head = Head { kind, d, effects, gates, ..head },
        _ => head = Head { kind, d, effects, gates, records, ..head },
    }
    head
}

/// A card of this kind that the reader accepts.
pub fn accepted(kind: u8, rng: &mut Rng) -> Vec<u64> {
    let head = head_of(kind, rng);
    let mut words: Vec<u64> = Vec::new();
    let mut length = 0;
    for role in card::layout(&head) {
        let word = match role {
            Role::Head => head.word(),
            Role::Number | Role::Name | Role::Count => rng.next(),
            Role::Rotations { most } => rng.between(0, most),
            Role::Iterations => rng.between(0, card::MOST_ITERATIONS),
            Role::Backtracks => rng.between(0, card::MOST_BACKTRACKS),
            Role::Length => {
                length = match rng.below(4) {
                    0 => rng.index(65),
                    1 => rng.pick(&[0, 1, 15, 16, 17, 31, 32, 33, 47, 48, 49, 63, 64]),
                    _ => rng.index(6),
                };
                (length as u64) << 56
            }
            Role::Indices(k) => match length.saturating_sub(16 * k) {
                0 => 0,
                used if used >= 16 => rng.next(),
                used => rng.next() & !(u64::MAX >> (4 * used)),
            },
            Role::Coordinate => match rng.below(3) {
                0 => 1 << 60 | rng.next() >> 40,
                1 => 2 << 60 | (rng.next() & 0x0fff_0000_00ff_ffff),
                _ => 3 << 60 | rng.next() >> 4,
            },
        };
        words.push(word);
    }
    words
}

/// One card in any state: faults of words, then faults of bytes.
pub fn reading(rng: &mut Rng) -> Vec<u8> {
    // Kinds 5 and 7 have the most words with rules.
    let mut words = accepted(rng.pick(&[1, 2, 2, 3, 4, 4, 5, 5, 5, 5, 5, 6, 7, 7, 7, 7]), rng);
    let (in_words, in_bytes) = rng.pick(&[(0, 0), (1, 0), (1, 0), (2, 0), (3, 0), (0, 1), (0, 2), (1, 1), (2, 1)]);
    for _ in 0..in_words {
        match rng.below(10) {
            0 => words[0] = damage::head(words[0], rng),
            1 => {
                // Any word 0 with the length that it asks for.
                words[0] = if rng.chance(50) { rng.next() } else { damage::head(words[0], rng) };
                damage::fit_length(&mut words, rng);
            }
            _ => damage::break_rule(&mut words, rng),
        }
    }
    let mut bytes = bytes_of(&words);
    for _ in 0..in_bytes {
        bytes = damage::damage(bytes, rng);
    }
    bytes
}
