//! Faults of any card: in its size, in the words that have a rule, in its numbers.

use super::numbers;
use crate::card::{self, Head, Role};
use crate::random::Rng;

/// The roles of a card whose head has a layout.
pub fn roles(words: &[u64]) -> Vec<Role> {
    let head = words.first().map(|&word| Head::of(word)).unwrap_or_default();
    let sane = (1..=7).contains(&head.kind)
        && head.n <= 3
        && head.d <= card::MOST_D
        && head.effects <= card::MOST_EFFECTS
        && head.gates <= card::MOST_GATES
        && head.records <= card::MOST_RECORDS
        && head.coordinates <= card::MOST_COORDINATES;
    if sane {
        card::layout(&head)
    } else {
        Vec::new()
    }
}

fn place_of(words: &[u64], rng: &mut Rng, wanted: impl Fn(Role) -> bool) -> Option<usize> {
    let places: Vec<usize> = roles(words)
        .into_iter()
        .take(words.len())
        .enumerate()
        .filter(|&(_, role)| wanted(role))
        .map(|(place, _)| place)
        .collect();
    if places.is_empty() {
        None
    } else {
        Some(rng.pick(&places))
    }
}

/// Puts a special value in the place of one number.
pub fn poison(words: &mut [u64], rng: &mut Rng) {
    if let Some(place) = place_of(words, rng, |role| role == Role::Number) {
        words[place] = match rng.below(4) {
            0 => numbers::finite(rng).to_bits(),
            1 => (-f64::from_bits(words[place])).to_bits(),
            _ => numbers::special(rng).to_bits(),
        };
    }
}

/// Changes one word that has a rule: near its limit, one bit, or any value.
pub fn break_rule(words: &mut [u64], rng: &mut Rng) {
    let ruled = |role| !matches!(role, Role::Number | Role::Name | Role::Count);
    let later = |role| ruled(role) && role != Role::Head;
    let later = if rng.chance(85) { place_of(words, rng, later) } else { None };
    let Some(place) = later.or_else(|| place_of(words, rng, ruled)) else { return };
    let role = roles(words)[place];
    words[place] = match (role, rng.below(3)) {
        (_, 0) => words[place] ^ 1 << rng.below(64),
        (Role::Head, _) => head(words[place], rng),
        (Role::Rotations { most }, 1) => most - 1 + rng.below(3),
        (Role::Iterations, 1) => card::MOST_ITERATIONS - 1 + rng.below(3),
        (Role::Backtracks, 1) => card::MOST_BACKTRACKS - 1 + rng.below(3),
        (Role::Length, 1) => rng.between(0, 66) << 56,
        (Role::Indices(_), 1) => words[place] | 15 << (4 * rng.below(16)),
        (Role::Coordinate, 1) => words[place] & !(15 << 60) | rng.below(16) << 60,
        (_, _) if rng.chance(50) => rng.below(4),
        (_, _) => rng.next(),
    };
}

/// One field of word 0 changed, mostly to a value near its limit.
pub fn head(word: u64, rng: &mut Rng) -> u64 {
    let mut head = Head::of(word);
    let field = rng.below(10);
    let mut near = |limit: u64, most: u64| match rng.below(4) {
        0 => 0,
        1 => rng.below(most + 1) as usize,
        _ => (limit + rng.below(3)).saturating_sub(1).min(most) as usize,
    };
    match field {
        0 => head.kind = near(7, 15) as u8,
        1 | 2 => head.n = near(if head.kind == 1 { 3 } else { 2 }, 15),
        3 => head.d = near(16, 255),
        4 => head.effects = near(16, 255),
        5 => head.gates = near(8, 255),
        6 => head.records = near(200, 65_535),
        7 => head.coordinates = near(64, 255),
        _ => head.rest = near(0, 255) as u8,
    }
    head.word()
}

/// The length that the head asks for, cut or filled with zeros or any words.
pub fn fit_length(words: &mut Vec<u64>, rng: &mut Rng) {
    let wanted = roles(words).len();
    if wanted > 0 {
        let any = rng.chance(50);
        words.truncate(wanted);
        while words.len() < wanted {
            words.push(if any { rng.next() } else { 0 });
        }
    }
}

/// A fault of the size, of one bit, or of everything.
pub fn damage(mut bytes: Vec<u8>, rng: &mut Rng) -> Vec<u8> {
    let length = bytes.len();
    match rng.below(12) {
        0 | 1 => bytes.truncate(8 * rng.index(length / 8 + 1)),
        2 | 3 => bytes.truncate(rng.index(length + 1)),
        4 => {
            for _ in 0..=rng.below(3) {
                bytes.extend(rng.next().to_be_bytes());
            }
        }
        5 => bytes.extend((0..=rng.below(8)).map(|k| k as u8)),
        6..=8 if length > 0 => {
            let bit = rng.index(8 * length);
            bytes[bit / 8] ^= 128 >> (bit % 8);
        }
        9 if length >= 8 => {
            let bit = rng.index(64);
            bytes[bit / 8] ^= 128 >> (bit % 8);
        }
        10 if rng.chance(10) => {
            // Around the largest size. Zeros, so that the words that are there mostly pass their rules.
            let size = 65_536 + rng.index(20) - 10;
            bytes.resize(size, 0);
        }
        11 => {
            let size = rng.index(200);
            bytes = (0..size).map(|_| rng.next() as u8).collect();
        }
        _ => bytes.truncate(length.saturating_sub(8)),
    }
    bytes
}
