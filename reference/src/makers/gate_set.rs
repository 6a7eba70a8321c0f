//! Kinds 6 and 7, and what kind 5 has in common with them.

use super::numbers::{self, power};
use super::words_of;
use crate::card::{self, Head, Job};
use crate::random::Rng;
use crate::sheet;

/// d, effects and gates; small ones more often, since a fit's cost grows with all of them.
pub fn shape(kind: u8, rng: &mut Rng) -> Head {
    let d = match rng.below(20) {
        0 | 1 => 1,
        2..=7 => 2,
        8..=10 => 3,
        11..=16 => 4,
        17 | 18 => rng.between(5, 8) as usize,
        _ => rng.between(9, 16) as usize,
    };
    let effects = match rng.below(10) {
        0 => 1,
        1..=6 => 2,
        7 | 8 => rng.between(3, 4) as usize,
        _ => rng.between(5, 16) as usize,
    };
    let gates = match rng.below(10) {
        0 | 1 => 0,
        2..=4 => 1,
        5..=7 => 2,
        8 => 3,
        _ => rng.between(4, 8) as usize,
    };
    Head { kind, d, effects, gates, ..Head::default() }
}

/// A state with first entry 1, effects that add up to (1, 0, ..) and gates with first row (1, 0, ..): the probabilities
/// then add up to 1 but for rounding, and are mostly positive.
pub fn model(head: &Head, rng: &mut Rng) -> Vec<u64> {
    let (d, effects) = (head.d, head.effects);
    let size = 1.0 / (2.0 * d as f64);
    let exact = rng.chance(40);
    let small = |rng: &mut Rng| if exact { (rng.below(9) as f64 - 4.0) / 64.0 } else { size * rng.signed() };
    let mut state = vec![1.0; d.min(1)];
    state.extend((1..d).map(|_| 4.0 * small(rng)));
    let mut povm = vec![vec![0.0; d]; effects];
    for k in 0..d {
        let mut rest = if k == 0 { 1.0 } else { 0.0 };
        for (outcome, effect) in povm.iter_mut().enumerate() {
            let left = effects - outcome;
            effect[k] = match (left, k) {
                (1, _) => rest,
                (_, 0) if exact => 2f64.powi(-1 - outcome as i32),
                (_, 0) => rest / left as f64 * (0.8 + 0.4 * rng.unit()),
                _ => small(rng) / effects as f64,
            };
            rest -= effect[k];
        }
    }
    let mut words = words_of(&state);
    words.extend(words_of(&povm.concat()));
    let first = rng.below(100);
    for gate in 0..head.gates {
        words.push(if first < 50 { gate as u64 + 1 } else { rng.next() | 1 });
        let style = rng.below(4);
        let turn = rng.index(d);
        for i in 0..d {
            for j in 0..d {
                let x = match (i, j, style) {
                    (0, 0, _) => 1.0,
                    (0, _, _) => 0.0,
                    // A permutation with signs, or nearly the identity, or any contraction.
                    (_, _, 0) => {
                        let target = if d > 1 { 1 + (j + turn) % (d - 1) } else { 0 };
                        match (j, i == target) {
                            (0, _) | (_, false) => 0.0,
                            _ => rng.pick(&[1.0, -1.0]),
                        }
                    }
                    (_, _, 1) if i == j => 1.0 - 0.1 * rng.unit(),
                    (_, _, 1) => 0.02 * rng.signed(),
                    _ => 2.0 * size * rng.signed(),
                };
                words.push(x.to_bits());
            }
        }
    }
    words
}

/// Faults of the model: names, lost normalization.
pub fn spoil_model(words: &mut [u64], at: usize, head: &Head, rng: &mut Rng) {
    let numbers = head.d + head.effects * head.d;
    let name = |gate: usize| at + numbers + (1 + head.d * head.d) * gate;
    match rng.below(3) {
        0 if head.gates > 0 => words[name(rng.index(head.gates))] = 0,
        1 if head.gates > 1 => {
            let later = 1 + rng.index(head.gates - 1);
            words[name(later)] = words[name(rng.index(later))];
        }
        _ if numbers > 0 => {
            let place = at + rng.index(numbers);
            words[place] = (f64::from_bits(words[place]) + 0.125).to_bits();
        }
        _ => {}
    }
}

pub fn records(head: &Head, longest: usize, rng: &mut Rng) -> Vec<u64> {
    let mut words = Vec::new();
    for _ in 0..head.records {
        let length = if head.gates == 0 && rng.chance(90) { 0 } else { rng.index(longest + 1) };
        words.push((length as u64) << 56);
        let mut indices = [0u64; 4];
        for k in 0..length {
            let absent = head.gates == 0 || rng.below(1000) == 0;
            let gate = if absent { rng.between(head.gates as u64, 15) } else { rng.below(head.gates as u64) };
            indices[k / 16] |= gate << (60 - 4 * (k % 16));
        }
        words.extend(indices);
        let style = rng.below(30);
        words.extend((0..head.effects).map(|_| match style {
            0 => 0,
            1 => rng.next() >> 3,
            2 => rng.pick(&[u64::MAX, 1 << 63, (1 << 63) - 1, 1, 0, (1 << 53) + 1]),
            3 => rng.next() >> rng.below(64),
            4..=8 => rng.below(3),
            _ => rng.between(1, 100),
        }));
    }
    words
}

/// Two counts of a record that add up to 2^64, or to a little more or less.
fn counts_at_the_limit(words: &mut [u64], at: usize, head: &Head, rng: &mut Rng) {
    let record = at + rng.index(head.records) * (5 + head.effects);
    let counts = &mut words[record + 5..record + 5 + head.effects];
    counts.fill(0);
    let first = rng.next() >> rng.below(64) | 1;
    let (one, other) = (rng.index(counts.len()), rng.index(counts.len()));
    counts[one] = first;
    if one != other {
        // 2^64 less the first, and as much beside it as fits into a word.
        let rest = u64::MAX - first + 1;
        counts[other] = rng.pick(&[rest, rest, rest.saturating_sub(1), rest.saturating_add(1)]);
    }
}

/// Numbers that add up to something near 1, and the tolerance as far from 1 as that, or one float beside it.
fn tolerance_at_sum(words: &mut [u64], head: &Head, rng: &mut Rng) {
    let place = 2 + head.d + rng.index(head.effects * head.d);
    let changed = f64::from_bits(words[place]) + power(-4 - rng.below(30) as i64) * rng.signed();
    words[place] = changed.to_bits();
    let Ok(Job::Diagnostics { model, records, .. }) = card::read(&card::bytes_of(words)) else { return };
    let names = sheet::gate_names(&model);
    let sequence: Vec<String> = records[0].sequence.iter().map(|&gate| sheet::name_at(&names, gate)).collect();
    let sequence: Vec<&str> = sequence.iter().map(String::as_str).collect();
    let Some(found) = sheet::model_of(&model).ok().and_then(|model| model.probabilities(&sequence).ok()) else { return };
    let distance = (found.iter().sum::<f64>() - 1.0).abs();
    let tolerance = [distance, distance.next_up(), distance.next_down()][rng.index(3)];
    if tolerance.is_finite() && tolerance > 0.0 {
        words[1] = tolerance.to_bits();
    }
}

pub fn diagnostics(rng: &mut Rng) -> Vec<u64> {
    let mut head = shape(7, rng);
    head.records = rng.pick(&[0, 1, 1, 2, 3, 5, 9]);
    match rng.below(200) {
        0 | 1 => head.d = 0,
        2 | 3 => head.effects = 0,
        4 if head.d <= 4 && head.gates > 0 => head.records = 200,
        _ => {}
    }
    let tolerance = match rng.below(8) {
        0 => numbers::tolerance(rng),
        1 => rng.unit(),
        _ => power(-20 - rng.below(25) as i64),
    };
    let mut words = vec![head.word(), tolerance.to_bits()];
    words.extend(model(&head, rng));
    let longest = rng.pick(&[3, 3, 8, 64]);
    let first = words.len();
    words.extend(records(&head, longest.min(400 / head.records.max(1)), rng));
    if head.records == 200 {
        // One record without counts would refuse them all.
        words[first..].chunks_mut(5 + head.effects).for_each(|record| record[5..].fill(7));
    } else if rng.chance(8) && head.records > 0 && head.effects > 0 {
        counts_at_the_limit(&mut words, first, &head, rng);
    }
    if rng.chance(6) && head.records > 0 && head.effects > 0 && head.d > 0 {
        tolerance_at_sum(&mut words, &head, rng);
        return words;
    }
    if rng.chance(8) {
        spoil_model(&mut words, 2, &head, rng);
    }
    if rng.chance(15) && head.effects >= 2 && head.d > 0 {
        // Probabilities at the edges: 0, the smallest number, -0, just below 0 or above 1, and the tolerance's neighbours.
        let (low, high) = (-tolerance, 1.0 + tolerance);
        let edge = rng.pick(&[0.0, -0.0, 5e-324, 5e-324, low, low.next_up(), low.next_down(), tolerance, 1e-300]);
        let other = match rng.below(4) {
            0 => rng.pick(&[high, high.next_up(), high.next_down()]),
            _ => 1.0 - edge,
        };
        for (k, x) in [edge, other].into_iter().enumerate() {
            words[2 + head.d + k * head.d] = numbers::settled(x).to_bits();
        }
        for k in 0..head.effects {
            for i in 0..head.d {
                if i > 0 || k > 1 {
                    words[2 + head.d + k * head.d + i] = 0;
                }
            }
        }
        if rng.chance(40) {
            // Counts only where the probability is not clamped to 0.
            for record in words[first..].chunks_mut(5 + head.effects) {
                record[5..].fill(0);
                record[6] = rng.between(1, 100);
            }
        }
    }
    words
}

/// Any d, any number of effects and gates; a few have no d or no effects.
fn gauge_shape(rng: &mut Rng) -> Head {
    let mut head = shape(6, rng);
    if rng.chance(25) {
        head.d = rng.between(1, 16) as usize;
        head.gates = rng.index(9);
    }
    match rng.below(60) {
        0 => head.d = 0,
        1 => head.effects = 0,
        _ => {}
    }
    head
}

/// A model whose numbers need not be probabilities' ones: zeros of both signs, any sizes, or so small that products with
/// huge numbers stay finite.
fn any_model(head: &Head, rng: &mut Rng) -> Vec<u64> {
    let mut words = model(head, rng);
    let style = rng.below(6);
    let first_gate = head.d + head.effects * head.d;
    for (place, word) in words.iter_mut().enumerate() {
        let is_name = place >= first_gate && (place - first_gate).is_multiple_of(1 + head.d * head.d);
        if is_name {
            continue;
        }
        let x = f64::from_bits(*word);
        *word = match style {
            0 => numbers::grid(rng),
            1 => rng.pick(&[0.0, -0.0, 1.0, -1.0]),
            2 => numbers::scaled(rng, -60, 60),
            3 => numbers::finite(rng),
            _ => x * power(-10),
        }
        .to_bits();
    }
    words
}

/// A model's shape, names and numbers, for a call of `probabilities`.
pub fn model_parts(rng: &mut Rng) -> (Head, Vec<u64>, Vec<f64>) {
    let head = gauge_shape(rng);
    let words = if rng.chance(40) { any_model(&head, rng) } else { model(&head, rng) };
    let (vectors, gates) = words.split_at(head.d + head.effects * head.d);
    let mut numbers: Vec<f64> = vectors.iter().map(|&word| f64::from_bits(word)).collect();
    let mut names = Vec::new();
    for gate in gates.chunks(1 + head.d * head.d) {
        names.push(gate[0]);
        numbers.extend(gate[1..].iter().map(|&word| f64::from_bits(word)));
    }
    (head, names, numbers)
}

/// The Rust's threshold for a transform of this scale.
fn threshold(d: usize, scale: f64) -> f64 {
    64.0 * f64::EPSILON * d as f64 * scale
}

/// Powers of two on the diagonal of a triangular matrix, and one number there that stands at the threshold, or one float
/// or a little beside it. The rows come in any order.
fn triangular_at_threshold(d: usize, rng: &mut Rng) -> Vec<f64> {
    let scale = power(rng.below(5) as i64 - 2) * if rng.chance(30) { power(rng.below(1900) as i64 - 950) } else { 1.0 };
    let at = threshold(d, scale);
    let small = match rng.below(6) {
        0 | 1 => at,
        2 => at.next_up(),
        3 => at.next_down(),
        4 => at * 1.25,
        _ => at * 0.75,
    };
    let (low, full) = (rng.index(d), rng.chance(50));
    let mut rows: Vec<Vec<f64>> = (0..d)
        .map(|i| {
            let entry = |j: usize, rng: &mut Rng| match i.cmp(&j) {
                core::cmp::Ordering::Equal if i == low && d > 1 => small,
                core::cmp::Ordering::Equal => scale,
                core::cmp::Ordering::Less if full => scale * 0.5 * rng.signed(),
                _ => 0.0,
            };
            (0..d).map(|j| entry(j, rng) * rng.pick(&[1.0, -1.0])).collect()
        })
        .collect();
    for k in (1..d).rev() {
        rows.swap(k, rng.index(k + 1));
    }
    rows.concat()
}

/// A product of triangular matrices with exact entries, whose last pivot comes out at the threshold or beside it.
fn product_at_threshold(d: usize, rng: &mut Rng) -> Vec<f64> {
    let steps: &[f64] = if rng.chance(50) { &[0.0, 0.5, -0.5, 1.0, -1.0] } else { &[0.0, 0.5, -0.5] };
    let (mut lower, mut upper) = (vec![0.0; d * d], vec![0.0; d * d]);
    for i in 0..d {
        lower[i * d + i] = 1.0;
        upper[i * d + i] = if i + 1 < d { rng.pick(&[1.0, -1.0]) } else { 0.0 };
        for j in 0..i {
            lower[i * d + j] = rng.pick(steps);
            upper[j * d + i] = rng.pick(&[0.0, 0.5, -0.5, 1.0, -1.0]);
        }
    }
    let mut product: Vec<f64> = (0..d * d)
        .map(|z| (0..d).fold(0.0, |sum, k| sum + lower[z / d * d + k] * upper[k * d + z % d]))
        .collect();
    let scale = product.iter().fold(0.0f64, |scale, x| scale.max(x.abs()));
    product[d * d - 1] += threshold(d, scale) + rng.pick(&[0.0, 0.0, power(-49), -power(-49)]);
    product
}

/// Column 2 comes to hold a NaN and numbers that are too small for a pivot: two rows overflow in column 1, one becomes the
/// pivot there, and the other takes away an infinity times zero.
fn nan_beside_small(d: usize, rng: &mut Rng) -> Vec<f64> {
    let max = f64::MAX;
    let mut rows: Vec<Vec<f64>> = (0..d)
        .map(|i| {
            let mut row: Vec<f64> = (0..d).map(|_| if i == 2 { 0.0 } else { max * rng.signed() }).collect();
            match i {
                0 | 1 => (row[0], row[1]) = (max, max),
                2 => (row[0], row[1]) = (max, -max),
                _ => (row[0], row[2]) = (0.0, rng.pick(&[0.0, -0.0, 1.0, power(978)])),
            }
            row
        })
        .collect();
    for row in rows.iter_mut() {
        let sign = rng.pick(&[1.0, -1.0]);
        row.iter_mut().for_each(|x| *x *= sign);
    }
    for k in (1..d).rev() {
        rows.swap(k, rng.index(k + 1));
    }
    rows.concat()
}

fn gauge_matrix(d: usize, rng: &mut Rng) -> Vec<f64> {
    let style = rng.below(20);
    match style {
        0 | 1 if d > 0 => return triangular_at_threshold(d, rng),
        2 if d > 1 => return product_at_threshold(d, rng),
        17 if d > 3 && rng.chance(50) => return nan_beside_small(d, rng),
        _ => {}
    }
    let turn = rng.index(d);
    let mut transform = vec![0.0; d * d];
    for i in 0..d {
        for j in 0..d {
            let one = if i == j { 1.0 } else { 0.0 };
            transform[i * d + j] = match style {
                3..=5 => one + 0.2 * rng.signed(),
                6 | 7 => rng.signed(),
                8 => numbers::grid(rng),
                9 => rng.pick(&[1.0, -1.0]),
                10 if j == (i + turn) % d => rng.pick(&[1.0, -1.0, 2.0, 0.5]),
                10 => 0.0,
                11 if j >= i => rng.signed(),
                11 => 0.0,
                // Sizes about where the pivot threshold stands.
                12 => one * if rng.chance(50) { power(-rng.pick(&[40, 41, 42, 43, 44, 45, 46])) } else { 1.0 },
                13 => numbers::scaled(rng, -30, 30),
                14 => numbers::finite(rng),
                15 => one * power(rng.below(2000) as i64 - 1000),
                // Sums that leave the range while the inversion runs.
                16 => rng.pick(&[f64::MAX, -f64::MAX, f64::MAX / 2.0, -f64::MAX / 2.0, f64::MAX / 4.0]),
                17 => rng.pick(&[f64::MAX, -f64::MAX, f64::MAX / 2.0, 0.0, power(900)]),
                // The threshold is a subnormal or rounds to zero.
                18 => numbers::scaled(rng, -1074, -1015),
                _ => rng.pick(&[0.0, 5e-324, -5e-324, 1e-323, power(-1030), -power(-1028), power(-1022)]),
            };
        }
    }
    if d > 1 && rng.chance(8) {
        // A row that depends on others, or a column of zeros.
        let (style, column) = (rng.below(3), rng.index(d));
        for j in 0..d {
            match style {
                0 => transform[(d - 1) * d + j] = 2.0 * transform[j],
                1 => transform[(d - 1) * d + j] = 0.5 * transform[j] + 0.5 * transform[(d / 2) * d + j],
                _ => transform[j * d + column] = 0.0,
            }
        }
    }
    if rng.chance(1) {
        transform.fill(0.0);
    }
    transform
}

pub fn gauge(rng: &mut Rng) -> Vec<u64> {
    let head = gauge_shape(rng);
    let mut words = vec![head.word()];
    words.extend(if rng.chance(40) { any_model(&head, rng) } else { model(&head, rng) });
    if rng.chance(6) {
        spoil_model(&mut words, 1, &head, rng);
    }
    words.extend(words_of(&gauge_matrix(head.d, rng)));
    words
}

pub fn coordinate(head: &Head, rng: &mut Rng) -> u64 {
    let d = head.d as u64;
    let far = rng.below(400) == 0;
    match rng.below(4) {
        0 => 1 << 60 | if far { d + rng.below(3) } else { rng.below(d) },
        1 => {
            let outcome = if far { head.effects as u64 } else { rng.below(head.effects as u64) };
            2 << 60 | outcome << 48 | rng.below(d)
        }
        _ if head.gates == 0 => 1 << 60 | rng.below(d),
        _ => {
            let gate = if far { rng.pick(&[head.gates as u64, 4095]) } else { rng.below(head.gates as u64) };
            let row = if d > 1 && rng.chance(90) { rng.between(1, d - 1) } else { rng.below(d) };
            // A column past the row's end can still lie inside the matrix.
            let column = if rng.chance(5) { rng.below(2 * d) } else { rng.below(d) };
            3 << 60 | gate << 48 | row << 24 | column
        }
    }
}
