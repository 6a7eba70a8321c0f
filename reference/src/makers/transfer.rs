//! Kinds 3 and 4.

use super::numbers::{self, power};
use super::{least_rotations, words_of};
use crate::card::Head;
use crate::hooks::{with_notes, with_pivots, with_rotations};
use crate::random::Rng;
use crate::tomography::{process_linear_inversion, product_probe_expectations, PauliTransferMatrix};

/// Input vectors in one of many styles, every first entry 1.
fn input_vectors(n: usize, style: u64, rng: &mut Rng) -> Vec<Vec<f64>> {
    let mut inputs = product_probe_expectations(n).expect("n is 1 or 2");
    for row in inputs.iter_mut() {
        for x in row.iter_mut().skip(1) {
            match style {
                0..=2 => {}
                3..=5 => *x += 0.1 * rng.signed(),
                6 => *x = rng.signed(),
                7 => *x = numbers::grid(rng),
                8 => *x = rng.pick(&[0.0, -0.0, 1.0, -1.0]),
                9 => *x = numbers::scaled(rng, -20, 20),
                10 => *x = numbers::finite(rng),
                11 => *x = rng.pick(HUGE),
                _ => *x = rng.pick(&[f64::MAX, -f64::MAX, f64::MAX / 2.0, 0.0]),
            }
        }
    }
    // Other orders of the probes move the pivots.
    if rng.chance(50) {
        for k in (1..inputs.len()).rev() {
            inputs.swap(k, rng.index(k + 1));
        }
    }
    inputs
}

/// Sums and quotients of these leave the range.
const HUGE: &[f64] = &[f64::MAX, -f64::MAX, f64::MAX / 2.0, -f64::MAX / 2.0, f64::MAX / 8.0, 1.0, 0.5, 0.0, -0.0];

/// One-qubit vectors by which a NaN and the identity's number meet in the third column, and a tolerance that the latter may
/// or may not pass: the first two columns overflow.
fn nan_beside_small(rng: &mut Rng) -> (Vec<Vec<f64>>, f64) {
    let max = f64::MAX;
    let mut places = [1, 2, 3];
    places.swap(0, rng.index(3));
    let [a, b, c] = places;
    let mut vectors = vec![vec![1.0; 4]; 4];
    for (k, vector) in vectors.iter_mut().enumerate() {
        (vector[a], vector[b], vector[c]) = match k {
            0 => (max, max, max),
            1 => (max, max, -max),
            _ => (max * rng.signed(), max * rng.signed(), 0.0),
        };
    }
    (vectors, power(-1026 + rng.below(6) as i64))
}

/// Makes the last vector depend on others, or nearly so.
fn make_dependent(inputs: &mut [Vec<f64>], tolerance: f64, rng: &mut Rng) {
    let last = inputs.len() - 1;
    let (first, second) = (inputs[0].clone(), inputs[1].clone());
    let small = if rng.chance(50) { tolerance * rng.unit() * 4.0 } else { 0.0 };
    let middle = rng.chance(50);
    for (k, x) in inputs[last].iter_mut().enumerate().skip(1) {
        *x = if middle { 0.5 * first[k] + 0.5 * second[k] } else { first[k] };
        *x += small * rng.signed();
    }
}

/// A tolerance with which a pivot stands at its threshold, or one float beside it.
fn tolerance_at_pivot(n: usize, inputs: &[Vec<f64>], rng: &mut Rng) -> Option<f64> {
    let (_, pivots) = with_pivots(|| process_linear_inversion(n, inputs, inputs, power(-1074)));
    let scale = inputs.iter().flatten().fold(0.0f64, |scale, x| scale.max(x.abs()));
    let least = pivots.iter().map(|pivot| pivot.size).fold(f64::INFINITY, f64::min);
    let size = if rng.chance(70) || pivots.is_empty() { least } else { rng.pick(&pivots).size };
    let beside = [size, size.next_up(), size.next_down()][rng.index(3)];
    let near = beside / scale;
    // Not every size is a product with the scale.
    let exact = [near, near.next_up(), near.next_down()].into_iter().find(|t| t * scale == beside).unwrap_or(near);
    (exact.is_finite() && exact > 0.0).then_some(exact)
}

fn output_vectors(n: usize, inputs: &[Vec<f64>], noise: bool, rng: &mut Rng) -> Vec<Vec<f64>> {
    let p = inputs.len();
    let transfer = transfer_values(n, rng);
    let mut outputs: Vec<Vec<f64>> = inputs
        .iter()
        .map(|input| (0..p).map(|i| (0..p).map(|j| transfer[i * p + j] * input[j]).sum()).collect())
        .collect();
    let zeros = rng.chance(12);
    let huge = rng.chance(8);
    for row in outputs.iter_mut() {
        row[0] = 1.0;
        for x in row.iter_mut().skip(1) {
            if zeros {
                *x = if rng.chance(80) { -0.0 } else { 0.0 };
            } else if noise {
                *x += 0.01 * rng.signed();
            }
            if huge {
                // Products that leave the range.
                *x *= power(1000 + rng.below(23) as i64);
            }
        }
    }
    outputs
}

/// Identities that are not 1: one of them anywhere, or all of them within the tolerance.
fn disturb_identities(vectors: &mut [Vec<f64>], tolerance: f64, rng: &mut Rng) {
    match rng.below(20) {
        0 | 1 => vectors[rng.index(vectors.len())][0] = numbers::identity(rng, tolerance),
        2 => {
            for vector in vectors.iter_mut() {
                vector[0] = 1.0 + 0.9 * tolerance.min(1.0) * rng.signed();
            }
        }
        _ => {}
    }
}

pub fn process(rng: &mut Rng) -> Vec<u64> {
    let n = rng.pick(&[1, 1, 1, 2]);
    let style = rng.below(13);
    let mut inputs = input_vectors(n, style, rng);
    let mut tolerance = match rng.below(10) {
        0 => numbers::tolerance(rng),
        1 => rng.unit(),
        // Beside huge numbers a pivot of usual size passes only a tiny tolerance.
        _ if style > 9 => power(-1074 + rng.below(80) as i64),
        _ => power(-8 - rng.below(40) as i64),
    };
    if n == 1 && rng.chance(3) {
        (inputs, tolerance) = nan_beside_small(rng);
    } else if rng.chance(12) {
        make_dependent(&mut inputs, tolerance, rng);
    }
    if rng.chance(15) {
        tolerance = tolerance_at_pivot(n, &inputs, rng).unwrap_or(tolerance);
    }
    let mut outputs = output_vectors(n, &inputs, style > 2, rng);
    disturb_identities(&mut inputs, tolerance, rng);
    disturb_identities(&mut outputs, tolerance, rng);
    // A vector that is not finite hides what comes after it, so most of those that arose are tamed.
    let tame = rng.chance(90);
    let settled = |rows: Vec<Vec<f64>>| -> Vec<f64> {
        let tamed = |x: f64| if tame && !x.is_finite() { 0.5 } else { numbers::settled(x) };
        rows.concat().into_iter().map(tamed).collect()
    };
    let mut words = vec![Head { kind: 3, n, ..Head::default() }.word(), tolerance.to_bits()];
    words.extend(words_of(&settled(inputs)));
    words.extend(words_of(&settled(outputs)));
    words
}

/// Values by which the Choi matrix has equal eigenvalues, ties, or numbers at either end of the range.
fn tested_values(n: usize, rng: &mut Rng) -> Vec<f64> {
    let p = 1usize << (2 * n);
    match rng.below(16) {
        // A mixture of Pauli operations: its weights are the eigenvalues.
        0..=2 => {
            let weights: Vec<f64> = (0..p).map(|_| rng.pick(&[0.0, 0.0, 0.25, 0.5, 1.0, -0.25])).collect();
            let commutes = |a: usize, b: usize| {
                let differ = |shift: usize| {
                    let (x, y) = (a >> shift & 3, b >> shift & 3);
                    x != 0 && y != 0 && x != y
                };
                (0..n).filter(|k| differ(2 * k)).count() % 2 == 0
            };
            let of = |b: usize| (0..p).map(|a| if commutes(a, b) { weights[a] } else { -weights[a] }).sum();
            super::fixed::diagonal(&(0..p).map(of).collect::<Vec<f64>>())
        }
        3 => (0..p * p).map(|_| numbers::scaled(rng, -1074, -1010)).collect(),
        4 => (0..p * p).map(|_| rng.pick(&[power(60), -power(60), 1.0, -1.0, 0.0])).collect(),
        5 => (0..p * p).map(|_| numbers::scaled(rng, 1000, 1023)).collect(),
        6 => (0..p * p).map(|_| rng.signed() * power(1023) * 1.9).collect(),
        7 => (0..p * p).map(|_| if rng.chance(85) { 0.0 } else { numbers::grid(rng) }).collect(),
        _ => transfer_values(n, rng),
    }
}

/// A tolerance at which an eigenvalue stands, or one float beside it; or the largest entry at its limit.
fn tolerance_at_eigenvalue(n: usize, values: &[f64], rng: &mut Rng) -> Option<f64> {
    let transfer = PauliTransferMatrix::try_new(n, values.to_vec()).ok()?;
    let run = |t: f64| with_notes(|| with_rotations(64 << (4 * n), || transfer.is_completely_positive(t))).1;
    let good = |t: f64| t.is_finite() && t > 0.0;
    if rng.chance(30) {
        // The scale is a limit over its tolerance of 1.
        let turns = run(1.0).turns.into_iter().chain(run(power(-40)).turns);
        let list: Vec<(f64, f64)> = turns.map(|turn| (turn.best, turn.limit)).collect();
        let scale = list.first()?.1;
        let near = rng.pick(&list).0 / scale;
        return Some([near, near.next_up(), near.next_down()][rng.index(3)]).filter(|&t| good(t));
    }
    // The tolerance changes how far the rotations go, so it is looked for in a few steps.
    let mut tolerance = 0.25;
    for _ in 0..3 {
        let least = run(tolerance).eigenvalues.into_iter().filter(|x| x.is_finite() && *x < 0.0);
        let least: Vec<f64> = least.collect();
        tolerance = -*least.get(rng.index(least.len().max(1)))?;
    }
    Some([tolerance, tolerance.next_up(), tolerance.next_down()][rng.index(3)]).filter(|&t| good(t))
}

pub fn physical(rng: &mut Rng) -> Vec<u64> {
    let n = rng.pick(&[1, 1, 1, 2]);
    let p = 1usize << (2 * n);
    let mut tolerance = numbers::tolerance(rng);
    let mut values = tested_values(n, rng);
    if rng.chance(20) {
        tolerance = tolerance_at_eigenvalue(n, &values, rng).unwrap_or(tolerance);
    }
    if rng.chance(30) {
        // One entry of the first row or column at the tolerance or beside it.
        let k = rng.index(p);
        let place = if rng.chance(50) { k } else { k * p };
        let identity = numbers::identity(rng, tolerance);
        values[place] = if place == 0 { identity } else { numbers::settled(identity - 1.0) };
        if rng.chance(30) {
            let beside = if place == 0 { 1.0 - tolerance } else { numbers::next(tolerance, rng.chance(50)) };
            values[place] = numbers::settled(beside);
        }
    }
    let most = 64 * (p * p) as u64;
    let rotations = match rng.below(10) {
        0 => rng.below(4),
        1 => rng.below((p * p) as u64),
        _ => most,
    };
    let mut words = vec![Head { kind: 4, n, ..Head::default() }.word(), tolerance.to_bits(), rotations];
    words.extend(words_of(&values));
    if rng.chance(10) {
        if let Some(least) = least_rotations(&words, most) {
            words[2] = least - rng.below(2);
        }
    }
    words
}

/// By rows; mostly trace preserving.
fn transfer_values(n: usize, rng: &mut Rng) -> Vec<f64> {
    let p = 1usize << (2 * n);
    let style = rng.below(9);
    let mut values = vec![0.0; p * p];
    for i in 0..p {
        for j in 0..p {
            values[i * p + j] = match style {
                0 | 1 if i == j => rng.pick(&[1.0, -1.0, 0.5, 0.0, 0.25]),
                0 | 1 => 0.0,
                2 if i == j => 0.5 * rng.signed(),
                2 => 0.1 * rng.signed(),
                3 | 4 => rng.signed(),
                5 => numbers::grid(rng),
                6 => numbers::scaled(rng, -40, 40),
                7 => numbers::finite(rng),
                _ => rng.pick(&[f64::MAX, -f64::MAX, 0.0, 1.0]),
            };
        }
    }
    if style < 7 && rng.chance(70) {
        for (j, x) in values.iter_mut().take(p).enumerate() {
            *x = if j == 0 { 1.0 } else { 0.0 };
        }
    }
    if style < 7 && rng.chance(50) {
        for i in 0..p {
            values[i * p] = if i == 0 { 1.0 } else { 0.0 };
        }
    }
    values
}
