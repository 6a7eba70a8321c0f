//! Kind 5.

use super::gate_set::{self, coordinate, model, records, shape};
use super::numbers::{self, power};
use super::words_of;
use crate::card::{bytes_of, Head};
use crate::hooks::{with_notes, Event};
use crate::random::Rng;
use crate::sheet::{outcome, Outcome};

/// Places of the controls on a card.
const ITERATIONS: usize = 1;
const GRADIENT_TOLERANCE: usize = 4;
const OBJECTIVE_TOLERANCE: usize = 5;

/// The parts of a card, so that each can be changed before the words are put together.
struct Card {
    head: Head,
    iterations: u64,
    step: f64,
    difference: f64,
    gradient_tolerance: f64,
    objective_tolerance: f64,
    tolerance: f64,
    backtracks: u64,
    anchor: f64,
    model: Vec<u64>,
    records: Vec<u64>,
    coordinates: Vec<u64>,
}

impl Card {
    fn words(&self) -> Vec<u64> {
        let mut words = vec![self.head.word(), self.iterations];
        let positive =
            [self.step, self.difference, self.gradient_tolerance, self.objective_tolerance, self.tolerance];
        words.extend(words_of(&positive));
        words.extend([self.backtracks, self.anchor.to_bits()]);
        words.extend(&self.model);
        words.extend(&self.records);
        words.extend(&self.coordinates);
        words
    }

    fn number(&mut self, place: usize) -> f64 {
        f64::from_bits(self.model[place])
    }

    /// The first two effects' first numbers, all other numbers of effects zero: with the first row of each gate (1, 0, ..) and
    /// a state that begins with 1 these are the probabilities, whatever the sequence.
    fn pin_effects(&mut self, first: f64, second: f64) {
        let d = self.head.d;
        self.model[d..d + self.head.effects * d].fill(0);
        self.model[d] = first.to_bits();
        self.model[2 * d] = second.to_bits();
    }
}

/// The entries of a gate's row 1 and below, and of the state after its first: they keep the sum of the probabilities.
fn keeping_sums(head: &Head, rng: &mut Rng) -> u64 {
    let d = head.d as u64;
    match rng.below(4) {
        _ if d == 1 => 1 << 60,
        0 => 1 << 60 | rng.between(1, d - 1),
        _ if head.gates == 0 => 1 << 60 | rng.between(1, d - 1),
        _ => 3 << 60 | rng.below(head.gates as u64) << 48 | rng.between(1, d - 1) << 24 | rng.below(d),
    }
}

/// Different coordinates, as many as there are or as are asked for.
fn different(count: usize, make: impl Fn(&mut Rng) -> u64, rng: &mut Rng) -> Vec<u64> {
    let mut list = Vec::new();
    for _ in 0..20 * count {
        let word = make(rng);
        if list.len() < count && !list.contains(&word) {
            list.push(word);
        }
    }
    list
}

/// Counts that a model near this one gives for some runs, so that there is something to fit.
fn set_counts(card: &mut Card, runs: f64, distance: f64, rng: &mut Rng) {
    let (d, effects) = (card.head.d, card.head.effects);
    let numbers: Vec<f64> = card.model.iter().map(|&word| f64::from_bits(word)).collect();
    let gates = &numbers[d + effects * d..];
    let matrices: Vec<Vec<f64>> = (0..card.head.gates)
        .map(|gate| {
            let values = &gates[gate * (1 + d * d) + 1..][..d * d];
            values.iter().enumerate().map(|(k, x)| if k < d { *x } else { x + distance * rng.signed() }).collect()
        })
        .collect();
    let start: Vec<f64> =
        (0..d).map(|k| numbers[k] + if k == 0 { 0.0 } else { distance * rng.signed() }).collect();
    for record in card.records.chunks_mut(5 + effects) {
        let mut state = start.clone();
        for k in 0..(record[0] >> 56) as usize {
            let gate = (record[1 + k / 16] >> (60 - 4 * (k % 16)) & 15) as usize;
            if let Some(matrix) = matrices.get(gate) {
                state = matrix.chunks(d).map(|row| row.iter().zip(&state).map(|(a, b)| a * b).sum()).collect();
            }
        }
        for (k, count) in record[5..].iter_mut().enumerate() {
            let p: f64 = numbers[d + k * d..][..d].iter().zip(&state).map(|(a, b)| a * b).sum();
            *count = (runs * p).clamp(0.0, runs).round() as u64;
        }
        if record[5..].iter().all(|&count| count == 0) {
            record[5] = 1;
        }
    }
}

/// A card whose fit makes steps: small models mostly, any d, sometimes many records and coordinates.
fn descending(rng: &mut Rng) -> Card {
    let mut head = shape(5, rng);
    if rng.chance(40) {
        head.d = rng.between(1, 16) as usize;
        head.gates = rng.index(3);
    }
    head.records = rng.pick(&[1, 2, 2, 3, 4, 6]);
    let mut longest = rng.pick(&[1, 2, 4, 8]);
    let mut count = rng.pick(&[1, 2, 2, 3, 4, 6]);
    let mut iterations = rng.pick(&[1, 1, 2, 3, 4, 6, 12]);
    match rng.below(300) {
        0 => (head.records, longest, iterations) = (rng.pick(&[100, 200]), 2, 2),
        1 => (head.d, head.gates, count, iterations) = (rng.between(9, 16) as usize, 1, 64, 2),
        2 => (head.gates, longest) = (8, 64),
        3 => head.effects = 16,
        _ => {}
    }
    let coordinates = different(count, |rng| keeping_sums(&head, rng), rng);
    head.coordinates = coordinates.len();
    let mut card = Card {
        head,
        iterations,
        step: rng.pick(&[0.1, 1e-2, 1e-3, 1e-3, 1e-4]),
        difference: rng.pick(&[1e-5, 1e-5, 1e-6, 1e-3]),
        gradient_tolerance: 1e-8,
        objective_tolerance: rng.pick(&[1e-12, 1e-12, 1e-12, 1e-6, 1e-2]),
        tolerance: rng.pick(&[1e-9, 1e-6]),
        backtracks: rng.pick(&[1, 2, 3, 3, 5, 24, 24, 24, 60, 255]),
        anchor: rng.pick(&[0.0, 0.0, -0.0, 1e-3, 1.0, 100.0]),
        model: model(&head, rng),
        records: records(&head, longest, rng),
        coordinates,
    };
    let (runs, distance) = (rng.pick(&[10.0, 100.0, 1000.0]), rng.pick(&[0.0, 1e-3, 1e-2, 0.05]));
    set_counts(&mut card, runs, distance, rng);
    card
}

/// At least two effects and one coordinate of each of them.
fn of_two_effects(rng: &mut Rng) -> Card {
    let mut card = descending(rng);
    while card.head.effects < 2 {
        card = descending(rng);
    }
    card.coordinates = vec![2 << 60, 2 << 60 | 1 << 48];
    if rng.chance(50) {
        card.coordinates.truncate(1);
    }
    if rng.chance(30) {
        card.coordinates.insert(0, keeping_sums(&card.head, rng));
    }
    card.head.coordinates = card.coordinates.len();
    card
}

/// Probes that leave the tolerance: on one side, on both, or not.
fn beside_the_tolerance(rng: &mut Rng) -> Card {
    let mut card = of_two_effects(rng);
    card.difference = rng.pick(&[1e-5, 1e-3, power(-12)]);
    card.tolerance = card.difference * rng.pick(&[0.25, 0.5, 1.0, 1.5, 2.0, 4.0]);
    let off = card.tolerance * rng.signed();
    let place = card.head.d;
    card.model[place] = (card.number(place) + off).to_bits();
    card.step = rng.pick(&[1e-3, 1e-6, 1e-9]);
    card
}

/// Probabilities near 0, where a probe or a trial makes a counted one zero.
fn beside_zero(rng: &mut Rng) -> Card {
    let mut card = of_two_effects(rng);
    let p = rng.pick(&[1e-5, 1e-3, 0.01]) * (0.5 + rng.unit());
    card.pin_effects(p, 1.0 - p);
    (card.difference, card.tolerance) = (rng.pick(&[1e-5, 1e-3]), rng.pick(&[1e-9, 1e-4, 0.25]));
    (card.step, card.backtracks) = (rng.pick(&[0.1, 1e-3, 1e-6, 1e-9]), rng.pick(&[2, 5, 24, 60]));
    card
}

/// Derivatives that leave the range, or whose squares do: probabilities and differences near the smallest numbers.
fn tiny_probability(rng: &mut Rng) -> Card {
    let mut card = of_two_effects(rng);
    let (p, difference) = match rng.below(5) {
        0 => (5e-324, 5e-324),
        // The deviance is infinite, the derivative is not.
        4 => (5e-324, 1e-5),
        1 => (power(-1070), power(-1073)),
        2 => (2e-160, 1e-160),
        _ => (power(-500), power(-502 - rng.below(560) as i64)),
    };
    card.pin_effects(p, 1.0);
    card.difference = difference;
    card.coordinates = vec![2 << 60];
    card.head.coordinates = 1;
    for record in card.records.chunks_mut(5 + card.head.effects) {
        record[5..].fill(0);
        record[5..7].fill(1);
    }
    card
}

/// A state's number that no probability has: it may be any size.
fn idle_number(rng: &mut Rng, x: f64) -> Card {
    let mut card = of_two_effects(rng);
    while card.head.d == 1 {
        card = of_two_effects(rng);
    }
    card.pin_effects(0.5, 0.5);
    let d = card.head.d;
    let idle = 1 + rng.index(d - 1);
    card.model[idle] = x.to_bits();
    // Gates would carry it into other numbers and make them infinite.
    card.records.chunks_mut(5 + card.head.effects).for_each(|record| record[..5].fill(0));
    card.coordinates = vec![1 << 60 | idle as u64];
    if rng.chance(60) {
        let place = rng.index(2);
        card.coordinates.insert(place, 1 << 60);
    }
    card.head.coordinates = card.coordinates.len();
    card
}

/// A trial that goes so far that the anchor's squares leave the range while the probabilities stay good.
fn far_trial(rng: &mut Rng) -> Card {
    let mut card = idle_number(rng, 0.0);
    let (d, idle) = (card.head.d, card.coordinates.iter().map(|word| word & 0xff).max().unwrap_or(1) as usize);
    let slope = 1e-155;
    card.model[d + idle] = f64::to_bits(slope);
    card.model[2 * d + idle] = f64::to_bits(-slope);
    card.coordinates = vec![1 << 60 | idle as u64];
    (card.head.coordinates, card.head.records) = (1, 1);
    card.records.truncate(5 + card.head.effects);
    card.records[5..].fill(0);
    let (more, less) = (rng.between(55, 90), rng.between(5, 45));
    (card.records[5], card.records[6]) = (more, less);
    (card.difference, card.gradient_tolerance) = (1e150, 1e-300);
    let derivative = 2.0 * slope * (more - less) as f64;
    card.step = ((1.0 + 3.0 * rng.unit()) * 1e154 / derivative).min(f64::MAX);
    card.anchor = rng.pick(&[0.0, 0.0, -0.0, 1e-310]);
    card.backtracks = rng.pick(&[1, 2, 3, 24]);
    card
}

/// Two coordinates for one entry: a row earlier and d columns later.
fn one_entry_twice(rng: &mut Rng) -> Card {
    let mut card = descending(rng);
    while card.head.gates == 0 || card.head.d == 1 {
        card = descending(rng);
    }
    let d = card.head.d as u64;
    let (gate, row, column) = (rng.below(card.head.gates as u64), rng.between(1, d - 1), rng.below(d));
    let earlier = rng.between(1, row);
    let named = |row: u64, column: u64| 3 << 60 | gate << 48 | row << 24 | column;
    let mut pair = [named(row, column), named(row - earlier, column + earlier * d)];
    if rng.chance(50) {
        pair.reverse();
    }
    card.coordinates.retain(|word| !pair.contains(word));
    card.coordinates.truncate(3);
    let place = rng.index(card.coordinates.len() + 1);
    card.coordinates.insert(place, pair[0]);
    card.coordinates.push(pair[1]);
    card.head.coordinates = card.coordinates.len();
    card
}

/// One or two faults that are found before the first gradient.
fn faulty(rng: &mut Rng) -> Card {
    let mut card = descending(rng);
    for _ in 0..rng.pick(&[1, 2, 2, 3]) {
        let (d, effects, gates) = (card.head.d, card.head.effects, card.head.gates);
        let size = 5 + effects;
        let record = if card.records.is_empty() { None } else { Some(rng.index(card.records.len() / size) * size) };
        let bad = numbers::special(rng);
        let bad = if bad.is_finite() { f64::NAN } else { bad };
        let name = d + effects * d;
        match (rng.below(16), record) {
            (0, _) if d > 0 => card.model[rng.index(d)] = numbers::settled(bad).to_bits(),
            (1, _) if effects > 0 => {
                // No effects: their numbers and the counts go.
                card.model.drain(d..name);
                card.records = card.records.chunks(size).flat_map(|record| record[..5].to_vec()).collect();
                card.head.effects = 0;
            }
            (2, _) if name > d => card.model[d + rng.index(name - d)] = numbers::settled(bad).to_bits(),
            (3, _) if gates > 0 => {
                let place = name + rng.index(gates) * (1 + d * d) + 1 + rng.index(d * d);
                card.model[place] = numbers::settled(bad).to_bits();
            }
            (4, _) if gates > 0 => card.model[name + rng.index(gates) * (1 + d * d)] = 0,
            (5, _) if gates > 1 => {
                let later = 1 + rng.index(gates - 1);
                card.model[name + later * (1 + d * d)] = card.model[name + rng.index(later) * (1 + d * d)];
            }
            (6 | 7, _) => {
                let bad = rng.pick(&[0.0, -0.0, -1.0, f64::INFINITY, f64::NEG_INFINITY, f64::from_bits(0x7ff8000000000000)]);
                match rng.below(8) {
                    0 => card.iterations = 0,
                    1 => card.backtracks = 0,
                    2 => card.step = bad,
                    3 => card.difference = bad,
                    4 => card.gradient_tolerance = bad,
                    5 => card.objective_tolerance = bad,
                    6 => card.tolerance = bad,
                    _ => card.anchor = bad,
                }
            }
            (8, _) => {
                card.records.clear();
                card.head.records = 0;
            }
            (9, _) => card.coordinates.clear(),
            (10, _) if !card.coordinates.is_empty() => {
                let again = rng.pick(&card.coordinates);
                let place = rng.index(card.coordinates.len() + 1);
                card.coordinates.insert(place, again);
            }
            (11, _) => {
                let far = match rng.below(4) {
                    0 => 1 << 60 | d as u64,
                    1 => 2 << 60 | (effects as u64) << 48,
                    2 => 3 << 60 | (gates as u64) << 48,
                    _ => 3 << 60 | (d as u64) << 24,
                };
                let place = rng.index(card.coordinates.len() + 1);
                card.coordinates.insert(place, far);
            }
            (12, Some(at)) => {
                card.records[at] = 1 << 56;
                card.records[at + 1..at + 5].fill(0);
                card.records[at + 1] = rng.between(gates as u64, 15) << 60;
            }
            (13, Some(at)) => card.records[at + 5..at + size].fill(0),
            (14, Some(at)) if effects > 1 => {
                card.records[at + 5..at + size].fill(0);
                (card.records[at + 5], card.records[at + 6]) = (u64::MAX - rng.below(3), 1 + rng.below(5));
            }
            (15, _) if name > d => {
                let place = d + rng.index(name - d);
                card.model[place] = numbers::settled(f64::from_bits(card.model[place]) + 0.125).to_bits();
            }
            _ => {}
        }
    }
    if rng.chance(10) {
        // A repeat and an absent entry, in either order.
        let (again, far) = (keeping_sums(&card.head, rng), 1 << 60 | 17);
        let mut list = vec![again, again, far];
        list.swap(2, rng.index(3));
        card.coordinates.extend(list);
    }
    card.coordinates.truncate(crate::card::MOST_COORDINATES);
    card.head.coordinates = card.coordinates.len();
    card
}

/// A tolerance of the gradient or of the objective that one of the fit's own norms or drops just passes, or just fails.
fn at_an_edge(words: &mut [u64], rng: &mut Rng) {
    let (found, notes) = with_notes(|| outcome(&bytes_of(words)));
    let Outcome::Accepted { words: sheet, .. } = found else { return };
    let norms = notes.fit.iter().filter_map(|event| match event {
        Event::Norm(norm) => Some(*norm),
        _ => None,
    });
    let drops = notes.fit.iter().filter_map(|event| match event {
        Event::Trial { objective: Some(objective), present } if objective < present => Some(present - objective),
        _ => None,
    });
    let (place, list): (usize, Vec<f64>) = match rng.below(3) {
        0 => (GRADIENT_TOLERANCE, norms.collect()),
        1 => (GRADIENT_TOLERANCE, vec![f64::from_bits(sheet[5])]),
        _ => (OBJECTIVE_TOLERANCE, drops.collect()),
    };
    if list.is_empty() {
        return;
    }
    let x = rng.pick(&list);
    let x = [x, x.next_down(), x.next_up()][rng.index(3)];
    if x.is_finite() && x > 0.0 {
        words[place] = x.to_bits();
    }
}

pub fn card(rng: &mut Rng) -> Vec<u64> {
    let style = rng.below(100);
    let mut card = match style {
        0..=19 => return any(rng),
        20..=39 => descending(rng),
        40..=54 => {
            let mut words = descending(rng).words();
            at_an_edge(&mut words, rng);
            return words;
        }
        55..=60 => beside_the_tolerance(rng),
        61..=65 => beside_zero(rng),
        66..=67 => tiny_probability(rng),
        68..=69 => {
            // A probe past the largest number, above or below.
            let x = rng.pick(&[f64::MAX, -f64::MAX]);
            idle_number(rng, x)
        }
        70..=71 => {
            let mut card = idle_number(rng, 0.25);
            card.difference = rng.pick(&[1e155, 1e200, 1e300]);
            card
        }
        72..=73 => far_trial(rng),
        74..=79 => one_entry_twice(rng),
        80..=83 => {
            // The first step goes too far for the backtracks.
            let mut card = descending(rng);
            (card.step, card.backtracks) = (rng.pick(&[1.0, 1e3, 1e9]), rng.between(1, 3));
            card
        }
        84..=86 => {
            // A trial that is infinite, where the derivative is not small.
            let mut card = descending(rng);
            card.step = rng.pick(&[1e300, 1e308, f64::MAX]);
            set_counts(&mut card, 1e6, 0.05, rng);
            card
        }
        87 => {
            let mut card = descending(rng);
            card.objective_tolerance = rng.pick(&[1.0, 1e3, f64::MAX]);
            card
        }
        88 => {
            let mut card = descending(rng);
            card.gradient_tolerance = rng.pick(&[1.0, 1e3, f64::MAX]);
            card
        }
        _ => faulty(rng),
    };
    if style < 89 && rng.chance(5) {
        card.iterations = rng.between(1, 20);
    }
    card.words()
}

/// One card at each limit from 1 to 12 iterations.
pub fn series(rng: &mut Rng) -> Vec<Vec<u64>> {
    let mut card = match rng.below(4) {
        0 => one_entry_twice(rng),
        1 => beside_zero(rng),
        _ => descending(rng),
    };
    (card.objective_tolerance, card.backtracks) = (1e-12, rng.pick(&[2, 5, 24]));
    let words = card.words();
    (1..=12)
        .map(|iterations| {
            let mut words = words.clone();
            words[ITERATIONS] = iterations;
            words
        })
        .collect()
}

/// A valid card may ask for 65,535 iterations. One in ten of those is enough.
pub fn limit_cost(words: &mut [u64], rng: &mut Rng) {
    if words.len() > 1 && words[0] >> 60 == 5 && (1000..65_536).contains(&words[1]) && rng.chance(90) {
        words[1] = 200;
    }
}

/// Any controls, any coordinates, counts that need not fit the model.
fn any(rng: &mut Rng) -> Vec<u64> {
    let mut head = shape(5, rng);
    head.records = rng.pick(&[1, 1, 2, 3, 4, 6]);
    head.coordinates = rng.pick(&[1, 1, 2, 2, 3, 4, 6]);
    match rng.below(60) {
        0 => head.records = 0,
        1 => head.coordinates = 0,
        _ => {}
    }
    let control = |rng: &mut Rng, usual: f64, list: &[f64]| match rng.below(12) {
        0 => rng.pick(list),
        1 => usual * power(rng.below(9) as i64 - 4),
        _ => usual,
    };
    let mut words = vec![
        head.word(),
        rng.pick(&[1, 1, 2, 3, 4, 6, 10]),
        control(rng, 0.1, &[1.0, 1e-3, 1e-6, 1e300]).to_bits(),
        control(rng, 1e-5, &[1e-2, 0.5, 1e-12, 1e-17, 1e300]).to_bits(),
        control(rng, 1e-8, &[1.0, 10.0, 1e3, 1e-300]).to_bits(),
        control(rng, 1e-12, &[1e-3, 1.0, 5e-324]).to_bits(),
        rng.pick(&[1e-9f64, 1e-9, 1e-4, 1e-2, 0.25, 1e-15]).to_bits(),
        rng.pick(&[24, 24, 1, 2, 5, 60]),
        rng.pick(&[0.0f64, 0.0, 1e-3, 1.0, 100.0, -0.0]).to_bits(),
    ];
    if rng.chance(3) {
        let place = rng.between(1, 8) as usize;
        words[place] = if place == 1 || place == 7 { 0 } else { numbers::special(rng).to_bits() };
    }
    let at = words.len();
    words.extend(model(&head, rng));
    if rng.chance(4) {
        gate_set::spoil_model(&mut words, at, &head, rng);
    }
    let longest = rng.pick(&[2, 4, 4, 12]);
    words.extend(records(&head, longest, rng));
    let first = words.len();
    for _ in 0..head.coordinates {
        words.push(coordinate(&head, rng));
    }
    // Repeats by chance are frequent in small models; keep only some of them.
    for k in first..words.len() {
        let mut tries = 0;
        while words[first..k].contains(&words[k]) && tries < 8 && rng.chance(95) {
            words[k] = coordinate(&head, rng);
            tries += 1;
        }
    }
    words
}
