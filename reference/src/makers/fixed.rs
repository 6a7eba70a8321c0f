//! Cards that are always tried: document 01's examples, the reader's traps, and sweeps over one card.

use super::fits;
use super::numbers::{self, power};
use super::words_of;
use crate::card::{self, bytes_of, Head, Refusal, Role};
use crate::hooks::with_pivots;
use crate::random::Rng;
use crate::tomography::{process_linear_inversion, product_probe_expectations};

fn head(kind: u8, n: usize, d: usize) -> u64 {
    Head { kind, n, d, ..Head::default() }.word()
}

fn with_numbers(mut words: Vec<u64>, values: &[f64]) -> Vec<u64> {
    words.extend(words_of(values));
    words
}

pub fn density(n: usize, tolerance: f64, expectations: &[f64]) -> Vec<u64> {
    with_numbers(vec![head(1, n, 0), tolerance.to_bits()], expectations)
}

/// A real estimate, by rows.
pub fn projection(d: usize, tolerance: f64, rotations: u64, real: &[f64]) -> Vec<u64> {
    let parts: Vec<f64> = real.iter().flat_map(|&re| [re, 0.0]).collect();
    with_numbers(vec![head(2, 0, d), tolerance.to_bits(), rotations], &parts)
}

pub fn process(n: usize, tolerance: f64, inputs: &[f64], outputs: &[f64]) -> Vec<u64> {
    with_numbers(with_numbers(vec![head(3, n, 0), tolerance.to_bits()], inputs), outputs)
}

pub fn physical(n: usize, tolerance: f64, rotations: u64, values: &[f64]) -> Vec<u64> {
    with_numbers(vec![head(4, n, 0), tolerance.to_bits(), rotations], values)
}

pub fn diagonal(values: &[f64]) -> Vec<f64> {
    let d = values.len();
    let mut matrix = vec![0.0; d * d];
    for (i, &x) in values.iter().enumerate() {
        matrix[i * d + i] = x;
    }
    matrix
}

/// State, effects, gates with their name words.
pub struct Parts {
    pub state: Vec<f64>,
    pub effects: Vec<Vec<f64>>,
    pub gates: Vec<(u64, Vec<f64>)>,
}

impl Parts {
    fn words(&self) -> Vec<u64> {
        let mut words = with_numbers(words_of(&self.state), &self.effects.concat());
        for (name, values) in &self.gates {
            words.push(*name);
            words.extend(words_of(values));
        }
        words
    }

    fn head(&self, kind: u8, records: usize, coordinates: usize) -> u64 {
        let (d, effects, gates) = (self.state.len(), self.effects.len(), self.gates.len());
        Head { kind, d, effects, gates, records, coordinates, ..Head::default() }.word()
    }
}

/// A record's words.
pub fn record(sequence: &[u64], counts: &[u64]) -> Vec<u64> {
    let mut words = vec![(sequence.len() as u64) << 56, 0, 0, 0, 0];
    for (k, gate) in sequence.iter().enumerate() {
        words[1 + k / 16] |= gate << (60 - 4 * (k % 16));
    }
    words.extend(counts);
    words
}

/// The Rust's default controls.
pub fn default_controls() -> [u64; 8] {
    let f = f64::to_bits;
    [200, f(0.1), f(1e-5), f(1e-8), f(1e-12), f(1e-9), 24, f(0.0)]
}

pub fn fit(controls: [u64; 8], model: &Parts, records: &[Vec<u64>], coordinates: &[u64]) -> Vec<u64> {
    let mut words = vec![model.head(5, records.len(), coordinates.len())];
    words.extend(controls);
    words.extend(model.words());
    words.extend(records.concat());
    words.extend(coordinates);
    words
}

pub fn gauge(model: &Parts, transform: &[f64]) -> Vec<u64> {
    let mut words = vec![model.head(6, 0, 0)];
    words.extend(model.words());
    with_numbers(words, transform)
}

pub fn diagnostics(tolerance: f64, model: &Parts, records: &[Vec<u64>]) -> Vec<u64> {
    let mut words = vec![model.head(7, records.len(), 0), tolerance.to_bits()];
    words.extend(model.words());
    words.extend(records.concat());
    words
}

/// One state number, two effects of one number, no gates.
pub fn two_outcomes(first: f64, second: f64) -> Parts {
    Parts { state: vec![1.0], effects: vec![vec![first], vec![second]], gates: vec![] }
}

/// d 2 with a gate that mixes, a gate that swaps sign, and three effects.
pub fn small_model() -> Parts {
    Parts {
        state: vec![1.0, 0.25],
        effects: vec![vec![0.5, 0.25], vec![0.25, -0.125], vec![0.25, -0.125]],
        gates: vec![(7, vec![1.0, 0.0, 0.125, 0.5]), (0x6964, vec![1.0, 0.0, 0.0, -1.0])],
    }
}

/// Document 01's examples with what the sheet program prints, or its first line.
pub fn stars() -> Vec<(Vec<u64>, &'static str)> {
    let pure = "density 2
3ff0000000000000 0000000000000000
0000000000000000 0000000000000000
0000000000000000 0000000000000000
0000000000000000 0000000000000000
";
    let identity = |x: f64| density(1, 0.5, &[x, 0.0, 0.0, 1.0]);
    let swap = |rotations| projection(2, power(-20), rotations, &[0.0, 1.0, 1.0, 0.0]);
    let two = Parts { state: vec![1.0, 0.0], effects: vec![vec![1.0, 0.0]], gates: vec![] };
    vec![
        (density(1, f64::from_bits(0x3eb0000000000000), &[1.0, 0.0, 0.0, 1.0]), pure),
        (identity(1.5), pure),
        (identity(1.5 + power(-52)), "refused 4 3ff8000000000001 0000000000000000\n"),
        (
            density(1, 0.5, &[1.0, 0.0, 0.0, power(60)]),
            "density 2
43a0000000000000 0000000000000000
0000000000000000 0000000000000000
0000000000000000 0000000000000000
c3a0000000000000 0000000000000000
",
        ),
        (
            projection(3, power(-20), 1, &diagonal(&[1.0, 0.5, -0.5])),
            "projected 3
3fe8000000000000 0000000000000000
0000000000000000 0000000000000000
0000000000000000 0000000000000000
0000000000000000 0000000000000000
3fd0000000000000 0000000000000000
0000000000000000 0000000000000000
0000000000000000 0000000000000000
0000000000000000 0000000000000000
0000000000000000 0000000000000000
",
        ),
        (projection(1, power(-20), 1, &[power(60)]), "refused 6 0000000000000000 0000000000000000\n"),
        (swap(1), "refused 12 0000000000000000 0000000000000000\n"),
        (swap(2), "projected 2\n"),
        (physical(1, 0.25, 2, &diagonal(&[1.0, 1.0, -1.0, 1.0])), "physical 1 1 0\n"),
        (gauge(&two, &diagonal(&[1.0, power(-45)])), "refused 10 0000000000000000 0000000000000000\n"),
        (
            gauge(&two, &diagonal(&[1.0, power(-44)])),
            "model 4
3ff0000000000000
0000000000000000
3ff0000000000000
0000000000000000
",
        ),
        (
            fit(default_controls(), &two_outcomes(0.5, 0.5), &[record(&[], &[1, 1])], &[2 << 60]),
            "fit 1 0 5 1\n",
        ),
        (diagnostics(1e-9, &two_outcomes(power(-1074), 1.0), &[record(&[], &[1, 1])]), "diagnostics\n"),
    ]
}

/// Cards on which the reader is easily wrong, with its reading.
pub fn traps() -> Vec<(Vec<u8>, Result<u8, Refusal>)> {
    let at = |place: u64| Err(Refusal::new(15, place, 0));
    let length = |wanted: u64, found: u64| Err(Refusal::new(2, wanted, found));
    let qubits = Err(Refusal::new(1, 0, 0));
    let mut list: Vec<(Vec<u8>, Result<u8, Refusal>)> = vec![(vec![], at(0))];
    let mut put = |words: Vec<u64>, reading| list.push((bytes_of(&words), reading));

    // Word 0.
    for kind in [0u64, 8, 9, 15] {
        put(vec![kind << 60 | 1 << 56], at(0));
        put(vec![kind << 60 | 1 << 56, 0, 0, 0, 0, 0], at(0));
    }
    put(vec![head(2, 1, 1), 0, 0, 0, 0], at(0));
    put(vec![head(2, 0, 0), 0, 0], at(0));
    put(vec![head(2, 0, 17)], at(0));
    put(vec![head(5, 0, 17)], at(0));
    put(vec![head(7, 2, 1), 0, 0], at(0));
    put(vec![head(1, 1, 0) | 1, 0, 0, 0, 0, 0], at(0));
    put(vec![head(1, 0, 0) | 1], at(0));
    put(vec![head(4, 9, 0) | 1 << 8], at(0));
    put(vec![head(6, 0, 1) | 1 << 16, 0, 0], at(0));
    put(vec![head(7, 0, 1) | 1 << 8, 0, 0], at(0));
    put(vec![Head { kind: 5, effects: 17, ..Head::default() }.word()], at(0));
    put(vec![Head { kind: 5, gates: 9, ..Head::default() }.word()], at(0));
    put(vec![Head { kind: 7, records: 201, ..Head::default() }.word()], at(0));
    put(vec![Head { kind: 5, coordinates: 65, ..Head::default() }.word()], at(0));

    // n at fault: no other word is looked at, the size is.
    for n in [0, 4, 15] {
        put(vec![head(1, n, 0)], qubits);
    }
    put(vec![head(3, 3, 0), 1, 2, 3], qubits);
    put(vec![head(4, 3, 0), 0, u64::MAX], qubits);
    put(vec![head(4, 0, 0), 0, u64::MAX], qubits);

    // Lengths count word 0.
    for n in 1..=3 {
        let wanted = 2 + (1 << (2 * n)) as u64;
        put(vec![head(1, n, 0)], length(wanted, 1));
        put(vec![head(1, n, 0); wanted as usize + 1], length(wanted, wanted + 1));
        put(vec![head(1, n, 0); wanted as usize], Ok(1));
    }
    put(vec![head(2, 0, 16)], length(515, 1));
    put(vec![head(3, 2, 0)], length(514, 1));
    put(vec![head(4, 2, 0)], length(259, 1));
    put(vec![head(5, 0, 0)], length(9, 1));
    put(vec![head(6, 0, 0)], Ok(6));
    put(vec![head(7, 0, 0), 0], Ok(7));
    put([vec![head(5, 0, 0)], vec![0; 8]].concat(), Ok(5));

    // Rotations, with the length right, too short, too long.
    put(projection(1, 1.0, 64, &[1.0]), Ok(2));
    put(projection(1, 1.0, 65, &[1.0]), at(2));
    put(projection(16, 1.0, 16_384, &[]), length(515, 3));
    put(projection(16, 1.0, 16_385, &[]), at(2));
    put(projection(1, 1.0, 0, &[1.0, 1.0]), length(5, 7));
    put(projection(1, 1.0, u64::MAX, &[1.0, 1.0]), at(2));
    put(vec![head(2, 0, 1), 0], length(5, 2));
    put(physical(1, 1.0, 1024, &[0.0; 16]), Ok(4));
    put(physical(1, 1.0, 1025, &[0.0; 16]), at(2));
    put(physical(2, 1.0, 16_384, &[0.0; 256]), Ok(4));
    put(physical(2, 1.0, 16_385, &[]), at(2));

    // Controls.
    let model = small_model();
    let fit_with = |controls: [u64; 8]| fit(controls, &model, &[], &[]);
    let mut controls = [0; 8];
    put(fit_with(controls), Ok(5));
    controls[0] = 65_535;
    controls[6] = 255;
    put(fit_with(controls), Ok(5));
    controls[6] = 256;
    put(fit_with(controls), at(7));
    controls[0] = 65_536;
    put(fit_with(controls), at(1));
    controls[6] = 255;
    put(fit_with(controls), at(1));
    put(vec![head(5, 0, 0), 65_536], at(1));

    // Records. The model of kind 7 ends before place 2 + M.
    let first = 2 + model.words().len() as u64;
    let sevens = |words: Vec<u64>, records: usize| {
        let mut card = diagnostics(1.0, &model, &[]);
        card[0] = model.head(7, records, 0);
        card.extend(words);
        card
    };
    for used in 0..=64u64 {
        put(sevens(record(&vec![15; used as usize], &[1, 2, 3]), 1), Ok(7));
        if used < 64 {
            let mut words = record(&vec![0; used as usize], &[1, 2, 3]);
            let word = used as usize / 16;
            words[1 + word] |= 1 << (60 - 4 * (used % 16));
            put(sevens(words, 1), at(first + 1 + word as u64));
        }
    }
    put(sevens(vec![65 << 56, 0, 0, 0, 0, 0, 0, 0], 1), at(first));
    put(sevens(vec![255 << 56, 0, 0, 0, 0, 0, 0, 0], 1), at(first));
    for bit in [0, 1, 31, 55] {
        put(sevens(vec![1 << bit, 0, 0, 0, 0, 0, 0, 0], 1), at(first));
    }
    put(sevens(vec![0, 0, 0, 0, 1, 0, 0, 0], 1), at(first + 4));
    put(sevens([record(&[0], &[0, 0, 0]), vec![0, 1]].concat(), 2), at(first + 9));
    put(sevens([record(&[0], &[0, 0, 0]), vec![0, 0]].concat(), 2), length(first + 16, first + 10));
    // A word beyond the layout has no rule.
    put(sevens([record(&[0], &[0, 0, 0]), vec![u64::MAX; 5]].concat(), 1), length(first + 8, first + 13));

    // Coordinates.
    let place = 9 + model.words().len() as u64;
    let coordinates = |words: &[u64]| fit([0; 8], &model, &[], words);
    for kind in [0, 4, 8, 15] {
        put(coordinates(&[kind << 60]), at(place));
    }
    for word in [1 << 60 | 0xff_ffff, 2 << 60 | 0x0fff_0000_00ff_ffff, 3 << 60 | u64::MAX >> 4] {
        put(coordinates(&[word]), Ok(5));
    }
    for word in [1 << 60 | 1 << 48, 1 << 60 | 1 << 24, 1 << 60 | 1 << 59, 2 << 60 | 1 << 47, 2 << 60 | 1 << 24] {
        put(coordinates(&[word]), at(place));
        put(coordinates(&[1 << 60, 1 << 60, word, 0]), at(place + 2));
    }
    let mut both = fit([0; 8], &model, &[record(&[0], &[0, 0, 0])], &[0]);
    put(both.clone(), at(place + 8));
    both[place as usize + 4] = 1;
    put(both, at(place + 4));

    // Cut words, and the largest size.
    for extra in 1..8 {
        list.push((vec![0x11; extra], at(0)));
        list.push(([bytes_of(&[head(4, 3, 0), 0]), vec![0xff; extra]].concat(), at(2)));
        list.push(([bytes_of(&projection(1, 1.0, 65, &[])), vec![0; extra]].concat(), at(2)));
        list.push(([bytes_of(&projection(1, 1.0, 64, &[])), vec![0; extra]].concat(), at(3)));
        // Rotations cut short are not looked at.
        list.push(([bytes_of(&[head(2, 0, 1), 0]), vec![0xff; extra]].concat(), at(2)));
        list.push(([bytes_of(&density(1, 1.0, &[1.0; 4])), vec![0; extra]].concat(), at(6)));
    }
    let large = |mut words: Vec<u64>, size: usize| {
        words.resize(size / 8 + 1, 0);
        let mut bytes = bytes_of(&words);
        bytes.truncate(size);
        bytes
    };
    let one = vec![head(1, 1, 0)];
    list.push((large(one.clone(), 65_536), length(6, 8192)));
    list.push((large(one.clone(), 65_537), at(8192)));
    list.push((large(one.clone(), 65_535), at(8191)));
    list.push((large(one.clone(), 65_544), at(8192)));
    list.push((large(one, 65_545), at(8192)));
    list.push((large(sevens(vec![1], 1), 65_544), at(first)));
    list.push((large(vec![head(4, 3, 0), 0, u64::MAX], 65_544), at(8192)));
    list.push((large(vec![head(4, 3, 0), 0, u64::MAX], 65_536), qubits));
    list.push((large(vec![0], 70_001), at(0)));
    list
}

/// Kind 1 cards at every edge of its conditions.
fn density_edges() -> Vec<Vec<u64>> {
    let mut list = Vec::new();
    let mut rng = Rng::new(1);
    let usual = |n: usize, rng: &mut Rng| -> Vec<f64> {
        (0..1 << (2 * n)).map(|k| if k == 0 { 1.0 } else { rng.signed() }).collect()
    };
    for &bits in numbers::SPECIALS {
        list.push(density(1, f64::from_bits(bits), &[1.0, 0.5, -0.25, 0.75]));
        // Two faults at once.
        list.push(density(1, f64::from_bits(bits), &[1.5, f64::NAN, 0.0, 0.0]));
        list.push(density(1, f64::from_bits(bits), &[f64::INFINITY, 0.0, 0.0, 0.0]));
        for place in 0..4 {
            let mut values = [1.0, 0.5, -0.25, 0.75];
            values[place] = f64::from_bits(bits);
            list.push(density(1, 0.5, &values));
        }
    }
    for tolerance in [power(-53), power(-52), power(-20), 1e-9, 0.5, 1.0, 2.0, 1e308, f64::MAX, 5e-324, 1e-310] {
        for edge in [1.0 + tolerance, 1.0 - tolerance] {
            for identity in [edge, edge.next_up(), edge.next_down()] {
                list.push(density(1, tolerance, &[identity, 0.0, 0.0, 1.0]));
            }
        }
    }
    for n in 1..=3 {
        let count = 1 << (2 * n);
        list.push(density(n, 1e-9, &usual(n, &mut rng)));
        for value in [f64::MAX, -f64::MAX, 5e-324, -5e-324, -0.0, f64::MIN_POSITIVE, 1e-310] {
            let mut values = vec![value; count];
            values[0] = 1.0;
            list.push(density(n, 1e-9, &values));
        }
        for place in 0..count {
            for value in [f64::NAN, f64::NEG_INFINITY, f64::MAX, -1.0] {
                let mut values = if value == -1.0 { vec![-0.0; count] } else { usual(n, &mut rng) };
                values[0] = 1.0;
                values[place] = value;
                list.push(density(n, 0.5, &values));
            }
        }
    }
    list
}

/// The one-qubit probes.
const PROBES: [f64; 16] = [1., 0., 0., 1., 1., 0., 0., -1., 1., 1., 0., 0., 1., 0., 1., 0.];

/// This card with each of these words in each of these places.
fn with_each(list: &mut Vec<Vec<u64>>, card: &[u64], places: impl Iterator<Item = usize>, words: &[u64]) {
    for place in places {
        for &word in words {
            let mut changed = card.to_vec();
            changed[place] = word;
            list.push(changed);
        }
    }
}

/// NaNs, infinities, and finite numbers that change what is computed.
const FAULTS: [u64; 7] = [
    0x7ff8000000000000,
    0xfff0000000000001,
    0x7ff0000000000000,
    0xfff0000000000000,
    0x7fefffffffffffff,
    0x8000000000000000,
    0x0000000000000001,
];

fn process_edges() -> Vec<Vec<u64>> {
    let mut list = vec![process(1, 1e-9, &PROBES, &PROBES)];
    let mut inputs = PROBES;
    for (tolerance, identity, other) in
        [(0.0, 1.0, 1.0), (0.5, 1.5, 1.0), (0.5, 1.75, f64::NAN), (0.5, 1.0, f64::NAN), (0.9, 1.0, 1.0)]
    {
        inputs[0] = identity;
        inputs[5] = other;
        list.push(process(1, tolerance, &inputs, &PROBES));
    }
    list.push(process(1, 1e-9, &[1.0; 16], &PROBES));
    list.push(process(1, 1e-9, &PROBES, &PROBES.map(|x| if x == 0.0 { f64::MAX } else { 1.0 })));
    for n in 1..=2 {
        let probes = product_probe_expectations(n).expect("n is 1 or 2");
        let card = process(n, 1e-9, &probes.concat(), &probes.concat());
        with_each(&mut list, &card, 1..card.len(), &FAULTS);
        // The tolerance at each pivot, and one float beside it: the probes' scale is 1.
        let (_, pivots) = with_pivots(|| process_linear_inversion(n, &probes, &probes, power(-1074)));
        for size in pivots.iter().map(|pivot| pivot.size) {
            with_each(&mut list, &card, 1..2, &[size, size.next_up(), size.next_down()].map(f64::to_bits));
        }
        // Identities at the tolerance, of every vector.
        let first = (2..card.len()).step_by(1 << (2 * n));
        let around = [1.0 + 1e-9, (1.0f64 + 1e-9).next_up(), 1.0 - 1e-9, (1.0f64 - 1e-9).next_down(), 3.0];
        with_each(&mut list, &card, first, &around.map(f64::to_bits));
    }
    // Pivots that overflow, and NaNs as pivots; outputs that stay finite.
    let max = f64::MAX;
    let mut rng = Rng::new(3);
    for k in 0..200 {
        let mut huge = PROBES;
        for (place, x) in huge.iter_mut().enumerate().filter(|(place, _)| place % 4 != 0) {
            *x = if k < 20 && place % 4 > 1 { *x } else { rng.pick(&[max, -max, max / 2.0, 0.5, 0.0]) };
        }
        list.push(process(1, power(-1074 + k % 30), &huge, &PROBES));
    }
    list
}

fn physical_edges() -> Vec<Vec<u64>> {
    let mut list = Vec::new();
    let mut rng = Rng::new(4);
    let max = f64::MAX;
    for x in [0.25, 0.25 + power(-54), max, f64::INFINITY, f64::NAN, -0.25] {
        let mut values = diagonal(&[1.0, 1.0, 1.0, 1.0]);
        for place in [1, 4, 15] {
            values[place] = x;
            for rotations in [0, 1, 2, 1024] {
                list.push(physical(1, 0.25, rotations, &values));
            }
        }
    }
    // Each number beside faults of the values: 3 comes before 5, and 5 before 12.
    for &bits in numbers::SPECIALS {
        let x = f64::from_bits(bits);
        for values in [diagonal(&[1.0; 4]), diagonal(&[1.0, 0.5, 0.0, f64::NAN]), vec![0.0; 16], vec![x; 16]] {
            for rotations in [0, 1, 1024] {
                list.push(physical(1, x, rotations, &values));
                list.push(physical(1, 0.5, rotations, &values));
            }
        }
    }
    for n in 1..=2 {
        let p = 1usize << (2 * n);
        let most = 64 * (p * p) as u64;
        let usual = physical(n, 1e-9, most, &diagonal(&vec![1.0; p]));
        with_each(&mut list, &usual, 3..usual.len(), &FAULTS);
        // The first row and column at the tolerance, and beside it.
        let tolerance = 1e-9f64;
        let around = [tolerance, tolerance.next_up(), tolerance.next_down(), -tolerance, -tolerance.next_up()];
        with_each(&mut list, &usual, (1..p).map(|k| 3 + k), &around.map(f64::to_bits));
        with_each(&mut list, &usual, (1..p).map(|k| 3 + k * p), &around.map(f64::to_bits));
        with_each(&mut list, &usual, 3..4, &[1.0 + tolerance, 1.0 - tolerance, 1.0 + 2.0 * tolerance].map(f64::to_bits));
        // Transposition and its neighbours: an eigenvalue of minus one half, and rotations around what it needs.
        let sign = |k: usize| if (0..n).filter(|q| k >> (2 * q) & 3 == 2).count() % 2 == 1 { -1.0 } else { 1.0 };
        let transposed = diagonal(&(0..p).map(sign).collect::<Vec<f64>>());
        for tolerance in [0.5, 0.5f64.next_up(), 0.5f64.next_down(), 0.25, 0.25f64.next_up(), 0.25f64.next_down(), 1e-300] {
            for rotations in (0..12).chain([most]) {
                list.push(physical(n, tolerance, rotations, &transposed));
            }
        }
        let mut values: Vec<f64> = (0..p * p).map(|_| rng.signed()).collect();
        for rotations in (0..3 * p as u64).chain([most]) {
            list.push(physical(n, 1e-3, rotations, &values));
        }
        for size in [power(60), max, max / 2.0, power(-1074), power(-1022)] {
            values.iter_mut().for_each(|x| *x = size * x.signum() * rng.pick(&[1.0, 1.0, 0.5]));
            for rotations in [1, 2, most] {
                list.push(physical(n, 1e-9, rotations, &values));
            }
            list.push(physical(n, 1e-9, most, &vec![size; p * p]));
        }
    }
    list.push(physical(1, f64::NAN, 0, &[0.0; 16]));
    list
}

/// A model of any size with numbers that are all different.
pub fn model_of_size(d: usize, effects: usize, gates: usize, rng: &mut Rng) -> Parts {
    let mut numbers = |count: usize| (0..count).map(|_| 0.5 * rng.signed()).collect::<Vec<f64>>();
    Parts {
        state: numbers(d),
        effects: (0..effects).map(|_| numbers(d)).collect(),
        gates: (0..gates).map(|gate| (gate as u64 + 1, numbers(d * d))).collect(),
    }
}

fn gauge_edges() -> Vec<Vec<u64>> {
    let mut list = Vec::new();
    let mut rng = Rng::new(6);
    let mut model = small_model();
    for x in [1.0, -1.0, 0.0, power(-44), power(-43), power(-45), 1e308, f64::NAN] {
        list.push(gauge(&model, &diagonal(&[1.0, x])));
        list.push(gauge(&model, &[x, 1.0, 1.0, x]));
    }
    let card = base(6);
    let names = [9, 14];
    with_each(&mut list, &card, (1..card.len()).filter(|place| !names.contains(place)), &FAULTS);
    with_each(&mut list, &card, names.into_iter(), &[0, 7, 0x6964, u64::MAX]);
    // Each fault beside one of a later part: the model's order, and the model before the transform.
    let parts = [1..3, 3..9, 9..10, 10..14, 14..15, 15..19, 19..23];
    for (k, first) in parts.iter().enumerate() {
        for second in &parts[k + 1..] {
            for (a, b) in [(first.start, second.start), (first.end - 1, second.end - 1)] {
                let mut changed = card.clone();
                for place in [a, b] {
                    changed[place] = if names.contains(&place) { 0 } else { FAULTS[0] };
                }
                list.push(changed);
            }
        }
    }
    for d in 1..=16 {
        let model = model_of_size(d, 1 + d % 4, d % 9, &mut rng);
        let mut one = diagonal(&vec![1.0; d]);
        list.push(gauge(&model, &one));
        list.push(gauge(&model, &vec![1.0; d * d]));
        list.push(gauge(&model, &vec![0.0; d * d]));
        list.push(gauge(&model, &vec![-0.0; d * d]));
        list.push(gauge(&model, &(0..d * d).map(|_| rng.signed()).collect::<Vec<_>>()));
        // Signs of a Hadamard matrix: ties in every column, where d is a power of two.
        let sign = |i: usize, j: usize| if (i & j).count_ones().is_multiple_of(2) { 1.0 } else { -1.0 };
        list.push(gauge(&model, &(0..d * d).map(|z| sign(z / d, z % d)).collect::<Vec<_>>()));
        // The last number of the diagonal at the threshold, and beside it.
        let threshold = 64.0 * f64::EPSILON * d as f64;
        for x in [threshold, threshold.next_up(), threshold.next_down(), -threshold, -threshold.next_up()] {
            one[d * d - 1] = x;
            list.push(gauge(&model, &one));
        }
    }
    for (effects, gates) in [(0, 0), (0, 8), (1, 0), (1, 8), (16, 0), (16, 8)] {
        for d in [0, 1, 2, 16] {
            let model = model_of_size(d, effects, gates, &mut rng);
            let transform: Vec<f64> = (0..d * d).map(|z| if z % (d + 1) == 0 { 2.0 } else { 0.1 * rng.signed() }).collect();
            list.push(gauge(&model, &transform));
        }
    }
    // Names: every pair alike, each one zero.
    let mut many = model_of_size(2, 1, 8, &mut rng);
    for later in 0..8 {
        let name = many.gates[later].0;
        for earlier in 0..=later {
            many.gates[later].0 = if earlier == later { 0 } else { many.gates[earlier].0 };
            list.push(gauge(&many, &diagonal(&[1.0, 2.0])));
        }
        many.gates[later].0 = name;
    }
    // Infinities on the way, with results that are finite and that are not.
    let max = f64::MAX;
    let tiny = Parts { state: vec![power(-10), power(-20)], effects: vec![vec![1.0, -1.0]], gates: vec![(1, vec![0.0; 4])] };
    for transform in [
        [max, -max, max, max],
        [max, max, -max, max],
        [-max, max, max, max],
        [max, max, max, -max / 2.0],
        [max / 2.0, max, max, -max],
        [max, 0.0, 0.0, max],
        [power(-1074), 0.0, 0.0, power(-1074)],
        [power(-1022), 0.0, 0.0, power(-1022)],
        [power(-1074), power(-1073), power(-1073), power(-1074)],
    ] {
        list.push(gauge(&tiny, &transform));
        list.push(gauge(&model, &transform));
    }
    for k in 0..100 {
        let model = model_of_size(3 + k % 2, 2, 1, &mut rng);
        let transform: Vec<f64> =
            (0..model.state.len().pow(2)).map(|_| rng.pick(&[max, -max, max / 2.0, -max / 4.0])).collect();
        list.push(gauge(&model, &transform));
    }
    model.gates[1].0 = 7;
    list.push(gauge(&model, &diagonal(&[1.0, 1.0])));
    model.gates[0].0 = 0;
    list.push(gauge(&model, &diagonal(&[1.0, 1.0])));
    model.state[1] = f64::NAN;
    list.push(gauge(&model, &diagonal(&[1.0, 1.0])));
    model.effects.clear();
    list.push(gauge(&model, &diagonal(&[1.0, 1.0])));
    model.state[1] = 0.0;
    list.push(gauge(&model, &diagonal(&[1.0, 1.0])));
    list.push(vec![head(6, 0, 0)]);
    list
}

/// Kinds 2 to 7: a few cards of each that stand at an edge.
fn other_edges(kind: u8) -> Vec<Vec<u64>> {
    let mut list = Vec::new();
    match kind {
        2 => {
            for x in [-1e308, 1e308, f64::MAX, -f64::MAX, power(53), power(54), power(60), -power(60), 0.0, -0.0, 5e-324] {
                for rotations in [0, 1, 64] {
                    list.push(projection(1, 1e-9, rotations, &[x]));
                }
                list.push(projection(2, 1e-9, 256, &diagonal(&[x, 0.5])));
                list.push(projection(2, 1e-9, 256, &[0.5, x, x, 0.5]));
                list.push(projection(3, 0.5, 576, &[x, x, x, x, -x, x, x, x, x]));
            }
            for d in 1..=16 {
                list.push(projection(d, 1e-9, 64 * (d * d) as u64, &vec![1.0; d * d]));
            }
        }
        3 => list = process_edges(),
        4 => list = physical_edges(),
        5 => {
            let model = small_model();
            let records = [record(&[0, 1, 0], &[5, 3, 2]), record(&[], &[4, 1, 1])];
            let coordinates = [1 << 60 | 1, 3 << 60 | 1 << 24 | 1, 3 << 60 | 1 << 48 | 1 << 24];
            for iterations in [1, 2, 5, 200] {
                let mut controls = default_controls();
                controls[0] = iterations;
                list.push(fit(controls, &model, &records, &coordinates));
                controls[5] = 0.25f64.to_bits();
                list.push(fit(controls, &model, &records, &[2 << 60, 2 << 60 | 1 << 48 | 1]));
            }
            for place in 0..8 {
                for value in [0, u64::MAX, (-1.0f64).to_bits(), f64::INFINITY.to_bits()] {
                    let mut controls = default_controls();
                    controls[place] = value;
                    list.push(fit(controls, &model, &records, &coordinates));
                }
            }
            let state = 1 << 60;
            for coordinates in [
                vec![],
                vec![state, state | 9, state],
                vec![state, state, state | 9],
                vec![3 << 60 | 2 << 48],
                vec![3 << 60 | 3],
                vec![3 << 60 | 1 << 24 | 2],
                vec![3 << 60 | 3, 3 << 60 | 1 << 24 | 1],
                vec![2 << 60 | 3 << 48],
            ] {
                list.push(fit(default_controls(), &model, &records, &coordinates));
                list.push(fit(default_controls(), &model, &[], &coordinates));
            }
            let mut rng = Rng::new(5);
            for _ in 0..8 {
                list.extend(fits::series(&mut rng));
            }
        }
        6 => list = gauge_edges(),
        _ => {
            let model = small_model();
            for counts in [[0, 0, 0], [1, 0, 0], [u64::MAX, 0, 0], [u64::MAX, 1, 0], [1 << 63, 1 << 63, 0], [1, 2, 3]] {
                for gate in 0..3 {
                    let two = [record(&[gate], &counts), record(&[2, 1], &[1, 1, 1])];
                    list.push(diagnostics(1e-9, &model, &two[..1]));
                    list.push(diagnostics(1e-9, &model, &two));
                }
            }
            for (p, q) in [(0.0, 1.0), (-0.0, 1.0), (1.0, -0.0), (-1e-10, 1.0), (1.0 + 1e-10, 0.0), (0.5, 0.6), (f64::MAX, 1.0)] {
                for counts in [[1, 1], [0, 1], [1, 0], [0, 0], [3, 4]] {
                    list.push(diagnostics(1e-9, &two_outcomes(p, q), &[record(&[], &counts)]));
                }
            }
            list.push(diagnostics(0.0, &two_outcomes(0.5, 0.5), &[]));
            list.push(diagnostics(1e-9, &two_outcomes(0.5, 0.5), &[]));
        }
    }
    list
}

/// All cards of one kind that are always tried but for the sweeps.
pub fn edges(kind: u8) -> Vec<Vec<u8>> {
    let mut list: Vec<Vec<u64>> =
        stars().into_iter().map(|(words, _)| words).filter(|words| words[0] >> 60 == u64::from(kind)).collect();
    list.extend(if kind == 1 { density_edges() } else { other_edges(kind) });
    list.iter().map(|words| bytes_of(words)).collect()
}

/// A small card of each kind that the sheet entry accepts.
pub fn base(kind: u8) -> Vec<u64> {
    let model = small_model();
    match kind {
        1 => density(1, 0.5, &[1.25, 0.5, -0.25, 0.125]),
        2 => projection(2, 1e-9, 256, &[0.5, 0.25, -0.125, 0.75]),
        3 => process(1, 1e-9, &PROBES, &PROBES),
        4 => physical(1, 0.25, 1024, &diagonal(&[1.0, 0.5, -0.5, 0.25])),
        5 => {
            let mut controls = default_controls();
            controls[0] = 3;
            fit(controls, &model, &[record(&[0, 1], &[5, 3, 2])], &[1 << 60 | 1, 3 << 60 | 1 << 24 | 1])
        }
        6 => gauge(&model, &[1.0, 0.5, 0.25, 2.0]),
        7 => diagnostics(1e-9, &model, &[record(&[0, 1], &[5, 3, 2]), record(&[], &[1, 0, 0])]),
        _ => panic!("no kind {kind}"),
    }
}

/// One card cut at every byte, lengthened, with every bit flipped (in a long card only of words that have a rule), with
/// every value of each field of word 0, and with each word that has a rule at its limit.
pub fn sweep(words: &[u64]) -> Vec<Vec<u8>> {
    let bytes = bytes_of(words);
    let roles = card::layout(&Head::of(words[0]));
    let mut list: Vec<Vec<u8>> = (0..bytes.len()).map(|size| bytes[..size].to_vec()).collect();
    for extra in 0..=17 {
        list.push([bytes.clone(), vec![0; extra]].concat());
        list.push([bytes.clone(), vec![0xff; extra]].concat());
    }
    for bit in 0..8 * bytes.len() {
        if words.len() > 64 && matches!(roles[bit / 64], Role::Number | Role::Name | Role::Count) {
            continue;
        }
        let mut changed = bytes.clone();
        changed[bit / 8] ^= 128 >> (bit % 8);
        list.push(changed);
    }
    for (low, width) in [(60, 4), (56, 4), (48, 8), (40, 8), (32, 8), (8, 8), (0, 8)] {
        for value in 0..1u64 << width {
            let mut changed = words.to_vec();
            changed[0] = changed[0] & !(((1 << width) - 1) << low) | value << low;
            list.push(bytes_of(&changed));
        }
    }
    for records in [0, 1, 2, 199, 200, 201, 65_535] {
        let mut changed = words.to_vec();
        changed[0] = changed[0] & !(0xffff << 16) | records << 16;
        list.push(bytes_of(&changed));
    }
    for (place, role) in roles.into_iter().enumerate() {
        let limits: &[u64] = match role {
            Role::Rotations { most } => &[most - 1, most, most + 1, 0, u64::MAX],
            Role::Iterations => &[0, 65_536, u64::MAX],
            Role::Backtracks => &[0, 254, 255, 256, u64::MAX],
            Role::Length => &[64 << 56, 65 << 56, u64::MAX],
            Role::Indices(_) | Role::Coordinate => &[0, u64::MAX],
            _ => &[],
        };
        for &value in limits {
            let mut changed = words.to_vec();
            changed[place] = value;
            list.push(bytes_of(&changed));
        }
    }
    for size in [65_528, 65_535, 65_536, 65_537, 65_543, 65_544, 65_545] {
        let mut changed = bytes.clone();
        changed.resize(size, 0);
        list.push(changed);
    }
    list
}
