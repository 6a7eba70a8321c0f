//! Library calls to try.

use super::fixed::diagonal;
use super::gate_set;
use super::numbers::{self, power};
use crate::library::Call;
use crate::random::Rng;

/// Qubits that are refused by every entry, some of them 1 or 2 in a narrower integer; 3 is refused by `apply` and `choi` alone.
const WRONG_QUBITS: &[u64] = &[
    0,
    4,
    5,
    6,
    16,
    31,
    32,
    63,
    64,
    65,
    255,
    257,
    65_537,
    1 << 32,
    (1 << 32) + 1,
    (1 << 32) + 2,
    (1 << 62) + 1,
    1 << 63,
    (1 << 63) + 1,
    u64::MAX - 1,
    u64::MAX,
];

/// Numbers that are refused.
const NON_FINITE: &[u64] =
    &[0x7ff0000000000000, 0xfff0000000000000, 0x7ff8000000000000, 0xfff8000000000000, 0x7ff0000000000001, u64::MAX];

fn qubits(rng: &mut Rng, most: u64) -> u64 {
    match rng.below(20) {
        0 => rng.pick(WRONG_QUBITS),
        1 => rng.below(6),
        2 if rng.chance(10) => rng.next(),
        _ => rng.between(1, most),
    }
}

/// 3^n and its neighbours, indices below it, and some that are below it in a narrower integer.
fn indices(n: u64) -> Vec<u64> {
    let count = 3u64.pow(n.min(30) as u32);
    let mut list: Vec<u64> = (0..count.min(30) + 3).collect();
    list.extend([count - 1, count, count + 1, 2 * count, 26, 27, 28, 80, 81, 255, 256, 257]);
    list.extend([1 << 32, (1 << 32) + 1, 1 << 63, u64::MAX - 1, u64::MAX]);
    list
}

/// A random call of this entry.
pub fn call(entry: &str, rng: &mut Rng) -> Call {
    match entry {
        "probes" => Call::Probes { n: qubits(rng, 3) },
        "setting" => {
            let n = qubits(rng, 3);
            let index = match rng.below(10) {
                0 => rng.pick(&indices(n)),
                1 => rng.next() >> rng.below(64),
                2 => rng.below(30),
                _ => rng.below(3u64.pow(n.min(3) as u32)),
            };
            Call::Setting { n, index }
        }
        "apply" => apply(rng),
        "choi" => choi(rng),
        "probabilities" => probabilities(rng),
        _ => panic!("no entry {entry}"),
    }
}

/// The numbers of one argument, all in one style.
fn any_numbers(count: usize, rng: &mut Rng) -> Vec<f64> {
    let style = rng.below(11);
    (0..count)
        .map(|_| match style {
            0..=2 => rng.signed(),
            3 => numbers::grid(rng),
            4 => numbers::scaled(rng, -60, 60),
            5 => numbers::finite(rng),
            // Products and sums that leave the range, at either end.
            6 => rng.pick(&[f64::MAX, -f64::MAX, f64::MAX / 2.0, -f64::MAX / 16.0, 1.0, -2.0, 0.0]),
            7 => numbers::scaled(rng, 480, 530),
            8 => numbers::scaled(rng, -560, -500),
            9 => rng.pick(&[0.0, -0.0, 5e-324, -5e-324, f64::MIN_POSITIVE, 1.0, -1.0]),
            _ if rng.chance(80) => rng.pick(&[0.0, -0.0]),
            _ => rng.pick(&[1.0, -1.0, power(60), -power(60), 0.1]),
        })
        .collect()
}

/// Rows whose products are all -0, exactly or by rounding; sometimes but for one.
fn negative_zero_rows(values: &mut [f64], input: &[f64], rng: &mut Rng) {
    for row in values.chunks_mut(input.len()) {
        if rng.chance(50) {
            let size = if rng.chance(50) { 0.0 } else { 5e-324 };
            for (x, y) in row.iter_mut().zip(input) {
                *x = if y.is_sign_negative() { size } else { -size };
            }
            if rng.chance(30) {
                let place = rng.index(row.len());
                row[place] = -row[place];
            }
        }
    }
}

fn wrong_length(right: usize, rng: &mut Rng) -> usize {
    match rng.below(8) {
        0 => 0,
        1 => right - 1,
        2 => right + 1,
        3 => 4 * right,
        4 => rng.pick(&[1, 4, 15, 16, 17, 64, 255, 256, 257]),
        5 => rng.index(2 * right),
        6 if rng.chance(5) => rng.index(9000),
        _ => right + rng.index(20),
    }
}

fn apply(rng: &mut Rng) -> Call {
    let n = qubits(rng, 2);
    let p = 1usize << (2 * n.clamp(1, 3));
    let (mut values, mut input) = (any_numbers(p * p, rng), any_numbers(p, rng));
    if rng.chance(10) {
        negative_zero_rows(&mut values, &input, rng);
    }
    for _ in 0..rng.pick(&[0, 0, 0, 0, 0, 0, 0, 1, 1, 2]) {
        let part = if rng.chance(50) { &mut values } else { &mut input };
        if rng.chance(50) {
            part.resize(wrong_length(part.len().max(1), rng), rng.signed());
        } else if !part.is_empty() {
            let place = rng.index(part.len());
            part[place] = f64::from_bits(rng.pick(NON_FINITE));
        }
    }
    Call::Apply { n, values, input }
}

fn choi(rng: &mut Rng) -> Call {
    let n = qubits(rng, 2);
    let p = 1usize << (2 * n.clamp(1, 3));
    let mut values = any_numbers(p * p, rng);
    for _ in 0..rng.pick(&[0, 0, 0, 0, 0, 0, 0, 1, 1, 2]) {
        if rng.chance(50) {
            values.resize(wrong_length(values.len().max(1), rng), rng.signed());
        } else if !values.is_empty() {
            let place = rng.index(values.len());
            values[place] = f64::from_bits(rng.pick(NON_FINITE));
        }
    }
    Call::Choi { n, values }
}

/// Sizes above every limit, some of them small in a narrower integer.
const WRONG_SIZES: &[u64] = &[17, 18, 32, 255, 256, 257, 272, 65_537, 1 << 32, (1 << 32) + 2, 1 << 63, u64::MAX];

/// An index that names no gate.
fn absent(gates: usize, rng: &mut Rng) -> u64 {
    let gates = gates as u64;
    match rng.below(4) {
        0 => gates,
        1 => rng.between(gates, 15.max(gates)),
        2 => rng.pick(&[16, 255, 256, 1 << 32, (1 << 32) + 1, 1 << 63, u64::MAX]),
        _ => gates + rng.below(300),
    }
}

fn probabilities(rng: &mut Rng) -> Call {
    let (head, mut names, mut numbers) = gate_set::model_parts(rng);
    let gates = names.len();
    let (mut d, mut effects) = (head.d as u64, head.effects as u64);
    let length = match rng.below(8) {
        0 => 0,
        1 => 64,
        2 => rng.index(65),
        _ => rng.index(6),
    };
    let mut sequence: Vec<u64> = if gates == 0 { Vec::new() } else { (0..length).map(|_| rng.below(gates as u64)).collect() };
    if rng.chance(15) {
        // All in one style, so that sums leave the range at either end or come out as -0.
        let style = any_numbers(numbers.len(), rng);
        numbers = style;
    }
    for _ in 0..rng.pick(&[0, 0, 0, 0, 0, 0, 0, 1, 1, 2]) {
        match rng.below(12) {
            0 => d = rng.pick(WRONG_SIZES),
            1 => effects = rng.pick(WRONG_SIZES),
            2 => {
                // More names than gates can be, with or without their numbers.
                let more = 9 + rng.index(4);
                if rng.chance(50) {
                    numbers.resize(numbers.len() + more.saturating_sub(names.len()) * (head.d * head.d), 0.5);
                }
                names = (1..=more as u64).collect();
            }
            3 => sequence = vec![0; rng.pick(&[65, 66, 128, 200])],
            4 | 5 => numbers.resize(wrong_length(numbers.len().max(1), rng), rng.signed()),
            6 | 7 if !numbers.is_empty() => {
                let place = rng.index(numbers.len());
                numbers[place] = f64::from_bits(rng.pick(NON_FINITE));
            }
            8 if gates > 0 => names[rng.index(gates)] = 0,
            9 if gates > 1 => {
                let later = 1 + rng.index(gates - 1);
                names[later] = names[rng.index(later)];
            }
            _ if sequence.is_empty() => sequence = vec![absent(gates, rng)],
            _ => {
                for _ in 0..=rng.below(2) {
                    let place = rng.index(sequence.len());
                    sequence[place] = absent(gates, rng);
                }
            }
        }
    }
    Call::Probabilities { d, effects, names, numbers, sequence }
}

/// d 2, two effects and two gates that do not commute; each argument at its faults, alone and beside a later one.
fn fixed_probabilities() -> Vec<Call> {
    let mut rng = Rng::new(1);
    let mut list = Vec::new();
    let names = [7, 9];
    let numbers = [1.0, 0.25, 0.5, 0.5, 0.5, -0.5, 1.0, 0.0, 0.125, 0.75, 1.0, 0.0, 0.25, -0.5];
    let mut put = |d: u64, effects: u64, names: &[u64], numbers: &[f64], sequence: &[u64]| {
        let (names, numbers, sequence) = (names.to_vec(), numbers.to_vec(), sequence.to_vec());
        list.push(Call::Probabilities { d, effects, names, numbers, sequence });
    };
    for sequence in [&[][..], &[0], &[1], &[0, 1], &[1, 0], &[0, 0, 1], &[0; 64], &[1; 64]] {
        put(2, 2, &names, &numbers, sequence);
    }
    // Indices that name no gate: the first one counts.
    for index in [2, 3, 8, 15, 16, 255, 256, 1 << 32, (1 << 32) + 1, 1 << 63, u64::MAX] {
        for sequence in [&[index][..], &[0, 1, index], &[index, 99], &[1, index, 0, 98]] {
            put(2, 2, &names, &numbers, sequence);
        }
        put(2, 2, &[], &numbers[..6], &[index]);
    }
    put(2, 2, &[], &numbers[..6], &[]);
    put(2, 2, &[], &numbers[..6], &[0]);
    // Limits, beside all later faults.
    let nan = f64::NAN;
    for &size in WRONG_SIZES {
        for numbers in [&numbers[..], &[nan; 14], &[]] {
            put(size, 2, &names, numbers, &[9]);
            put(2, size, &names, numbers, &[9]);
        }
        put(size, 0, &[0, 0], &[nan], &[9]);
    }
    for count in 0..=12u64 {
        let many: Vec<u64> = (1..=count).collect();
        put(1, 1, &many, &vec![0.5; 2 + count as usize], &[0]);
        put(1, 1, &many, &vec![0.5; 2 + count as usize], &many);
        put(1, 1, &vec![0; count as usize], &vec![nan; 2 + count as usize], &[count]);
    }
    for length in [63, 64, 65, 66, 128, 255, 256, 257, 4096] {
        put(2, 2, &names, &numbers, &vec![1; length]);
        put(2, 2, &names, &[nan; 13], &vec![9; length]);
        put(0, 0, &[], &[], &vec![0; length]);
    }
    // Counts of numbers, beside numbers that are not finite and names that are not good.
    for length in (0..=16).chain([28, 256, 2312, 8192]) {
        put(2, 2, &names, &vec![0.5; length], &[0]);
        put(2, 2, &[0, 0], &vec![nan; length], &[9]);
        put(0, 2, &[], &vec![0.5; length], &[]);
        put(0, 0, &[], &vec![0.5; length], &[]);
        put(3, 0, &[], &vec![0.5; length], &[]);
        put(1, 0, &[0], &vec![nan; length], &[9]);
    }
    for bits in numbers::SPECIALS.iter().chain(NON_FINITE) {
        let x = f64::from_bits(*bits);
        for place in 0..numbers.len() {
            let mut changed = numbers;
            changed[place] = x;
            put(2, 2, &names, &changed, &[0, 1, 1]);
            // Before the names, and before the sequence.
            put(2, 2, &[7, 7], &changed, &[0]);
            put(2, 2, &names, &changed, &[9]);
        }
        put(2, 2, &names, &[x; 14], &[0, 1, 1]);
        put(2, 0, &names, &[x; 10], &[0]);
    }
    for names in [[0, 9], [7, 0], [0, 0], [7, 7], [u64::MAX, u64::MAX], [u64::MAX, 1 << 63], [7, 7 + (1 << 32)]] {
        put(2, 2, &names, &numbers, &[1, 0]);
        put(2, 2, &names, &numbers, &[9]);
    }
    // Every shape.
    for d in 0..=16usize {
        for (effects, gates) in [(0, 0), (1, 0), (1, 1), (2, 3), (5, 2), (16, 8)] {
            let count = d + effects * d + gates * d * d;
            let numbers: Vec<f64> = (0..count).map(|_| 0.5 * rng.signed()).collect();
            let names: Vec<u64> = (0..gates as u64).map(|k| k + 1).collect();
            let sequence: Vec<u64> = if gates == 0 { vec![] } else { (0..d).map(|_| rng.below(gates as u64)).collect() };
            put(d as u64, effects as u64, &names, &numbers, &sequence);
        }
    }
    list
}

/// The calls of this entry that are always tried.
pub fn fixed(entry: &str) -> Vec<Call> {
    let qubits = || WRONG_QUBITS.iter().copied().chain(1..=3);
    match entry {
        "probes" => qubits().map(|n| Call::Probes { n }).collect(),
        "setting" => {
            qubits().flat_map(|n| indices(n).into_iter().map(move |index| Call::Setting { n, index })).collect()
        }
        "apply" => fixed_apply(),
        "choi" => fixed_choi(),
        "probabilities" => fixed_probabilities(),
        _ => panic!("no entry {entry}"),
    }
}

fn fixed_apply() -> Vec<Call> {
    let mut rng = Rng::new(1);
    let mut list = Vec::new();
    for &n in WRONG_QUBITS.iter().chain(&[3]) {
        for p in [0usize, 1, 4, 16, 64] {
            list.push(Call::Apply { n, values: vec![0.5; p * p], input: vec![1.0; p] });
            // Other faults come after it.
            list.push(Call::Apply { n, values: vec![f64::NAN; p * p + 1], input: vec![f64::NAN; p + 1] });
        }
    }
    for n in 1..=2 {
        let p = 1usize << (2 * n);
        let values: Vec<f64> = (0..p * p).map(|_| rng.signed()).collect();
        let input: Vec<f64> = (0..p).map(|_| rng.signed()).collect();
        let mut put = |values: &[f64], input: &[f64]| {
            list.push(Call::Apply { n, values: values.to_vec(), input: input.to_vec() });
        };
        put(&values, &input);
        // A single one shows which number meets which.
        for place in 0..p * p {
            let mut one = vec![0.0; p * p];
            one[place] = 1.0;
            put(&one, &input);
        }
        for bits in numbers::SPECIALS.iter().chain(NON_FINITE) {
            let x = f64::from_bits(*bits);
            for place in 0..p * p {
                let mut changed = values.clone();
                changed[place] = x;
                put(&changed, &input);
            }
            for place in 0..p {
                let mut changed = input.clone();
                changed[place] = x;
                put(&values, &changed);
            }
            put(&vec![x; p * p], &input);
            put(&values, &vec![x; p]);
            put(&vec![x; p * p], &vec![x; p]);
            put(&vec![x; p * p], &vec![-x; p]);
        }
        for length in (0..=p * p + 2).chain([4 * p * p, 4096, 8192]) {
            put(&vec![0.5; length], &input);
            // Lengths come before numbers, and all of the values before the input.
            put(&vec![f64::NAN; length], &input);
            put(&vec![0.5; length], &[]);
            put(&vec![0.5; length], &vec![f64::NAN; p]);
        }
        for length in (0..=p + 2).chain([4 * p, 256, 4096]) {
            put(&values, &vec![0.5; length]);
            put(&values, &vec![f64::INFINITY; length]);
            let mut changed = values.clone();
            changed[p * p - 1] = f64::NAN;
            put(&changed, &vec![0.5; length]);
        }
    }
    list
}

fn fixed_choi() -> Vec<Call> {
    let mut rng = Rng::new(1);
    let mut list = Vec::new();
    for &n in WRONG_QUBITS.iter().chain(&[3]) {
        for p in [0usize, 1, 4, 16, 64] {
            list.push(Call::Choi { n, values: vec![0.5; p * p] });
            list.push(Call::Choi { n, values: vec![f64::NAN; p * p + 1] });
        }
    }
    for n in 1..=2 {
        let p = 1usize << (2 * n);
        let values: Vec<f64> = (0..p * p).map(|_| rng.signed()).collect();
        let mut put = |values: &[f64]| list.push(Call::Choi { n, values: values.to_vec() });
        put(&values);
        // A single one shows the strings of its row and column.
        for place in 0..p * p {
            for x in [1.0, -1.0, f64::MAX, 5e-324] {
                let mut one = vec![0.0; p * p];
                one[place] = x;
                put(&one);
            }
        }
        for bits in numbers::SPECIALS.iter().chain(NON_FINITE) {
            let x = f64::from_bits(*bits);
            for place in 0..p * p {
                let mut changed = values.clone();
                changed[place] = x;
                put(&changed);
            }
            put(&vec![x; p * p]);
        }
        for length in (0..=p * p + 2).chain([4 * p * p, 4096, 8192]) {
            put(&vec![0.5; length]);
            put(&vec![f64::NAN; length]);
        }
    }
    list
}

/// The calls that are stored: every refusal but 16, and accepted ones with zeros, infinities and NaNs in the result.
pub fn stored() -> Vec<Call> {
    let mut rng = Rng::new(2026);
    let mut list: Vec<Call> = [0, 1, 2, 3, 4, (1 << 32) + 1, u64::MAX].map(|n| Call::Probes { n }).to_vec();
    for (n, indices) in [
        (0, vec![0, 1]),
        (1, vec![0, 1, 2, 3, 4, u64::MAX]),
        (2, vec![0, 1, 5, 8, 9, 10, 1 << 32]),
        (3, vec![0, 1, 2, 3, 9, 13, 25, 26, 27, 28, 1 << 63]),
        (4, vec![0, 81]),
        ((1 << 32) + 1, vec![0]),
    ] {
        list.extend(indices.into_iter().map(|index| Call::Setting { n, index }));
    }
    let (max, tiny, nan) = (f64::MAX, 5e-324, f64::from_bits(0x7ff8000000000000));
    let mut put = |n: u64, values: Vec<f64>, input: Vec<f64>| list.push(Call::Apply { n, values, input });
    for n in [0, 3, u64::MAX] {
        put(n, vec![nan; 16], vec![1.0; 4]);
    }
    for length in [0, 15, 17, 256] {
        put(1, vec![nan; length], vec![nan; 4]);
    }
    put(2, vec![0.5; 16], vec![0.5; 16]);
    for x in [nan, f64::INFINITY, f64::NEG_INFINITY, f64::from_bits(0xfff0000000000001)] {
        for place in [0, 7, 15] {
            let mut values = vec![0.5; 16];
            values[place] = x;
            put(1, values, vec![0.25; if place == 7 { 3 } else { 4 }]);
        }
        for place in [0, 3] {
            let mut input = vec![0.25; 4];
            input[place] = x;
            put(1, vec![0.5; 16], input);
        }
    }
    for length in [0, 3, 5, 16] {
        put(1, vec![0.5; 16], vec![nan; length]);
    }
    put(1, vec![-0.0; 16], vec![1.0; 4]);
    put(1, vec![-0.0; 16], vec![1.0, 1.0, -1.0, 1.0]);
    put(1, vec![-tiny; 16], vec![0.25; 4]);
    put(1, vec![max; 16], vec![1.0, 1.0, 0.0, 0.0]);
    put(1, vec![max; 16], vec![-1.0, -1.0, 1.0, 1.0]);
    put(1, [max, max, -max, -max].repeat(4), vec![1.0; 4]);
    put(1, [max, -max].repeat(8), vec![2.0; 4]);
    put(1, [power(60), 1.0, -power(60), 1.0].repeat(4), vec![1.0; 4]);
    for n in [1, 1, 2, 2] {
        let p = 1 << (2 * n);
        put(n, (0..p * p).map(|_| rng.signed()).collect(), (0..p).map(|_| rng.signed()).collect());
    }
    for _ in 0..12 {
        let (mut values, input) = (any_numbers(16, &mut rng), any_numbers(4, &mut rng));
        if rng.chance(40) {
            negative_zero_rows(&mut values, &input, &mut rng);
        }
        put(1, values, input);
    }
    let mut put = |n: u64, values: Vec<f64>| list.push(Call::Choi { n, values });
    for n in [0, 3, u64::MAX] {
        put(n, vec![nan; 16]);
    }
    for length in [0, 15, 17, 256] {
        put(1, vec![nan; length]);
    }
    put(2, vec![0.5; 16]);
    for x in [nan, f64::INFINITY, f64::NEG_INFINITY] {
        for place in [0, 15] {
            let mut values = vec![0.5; 16];
            values[place] = x;
            put(1, values);
        }
    }
    for values in [[1.0, 1.0, 1.0, 1.0], [1.0, 1.0, -1.0, 1.0], [-0.0; 4], [tiny; 4], [max; 4]] {
        put(1, diagonal(&values));
    }
    put(1, vec![max; 16]);
    put(1, vec![-tiny; 16]);
    put(1, [power(60), 1.0, -power(60), 1.0].repeat(4));
    for n in [1, 1, 2] {
        let p = 1 << (2 * n);
        put(n, (0..p * p).map(|_| rng.signed()).collect());
    }
    for _ in 0..6 {
        put(1, any_numbers(16, &mut rng));
    }
    list.extend(stored_probabilities());
    list
}

/// Small calls of every sort.
fn stored_probabilities() -> Vec<Call> {
    let (max, tiny, nan) = (f64::MAX, 5e-324, f64::from_bits(0x7ff8000000000000));
    let mut list = Vec::new();
    let mut put = |d: u64, effects: u64, names: &[u64], numbers: &[f64], sequence: &[u64]| {
        let (names, numbers, sequence) = (names.to_vec(), numbers.to_vec(), sequence.to_vec());
        list.push(Call::Probabilities { d, effects, names, numbers, sequence });
    };
    let names = [7, 9];
    let numbers = [1.0, 0.25, 0.5, 0.5, 0.5, -0.5, 1.0, 0.0, 0.125, 0.75, 1.0, 0.0, 0.25, -0.5];
    for sequence in [&[][..], &[0], &[0, 1], &[1, 0], &[1; 64], &[2], &[0, 15, 16], &[u64::MAX], &[1 << 32]] {
        put(2, 2, &names, &numbers, sequence);
    }
    put(2, 2, &names, &numbers, &[0; 65]);
    put(17, 2, &names, &[nan], &[9]);
    put(2, 17, &[0, 0], &[nan], &[9]);
    put((1 << 32) + 2, 2, &names, &numbers, &[]);
    put(1, 1, &[1; 9], &[nan; 11], &[]);
    put(1, 1, &[1, 2, 3, 4, 5, 6, 7, 8], &[0.5; 10], &[7, 0]);
    for length in [0, 13, 15] {
        put(2, 2, &[0, 0], &vec![nan; length], &[9]);
    }
    put(0, 2, &[], &[], &[0]);
    put(0, 0, &[0], &[], &[]);
    put(2, 0, &[0], &[nan, 1.0, 1.0, 1.0, 1.0, 1.0], &[9]);
    put(2, 0, &[0], &[1.0, 1.0, nan, 1.0, 1.0, 1.0], &[9]);
    put(2, 2, &[], &numbers[..6], &[]);
    put(2, 2, &[], &numbers[..6], &[0]);
    for place in [1, 5, 13] {
        for x in [nan, f64::NEG_INFINITY] {
            let mut changed = numbers;
            changed[place] = x;
            put(2, 2, &[0, 0], &changed, &[9]);
        }
    }
    for names in [[0, 9], [7, 0], [7, 7]] {
        put(2, 2, &names, &numbers, &[9]);
    }
    // Infinities, a NaN, -0 and the smallest number in the result.
    put(1, 2, &[], &[max, 2.0, -2.0], &[]);
    put(2, 1, &[1], &[max, max, 1.0, -1.0, 1.0, 1.0, 1.0, 1.0], &[0]);
    put(2, 2, &[], &[1.0, 1.0, -0.0, -0.0, 0.0, -0.0], &[]);
    put(1, 2, &[1], &[tiny, 1.0, -0.25, 1.0], &[0, 0]);
    let mut rng = Rng::new(2027);
    for (d, effects, gates) in [(3, 2, 2), (4, 2, 3), (5, 1, 1), (16, 2, 1)] {
        let count = d + effects * d + gates * d * d;
        let numbers: Vec<f64> = (0..count).map(|_| 0.5 * rng.signed()).collect();
        let names: Vec<u64> = (0..gates as u64).map(|k| k + 1).collect();
        let sequence: Vec<u64> = (0..7).map(|_| rng.below(gates as u64)).collect();
        put(d as u64, effects as u64, &names, &numbers, &sequence);
    }
    list
}
