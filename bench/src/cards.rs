//! The cards that are timed, each of an ordinary job of its kind.

use reference::library::Call;
use reference::makers::fixed::{self, Parts};
use reference::random::Rng;
use reference::tomography::product_probe_expectations;

/// Name and words. Kinds that the port lacks are passed over.
pub fn cards() -> Vec<(&'static str, Vec<u64>)> {
    let mut rng = Rng::new(1);
    let mut list = Vec::new();

    let mut expectations: Vec<f64> = (0..64).map(|_| rng.signed()).collect();
    expectations[0] = 1.0;
    list.push(("3 qubits", fixed::density(3, 1e-9, &expectations)));

    for (name, d) in [("d 4", 4), ("d 16", 16)] {
        let mut real = vec![0.0; d * d];
        for i in 0..d {
            for j in 0..=i {
                let x = rng.signed() / d as f64 + if i == j { 1.0 / d as f64 } else { 0.0 };
                (real[i * d + j], real[j * d + i]) = (x, x);
            }
        }
        list.push((name, fixed::projection(d, 1e-12, 64 * (d * d) as u64, &real)));
    }

    let probes = product_probe_expectations(2).unwrap().concat();
    let outputs: Vec<f64> =
        probes.iter().enumerate().map(|(k, &x)| if k % 16 == 0 { x } else { 0.9 * x + 0.01 * rng.signed() }).collect();
    list.push(("2 qubits", fixed::process(2, 1e-9, &probes, &outputs)));

    let values: Vec<f64> =
        (0..256).map(|k| if k % 17 == 0 { 0.9 } else { 0.01 * rng.signed() }).collect();
    list.push(("2 qubits", fixed::physical(2, 1e-9, 16_384, &values)));

    list.push(("one-qubit design to L = 32, 200 records, 36 coordinates, 6 iterations", design_fit()));
    list.push(("random sequences of 1 to 16 gates, d 4, 160 records, 36 coordinates, 6 iterations", fit(4, 160, 36)));

    let model = one_qubit();

    let mut transform = vec![0.0; 16];
    for (k, x) in transform.iter_mut().enumerate() {
        *x = 0.1 * rng.signed() + if k % 5 == 0 { 1.0 } else { 0.0 };
    }
    list.push(("one-qubit gates", fixed::gauge(&model, &transform)));
    let large = fixed::model_of_size(16, 4, 8, &mut rng);
    let mut transform = fixed::diagonal(&[1.0; 16]);
    transform.iter_mut().for_each(|x| *x += 0.1 * rng.signed());
    list.push(("d 16, 8 gates, 4 effects", fixed::gauge(&large, &transform)));
    let records = records_of(&model, 60, |k| 1 + k % 16, &mut rng);
    list.push(("one-qubit gates, 60 records", fixed::diagnostics(1e-9, &model, &records)));
    for (name, d) in [("d 4, 200 records of 64 gates", 4), ("d 16, 200 records of 64 gates", 16)] {
        let model = damped_model(d, 3, &mut rng);
        let records = records_of(&model, 200, |_| 64, &mut rng);
        list.push((name, fixed::diagnostics(1e-9, &model, &records)));
    }
    list
}

/// The usual experiment on one qubit with the gates Gi, Gx and Gy: six fiducials and eleven germs as gate set tomography has them (Nielsen and
/// others, Quantum 5, 557, 2021; pyGSTi's `std1Q_XYI`), written down from memory, since neither was at hand. A sequence is a fiducial, a germ
/// repeated to a length of at most L = 1, 2, 4, .. 32, and a fiducial. Which four of the 36 pairs of fiducials each has is this file's choice: a
/// card has room for 200 records.
fn design() -> Vec<Vec<u64>> {
    let gates = |names: &str| names.bytes().map(|name| b"ixy".iter().position(|&gate| gate == name).unwrap() as u64).collect::<Vec<_>>();
    let fiducials = ["", "x", "y", "xx", "xxx", "yyy"].map(gates);
    let germs = ["x", "y", "i", "xy", "xyi", "xiy", "xii", "yii", "xxiy", "xyyi", "xxyxyy"].map(gates);
    let mut list = Vec::new();
    for longest in [1, 2, 4, 8, 16, 32] {
        for germ in germs.iter().filter(|germ| germ.len() <= longest) {
            for _ in 0..4 {
                let pair = 7 * list.len() % 36;
                let middle = germ.repeat(longest / germ.len());
                list.push([fiducials[pair / 6].clone(), middle, fiducials[pair % 6].clone()].concat());
            }
        }
    }
    list
}

fn design_fit() -> Vec<u64> {
    let mut rng = Rng::new(3);
    let model = one_qubit();
    let made = near(&model, &mut rng);
    let records = design().iter().map(|sequence| counted(&made, sequence, &mut rng)).collect::<Vec<_>>();
    fit_card(&model, &records, 36)
}

/// A model near this one, whose counts a fit is given.
fn near(model: &Parts, rng: &mut Rng) -> Parts {
    let d = model.state.len();
    let mut made = Parts { state: model.state.clone(), effects: model.effects.clone(), gates: model.gates.clone() };
    for (_, gate) in made.gates.iter_mut() {
        gate.iter_mut().skip(d).for_each(|x| *x = 0.99 * *x + 0.004 * rng.signed());
    }
    made
}

/// A fit of three gates to counts of a model near the card's: what its cost grows with is given.
pub fn fit(d: usize, records: usize, coordinates: usize) -> Vec<u64> {
    let mut rng = Rng::new(3);
    let model = if d == 4 { one_qubit() } else { damped_model(d, 3, &mut rng) };
    let made = near(&model, &mut rng);
    let records = records_of(&made, records, |k| 1 + k % 16, &mut rng);
    fit_card(&model, &records, coordinates)
}

fn fit_card(model: &Parts, records: &[Vec<u64>], coordinates: usize) -> Vec<u64> {
    let width = model.state.len() as u64;
    // The entries that keep the trace, gate by gate in turn.
    let places = (1..width).flat_map(|row| (0..width).flat_map(move |column| (0..3).map(move |gate| (gate, row, column))));
    let list: Vec<u64> =
        places.map(|(gate, row, column)| 3 << 60 | gate << 48 | row << 24 | column).take(coordinates).collect();
    assert_eq!(list.len(), coordinates, "the gates have so many entries");
    let mut controls = fixed::default_controls();
    controls[0] = 6;
    fixed::fit(controls, model, records, &list)
}

/// The library calls that are timed: the largest of each entry that computes.
pub fn calls() -> Vec<(&'static str, Call)> {
    let mut rng = Rng::new(2);
    let mut numbers = |count: usize| (0..count).map(|_| rng.signed()).collect();
    let mut list = vec![
        ("3 qubits", Call::Probes { n: 3 }),
        ("2 qubits", Call::Apply { n: 2, values: numbers(256), input: numbers(16) }),
        ("2 qubits", Call::Choi { n: 2, values: numbers(256) }),
    ];
    for (name, d) in [("d 4, 64 gates", 4), ("d 16, 64 gates", 16)] {
        let Parts { state, effects, gates } = damped_model(d, 3, &mut rng);
        let numbers = [state, effects.concat(), gates.iter().flat_map(|(_, values)| values.clone()).collect()].concat();
        let names = gates.iter().map(|&(name, _)| name).collect();
        let sequence = (0..64).map(|_| rng.below(3)).collect();
        list.push((name, Call::Probabilities { d: d as u64, effects: 2, names, numbers, sequence }));
    }
    list
}

/// Idle, a quarter turn about X and one about Y, all a little damped.
fn one_qubit() -> Parts {
    let half = 0.5f64.sqrt();
    let damped = |rows: [f64; 9]| {
        let mut gate = vec![0.0; 16];
        gate[0] = 1.0;
        for (k, x) in rows.into_iter().enumerate() {
            gate[(1 + k / 3) * 4 + 1 + k % 3] = 0.98 * x;
        }
        gate
    };
    Parts {
        state: vec![half, 0.01, 0.02, 0.95 * half],
        effects: vec![vec![half, 0.0, 0.0, 0.9 * half], vec![half, 0.0, 0.0, -0.9 * half]],
        gates: vec![
            (1, damped([1., 0., 0., 0., 1., 0., 0., 0., 1.])),
            (2, damped([1., 0., 0., 0., 0., -1., 0., 1., 0.])),
            (3, damped([0., 0., 1., 0., 1., 0., -1., 0., 0.])),
        ],
    }
}

/// Any d: gates that permute and sign with a little of all else, two effects.
fn damped_model(d: usize, gates: usize, rng: &mut Rng) -> Parts {
    let mut state = vec![1.0; d];
    state.iter_mut().skip(1).for_each(|x| *x = 0.3 * rng.signed());
    let mut effect = vec![0.5; d];
    effect.iter_mut().skip(1).for_each(|x| *x = 0.8 / d as f64 * rng.signed());
    let other = effect.iter().enumerate().map(|(k, x)| if k == 0 { 0.5 } else { -x }).collect();
    let mut gate = |name: u64| {
        let turn = rng.index(d - 1);
        let mut values = vec![0.0; d * d];
        values[0] = 1.0;
        for row in 1..d {
            for column in 1..d {
                let target = 1 + (row - 1 + turn) % (d - 1);
                let kept = if column == target { 0.9 * rng.pick(&[1.0, -1.0]) } else { 0.0 };
                values[row * d + column] = kept + 0.02 * rng.signed();
            }
        }
        (name, values)
    };
    Parts { gates: (1..=gates as u64).map(&mut gate).collect(), state, effects: vec![effect, other] }
}

/// Records with the counts that the model gives for 1,000 runs, nearly.
fn records_of(model: &Parts, count: usize, length: fn(usize) -> usize, rng: &mut Rng) -> Vec<Vec<u64>> {
    let gates = model.gates.len() as u64;
    (0..count)
        .map(|k| {
            let sequence: Vec<u64> = (0..length(k)).map(|_| rng.below(gates)).collect();
            counted(model, &sequence, rng)
        })
        .collect()
}

/// The record of a sequence: 1,000 counts near its probabilities.
fn counted(model: &Parts, sequence: &[u64], rng: &mut Rng) -> Vec<u64> {
    let d = model.state.len();
    let mut state = model.state.clone();
    for &gate in sequence {
        let values = &model.gates[gate as usize].1;
        state = values.chunks(d).map(|row| row.iter().zip(&state).map(|(a, b)| a * b).sum()).collect();
    }
    let p: f64 = model.effects[0].iter().zip(&state).map(|(a, b)| a * b).sum();
    let first = (1000.0 * p + 10.0 * rng.signed()).clamp(1.0, 999.0) as u64;
    fixed::record(sequence, &[first, 1000 - first])
}

#[cfg(test)]
mod tests {
    use super::*;
    use reference::card::bytes_of;
    use reference::sheet::{outcome, Outcome};

    /// A fit that stopped at once would be no measure of one.
    #[test]
    fn fits_make_every_step() {
        let sizes = [(4, 160, 36), (4, 25, 36), (4, 200, 36), (4, 100, 4), (2, 50, 6), (8, 50, 6), (16, 50, 6)];
        for (d, records, coordinates) in sizes {
            let Outcome::Accepted { header, .. } = outcome(&bytes_of(&fit(d, records, coordinates))) else {
                panic!("d {d}, {records} records, {coordinates} coordinates: refused")
            };
            assert_eq!(header[..2], [3, 6], "d {d}, {records} records, {coordinates} coordinates");
        }
        let Outcome::Accepted { header, .. } = outcome(&bytes_of(&design_fit())) else { panic!("the design: refused") };
        assert_eq!(header[..2], [3, 6], "the design");
    }
}
