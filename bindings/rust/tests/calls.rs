//! Every function of the library, called through this crate.

use mintshuttle::{
    apply, choi, lent, ln_all, probabilities, probes, read, setting, sheet, sqrt_all, Answer, Axis, Calls, Complex,
    Refusal, Stop,
};

fn card(words: &[u64]) -> Vec<u8> {
    words.iter().flat_map(|word| word.to_be_bytes()).collect()
}

fn words(numbers: &[f64]) -> Vec<u64> {
    numbers.iter().map(|x| x.to_bits()).collect()
}

fn refused(number: u64, a: u64, b: u64) -> Answer {
    Answer::Refused(Refusal { number, a, b })
}

fn density_card() -> Vec<u8> {
    card(&[vec![0x11 << 56], words(&[1e-6, 1.0, 0.0, 0.0, 1.0])].concat())
}

/// A state, two effects and one gate named "G".
fn model() -> Vec<u64> {
    [words(&[1.0, 0.0, 0.5, 0.5, 0.5, -0.5]), vec![0x47 << 56], words(&[1.0, 0.0, 0.0, 0.5])].concat()
}

/// The gate once; 3 and 1 counts.
const RECORD: [u64; 7] = [1 << 56, 0, 0, 0, 0, 3, 1];

/// The worked fit card of docs/CARD.md.
fn fit_card() -> Vec<u8> {
    let controls = [vec![2], words(&[0.1, 1e-5, 1e-8, 1e-12, 1e-9]), vec![24, 0]].concat();
    card(&[vec![0x5002_0201_0001_0100], controls, model(), RECORD.to_vec(), vec![1 << 60 | 1]].concat())
}

/// A quarter turn about X: Z goes to -Y.
const TURN: [f64; 16] = [1., 0., 0., 0., 0., 1., 0., 0., 0., 0., 0., -1., 0., 0., 1., 0.];

#[test]
fn density() {
    let Answer::Density(matrix) = sheet(&density_card()) else { panic!() };
    assert_eq!(matrix.size, 2);
    assert_eq!(matrix.get(0, 0), Some(Complex { re: 1.0, im: 0.0 }));
    assert_eq!(matrix.get(1, 1), Some(Complex { re: 0.0, im: 0.0 }));
    assert_eq!(matrix.get(0, 2), None);
    assert_eq!(matrix.get(2, 0), None);
}

#[test]
fn projected() {
    let estimate = words(&[1.0, 0.0, 0.0, 0.0, 0.0, 0.0, 0.0, 0.0, 0.5, 0.0, 0.0, 0.0, 0.0, 0.0, 0.0, 0.0, -0.5, 0.0]);
    let Answer::Projected(matrix) = sheet(&card(&[vec![0x2003 << 48, 1e-6_f64.to_bits(), 1], estimate].concat()))
    else {
        panic!()
    };
    assert_eq!((0..3).map(|i| matrix.get(i, i).unwrap().re).collect::<Vec<_>>(), [0.75, 0.25, 0.0]);
}

#[test]
fn process() {
    let Answer::Probes { count: 4, expectations } = probes(1) else { panic!() };
    let outputs: Vec<f64> = expectations.chunks(4).flat_map(|v| [v[0], v[1], -v[3], v[2]]).collect();
    let Answer::Process { size: 4, values } =
        sheet(&card(&[vec![0x31 << 56, 1e-9_f64.to_bits()], words(&expectations), words(&outputs)].concat()))
    else {
        panic!()
    };
    assert_eq!(values, TURN);
}

#[test]
fn physical() {
    let values = [1., 0., 0., 0., 0., 1., 0., 0., 0., 0., -1., 0., 0., 0., 0., 1.];
    let answer = sheet(&card(&[vec![0x41 << 56, 0.25_f64.to_bits(), 2], words(&values)].concat()));
    assert_eq!(answer, Answer::Physical { trace_preserving: true, unital: true, completely_positive: false });
}

#[test]
fn fit() {
    let Answer::Fit(fit) = sheet(&fit_card()) else { panic!("{:?}", sheet(&fit_card())) };
    assert_eq!((fit.stop, fit.accepted_steps, fit.evaluations, fit.converged), (Stop::Iterations, 2, 9, false));
    assert_eq!(fit.initial.log_likelihood.to_bits(), 0xc006_2e42_fefa_39ef);
    assert_eq!(fit.objective, -fit.last.log_likelihood);
    assert_eq!(fit.objective.to_bits(), 0x4004_ccb8_ad9d_54da);
    assert_eq!(fit.last.deviance.to_bits(), 0x3fe6_7093_3d63_2c60);
    assert_eq!(fit.gradient_norm.to_bits(), 0x3fea_263b_2c9e_aeff);
    assert_eq!(words(&fit.model.state), [1.0_f64.to_bits(), 0x3fc8_594f_afef_ea00]);
    assert_eq!(fit.model.effects, [[0.5, 0.5], [0.5, -0.5]]);
    assert_eq!(fit.model.gates[0].name, 0x47 << 56);
    assert_eq!(fit.model.gates[0].matrix, [1.0, 0.0, 0.0, 0.5]);
}

#[test]
fn fit_reasons() {
    let spoiled = |place: usize, word: u64| {
        let mut bytes = fit_card();
        bytes[8 * place..8 * place + 8].copy_from_slice(&word.to_be_bytes());
        sheet(&bytes)
    };
    // No iterations; a coordinate that does not exist.
    assert_eq!(spoiled(1, 0), refused(13, 1, 0));
    assert_eq!(spoiled(27, 1 << 60 | 2), refused(14, 0, 0));
    // With more iterations the objective's tolerance ends it.
    let Answer::Fit(fit) = spoiled(1, 1000) else { panic!() };
    assert!(fit.converged);
}

#[test]
fn gauge() {
    let Answer::Model(model) = sheet(&card(&[vec![0x6002_0201 << 32], model(), words(&[1.0, 0.0, 0.0, 2.0])].concat()))
    else {
        panic!()
    };
    assert_eq!(model.state, [1.0, 0.0]);
    assert_eq!(model.effects, [[0.5, 0.25], [0.5, -0.25]]);
    assert_eq!(model.gates.len(), 1);
    assert_eq!(model.gates[0].matrix, [1.0, 0.0, 0.0, 0.5]);
}

#[test]
fn diagnostics() {
    let Answer::Diagnostics(found) =
        sheet(&card(&[vec![0x7002_0201_0001_0000, 1e-9_f64.to_bits()], model(), RECORD.to_vec()].concat()))
    else {
        panic!()
    };
    // Four times the logarithm of one half.
    assert!((found.log_likelihood + 4.0 * std::f64::consts::LN_2).abs() < 1e-12);
    assert!(found.deviance > 0.0);
}

#[test]
fn refusals() {
    assert_eq!(sheet(&[]), refused(15, 0, 0));
    assert_eq!(sheet(&[0x11]), refused(15, 0, 0));
    assert_eq!(sheet(&density_card()[..40]), refused(2, 6, 5));
    assert_eq!(sheet(&card(&[0x14 << 56])), refused(1, 0, 0));
    assert_eq!(
        sheet(&density_card()[..40]).refusal().unwrap().to_string(),
        "refused 2 0000000000000006 0000000000000005"
    );
    assert_eq!(sheet(&density_card()).refusal(), None);
}

#[test]
fn reader() {
    assert_eq!(read(&density_card()), Ok(1));
    assert_eq!(read(&fit_card()), Ok(5));
    assert_eq!(read(&fit_card()[1..]), Err(Refusal { number: 15, a: 0, b: 0 }));
    assert_eq!(read(&density_card()[..40]), Err(Refusal { number: 2, a: 6, b: 5 }));
}

#[test]
fn designs() {
    let Answer::Probes { count, expectations } = probes(3) else { panic!() };
    assert_eq!((count, expectations.len()), (64, 4096));
    assert!(expectations.chunks(64).all(|row| row[0] == 1.0));
    assert_eq!(probes(0), refused(1, 0, 0));
    assert_eq!(probes(4), refused(1, 0, 0));
    assert_eq!(setting(2, 5), Answer::Setting(vec![Axis::Y, Axis::Z]));
    assert_eq!(setting(1, 0), Answer::Setting(vec![Axis::X]));
    assert_eq!(setting(2, 9), refused(15, 9, 0));
    assert_eq!(setting(0, 9), refused(1, 0, 0));
}

#[test]
fn transfer_matrices() {
    assert_eq!(apply(1, &TURN, &[1.0, 0.0, 0.0, 1.0]), Answer::Applied(vec![1.0, 0.0, -1.0, 0.0]));
    assert_eq!(apply(1, &TURN, &TURN[..4]), Answer::Applied(vec![1.0, 0.0, 0.0, 0.0]));
    assert_eq!(apply(1, &TURN[..15], &[]), refused(2, 16, 15));
    assert_eq!(apply(1, &TURN, &[]), refused(2, 4, 0));
    assert_eq!(apply(1, &TURN, &[1.0, f64::NAN, 0.0, 0.0]), refused(3, 0, 0));
    assert_eq!(apply(3, &TURN, &[]), refused(1, 0, 0));
    let Answer::Choi(matrix) = choi(1, &TURN) else { panic!() };
    assert_eq!(matrix.size, 4);
    assert_eq!((0..4).map(|i| matrix.get(i, i).unwrap().re).sum::<f64>(), 1.0);
    assert_eq!(choi(1, &[f64::INFINITY; 16]), refused(3, 0, 0));
}

#[test]
fn sequences() {
    let numbers = [&[1.0, 0.0, 0.0, 1.0, 0.5, 0.0, 0.0, 0.5, 0.5, 0.0, 0.0, -0.5], &TURN[..]].concat();
    let names = [0x4778 << 48];
    assert_eq!(probabilities(4, 2, &names, &numbers, &[]), Answer::Probabilities(vec![1.0, 0.0]));
    assert_eq!(probabilities(4, 2, &names, &numbers, &[0]), Answer::Probabilities(vec![0.5, 0.5]));
    assert_eq!(probabilities(4, 2, &names, &numbers, &[0; 2]), Answer::Probabilities(vec![0.0, 1.0]));
    assert_eq!(probabilities(1, 1, &[], &[2.0, 3.0], &[]), Answer::Probabilities(vec![6.0]));
    // Their order: 15, 2, 3 for the state, 2, 3 for the rest, 13, 7.
    assert_eq!(probabilities(17, 2, &names, &numbers, &[]), refused(15, 0, 0));
    assert_eq!(probabilities(4, 17, &names, &numbers, &[]), refused(15, 0, 0));
    assert_eq!(probabilities(4, 2, &[1; 9], &numbers, &[]), refused(15, 0, 0));
    assert_eq!(probabilities(4, 2, &names, &numbers, &[0; 65]), refused(15, 0, 0));
    assert_eq!(probabilities(4, 2, &names, &numbers[1..], &[]), refused(2, 28, 27));
    assert_eq!(probabilities(0, 0, &[], &[], &[]), refused(3, 0, 0));
    assert_eq!(probabilities(1, 0, &[], &[f64::NAN], &[]), refused(3, 0, 0));
    assert_eq!(probabilities(1, 0, &[], &[1.0], &[]), refused(2, 1, 0));
    assert_eq!(probabilities(1, 1, &[0], &[1.0, 1.0, f64::NAN], &[]), refused(3, 0, 0));
    assert_eq!(probabilities(1, 1, &[0], &[1.0; 3], &[7]), refused(13, 6, 0));
    assert_eq!(probabilities(1, 1, &[5, 5], &[1.0; 4], &[7]), refused(13, 6, 0));
    assert_eq!(probabilities(1, 1, &[5], &[1.0; 3], &[0, 7, 8]), refused(7, 7, 0));
    assert_eq!(probabilities(1, 1, &[5], &[1.0; 3], &[u64::MAX]), refused(7, u64::MAX, 0));
}

#[test]
fn roots_and_logarithms() {
    assert_eq!(sqrt_all(&[4.0, 2.25, 2.0]), [2.0, 1.5, 2.0_f64.sqrt()]);
    let found = ln_all(&[1.0, 2.0, f64::INFINITY, -1.0]);
    assert_eq!(found[0], 0.0);
    assert!((found[1] - std::f64::consts::LN_2).abs() < 1e-12);
    assert_eq!(found[2], f64::INFINITY);
    assert!(found[3].is_nan());
}

#[test]
fn lent_slices() {
    let (mut result, mut work, mut answer) = (vec![77; 4097], vec![f64::NAN; 8193], [77; 6]);
    assert_eq!(lent::sheet(&density_card(), &mut result, &mut work, &mut answer), 0);
    assert_eq!(answer, [1, 2, 0, 0, 0, 77]);
    assert!(result[8..].iter().all(|&word| word == 77));
    assert!(work.iter().all(|x| x.to_bits() == 0));
    // Each slice that is too short is refusal 16, and what was lent of work is cleared.
    work.fill(1.0);
    assert_eq!(lent::sheet(&density_card(), &mut result[..4095], &mut work, &mut answer), 16);
    assert_eq!(answer, [0, 16, 0, 0, 0, 77]);
    assert!(work.iter().all(|x| x.to_bits() == 0));
    assert_eq!(lent::probes(1, &mut result, &mut work[..8191], &mut answer), 16);
    assert_eq!(lent::setting(1, 0, &mut result, &mut work, &mut answer[..4]), 16);
    assert_eq!(lent::apply(1, &[], &[], &mut [], &mut [], &mut answer), 16);
    assert_eq!(lent::choi(1, &[], &mut [], &mut work, &mut answer), 16);
    assert_eq!(lent::probabilities(99, 0, &[], &[], &[], &mut [], &mut work, &mut answer), 16);
    assert_eq!(lent::read(&density_card(), &mut []), 16);
    let mut out = [77.0; 3];
    assert_eq!(lent::sqrt_all(&[9.0], &mut out), 1);
    assert_eq!(lent::ln_all(&[9.0, 1.0], &mut out[..0]), 0);
    assert_eq!(out, [3.0, 77.0, 77.0]);
}

#[test]
fn one_set_of_slices_for_many_calls() {
    let mut calls = Calls::new();
    let first = calls.sheet(&density_card());
    assert_eq!(calls.sheet(&[]), refused(15, 0, 0));
    assert_eq!(calls.choi(1, &TURN), choi(1, &TURN));
    assert_eq!(calls.sheet(&density_card()), first);
}

/// Nothing else checks that this crate knows each function of the header.
#[test]
fn every_function_of_the_header_is_declared() {
    let header = include_str!("../../../include/mintshuttle.h");
    let source = include_str!("../src/lent.rs");
    let mut count = 0;
    for line in header.lines().filter(|line| line.starts_with("uint64_t ") || line.starts_with("size_t ")) {
        let name = line.split([' ', '(']).nth(1).unwrap();
        assert!(source.contains(&format!("fn {name}(")), "{name}");
        count += 1;
    }
    assert_eq!(count, 9);
}
