//! The sheet of a card, by the Rust's own functions, and how it is printed.

use crate::card::{self, Controls, Coordinate, Job, Model, Record, Refusal};
use crate::hooks;
use crate::tomography::{
    linear_inversion, parameter_value, process_linear_inversion, project_density_with_tolerance, reconstruct_gate_set,
    Complex64, FitDiagnostics, GateSetModel, GstOptimizerConfig, GstParameter, GstRecord, GstTermination, Operator,
    PauliTransferMatrix, TomographyError,
};
use core::fmt::Write;

#[derive(Clone, Debug, PartialEq, Eq)]
pub enum Outcome {
    /// The kind (8 to 12 for library calls), the header's numbers with zeros after them, and the result words.
    Accepted { kind: u8, header: [u64; 4], words: Vec<u64> },
    Refused(Refusal),
}

impl Outcome {
    /// The five words that a call answers with.
    pub fn answer(&self) -> [u64; 5] {
        match self {
            Outcome::Accepted { kind, header: [a, b, c, d], .. } => [u64::from(*kind), *a, *b, *c, *d],
            Outcome::Refused(Refusal { n, a, b }) => [0, *n, *a, *b, 0],
        }
    }
}

/// The outcome of any card of kinds 1 to 7.
pub fn outcome(bytes: &[u8]) -> Outcome {
    card::read(bytes).and_then(|job| run(&job)).unwrap_or_else(Outcome::Refused)
}

/// The outcome as far as the port is built: a card of a kind that it lacks is refused as an unknown one.
pub fn built_outcome(bytes: &[u8]) -> Outcome {
    match card::whole_words(&bytes[..bytes.len().min(8)]).first() {
        Some(&word) if !crate::BUILT.contains(&card::Head::of(word).kind) => {
            Outcome::Refused(Refusal::new(15, 0, 0))
        }
        _ => outcome(bytes),
    }
}

/// The sheet of a card that the reader accepted.
pub fn run(job: &Job) -> Result<Outcome, Refusal> {
    match job {
        Job::Density { n, tolerance, expectations } => {
            let density = linear_inversion(*n, expectations, *tolerance).map_err(refusal_of)?;
            Ok(matrix_sheet(1, &density))
        }
        Job::Projection { d, tolerance, rotations, estimate } => {
            let estimate = estimate.iter().map(|&(re, im)| Complex64::new(re, im)).collect();
            let estimate = Operator::try_new(*d, estimate).map_err(|_| Refusal::new(3, 0, 0))?;
            let projected =
                hooks::with_rotations(*rotations, || project_density_with_tolerance(&estimate, *tolerance))
                    .map_err(refusal_of)?;
            Ok(matrix_sheet(2, &projected))
        }
        Job::Process { n, tolerance, inputs, outputs } => {
            let process = process_linear_inversion(*n, inputs, outputs, *tolerance).map_err(refusal_of)?;
            Ok(Outcome::Accepted {
                kind: 3,
                header: [1 << (2 * n), 0, 0, 0],
                words: process.as_slice().iter().map(|&x| word_of(x)).collect(),
            })
        }
        Job::Physical { n, tolerance, rotations, values } => {
            let transfer = PauliTransferMatrix::try_new(*n, values.clone()).map_err(refusal_of)?;
            let trace = transfer.is_trace_preserving(*tolerance).map_err(refusal_of)?;
            let unital = transfer.is_unital(*tolerance).map_err(refusal_of)?;
            let positive = hooks::with_rotations(*rotations, || transfer.is_completely_positive(*tolerance))
                .map_err(refusal_of)?;
            Ok(Outcome::Accepted {
                kind: 4,
                header: [u64::from(trace), u64::from(unital), u64::from(positive), 0],
                words: Vec::new(),
            })
        }
        Job::Fit { controls, model, records, coordinates } => fit_sheet(controls, model, records, coordinates),
        Job::Gauge { model, transform } => {
            let names = model.gates.iter().map(|&(name, _)| name).collect::<Vec<_>>();
            let changed = model_of(model)?.gauge_transform(transform).map_err(refusal_of)?;
            let words = model_words(&changed, &names);
            Ok(Outcome::Accepted { kind: 6, header: [words.len() as u64, 0, 0, 0], words })
        }
        Job::Diagnostics { tolerance, model, records } => {
            let names = gate_names(model);
            let fit = model_of(model)?
                .fit_diagnostics_with_tolerance(&records_of(records, &names), *tolerance)
                .map_err(refusal_of)?;
            Ok(Outcome::Accepted { kind: 7, header: [0; 4], words: diagnostics_words(fit).to_vec() })
        }
    }
}

fn fit_sheet(
    controls: &Controls,
    model: &Model,
    records: &[Record],
    coordinates: &[Coordinate],
) -> Result<Outcome, Refusal> {
    let names = gate_names(model);
    let initial = model_of(model)?;
    let parameters = parameters_of(coordinates, &names);
    let records = records_of(records, &names);
    let (fit, evaluations) =
        hooks::with_evaluations(|| reconstruct_gate_set(&initial, &records, &parameters, config_of(controls)));
    let fit = fit.map_err(|error| match error {
        // The Rust does not say which one. It tests them in order, so it is the first without a value.
        TomographyError::InvalidGstParameter => {
            let place = parameters.iter().position(|parameter| parameter_value(&initial, parameter).is_err());
            Refusal::new(14, place.expect("some coordinate has no entry") as u64, 0)
        }
        error => refusal_of(error),
    })?;
    let reason = match fit.termination() {
        GstTermination::GradientTolerance => 1,
        GstTermination::ObjectiveTolerance => 2,
        GstTermination::MaximumIterations => 3,
        GstTermination::LineSearchStalled => 4,
    };
    let mut words = Vec::new();
    words.extend(diagnostics_words(fit.initial_fit()));
    words.extend(diagnostics_words(fit.final_fit()));
    words.extend([word_of(fit.objective()), word_of(fit.gradient_norm())]);
    words.extend(model_words(fit.model(), &model.gates.iter().map(|&(name, _)| name).collect::<Vec<_>>()));
    Ok(Outcome::Accepted {
        kind: 5,
        header: [reason, fit.iterations() as u64, evaluations, u64::from(fit.converged())],
        words,
    })
}

/// NaNs of any sign and payload are one word.
pub fn word_of(x: f64) -> u64 {
    if x.is_nan() {
        0x7ff8_0000_0000_0000
    } else {
        x.to_bits()
    }
}

fn matrix_sheet(kind: u8, matrix: &Operator) -> Outcome {
    Outcome::Accepted {
        kind,
        header: [matrix.dimension() as u64, 0, 0, 0],
        words: matrix.as_slice().iter().flat_map(|z| [word_of(z.re), word_of(z.im)]).collect(),
    }
}

fn diagnostics_words(fit: FitDiagnostics) -> [u64; 2] {
    [word_of(fit.log_likelihood), word_of(fit.deviance)]
}

/// A name word as the Rust's name: zero is the empty one, all others differ.
fn name_of(word: u64) -> String {
    if word == 0 {
        String::new()
    } else {
        format!("{word:016x}")
    }
}

const ABSENT: &str = "absent ";

/// The Rust's names of a model's gates.
pub fn gate_names(model: &Model) -> Vec<String> {
    model.gates.iter().map(|&(name, _)| name_of(name)).collect()
}

/// The name of a gate index. One without a gate gets a name that no gate has, and that holds the index.
pub fn name_at(names: &[String], index: usize) -> String {
    names.get(index).cloned().unwrap_or_else(|| format!("{ABSENT}{index}"))
}

/// The checked model.
pub fn model_of(model: &Model) -> Result<GateSetModel, Refusal> {
    let gates = model.gates.iter().map(|(name, values)| (name_of(*name), values.clone())).collect();
    GateSetModel::try_new(model.state.clone(), model.effects.clone(), gates).map_err(refusal_of)
}

fn model_words(model: &GateSetModel, names: &[u64]) -> Vec<u64> {
    let mut words: Vec<u64> = model.state.iter().chain(model.effects.iter().flatten()).map(|&x| word_of(x)).collect();
    for ((_, values), &name) in model.gates.iter().zip(names) {
        words.push(name);
        words.extend(values.iter().map(|&x| word_of(x)));
    }
    words
}

pub fn records_of(records: &[Record], names: &[String]) -> Vec<GstRecord> {
    records
        .iter()
        .map(|record| GstRecord {
            sequence: record.sequence.iter().map(|&index| name_at(names, index)).collect(),
            counts: record.counts.clone(),
        })
        .collect()
}

pub fn parameters_of(coordinates: &[Coordinate], names: &[String]) -> Vec<GstParameter> {
    coordinates
        .iter()
        .map(|&coordinate| match coordinate {
            Coordinate::State { index } => GstParameter::State(index),
            Coordinate::Effect { outcome, index } => GstParameter::Effect { outcome, index },
            Coordinate::Gate { gate, row, column } => GstParameter::Gate { name: name_at(names, gate), row, column },
        })
        .collect()
}

pub fn config_of(controls: &Controls) -> GstOptimizerConfig {
    GstOptimizerConfig {
        max_iterations: controls.max_iterations,
        initial_step: controls.initial_step,
        finite_difference_step: controls.finite_difference_step,
        gradient_tolerance: controls.gradient_tolerance,
        objective_tolerance: controls.objective_tolerance,
        probability_tolerance: controls.probability_tolerance,
        max_backtracks: controls.max_backtracks,
        anchor_strength: controls.anchor_strength,
    }
}

/// The Rust's errors by document 01's numbers.
pub(crate) fn refusal_of(error: TomographyError) -> Refusal {
    match error {
        TomographyError::InvalidQubits => Refusal::new(1, 0, 0),
        TomographyError::Shape { expected, actual } => Refusal::new(2, expected as u64, actual as u64),
        TomographyError::NonFinite => Refusal::new(3, 0, 0),
        TomographyError::InvalidNormalization(identity) => Refusal::new(4, identity.to_bits(), 0),
        TomographyError::InvalidTolerance => Refusal::new(5, 0, 0),
        TomographyError::Operator(_) => Refusal::new(6, 0, 0),
        TomographyError::UnknownGate(name) => {
            let index = name.strip_prefix(ABSENT).and_then(|index| index.parse().ok());
            Refusal::new(7, index.expect("only absent gates are unknown"), 0)
        }
        TomographyError::InvalidProbabilities => Refusal::new(8, 0, 0),
        TomographyError::CountOverflow => Refusal::new(9, 0, 0),
        TomographyError::SingularGaugeTransform => Refusal::new(10, 0, 0),
        TomographyError::SingularProcessDesign => Refusal::new(11, 0, 0),
        TomographyError::EigensolverDidNotConverge => Refusal::new(12, 0, 0),
        TomographyError::InvalidGstOptimization(text) => Refusal::new(13, reason_of(text), 0),
        TomographyError::InvalidGstParameter => unreachable!("the fit finds the coordinate's place"),
    }
}

fn reason_of(text: &str) -> u64 {
    let texts = [
        "optimizer controls must be finite and positive",
        "at least one GST record is required",
        "at least one GST parameter is required",
        "GST parameters must be unique",
        "finite-difference gradient was non-finite",
        "gate names must be nonempty and unique",
    ];
    let place = texts.iter().position(|&known| known == text);
    place.unwrap_or_else(|| panic!("no reason is known for: {text}")) as u64 + 1
}

/// The sheet, or a library call's outcome, as the programs print it.
pub fn print(outcome: &Outcome) -> String {
    let mut text = String::new();
    match outcome {
        Outcome::Refused(Refusal { n, a, b }) => {
            writeln!(text, "refused {n} {a:016x} {b:016x}").unwrap();
        }
        Outcome::Accepted { kind, header: [a, b, c, d], words } => {
            match kind {
                1 => writeln!(text, "density {a}"),
                2 => writeln!(text, "projected {a}"),
                3 => writeln!(text, "process {a}"),
                4 => writeln!(text, "physical {a} {b} {c}"),
                5 => writeln!(text, "fit {a} {b} {c} {d}"),
                6 => writeln!(text, "model {a}"),
                7 => writeln!(text, "diagnostics"),
                8 => writeln!(text, "probes {a}"),
                9 => writeln!(text, "setting {a}"),
                10 => writeln!(text, "applied {a}"),
                11 => writeln!(text, "choi {a}"),
                12 => writeln!(text, "probabilities {a}"),
                kind => unreachable!("kind {kind} has no sheet"),
            }
            .unwrap();
            let parts = if matches!(kind, 1 | 2 | 11) { 2 } else { 1 };
            for line in words.chunks(parts) {
                let numbers: Vec<String> = line.iter().map(|word| format!("{word:016x}")).collect();
                writeln!(text, "{}", numbers.join(" ")).unwrap();
            }
        }
    }
    text
}

/// The reader's outcome on one line.
pub fn print_reading(reading: &Result<u8, Refusal>) -> String {
    match reading {
        Ok(kind) => format!("read {kind}\n"),
        Err(refusal) => print(&Outcome::Refused(*refusal)),
    }
}

/// The kind of a card that the reader accepts, or its refusal.
pub fn reading(bytes: &[u8]) -> Result<u8, Refusal> {
    card::read(bytes).map(|job| job.kind())
}
