//! The library calls beside the sheets: their outcomes by the Rust's own functions, and how they are stored.

use crate::card::{Model, Refusal, MOST_D, MOST_EFFECTS, MOST_GATES, MOST_LENGTH};
use crate::sheet::{self, refusal_of, word_of, Outcome};
use crate::tomography::{product_probe_expectations, LocalPauliPlan, Pauli, PauliTransferMatrix};

/// A call with its arguments. Whole numbers are what a caller can give, whether or not they mean anything.
#[derive(Clone, Debug)]
pub enum Call {
    Probes { n: u64 },
    Setting { n: u64, index: u64 },
    Apply { n: u64, values: Vec<f64>, input: Vec<f64> },
    Choi { n: u64, values: Vec<f64> },
    /// The numbers are the state's, each effect's, each gate's by rows; the sequence has gate indices, the first applied first.
    Probabilities { d: u64, effects: u64, names: Vec<u64>, numbers: Vec<f64>, sequence: Vec<u64> },
}

impl Call {
    /// The entry's name, and the first word of its answer.
    pub fn entry(&self) -> (&'static str, u8) {
        match self {
            Call::Probes { .. } => ("probes", 8),
            Call::Setting { .. } => ("setting", 9),
            Call::Apply { .. } => ("apply", 10),
            Call::Choi { .. } => ("choi", 11),
            Call::Probabilities { .. } => ("probabilities", 12),
        }
    }

    /// As stored calls have it: the entry, n, then the index, or the count of the values, the values and, of `apply`, the input.
    /// Of `probabilities`: d, effects, the count of the names, the names, the count of the numbers, the numbers, the sequence.
    pub fn words(&self) -> Vec<u64> {
        let entry = u64::from(self.entry().1);
        match self {
            Call::Probes { n } => vec![entry, *n],
            Call::Setting { n, index } => vec![entry, *n, *index],
            Call::Apply { n, values, input } => {
                let mut words = vec![entry, *n, values.len() as u64];
                words.extend(values.iter().chain(input).map(|x| x.to_bits()));
                words
            }
            Call::Choi { n, values } => {
                let mut words = vec![entry, *n, values.len() as u64];
                words.extend(values.iter().map(|x| x.to_bits()));
                words
            }
            Call::Probabilities { d, effects, names, numbers, sequence } => {
                let mut words = vec![entry, *d, *effects, names.len() as u64];
                words.extend(names);
                words.push(numbers.len() as u64);
                words.extend(numbers.iter().map(|x| x.to_bits()));
                words.extend(sequence);
                words
            }
        }
    }

    /// The outcome where the slices are long enough.
    pub fn outcome(&self) -> Outcome {
        let words = match self {
            Call::Probes { n } => probes(*n),
            Call::Setting { n, index } => setting(*n, *index),
            Call::Apply { n, values, input } => apply(*n, values, input),
            Call::Choi { n, values } => choi(*n, values),
            Call::Probabilities { d, effects, names, numbers, sequence } => {
                probabilities(*d, *effects, names, numbers, sequence)
            }
        };
        match words {
            // A design has a row for each probe, a Choi matrix two parts an entry; the others have one number for what they
            // count.
            Ok(words) => {
                let count = match self {
                    Call::Probes { .. } => words.len().isqrt(),
                    Call::Choi { .. } => (words.len() / 2).isqrt(),
                    _ => words.len(),
                };
                Outcome::Accepted { kind: self.entry().1, header: [count as u64, 0, 0, 0], words }
            }
            Err(refusal) => Outcome::Refused(refusal),
        }
    }
}

/// Document 01's limit, which the Rust does not have.
fn qubits(n: u64, most: u64) -> Result<usize, Refusal> {
    if (1..=most).contains(&n) {
        Ok(n as usize)
    } else {
        Err(Refusal::new(1, 0, 0))
    }
}

fn probes(n: u64) -> Result<Vec<u64>, Refusal> {
    let rows = product_probe_expectations(qubits(n, 3)?).map_err(refusal_of)?;
    Ok(rows.concat().into_iter().map(word_of).collect())
}

fn setting(n: u64, index: u64) -> Result<Vec<u64>, Refusal> {
    let plan = LocalPauliPlan::complete(qubits(n, 3)?).map_err(refusal_of)?;
    let setting = usize::try_from(index).ok().and_then(|index| plan.settings().get(index));
    let axes = setting.ok_or(Refusal::new(15, index, 0))?;
    Ok(axes
        .iter()
        .map(|axis| match axis {
            Pauli::X => 1,
            Pauli::Y => 2,
            Pauli::Z => 3,
            Pauli::I => unreachable!("a setting measures every qubit"),
        })
        .collect())
}

fn apply(n: u64, values: &[f64], input: &[f64]) -> Result<Vec<u64>, Refusal> {
    let transfer = PauliTransferMatrix::try_new(qubits(n, 2)?, values.to_vec()).map_err(refusal_of)?;
    let output = transfer.apply_expectations(input).map_err(refusal_of)?;
    Ok(output.into_iter().map(word_of).collect())
}

fn choi(n: u64, values: &[f64]) -> Result<Vec<u64>, Refusal> {
    let transfer = PauliTransferMatrix::try_new(qubits(n, 2)?, values.to_vec()).map_err(refusal_of)?;
    let matrix = transfer.normalized_choi().map_err(refusal_of)?;
    Ok(matrix.as_slice().iter().flat_map(|z| [word_of(z.re), word_of(z.im)]).collect())
}

/// The model of a call of `probabilities`; refused as on a card: 15 beyond the limits, then the count of the numbers.
pub fn model_of_call(d: u64, effects: u64, names: &[u64], numbers: &[f64]) -> Result<Model, Refusal> {
    if d > MOST_D as u64 || effects > MOST_EFFECTS as u64 || names.len() > MOST_GATES {
        return Err(Refusal::new(15, 0, 0));
    }
    let (d, effects) = (d as usize, effects as usize);
    let wanted = d + effects * d + names.len() * d * d;
    if numbers.len() != wanted {
        return Err(Refusal::new(2, wanted as u64, numbers.len() as u64));
    }
    let (state, rest) = numbers.split_at(d);
    let (rows, gates) = rest.split_at(effects * d);
    Ok(Model {
        d,
        state: state.to_vec(),
        effects: (0..effects).map(|k| rows[k * d..][..d].to_vec()).collect(),
        gates: names.iter().enumerate().map(|(k, &name)| (name, gates[k * d * d..][..d * d].to_vec())).collect(),
    })
}

fn probabilities(d: u64, effects: u64, names: &[u64], numbers: &[f64], sequence: &[u64]) -> Result<Vec<u64>, Refusal> {
    if sequence.len() > MOST_LENGTH {
        return Err(Refusal::new(15, 0, 0));
    }
    let model = model_of_call(d, effects, names, numbers)?;
    let names = sheet::gate_names(&model);
    let sequence: Vec<String> = sequence.iter().map(|&index| sheet::name_at(&names, index as usize)).collect();
    let sequence: Vec<&str> = sequence.iter().map(String::as_str).collect();
    let found = sheet::model_of(&model)?.probabilities(&sequence).map_err(refusal_of)?;
    Ok(found.into_iter().map(word_of).collect())
}
