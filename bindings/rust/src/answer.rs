//! What a call answers.

use std::fmt;

/// A refusal: its number, 1 to 16, and two values, zero where the table of docs/CARD.md names none.
#[derive(Clone, Copy, Debug, PartialEq, Eq)]
pub struct Refusal {
    /// Which refusal it is.
    pub number: u64,
    /// What A is depends on the number: a place, an index, a reason, a length; of refusal 4 the bits of an f64.
    pub a: u64,
    /// Refusal 2's found length; zero otherwise.
    pub b: u64,
}

impl fmt::Display for Refusal {
    /// As the program `sheet` prints it.
    fn fmt(&self, f: &mut fmt::Formatter<'_>) -> fmt::Result {
        write!(f, "refused {} {:016x} {:016x}", self.number, self.a, self.b)
    }
}

impl std::error::Error for Refusal {}

/// A complex number by its parts.
#[derive(Clone, Copy, Debug, PartialEq)]
pub struct Complex {
    pub re: f64,
    pub im: f64,
}

/// A square matrix by rows.
#[derive(Clone, Debug, PartialEq)]
pub struct Matrix {
    /// How many rows, and columns, there are.
    pub size: usize,
    /// The entries, row after row.
    pub entries: Vec<Complex>,
}

impl Matrix {
    /// The entry at a row and a column, where it exists.
    pub fn get(&self, row: usize, column: usize) -> Option<Complex> {
        if column < self.size {
            self.entries.get(row.checked_mul(self.size)? + column).copied()
        } else {
            None
        }
    }
}

/// The logarithm of the likelihood of all records, and their deviance from the saturated model.
#[derive(Clone, Copy, Debug, PartialEq)]
pub struct Diagnostics {
    pub log_likelihood: f64,
    /// May be infinite.
    pub deviance: f64,
}

/// Why a fit stopped.
#[derive(Clone, Copy, Debug, PartialEq, Eq)]
pub enum Stop {
    /// R 1: the gradient's norm is at most its tolerance.
    Gradient,
    /// R 2: the last step lowered the objective by at most its tolerance.
    Objective,
    /// R 3: the iterations are used up.
    Iterations,
    /// R 4: no trial of the last search lowered the objective.
    Stalled,
}

/// A gate of a model.
#[derive(Clone, Debug, PartialEq)]
pub struct Gate {
    /// The name word, as it stands on the card.
    pub name: u64,
    /// Its d·d numbers by rows.
    pub matrix: Vec<f64>,
}

/// A gate-set model.
#[derive(Clone, Debug, PartialEq)]
pub struct Model {
    /// The d numbers of the state.
    pub state: Vec<f64>,
    /// The d numbers of each effect.
    pub effects: Vec<Vec<f64>>,
    /// The gates in the card's order.
    pub gates: Vec<Gate>,
}

/// The sheet of a fit.
#[derive(Clone, Debug, PartialEq)]
pub struct Fit {
    /// R.
    pub stop: Stop,
    /// S, how many steps were accepted.
    pub accepted_steps: u64,
    /// E, how often a likelihood was worked out.
    pub evaluations: u64,
    /// V: whether a tolerance, and not a limit or a stalled search, ended the fit.
    pub converged: bool,
    /// Of the card's model.
    pub initial: Diagnostics,
    /// Of the fitted model.
    pub last: Diagnostics,
    /// The negative log-likelihood, with the anchor's term, of the fitted model.
    pub objective: f64,
    /// May be infinite.
    pub gradient_norm: f64,
    /// The fitted model.
    pub model: Model,
}

/// An axis of measurement.
#[derive(Clone, Copy, Debug, PartialEq, Eq)]
pub enum Axis {
    X,
    Y,
    Z,
}

/// What a call answers: a case for each sheet, one for each library entry, and the refusals.
#[derive(Clone, Debug, PartialEq)]
pub enum Answer {
    /// Kind 1: the density matrix of 2^n rows.
    Density(Matrix),
    /// Kind 2: the density matrix nearest to an estimate.
    Projected(Matrix),
    /// Kind 3: a transfer matrix of `size` rows, its values by rows.
    Process { size: usize, values: Vec<f64> },
    /// Kind 4: three tests of a transfer matrix.
    Physical { trace_preserving: bool, unital: bool, completely_positive: bool },
    /// Kind 5: a fit.
    Fit(Fit),
    /// Kind 6: the model after a gauge transform.
    Model(Model),
    /// Kind 7: the likelihood of the records under the card's model.
    Diagnostics(Diagnostics),
    /// [`crate::probes`]: `count` rows of as many expectations.
    Probes { count: usize, expectations: Vec<f64> },
    /// [`crate::setting`]: the axis of each qubit.
    Setting(Vec<Axis>),
    /// [`crate::apply`]: the expectations afterwards. They are not tested: NaN and infinity can occur.
    Applied(Vec<f64>),
    /// [`crate::choi`]: the normalized Choi matrix of 4^n rows.
    Choi(Matrix),
    /// [`crate::probabilities`]: one number for each effect. They are not tested: any number can occur.
    Probabilities(Vec<f64>),
    /// No sheet was made.
    Refused(Refusal),
}

/// How large the parts of a model are: the fields of a card's word 0.
#[derive(Clone, Copy)]
pub(crate) struct Shape {
    pub d: usize,
    pub effects: usize,
    pub gates: usize,
}

impl Shape {
    /// Of the card that a model came from. An accepted card has its word 0.
    pub fn of(card: &[u8]) -> Self {
        let field = |place: usize| card.get(place).map_or(0, |&byte| usize::from(byte));
        Shape { d: field(1), effects: field(2), gates: field(3) }
    }

    fn words(self) -> usize {
        self.d + self.effects * self.d + self.gates * (1 + self.d * self.d)
    }

    fn model(self, words: &[u64]) -> Model {
        let (state, rest) = words.split_at(self.d);
        let (effects, gates) = rest.split_at(self.effects * self.d);
        Model {
            state: numbers(state),
            effects: (0..self.effects).map(|k| numbers(&effects[k * self.d..(k + 1) * self.d])).collect(),
            gates: gates
                .chunks_exact(1 + self.d * self.d)
                .map(|gate| Gate { name: gate[0], matrix: numbers(&gate[1..]) })
                .collect(),
        }
    }
}

fn numbers(words: &[u64]) -> Vec<f64> {
    words.iter().map(|&word| f64::from_bits(word)).collect()
}

fn matrix(size: usize, words: &[u64]) -> Matrix {
    let entries = words[..2 * size * size]
        .chunks_exact(2)
        .map(|parts| Complex { re: f64::from_bits(parts[0]), im: f64::from_bits(parts[1]) })
        .collect();
    Matrix { size, entries }
}

fn diagnostics(words: &[u64]) -> Diagnostics {
    Diagnostics { log_likelihood: f64::from_bits(words[0]), deviance: f64::from_bits(words[1]) }
}

fn axis(word: u64) -> Axis {
    match word {
        1 => Axis::X,
        2 => Axis::Y,
        3 => Axis::Z,
        _ => unknown(),
    }
}

fn stop(word: u64) -> Stop {
    match word {
        1 => Stop::Gradient,
        2 => Stop::Objective,
        3 => Stop::Iterations,
        4 => Stop::Stalled,
        _ => unknown(),
    }
}

/// The library promises none of this.
fn unknown() -> ! {
    panic!("the static library answers otherwise than include/mintshuttle.h says: it is of another version")
}

impl Answer {
    /// The five words of an answer, and the result, in words of this crate. `shape` is that of the card.
    pub(crate) fn of(answer: [u64; 5], result: &[u64], shape: Shape) -> Self {
        let [kind, a, b, c, d] = answer;
        let size = a as usize;
        match kind {
            0 => Answer::Refused(Refusal { number: a, a: b, b: c }),
            1 => Answer::Density(matrix(size, result)),
            2 => Answer::Projected(matrix(size, result)),
            3 => Answer::Process { size, values: numbers(&result[..size * size]) },
            4 => Answer::Physical { trace_preserving: a == 1, unital: b == 1, completely_positive: c == 1 },
            5 => Answer::Fit(Fit {
                stop: stop(a),
                accepted_steps: b,
                evaluations: c,
                converged: d == 1,
                initial: diagnostics(&result[..2]),
                last: diagnostics(&result[2..4]),
                objective: f64::from_bits(result[4]),
                gradient_norm: f64::from_bits(result[5]),
                model: shape.model(&result[6..6 + shape.words()]),
            }),
            6 => Answer::Model(shape.model(&result[..shape.words()])),
            7 => Answer::Diagnostics(diagnostics(result)),
            8 => Answer::Probes { count: size, expectations: numbers(&result[..size * size]) },
            9 => Answer::Setting(result[..size].iter().map(|&word| axis(word)).collect()),
            10 => Answer::Applied(numbers(&result[..size])),
            11 => Answer::Choi(matrix(size, result)),
            12 => Answer::Probabilities(numbers(&result[..size])),
            _ => unknown(),
        }
    }

    /// The refusal, where it is one.
    pub fn refusal(&self) -> Option<Refusal> {
        match self {
            Answer::Refused(refusal) => Some(*refusal),
            _ => None,
        }
    }
}
