//! Mintshuttle from Rust: the sheet of a card, and the library entries.
//!
//! ```
//! use mintshuttle::{sheet, Answer};
//!
//! // Kind 1, one qubit: a tolerance, then the expectations of I, X, Y and Z.
//! let mut card = vec![0x11, 0, 0, 0, 0, 0, 0, 0];
//! for number in [1e-6_f64, 1.0, 0.0, 0.0, 1.0] {
//!     card.extend(number.to_be_bytes());
//! }
//! match sheet(&card) {
//!     Answer::Density(matrix) => assert_eq!(matrix.get(0, 0).unwrap().re, 1.0),
//!     other => panic!("{other:?}"),
//! }
//! ```
//!
//! The functions of this module ask nothing of their caller and make the slices that the library works in. [`Calls`] keeps
//! them from call to call; [`lent`] has the functions on slices of the caller's. docs/CARD.md has the format of cards.

mod answer;
pub mod lent;

use answer::Shape;
pub use answer::{Answer, Axis, Complex, Diagnostics, Fit, Gate, Matrix, Model, Refusal, Stop};

/// The slices that the library works in, made once for many calls.
#[derive(Clone, Debug)]
pub struct Calls {
    result: Vec<u64>,
    work: Vec<f64>,
}

impl Default for Calls {
    fn default() -> Self {
        Self::new()
    }
}

impl Calls {
    pub fn new() -> Self {
        Calls { result: vec![0; lent::RESULT_WORDS], work: vec![0.0; lent::WORK_NUMBERS] }
    }

    /// A call that writes the result, the work slice and the answer.
    fn answer(&mut self, shape: Shape, call: impl FnOnce(&mut [u64], &mut [f64], &mut [u64]) -> u64) -> Answer {
        let mut answer = [0; lent::ANSWER_WORDS];
        // The number that is returned stands in the answer too.
        call(&mut self.result, &mut self.work, &mut answer);
        Answer::of(answer, &self.result, shape)
    }

    /// See [`sheet`].
    pub fn sheet(&mut self, card: &[u8]) -> Answer {
        self.answer(Shape::of(card), |result, work, answer| lent::sheet(card, result, work, answer))
    }

    /// See [`probes`].
    pub fn probes(&mut self, n: u64) -> Answer {
        self.answer(NO_MODEL, |result, work, answer| lent::probes(n, result, work, answer))
    }

    /// See [`setting`].
    pub fn setting(&mut self, n: u64, index: u64) -> Answer {
        self.answer(NO_MODEL, |result, work, answer| lent::setting(n, index, result, work, answer))
    }

    /// See [`apply`].
    pub fn apply(&mut self, n: u64, values: &[f64], input: &[f64]) -> Answer {
        self.answer(NO_MODEL, |result, work, answer| lent::apply(n, values, input, result, work, answer))
    }

    /// See [`choi`].
    pub fn choi(&mut self, n: u64, values: &[f64]) -> Answer {
        self.answer(NO_MODEL, |result, work, answer| lent::choi(n, values, result, work, answer))
    }

    /// See [`probabilities`].
    pub fn probabilities(&mut self, d: u64, effects: u64, names: &[u64], numbers: &[f64], sequence: &[u64]) -> Answer {
        self.answer(NO_MODEL, |result, work, answer| {
            lent::probabilities(d, effects, names, numbers, sequence, result, work, answer)
        })
    }
}

/// Only the sheets of cards show models.
const NO_MODEL: Shape = Shape { d: 0, effects: 0, gates: 0 };

/// The sheet of a card, any bytes at all: [`Answer::Density`] to [`Answer::Diagnostics`], by the card's kind, or a refusal.
pub fn sheet(card: &[u8]) -> Answer {
    Calls::new().sheet(card)
}

/// The kind of a card, 1 to 7, where the reader accepts its layout; else refusal 15, 1 or 2.
pub fn read(card: &[u8]) -> Result<u64, Refusal> {
    let mut answer = [0; lent::ANSWER_WORDS];
    lent::read(card, &mut answer);
    let [kind, number, a, b, _] = answer;
    if kind == 0 {
        Err(Refusal { number, a, b })
    } else {
        Ok(kind)
    }
}

/// The probe design of n qubits, 1 to 3: 4^n rows of 4^n expectations. Refused: 1.
pub fn probes(n: u64) -> Answer {
    Calls::new().probes(n)
}

/// Measurement setting `index` of the 3^n of n qubits, 1 to 3. Refused: 1; 15 with A the index.
pub fn setting(n: u64, index: u64) -> Answer {
    Calls::new().setting(n, index)
}

/// A transfer matrix of 4^n by 4^n values, by rows, applied to 4^n expectations, n 1 or 2. Refused: 1; 2 or 3 for the values,
/// then for the input.
pub fn apply(n: u64, values: &[f64], input: &[f64]) -> Answer {
    Calls::new().apply(n, values, input)
}

/// The normalized Choi matrix of a transfer matrix of 4^n by 4^n values, by rows, n 1 or 2. Refused: 1, 2, 3, 6.
pub fn choi(n: u64, values: &[f64]) -> Answer {
    Calls::new().choi(n, values)
}

/// The probabilities of a gate sequence: one for each of the effects of a model of dimension d. `names` has a word for each
/// gate; `numbers` has d state numbers, each effect's d, each gate's d·d by rows; `sequence` has indices into `names`, the
/// first one applied first. Refused: 15, 2, 3, 13, 7, in the order that include/mintshuttle.h has.
pub fn probabilities(d: u64, effects: u64, names: &[u64], numbers: &[f64], sequence: &[u64]) -> Answer {
    Calls::new().probabilities(d, effects, names, numbers, sequence)
}

/// The square root of each number, IEEE 754's nearest.
pub fn sqrt_all(x: &[f64]) -> Vec<f64> {
    let mut out = vec![0.0; x.len()];
    lent::sqrt_all(x, &mut out);
    out
}

/// The natural logarithm of each number, as the library works it out.
pub fn ln_all(x: &[f64]) -> Vec<f64> {
    let mut out = vec![0.0; x.len()];
    lent::ln_all(x, &mut out);
    out
}
