//! Kinds 3 and 6 in plain C (`plain.c`) beside the Rust and the port: what the same shape gives without proofs.

use super::{median_report, port_sheet, rust_alone, Run};
use reference::card::{self, Job};
use reference::port::{RESULT_WORDS, WORK_WORDS};
use reference::sheet::{self, Outcome};
use std::hint::black_box;

extern "C" {
    fn plain_process(vectors: *const f64, tolerance: f64, transfer: *mut f64) -> i32;
    fn plain_gauge(model: *const f64, effects: usize, gates: usize, transform: *const f64, out: *mut f64) -> i32;
    fn plain_process_card(card: *const u8, result: *mut u64, work: *mut f64) -> i32;
    fn plain_gauge_card(card: *const u8, effects: usize, gates: usize, result: *mut u64, work: *mut f64) -> i32;
}

/// The numbers that the C function takes, and what it is called with.
enum Plain {
    Process { vectors: Vec<f64>, tolerance: f64 },
    Gauge { model: Vec<f64>, effects: usize, gates: usize, transform: Vec<f64> },
}

impl Plain {
    /// Of the cards with rows of 16, which is all that the C has.
    fn of(job: &Job) -> Option<Self> {
        match job {
            Job::Process { n: 2, tolerance, inputs, outputs } => {
                Some(Plain::Process { vectors: [inputs.concat(), outputs.concat()].concat(), tolerance: *tolerance })
            }
            Job::Gauge { model, transform } if model.d == 16 => {
                let mut numbers = [model.state.clone(), model.effects.concat()].concat();
                model.gates.iter().for_each(|(_, gate)| numbers.extend(gate));
                let (effects, gates) = (model.effects.len(), model.gates.len());
                Some(Plain::Gauge { model: numbers, effects, gates, transform: transform.clone() })
            }
            _ => None,
        }
    }

    fn numbers(&self, out: &mut [f64]) {
        // SAFETY: the lengths are those of an accepted card, and `out` is as long as the work slice.
        let good = unsafe {
            match self {
                Plain::Process { vectors, tolerance } => plain_process(vectors.as_ptr(), *tolerance, out.as_mut_ptr()),
                Plain::Gauge { model, effects, gates, transform } => {
                    plain_gauge(model.as_ptr(), *effects, *gates, transform.as_ptr(), out.as_mut_ptr())
                }
            }
        };
        assert_eq!(good, 1);
    }

    fn words(&self, bytes: &[u8], result: &mut [u64], work: &mut [f64]) {
        // SAFETY: as above; the card is accepted, and the result has document 01's length.
        let good = unsafe {
            match self {
                Plain::Process { .. } => plain_process_card(bytes.as_ptr(), result.as_mut_ptr(), work.as_mut_ptr()),
                Plain::Gauge { effects, gates, .. } => {
                    plain_gauge_card(bytes.as_ptr(), *effects, *gates, result.as_mut_ptr(), work.as_mut_ptr())
                }
            }
        };
        assert_eq!(good, 1);
    }
}

/// The C's words are the Rust's, and it leaves no number in the work slice.
fn check(plain: &Plain, bytes: &[u8]) {
    let (mut result, mut work) = (vec![0; RESULT_WORDS], vec![1.0; WORK_WORDS]);
    plain.words(bytes, &mut result, &mut work);
    let Outcome::Accepted { words, .. } = sheet::outcome(bytes) else { panic!("the card is refused") };
    assert!(result.starts_with(&words), "the C's words are the Rust's");
    assert!(work.iter().all(|x| x.to_bits() == 0), "the C clears the work slice");
}

/// Times the card's job in all three, if it is one that the C has.
pub fn report(title: &str, words: &[u64], rounds: usize) {
    let bytes = card::bytes_of(words);
    let job = card::read(&bytes).expect("the card is accepted");
    let Some(plain) = Plain::of(&job) else { return };
    check(&plain, &bytes);
    let again = Plain::of(&job).expect("as before");
    let (mut out, mut result, mut work) = (vec![0.0; WORK_WORDS], vec![0; RESULT_WORDS], vec![0.0; WORK_WORDS]);
    let whole = bytes.clone();
    let runs: Vec<Run> = vec![
        ("Rust function alone, values parsed", rust_alone(job)),
        ("plain C, values parsed", Box::new(move || {
            black_box(&plain).numbers(&mut out);
            black_box(&mut out);
        })),
        ("plain C, card to result, work cleared", Box::new(move || {
            again.words(black_box(&whole), &mut result, &mut work);
            black_box((&mut result, &mut work));
        })),
        ("port, card to result, work cleared", port_sheet(bytes)),
    ];
    let medians = median_report(&format!("{title}, and plain C"), runs, rounds);
    println!("  Rust alone / plain C, values parsed  {:12.2}", medians[0] / medians[1]);
    println!("  Rust alone / plain C, card to result {:12.2}", medians[0] / medians[2]);
    println!("  Rust alone / port                    {:12.2}", medians[0] / medians[3]);
}
