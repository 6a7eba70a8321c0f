//! Of kind 7: its records, and what the likelihood met.

use super::{any_bad, of_model, refused_as, Cases};
use crate::card::{Job, Model, Record, Refusal};
use crate::hooks::{Likelihood, Notes};
use crate::sheet::{self, Outcome};

/// 2^53: not every count above it is a float.
const EXACT: u64 = 1 << 53;

fn sum(record: &Record) -> u128 {
    record.counts.iter().map(|&count| u128::from(count)).sum()
}

fn rounded(count: u64) -> bool {
    count as f64 as u128 != u128::from(count)
}

/// What the first evaluation refuses in these records.
pub fn refusal_of_records(tolerance: f64, model: &Model, records: &[Record]) -> Option<Refusal> {
    let (model, records) = (model.clone(), records.to_vec());
    sheet::run(&Job::Diagnostics { tolerance, model, records }).err()
}

/// Of probabilities beside their limits; of fits too.
pub fn of_likelihood(cases: &mut Cases, found: &Likelihood) {
    let low = [
        "a probability one float above minus the tolerance",
        "a probability at minus the tolerance",
        "a probability one float below minus the tolerance",
    ];
    let high = [
        "a probability one float below 1 plus the tolerance",
        "a probability at 1 plus the tolerance",
        "a probability one float above 1 plus the tolerance",
    ];
    let sum = [
        "a sum one float nearer to 1 than the tolerance",
        "a sum as far from 1 as the tolerance",
        "a sum one float farther from 1 than the tolerance",
    ];
    for (names, met) in [(low, found.low), (high, found.high), (sum, found.sum)] {
        cases.extend(names.into_iter().zip(met).filter(|(_, met)| *met).map(|(name, _)| name));
    }
    let rest = [
        ("a probability that is not finite", found.not_finite),
        ("a total of zero", found.zero_total),
        ("a clamped probability of 0 with a positive count", found.zero_counted),
    ];
    cases.extend(rest.into_iter().filter(|(_, met)| *met).map(|(name, _)| name));
}

pub fn of_diagnostics(cases: &mut Cases, outcome: &Outcome, job: &Job, notes: &Notes) {
    let Job::Diagnostics { tolerance, model, records } = job else { unreachable!("a card of kind 7") };
    of_model(cases, model);
    of_likelihood(cases, &notes.likelihood);
    let mut put = |case, met| {
        if met {
            cases.push(case);
        }
    };
    let counts = || records.iter().flat_map(|record| &record.counts);
    let bad_tolerance = any_bad(&[*tolerance]) || *tolerance <= 0.0;
    if let Outcome::Accepted { words, .. } = outcome {
        put("no records", records.is_empty());
        put("200 records", records.len() == 200);
        put("a sequence of 64", records.iter().any(|record| record.sequence.len() == 64));
        put("infinite deviance", words[1] == f64::INFINITY.to_bits());
        put("a count above 2^53", counts().any(|&count| count > EXACT));
        put("a count above 2^53 that is no float", counts().any(|&count| rounded(count)));
        put("counts add up to 2^64 - 1", records.iter().any(|record| sum(record) == u128::from(u64::MAX)));
        put("a total that is no float", records.iter().any(|record| rounded(sum(record) as u64)));
        put("a probability clamped", notes.likelihood.outside);
    }
    put("no records beside a bad tolerance", refused_as(outcome, 5) && records.is_empty());
    put("a bad tolerance beside a fault of a record", {
        refused_as(outcome, 5) && bad_tolerance && refusal_of_records(1.0, model, records).is_some()
    });
    if refused_as(outcome, 9) {
        // Every record before it has a smaller sum.
        let first = records.iter().map(sum).find(|&sum| sum > u128::from(u64::MAX));
        put("counts add up to 2^64", first == Some(1 << 64));
        put("counts add up to more than 2^64", first > Some(1 << 64));
    }
    if refused_as(outcome, 7) {
        let absent = |record: &&Record| record.sequence.iter().any(|&gate| gate >= model.gates.len());
        let first = records.iter().find(absent).expect("refusal 7 has an absent gate");
        let place = first.sequence.iter().position(|&gate| gate >= model.gates.len()).expect("it is there");
        put("an absent gate at the start", place == 0);
        put("an absent gate after others", place > 0);
        put("two absent gates in a record", first.sequence[place + 1..].iter().any(|&gate| gate >= model.gates.len()));
    }
    if [7, 8, 9].iter().any(|&n| refused_as(outcome, n)) {
        let alone: Vec<u64> = records
            .iter()
            .filter_map(|record| refusal_of_records(*tolerance, model, std::slice::from_ref(record)))
            .map(|refusal| refusal.n)
            .collect();
        put("two faults in two records", alone.len() > 1);
        put("two faults in two records, of two numbers", alone.iter().any(|&n| n != alone[0]));
    }
}
