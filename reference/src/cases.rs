//! What happened in a card's run or in a call, so that a comparison can show that it met each case.

mod fit;
mod records;

use crate::card::{self, Job, Model, Refusal};
use crate::hooks::{Notes, Pivot, Turn};
use crate::library::{self, Call};
use crate::sheet::{self, Outcome};

/// Cases by name.
pub type Cases = Vec<&'static str>;

fn refused_as(outcome: &Outcome, number: u64) -> bool {
    matches!(outcome, Outcome::Refused(Refusal { n, .. }) if *n == number)
}

fn any_bad(values: &[f64]) -> bool {
    values.iter().any(|x| !x.is_finite())
}

/// How many floats `size` is above `threshold`; both are at least 0.
fn steps_above(size: f64, threshold: f64) -> i64 {
    size.to_bits() as i64 - threshold.to_bits() as i64
}

/// Of the inversion. The last pivot is the one at which it stopped.
fn of_pivots(cases: &mut Cases, outcome: &Outcome, pivots: &[Pivot]) {
    let mut put = |case, met| {
        if met {
            cases.push(case);
        }
    };
    let any = |met: fn(&Pivot) -> bool| pivots.iter().any(met);
    let accepted = matches!(outcome, Outcome::Accepted { .. });
    put("a tie of pivots", any(|p| p.tie));
    put("a tie of pivots after the first column", pivots.iter().skip(1).any(|p| p.tie));
    put("rows exchanged", any(|p| p.moved));
    put("no row exchanged, accepted", accepted && !any(|p| p.moved));
    put("a pivot at the threshold", any(|p| p.size == p.threshold));
    put("a pivot one float above the threshold", any(|p| steps_above(p.size, p.threshold) == 1));
    put("a pivot one float below the threshold", any(|p| steps_above(p.size, p.threshold) == -1));
    put("a pivot up to twice the threshold, accepted", accepted && any(|p| p.size < 2.0 * p.threshold));
    put("a pivot from half the threshold on, refused", any(|p| 0.5 * p.threshold <= p.size && p.size <= p.threshold));
    put("a pivot of zero", any(|p| p.size == 0.0));
    put("a threshold that rounds to zero", any(|p| p.threshold == 0.0));
    put("an infinite pivot", any(|p| p.size == f64::INFINITY));
    put("an infinite pivot, accepted", accepted && any(|p| p.size == f64::INFINITY));
    put("a NaN as pivot", any(|p| p.size.is_nan()));
    put("a NaN as pivot, the others too small", any(|p| p.size.is_nan() && p.next <= p.threshold));
    put("NaNs tie as pivots", any(|p| p.size.is_nan() && p.tie));
    put("infinities tie as pivots", any(|p| p.size == f64::INFINITY && p.tie));
    put("not finite in between, accepted", accepted && any(|p| !p.finite));
    put("not finite in between, refused as singular", !accepted && !refused_as(outcome, 3) && any(|p| !p.finite));
    put("refused 3 after the inversion", refused_as(outcome, 3) && !pivots.is_empty());
    put("refused 3 after a finite inversion", refused_as(outcome, 3) && !pivots.is_empty() && !any(|p| !p.finite));
}

/// Of `eig`. The last turn is the one at which it ended, or after which the rotations were used up.
fn of_turns(cases: &mut Cases, outcome: &Outcome, turns: &[Turn]) {
    let mut put = |case, met| {
        if met {
            cases.push(case);
        }
    };
    let any = |met: fn(&Turn) -> bool| turns.iter().any(met);
    let accepted = matches!(outcome, Outcome::Accepted { .. });
    let last = |steps| turns.last().is_some_and(|t| t.limit > 0.0 && steps_above(t.best, t.limit) == steps);
    put("a tie of the largest entries", any(|t| t.tie && t.best > 0.0));
    put("the largest entry at the limit", accepted && last(0));
    put("the largest entry one float below the limit", accepted && last(-1));
    put("the largest entry one float above the limit", any(|t| t.limit > 0.0 && steps_above(t.best, t.limit) == 1));
    put("a limit of zero", any(|t| t.limit == 0.0));
    put("no rotation", accepted && turns.len() == 1);
    put("200 rotations or more", turns.len() > 200);
    put("not finite while rotating", any(|t| !t.finite));
    put("a NaN magnitude", any(|t| t.nan));
}

/// Of eigenvalues beside minus the tolerance.
fn of_eigenvalues(cases: &mut Cases, eigenvalues: &[f64], tolerance: f64) {
    let mut put = |case, met| {
        if met {
            cases.push(case);
        }
    };
    let beside = |x: f64| eigenvalues.contains(&x);
    put("an eigenvalue at minus the tolerance", beside(-tolerance));
    put("an eigenvalue one float above minus the tolerance", beside((-tolerance).next_up()));
    put("an eigenvalue one float below minus the tolerance", beside((-tolerance).next_down()));
    put("a NaN as eigenvalue", eigenvalues.iter().any(|x| x.is_nan()));
    put("an infinite eigenvalue", eigenvalues.iter().any(|x| x.is_infinite()));
    let equal = |(k, x): (usize, &f64)| eigenvalues[..k].contains(x);
    put("equal eigenvalues", eigenvalues.iter().enumerate().any(equal));
}

/// Of a card of kind 4: its sheet, its rotations, and what the trace and the identity are compared with.
fn of_physical(cases: &mut Cases, bytes: &[u8], outcome: &Outcome, job: &Job, notes: &Notes) {
    let Job::Physical { tolerance, rotations, values, .. } = job else { unreachable!("a card of kind 4") };
    let mut put = |case, met| {
        if met {
            cases.push(case);
        }
    };
    if let Outcome::Accepted { header: [trace, unital, positive, _], .. } = outcome {
        put("physical 1 1 1", [trace, unital, positive] == [&1, &1, &1]);
        put("physical 1 1 0", [trace, unital, positive] == [&1, &1, &0]);
        put("physical 1 0 1", [trace, unital, positive] == [&1, &0, &1]);
        put("physical 0 1 1", [trace, unital, positive] == [&0, &1, &1]);
        put("physical 0 0 0", [trace, unital, positive] == [&0, &0, &0]);
        put("just enough rotations", notes.turns.len() == *rotations);
    }
    if refused_as(outcome, 12) {
        let mut words = card::whole_words(bytes);
        words[2] += 1;
        put("one rotation too few", !refused_as(&sheet::outcome(&card::bytes_of(&words)), 12));
    }
    put("no finite tolerance beside values that are not finite", any_bad(values) && !tolerance.is_finite());
    let p = values.len().isqrt();
    let first = (0..p).flat_map(|k| [(k, values[k]), (k, values[k * p])]);
    let differences: Vec<f64> = first.map(|(k, x)| (x - if k == 0 { 1.0 } else { 0.0 }).abs()).collect();
    put("a difference at the tolerance", differences.contains(tolerance));
    put("a difference one float above the tolerance", differences.contains(&tolerance.next_up()));
}

/// Of the model; its names.
fn of_model(cases: &mut Cases, model: &Model) -> Vec<u64> {
    let mut put = |case, met| {
        if met {
            cases.push(case);
        }
    };
    let names: Vec<u64> = model.gates.iter().map(|&(name, _)| name).collect();
    put("d 0", model.d == 0);
    put("no effects", model.effects.is_empty());
    put("no gates", names.is_empty());
    put("8 gates", names.len() == 8);
    put("d 16", model.d == 16);
    put("a name of zero", names.contains(&0));
    put("a repeated name", (0..names.len()).any(|k| names[..k].contains(&names[k])));
    put("not finite in the state", any_bad(&model.state));
    put("not finite in an effect", model.effects.iter().any(|effect| any_bad(effect)));
    put("not finite in a gate", model.gates.iter().any(|(_, gate)| any_bad(gate)));
    names
}

/// Of the result's numbers; names are none.
fn of_words(cases: &mut Cases, outcome: &Outcome, names: &[u64]) {
    if let Outcome::Accepted { words, .. } = outcome {
        let mut put = |case, met: &dyn Fn(f64) -> bool| {
            if words.iter().any(|word| met(f64::from_bits(*word)) && !names.contains(word)) {
                cases.push(case);
            }
        };
        put("-0 in the result", &|x| x == 0.0 && x.is_sign_negative());
        put("a subnormal in the result", &f64::is_subnormal);
        put("an infinity in the result", &f64::is_infinite);
        put("a NaN in the result", &f64::is_nan);
    }
}

/// Of a card of kinds 3 to 7; others have none.
pub fn of_card(bytes: &[u8], outcome: &Outcome, notes: &Notes) -> Cases {
    let mut cases = Vec::new();
    let pivots = &notes.pivots;
    match card::read(bytes) {
        Ok(Job::Process { inputs, outputs, .. }) => {
            of_pivots(&mut cases, outcome, pivots);
            of_words(&mut cases, outcome, &[]);
            for (vectors, bad) in [(inputs, "not finite in an input"), (outputs, "not finite in an output")] {
                if vectors.iter().any(|vector| any_bad(vector)) {
                    cases.push(bad);
                }
            }
        }
        Ok(job @ Job::Physical { tolerance, .. }) => {
            of_turns(&mut cases, outcome, &notes.turns);
            of_eigenvalues(&mut cases, &notes.eigenvalues, tolerance);
            of_physical(&mut cases, bytes, outcome, &job, notes);
        }
        Ok(Job::Gauge { model, transform }) => {
            of_pivots(&mut cases, outcome, pivots);
            let names = of_model(&mut cases, &model);
            of_words(&mut cases, outcome, &names);
            if any_bad(&transform) {
                cases.push("not finite in the transform");
            }
            if refused_as(outcome, 10) && pivots.is_empty() {
                cases.push("a transform of zeros");
            }
        }
        Ok(job @ Job::Fit { .. }) => fit::of_fit(&mut cases, outcome, &job, notes),
        Ok(job @ Job::Diagnostics { .. }) => records::of_diagnostics(&mut cases, outcome, &job, notes),
        _ => {}
    }
    cases
}

/// Of a library call.
pub fn of_call(call: &Call, outcome: &Outcome) -> Cases {
    let mut cases = Vec::new();
    if !matches!(call, Call::Setting { .. }) {
        of_words(&mut cases, outcome, &[]);
    }
    if let Call::Apply { values, input, .. } = call {
        if refused_as(outcome, 2) && (any_bad(values) || any_bad(input)) {
            cases.push("a wrong length beside numbers that are not finite");
        }
        if refused_as(outcome, 3) {
            cases.push(if any_bad(values) { "not finite in the values" } else { "not finite in the input" });
        }
    }
    if let Call::Choi { values, .. } = call {
        if refused_as(outcome, 2) && any_bad(values) {
            cases.push("a wrong length beside numbers that are not finite");
        }
        if matches!(outcome, Outcome::Accepted { .. }) && values.iter().any(|x| x.abs() == f64::MAX) {
            cases.push("the largest finite numbers, accepted");
        }
    }
    if matches!(call, Call::Probabilities { .. }) {
        of_probabilities(&mut cases, call, outcome);
    }
    cases
}

fn of_probabilities(cases: &mut Cases, call: &Call, outcome: &Outcome) {
    let Call::Probabilities { d, effects, names, numbers, sequence } = call else { unreachable!("a call of probabilities") };
    if let Ok(model) = library::model_of_call(*d, *effects, names, numbers) {
        of_model(cases, &model);
    }
    let mut put = |case, met| {
        if met {
            cases.push(case);
        }
    };
    let accepted = matches!(outcome, Outcome::Accepted { .. });
    let absent = sequence.iter().filter(|&&index| index >= names.len() as u64).count();
    put("an empty sequence", accepted && sequence.is_empty());
    put("a sequence of 64", accepted && sequence.len() == 64);
    put("a sequence above 64", refused_as(outcome, 15) && sequence.len() > 64);
    put("d above 16", refused_as(outcome, 15) && *d > 16);
    put("effects above 16", refused_as(outcome, 15) && *effects > 16);
    put("names above 8", refused_as(outcome, 15) && names.len() > 8);
    put("an absent gate after others", refused_as(outcome, 7) && sequence[0] < names.len() as u64);
    put("two absent gates", refused_as(outcome, 7) && absent > 1);
    put("a fault of the model beside an absent gate", !refused_as(outcome, 7) && absent > 0);
    put("a wrong length beside numbers that are not finite", refused_as(outcome, 2) && any_bad(numbers));
}
