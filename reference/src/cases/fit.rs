//! Of kind 5: how a fit went and how it ended, or what refused it.

use super::records::{of_likelihood, refusal_of_records};
use super::{any_bad, of_model, of_words, refused_as, steps_above, Cases};
use crate::card::{Controls, Coordinate, Job, Model, Record, Refusal};
use crate::hooks::{Event, Notes};
use crate::sheet::Outcome;

const SIZES: [&str; 16] = [
    "d 1, a fit", "d 2, a fit", "d 3, a fit", "d 4, a fit", "d 5, a fit", "d 6, a fit", "d 7, a fit", "d 8, a fit",
    "d 9, a fit", "d 10, a fit", "d 11, a fit", "d 12, a fit", "d 13, a fit", "d 14, a fit", "d 15, a fit", "d 16, a fit",
];
const REASONS: [&str; 4] =
    ["R 1, the gradient", "R 2, the objective", "R 3, iterations", "R 4, stalled"];
const BACKTRACKS: [&str; 3] = ["1 backtrack", "2 backtracks", "3 backtracks"];
const CONTROLS: [&str; 8] = [
    "13 1 by max_iterations",
    "13 1 by initial_step",
    "13 1 by finite_difference_step",
    "13 1 by gradient_tolerance",
    "13 1 by objective_tolerance",
    "13 1 by probability_tolerance",
    "13 1 by max_backtracks",
    "13 1 by anchor_strength",
];
const REFUSED_13: [&str; 6] = ["13 1", "13 2", "13 3", "13 4", "13 5", "13 6"];
/// Where a fit is refused before its first gradient, in order; the records come last.
const BEFORE: [&str; 8] = [
    "the state (3) before a later fault",
    "no effects (2) before a later fault",
    "an effect or a gate (3) before a later fault",
    "a name (13 6) before a later fault",
    "controls (13 1) before a later fault",
    "no records (13 2) before a later fault",
    "no coordinates (13 3) before a later fault",
    "a coordinate (13 4 or 14) before a later fault",
];
const RECORDS: usize = BEFORE.len();

/// The controls that `validate_optimizer_config` refuses, each by its place.
fn bad_controls(controls: &Controls) -> Vec<usize> {
    let positive = |x: f64| x.is_finite() && x > 0.0;
    let good = [
        controls.max_iterations > 0,
        positive(controls.initial_step),
        positive(controls.finite_difference_step),
        positive(controls.gradient_tolerance),
        positive(controls.objective_tolerance),
        positive(controls.probability_tolerance),
        controls.max_backtracks > 0,
        controls.anchor_strength.is_finite() && controls.anchor_strength >= 0.0,
    ];
    (0..good.len()).filter(|&place| !good[place]).collect()
}

/// The entry that a coordinate names, as its place among the model's numbers.
fn entry(model: &Model, coordinate: &Coordinate) -> Option<usize> {
    let (d, effects, gates) = (model.d, model.effects.len(), model.gates.len());
    match *coordinate {
        Coordinate::State { index } => (index < d).then_some(index),
        Coordinate::Effect { outcome, index } => (outcome < effects && index < d).then(|| d + outcome * d + index),
        Coordinate::Gate { gate, row, column } => {
            let place = row * d + column;
            (gate < gates && place < d * d).then(|| d + effects * d + gate * d * d + place)
        }
    }
}

fn value(model: &Model, coordinate: &Coordinate) -> f64 {
    match *coordinate {
        Coordinate::State { index } => model.state[index],
        Coordinate::Effect { outcome, index } => model.effects[outcome][index],
        Coordinate::Gate { gate, row, column } => model.gates[gate].1[row * model.d + column],
    }
}

/// The stages of BEFORE, and that of the records, which this card fails.
fn stages(controls: &Controls, model: &Model, records: &[Record], coordinates: &[Coordinate]) -> Vec<usize> {
    let names: Vec<u64> = model.gates.iter().map(|&(name, _)| name).collect();
    let bad_name = |k: usize| names[k] == 0 || names[..k].contains(&names[k]);
    let bad_coordinate =
        |k: usize| coordinates[..k].contains(&coordinates[k]) || entry(model, &coordinates[k]).is_none();
    let bad_gate = model.gates.iter().any(|(_, gate)| any_bad(gate));
    let failed = [
        model.d == 0 || any_bad(&model.state),
        model.effects.is_empty(),
        model.effects.iter().any(|effect| any_bad(effect)) || bad_gate,
        (0..names.len()).any(bad_name),
        !bad_controls(controls).is_empty(),
        records.is_empty(),
        coordinates.is_empty(),
        (0..coordinates.len()).any(bad_coordinate),
    ];
    let mut list: Vec<usize> = (0..failed.len()).filter(|&stage| failed[stage]).collect();
    let tolerance = controls.probability_tolerance;
    let tolerance = if tolerance.is_finite() && tolerance > 0.0 { tolerance } else { 1e-9 };
    if !failed[..4].contains(&true) && refusal_of_records(tolerance, model, records).is_some() {
        list.push(RECORDS);
    }
    list
}

/// Of the probes of every gradient. An evaluation fails by the tolerance or by a counted probability of zero.
fn of_probes(cases: &mut Cases, notes: &Notes) {
    let probes = || {
        notes.fit.iter().filter_map(|event| match event {
            Event::Probes { above, below } => Some((*above, *below)),
            _ => None,
        })
    };
    let mut put = |case, met| {
        if met {
            cases.push(case);
        }
    };
    put("both probes", probes().any(|(above, below)| above.is_some() && below.is_some()));
    put("one probe, above", probes().any(|(above, below)| above.is_some() && below.is_none()));
    put("one probe, below", probes().any(|(above, below)| above.is_none() && below.is_some()));
    put("no probe: derivative 0", probes().any(|(above, below)| above.is_none() && below.is_none()));
    let zero = notes.likelihood.zero_counted;
    let one = probes().any(|(above, below)| above.is_some() != below.is_some());
    let none = probes().any(|(above, below)| above.is_none() && below.is_none());
    put("one probe, the other beyond the tolerance", one && !zero);
    put("one probe, counted zeros on the way", one && zero);
    put("no probe, both beyond the tolerance", none && !zero);
    put("probes of equal objectives", probes().any(|(above, below)| above.is_some() && above == below));
}

/// Of the trials, search by search, and of norms and drops beside their tolerances.
fn of_searches(cases: &mut Cases, controls: &Controls, events: &[Event]) {
    let mut found = Vec::new();
    let mut put = |case, met| {
        if met && !found.contains(&case) {
            found.push(case);
        }
    };
    let (mut passed_over, mut not_below, mut accepted) = (0, 0, 0);
    for event in events {
        match *event {
            Event::Norm(norm) => {
                (passed_over, not_below) = (0, 0);
                put("a norm at the tolerance", norm == controls.gradient_tolerance);
                put("a norm one float above the tolerance", steps_above(norm, controls.gradient_tolerance) == 1);
                put("an infinite norm before a search", norm == f64::INFINITY);
            }
            Event::Trial { objective: None, .. } => passed_over += 1,
            Event::Trial { objective: Some(objective), present } if objective < present => {
                let drop = present - objective;
                let before = passed_over + not_below;
                put("accepted at the first trial", before == 0);
                put("accepted at the last trial of several", before > 0 && before + 1 == controls.max_backtracks);
                put("trials passed over before one is accepted", passed_over > 0);
                put("trials not below before one is accepted", not_below > 0);
                put("both sorts of trials before one is accepted", passed_over > 0 && not_below > 0);
                put("a drop at the tolerance", drop == controls.objective_tolerance);
                put("a drop one float above the tolerance", steps_above(drop, controls.objective_tolerance) == 1);
                accepted += 1;
            }
            Event::Trial { objective: Some(objective), present } => {
                not_below += 1;
                put("a trial equal in objective", objective == present);
                put("a trial whose objective is a NaN", objective.is_nan());
                put("a trial whose objective is infinite", objective.is_infinite());
            }
            Event::Gradient | Event::Probes { .. } => {}
        }
    }
    put("12 steps or more", accepted >= 12);
    cases.extend(found);
}

fn of_accepted(cases: &mut Cases, header: &[u64; 4], words: &[u64], job: &Job, notes: &Notes) {
    let Job::Fit { controls, model, records, coordinates } = job else { unreachable!("a card of kind 5") };
    let mut put = |case, met| {
        if met {
            cases.push(case);
        }
    };
    let [reason, steps, ..] = *header;
    let most = controls.max_iterations as u64;
    let trials = notes.fit.iter().filter(|event| matches!(event, Event::Trial { .. })).count();
    put(REASONS[reason as usize - 1], true);
    put(SIZES[model.d - 1], true);
    put("R 1 at the start", reason == 1 && steps == 0);
    put("R 1 after steps, before point I", reason == 1 && steps > 0 && steps < most);
    put("R 1 at point I instead of R 3", reason == 1 && steps == most);
    put("R 2 at the first step", reason == 2 && steps == 1);
    put("R 2 after more steps", reason == 2 && steps > 1);
    put("R 2 at point I", reason == 2 && steps == most);
    put("R 4 at the start, B trials made", reason == 4 && steps == 0 && trials == controls.max_backtracks);
    put("R 4 after steps", reason == 4 && steps > 0);
    let norm = f64::from_bits(words[5]);
    put("point I: the last norm at the tolerance", steps == most && reason == 1 && norm == controls.gradient_tolerance);
    put("point I: the last norm one float above the tolerance", {
        steps == most && reason == 3 && steps_above(norm, controls.gradient_tolerance) == 1
    });
    put("an infinite norm on the sheet", norm == f64::INFINITY);
    put("an infinite deviance on the sheet", [1, 3].iter().any(|&place| words[place] == f64::INFINITY.to_bits()));
    if let Some(name) = BACKTRACKS.get(controls.max_backtracks.wrapping_sub(1)) {
        put(name, true);
    }
    put("255 backtracks", controls.max_backtracks == 255);
    let anchor = controls.anchor_strength;
    put("anchor 0", anchor == 0.0 && anchor.is_sign_positive());
    put("anchor -0", anchor == 0.0 && anchor.is_sign_negative());
    put("anchor positive", anchor > 0.0);
    let entries: Vec<_> = coordinates.iter().map(|coordinate| entry(model, coordinate)).collect();
    let twice = (0..entries.len()).any(|k| entries[..k].contains(&entries[k]));
    put("two coordinates for one entry", twice);
    put("two coordinates for one entry, steps made", twice && steps > 0);
    put("coordinates of the state", coordinates.iter().any(|c| matches!(c, Coordinate::State { .. })));
    put("coordinates of an effect", coordinates.iter().any(|c| matches!(c, Coordinate::Effect { .. })));
    put("coordinates of a gate", coordinates.iter().any(|c| matches!(c, Coordinate::Gate { .. })));
    put("64 coordinates", coordinates.len() == 64);
    put("100 records or more", records.len() >= 100);
    put("16 effects", model.effects.len() == 16);
}

fn of_refused(cases: &mut Cases, refusal: &Refusal, job: &Job, notes: &Notes) {
    let Job::Fit { controls, model, records, coordinates } = job else { unreachable!("a card of kind 5") };
    let mut put = |case, met| {
        if met {
            cases.push(case);
        }
    };
    if refusal.n == 13 {
        put(REFUSED_13[refusal.a as usize - 1], true);
        if refusal.a == 1 {
            if let [place] = bad_controls(controls)[..] {
                put(CONTROLS[place], true);
            }
        }
    }
    let list = stages(controls, model, records, coordinates);
    if let [first, _, ..] = list[..] {
        put(BEFORE[first], true);
    }
    let repeated = |k: usize| coordinates[..k].contains(&coordinates[k]);
    put("14 before a repeat", refusal.n == 14 && (0..coordinates.len()).any(repeated));
    put("13 4 before an absent entry", {
        refusal.n == 13 && refusal.a == 4 && coordinates.iter().any(|coordinate| entry(model, coordinate).is_none())
    });
    let at_records = list.is_empty() || list == [RECORDS];
    put("7 at the first evaluation", refusal.n == 7 && at_records);
    put("8 at the first evaluation", refusal.n == 8 && at_records);
    put("9 at the first evaluation", refusal.n == 9 && at_records);
    if list.first() == Some(&RECORDS) {
        let faulty = |record| refusal_of_records(controls.probability_tolerance, model, std::slice::from_ref(record));
        put("two faults in two records", records.iter().filter_map(faulty).count() > 1);
    }
    let gradients = notes.fit.iter().filter(|event| matches!(event, Event::Gradient)).count();
    let done = notes.fit.iter().rev().take_while(|event| matches!(event, Event::Probes { .. })).count();
    match notes.fit.last() {
        Some(Event::Gradient | Event::Probes { .. }) if refusal.n == 3 => {
            put("3 by a probe", true);
            put("3 by a probe, after others", done > 0);
            if gradients == 1 {
                let x = value(model, &coordinates[done]);
                put("3 by the probe above", x > 0.0);
                put("3 by the probe below", x < 0.0);
            } else {
                put("3 by a probe after steps", true);
            }
        }
        Some(Event::Norm(_) | Event::Trial { .. }) if refusal.n == 3 => {
            put("3 by a trial", true);
            put("3 by a trial after steps", gradients > 1);
        }
        Some(Event::Probes { above, below }) => {
            let not_finite = |x: &Option<f64>| x.is_some_and(|x| !x.is_finite());
            put("13 5 by an objective that is not finite", not_finite(above) || not_finite(below));
            put("13 5 by a quotient", !not_finite(above) && !not_finite(below));
            put("13 5 with one probe", above.is_some() != below.is_some());
            put("13 5 after steps", gradients > 1);
            put("13 5 after other coordinates", done > 1);
        }
        _ => {}
    }
}

pub fn of_fit(cases: &mut Cases, outcome: &Outcome, job: &Job, notes: &Notes) {
    let Job::Fit { controls, model, .. } = job else { unreachable!("a card of kind 5") };
    let names = of_model(cases, model);
    of_likelihood(cases, &notes.likelihood);
    of_probes(cases, notes);
    of_searches(cases, controls, &notes.fit);
    match outcome {
        Outcome::Accepted { header, words, .. } => {
            of_words(cases, outcome, &names);
            of_accepted(cases, header, words, job, notes);
        }
        Outcome::Refused(refusal) => of_refused(cases, refusal, job, notes),
    }
    debug_assert!(!refused_as(outcome, 5), "a bad probability tolerance is 13 1");
}
