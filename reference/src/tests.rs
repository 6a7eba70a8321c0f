//! Document 01's examples, the order of refusals and the reader's traps, on the reference itself.

use crate::card::{bytes_of, layout, read, Head, Refusal, Role};
use crate::cases;
use crate::hooks::with_notes;
use crate::makers::fixed::{self, *};
use crate::makers::numbers::power;
use crate::library::Call;
use crate::makers::{self, calls, readings};
use crate::random::Rng;
use crate::sheet::{built_outcome, outcome, print, print_reading, reading, Outcome};
use crate::tomography::{product_probe_expectations, LocalPauliPlan};
use std::collections::BTreeMap;

fn sheet(words: &[u64]) -> Outcome {
    outcome(&bytes_of(words))
}

#[track_caller]
fn refused(words: &[u64], n: u64, a: u64, b: u64) {
    assert_eq!(sheet(words), Outcome::Refused(Refusal::new(n, a, b)));
}

#[track_caller]
fn accepted(words: &[u64]) -> ([u64; 4], Vec<u64>) {
    match sheet(words) {
        Outcome::Accepted { header, words, .. } => (header, words),
        Outcome::Refused(refusal) => panic!("{refusal:?}"),
    }
}

#[test]
fn examples_of_document_01() {
    for (words, printed) in stars() {
        let found = print(&sheet(&words));
        if printed.lines().count() > 1 || printed.starts_with("refused") || printed.starts_with("physical") {
            assert_eq!(found, printed);
        } else {
            assert_eq!(found.lines().next(), printed.lines().next());
        }
    }
}

#[test]
fn examples_by_their_numbers() {
    // The rounded trace is 0.
    let (_, words) = accepted(&density(1, 0.5, &[1.0, 0.0, 0.0, power(60)]));
    assert_eq!(f64::from_bits(words[0]) + f64::from_bits(words[6]), 0.0);
    // Infinite deviance beside a finite likelihood.
    let (_, words) = accepted(&diagnostics(1e-9, &two_outcomes(power(-1074), 1.0), &[record(&[], &[1, 1])]));
    assert_eq!(words[1], f64::INFINITY.to_bits());
    assert!((f64::from_bits(words[0]) + 744.4400719213812).abs() < 1e-12);
    // The half-and-half fit keeps its model.
    let card = fit(default_controls(), &two_outcomes(0.5, 0.5), &[record(&[], &[1, 1])], &[2 << 60]);
    let (header, words) = accepted(&card);
    assert_eq!(header, [1, 0, 5, 1]);
    assert_eq!(words[..2], words[2..4]);
    assert_eq!(words[5], 0);
    assert_eq!(words[6..], [1f64.to_bits(), 0.5f64.to_bits(), 0.5f64.to_bits()]);
}

#[test]
fn reader_traps() {
    for (bytes, wanted) in traps() {
        let shown: Vec<u8> = bytes.iter().take(40).copied().collect();
        assert_eq!(reading(&bytes), wanted, "{} bytes, {shown:02x?}", bytes.len());
    }
}

#[test]
fn layouts_have_their_lengths() {
    let length = |head: Head| layout(&head).len();
    for (n, words) in [(1, 6), (2, 18), (3, 66)] {
        assert_eq!(length(Head { kind: 1, n, ..Head::default() }), words);
    }
    for (n, words) in [(1, 34), (2, 514)] {
        assert_eq!(length(Head { kind: 3, n, ..Head::default() }), words);
    }
    for (n, words) in [(1, 19), (2, 259)] {
        assert_eq!(length(Head { kind: 4, n, ..Head::default() }), words);
    }
    assert_eq!(length(Head { kind: 2, d: 16, ..Head::default() }), 515);
    let largest = Head { kind: 5, d: 16, effects: 16, gates: 8, records: 200, coordinates: 64, ..Head::default() };
    assert_eq!(length(largest), 6601);
    assert_eq!(length(Head { kind: 7, records: 200, coordinates: 0, ..largest }), 2 + 2328 + 200 * 21);
    assert_eq!(length(Head { kind: 6, records: 0, coordinates: 0, ..largest }), 1 + 2328 + 256);
    assert_eq!(Head::of(largest.word()), largest);
}

#[test]
fn faults_are_the_lowest_by_brute_force() {
    // A card with one bit flipped in a word that has no rule reads as before; with a cut the lower of both places wins.
    let mut rng = Rng::new(5);
    for _ in 0..3000 {
        let kind = rng.between(1, 7) as u8;
        let words = readings::accepted(kind, &mut rng);
        assert_eq!(reading(&bytes_of(&words)), Ok(kind));
        let place = rng.index(words.len());
        let role = layout(&Head::of(words[0]))[place];
        let mut changed = words.clone();
        changed[place] ^= 1 << rng.below(64);
        let found = reading(&bytes_of(&changed));
        if matches!(role, Role::Number | Role::Name | Role::Count) {
            assert_eq!(found, Ok(kind));
        }
        let size = rng.index(8 * words.len());
        let cut = reading(&bytes_of(&changed)[..size]);
        match found {
            Err(Refusal { n: 15, a, .. }) if a < size as u64 / 8 => {
                // A record's length that grew or shrank is seen in the words after it, if they are there.
                assert!(matches!(cut, Err(Refusal { n: 15, a: b, .. }) if b == a), "{found:?} {cut:?}");
            }
            _ if !size.is_multiple_of(8) || size == 0 => assert_eq!(cut, Err(Refusal::new(15, size as u64 / 8, 0))),
            _ => assert_ne!(cut, Ok(kind)),
        }
    }
}

#[test]
fn words_come_from_the_highest_byte() {
    let card = density(1, 0.5, &[1.0, 0.0, 0.0, 1.0]);
    assert_eq!(bytes_of(&card)[..2], [0x11, 0]);
    assert!(read(&bytes_of(&card)).is_ok());
}

#[test]
fn order_in_kind_1() {
    let nan = f64::NAN;
    refused(&density(1, 0.0, &[nan, 0.0, 0.0, 0.0]), 5, 0, 0);
    refused(&density(1, nan, &[2.0, 0.0, 0.0, nan]), 5, 0, 0);
    refused(&density(1, -0.0, &[1.0, 0.0, 0.0, 0.0]), 5, 0, 0);
    refused(&density(1, f64::INFINITY, &[1.0, 0.0, 0.0, 0.0]), 5, 0, 0);
    refused(&density(1, 0.5, &[2.0, 0.0, 0.0, nan]), 3, 0, 0);
    refused(&density(1, 0.5, &[nan, 0.0, 0.0, 0.0]), 3, 0, 0);
    refused(&density(1, 0.5, &[f64::NEG_INFINITY, 0.0, 0.0, 0.0]), 3, 0, 0);
    refused(&density(1, 0.5, &[-3.0, 0.0, 0.0, 0.0]), 4, (-3.0f64).to_bits(), 0);
    accepted(&density(1, 5e-324, &[1.0, 0.0, 0.0, 0.0]));
}

#[test]
fn largest_expectations_stay_finite() {
    for n in 1..=3 {
        for sign in [1.0, -1.0] {
            let mut values = vec![sign * f64::MAX; 1 << (2 * n)];
            values[0] = 1.0;
            accepted(&density(n, 0.5, &values));
        }
    }
}

#[test]
fn order_in_kind_2() {
    let nan = f64::NAN;
    refused(&projection(1, nan, 0, &[nan]), 3, 0, 0);
    refused(&projection(1, 0.0, 0, &[1.0]), 5, 0, 0);
    refused(&projection(1, 1e-9, 0, &[power(60)]), 12, 0, 0);
    refused(&projection(1, 1e-9, 1, &[power(60)]), 6, 0, 0);
    refused(&projection(1, 1e-9, 1, &[1e308]), 6, 0, 0);
    let (header, words) = accepted(&projection(1, 1e-9, 1, &[-1e308]));
    assert_eq!((header[0], words), (1, vec![0, 0]));
    // Rotations used up are counted before they are tested again.
    for rotations in 0..6 {
        let card = projection(2, power(-20), rotations, &[0.0, 1.0, 1.0, 0.0]);
        assert_eq!(sheet(&card) == Outcome::Refused(Refusal::new(12, 0, 0)), rotations < 2);
    }
}

#[test]
fn order_in_kind_3() {
    let probes = product_probe_expectations(1).unwrap().concat();
    let with = |changes: &[(usize, f64)]| {
        let mut values = probes.clone();
        for &(place, x) in changes {
            values[place] = x;
        }
        values
    };
    let identity = accepted(&process(1, 1e-9, &probes, &probes)).1;
    assert_eq!(identity, diagonal(&[1.0; 4]).iter().map(|x| x.to_bits()).collect::<Vec<_>>());
    refused(&process(1, 0.0, &with(&[(0, f64::NAN)]), &probes), 5, 0, 0);
    // The first vector's identity comes before the second vector's NaN.
    refused(&process(1, 0.5, &with(&[(0, 3.0), (5, f64::NAN)]), &probes), 4, 3f64.to_bits(), 0);
    refused(&process(1, 0.5, &with(&[(1, f64::NAN), (4, 3.0)]), &probes), 3, 0, 0);
    refused(&process(1, 0.5, &with(&[(0, 3.0), (3, f64::NAN)]), &probes), 3, 0, 0);
    refused(&process(1, 0.5, &with(&[(8, 3.0)]), &with(&[(0, f64::NAN)])), 4, 3f64.to_bits(), 0);
    refused(&process(1, 1e-9, &[1.0; 16], &with(&[(15, f64::INFINITY)])), 3, 0, 0);
    refused(&process(1, 1e-9, &[1.0; 16], &probes), 11, 0, 0);
    // Finite vectors whose product leaves the range.
    let huge = with(&[(1, -f64::MAX), (5, -f64::MAX), (9, f64::MAX)]);
    refused(&process(1, 1e-9, &probes, &huge), 3, 0, 0);
}

#[test]
fn order_in_kind_4() {
    let (nan, one) = (f64::NAN, diagonal(&[1.0; 4]));
    refused(&physical(1, nan, 0, &[nan; 16]), 3, 0, 0);
    refused(&physical(1, nan, 0, &one), 5, 0, 0);
    refused(&physical(1, 0.25, 0, &one), 12, 0, 0);
    assert_eq!(accepted(&physical(1, 0.25, 1024, &one)).0, [1, 1, 1, 0]);
    let mut edge = one.clone();
    edge[1] = 0.25;
    edge[4] = -0.25;
    assert_eq!(accepted(&physical(1, 0.25, 1024, &edge)).0[..2], [1, 1]);
    edge[1] = 0.25f64.next_up();
    assert_eq!(accepted(&physical(1, 0.25, 1024, &edge)).0[..2], [0, 1]);
    edge[4] = -edge[1];
    assert_eq!(accepted(&physical(1, 0.25, 1024, &edge)).0[..2], [0, 0]);
}

#[test]
fn order_in_models() {
    let one = diagonal(&[1.0, 1.0]);
    let mut model = small_model();
    let (_, words) = accepted(&gauge(&model, &one));
    assert_eq!(words.len(), 2 + 6 + 2 * 5);
    assert_eq!(words[8], 7);
    assert_eq!(words[13], 0x6964);
    refused(&gauge(&model, &[f64::NAN, 0.0, 0.0, 0.0]), 3, 0, 0);
    refused(&gauge(&model, &[0.0; 4]), 10, 0, 0);
    model.gates[1].0 = 7;
    refused(&gauge(&model, &[f64::NAN; 4]), 13, 6, 0);
    refused(&diagnostics(0.0, &model, &[]), 13, 6, 0);
    refused(&fit([0; 8], &model, &[], &[]), 13, 6, 0);
    model.gates[1].0 = 0;
    refused(&gauge(&model, &one), 13, 6, 0);
    model.gates[1].1[3] = f64::INFINITY;
    refused(&gauge(&model, &one), 3, 0, 0);
    model.effects.clear();
    refused(&gauge(&model, &one), 2, 2, 0);
    model.state[0] = f64::NAN;
    refused(&gauge(&model, &one), 3, 0, 0);
    // No dimension: after the card's length.
    refused(&[6 << 60], 3, 0, 0);
    refused(&[6 << 60, 0], 2, 1, 2);
}

#[test]
fn order_in_records() {
    let model = small_model();
    let of = |records: &[Vec<u64>]| diagnostics(1e-9, &model, records);
    let (_, words) = accepted(&of(&[]));
    assert_eq!(words, [0, 0]);
    refused(&diagnostics(f64::NAN, &model, &[record(&[9], &[0, 0, 0])]), 5, 0, 0);
    refused(&of(&[record(&[0, 12, 9], &[u64::MAX, 1, 0])]), 7, 12, 0);
    refused(&of(&[record(&[15], &[0, 0, 0])]), 7, 15, 0);
    refused(&of(&[record(&[0], &[u64::MAX, 1, 0])]), 9, 0, 0);
    refused(&of(&[record(&[0], &[0, 0, 0])]), 8, 0, 0);
    // The first record is finished before the second is looked at.
    refused(&of(&[record(&[0], &[0, 0, 0]), record(&[9], &[1, 0, 0])]), 8, 0, 0);
    refused(&of(&[record(&[0], &[1, 0, 0]), record(&[9], &[0, 0, 0])]), 7, 9, 0);
    let lost = two_outcomes(0.5, 0.25);
    refused(&diagnostics(1e-9, &lost, &[record(&[], &[u64::MAX, u64::MAX])]), 8, 0, 0);
    refused(&diagnostics(1e-9, &lost, &[record(&[1], &[u64::MAX, u64::MAX])]), 7, 1, 0);
    // A clamped zero, of either sign, meets a positive count only.
    for zero in [0.0, -0.0, -1e-10] {
        refused(&diagnostics(1e-9, &two_outcomes(zero, 1.0), &[record(&[], &[1, 1])]), 8, 0, 0);
        accepted(&diagnostics(1e-9, &two_outcomes(zero, 1.0), &[record(&[], &[0, 1])]));
    }
    // Counts are added before they become floats.
    refused(&diagnostics(1e-9, &two_outcomes(0.5, 0.5), &[record(&[], &[1 << 63, 1 << 63])]), 9, 0, 0);
    accepted(&diagnostics(1e-9, &two_outcomes(0.5, 0.5), &[record(&[], &[1 << 63, (1 << 63) - 1])]));
}

#[test]
fn order_in_fits() {
    let model = small_model();
    let usual = default_controls();
    let good = record(&[0], &[1, 1, 1]);
    let bad = record(&[9], &[0, 0, 0]);
    let state = 1 << 60;
    let of = |controls, records: &[Vec<u64>], coordinates: &[u64]| fit(controls, &model, records, coordinates);
    for place in 0..8 {
        let mut controls = usual;
        controls[place] = 0;
        if place == 7 {
            controls[place] = (-1.0f64).to_bits();
        }
        refused(&of(controls, &[], &[]), 13, 1, 0);
    }
    let mut controls = usual;
    controls[7] = (-0.0f64).to_bits();
    refused(&of(controls, &[], &[]), 13, 2, 0);
    refused(&of(usual, &[], &[state, state]), 13, 2, 0);
    refused(&of(usual, std::slice::from_ref(&bad), &[]), 13, 3, 0);
    refused(&of(usual, std::slice::from_ref(&bad), &[state, state | 2, state]), 14, 1, 0);
    refused(&of(usual, std::slice::from_ref(&bad), &[state, state, state | 2]), 13, 4, 0);
    refused(&of(usual, std::slice::from_ref(&bad), &[state | 2, state | 2]), 14, 0, 0);
    refused(&of(usual, std::slice::from_ref(&bad), &[state]), 7, 9, 0);
    // Gates, outcomes, rows and columns that are too large are 14; a column past its row may still name an entry.
    for word in [3 << 60 | 2 << 48, 3 << 60 | 4095 << 48, 3 << 60 | 4, 3 << 60 | 2 << 24, 2 << 60 | 3 << 48, 2 << 60 | 2] {
        refused(&of(usual, std::slice::from_ref(&good), &[word]), 14, 0, 0);
    }
    accepted(&of(usual, std::slice::from_ref(&good), &[3 << 60 | 3]));
    accepted(&of(usual, std::slice::from_ref(&good), &[3 << 60 | 3, 3 << 60 | 1 << 24 | 1]));
}

#[test]
fn evaluations_stay_below_their_bound() {
    let mut rng = Rng::new(17);
    let mut fits = 0;
    while fits < 400 {
        let bytes = makers::card(5, &mut rng);
        if let Outcome::Accepted { kind: 5, header: [_, steps, evaluations, _], .. } = outcome(&bytes) {
            let words = crate::card::whole_words(&bytes);
            let (p, i, b) = (Head::of(words[0]).coordinates as u64, words[1], words[7]);
            assert!(evaluations <= 1 + 2 * p * (i + 1) + i * b);
            assert!(evaluations > 2 * p && steps <= i);
            fits += 1;
        }
    }
}

#[test]
fn no_sheet_shows_a_nan() {
    let mut rng = Rng::new(23);
    for kind in 1..=7 {
        for _ in 0..1000 {
            if let Outcome::Accepted { words, kind, .. } = outcome(&makers::card(kind, &mut rng)) {
                let named = kind == 5 || kind == 6;
                assert!(named || words.iter().all(|&word| !f64::from_bits(word).is_nan()));
            }
        }
    }
}

#[test]
fn kinds_that_the_port_lacks_are_unknown() {
    let lacking = Outcome::Refused(Refusal::new(15, 0, 0));
    for kind in 1..=7 {
        let card = bytes_of(&fixed::base(kind));
        let wanted = if crate::BUILT.contains(&kind) { outcome(&card) } else { lacking.clone() };
        assert_eq!(built_outcome(&card), wanted);
        assert!(matches!(outcome(&card), Outcome::Accepted { .. }));
    }
    assert_eq!(built_outcome(&[]), lacking);
    assert_eq!(built_outcome(&[0x11; 5]), lacking);
}

#[test]
fn printing() {
    let lines = |kind| print(&sheet(&fixed::base(kind)));
    assert_eq!(lines(1).lines().count(), 5);
    assert_eq!(lines(2).lines().count(), 5);
    assert!(lines(3).starts_with("process 4\n") && lines(3).lines().count() == 17);
    assert!(lines(4).starts_with("physical ") && lines(4).lines().count() == 1);
    assert!(lines(5).starts_with("fit ") && lines(5).lines().count() == 1 + 6 + 18);
    assert!(lines(6).starts_with("model 18\n") && lines(6).lines().count() == 19);
    assert!(lines(7).starts_with("diagnostics\n") && lines(7).lines().count() == 3);
    assert!((1..=7).all(|kind| lines(kind).ends_with('\n')));
    assert_eq!(print(&sheet(&[0])), "refused 15 0000000000000000 0000000000000000\n");
    let long = [bytes_of(&[0x1100000000000000]), vec![0; 65_528]].concat();
    assert_eq!(print(&outcome(&long)), "refused 2 0000000000000006 0000000000002000\n");
    assert_eq!(print_reading(&Ok(3)), "read 3\n");
}

#[test]
fn library_functions_of_the_rust() {
    // The probe design holds negative zeros, since a product starts at 1.
    let probes = product_probe_expectations(2).unwrap().concat();
    assert!(probes.iter().any(|x| x.to_bits() == 1 << 63));
    assert_eq!(product_probe_expectations(3).unwrap().concat().len(), 4096);
    assert_eq!(LocalPauliPlan::complete(3).unwrap().settings().len(), 27);
}

fn end_of(outcome: &Outcome) -> String {
    match outcome {
        Outcome::Accepted { .. } => "accepted".to_string(),
        Outcome::Refused(refusal) => format!("refused {}", refusal.n),
    }
}

/// How often these cards met each case and each outcome.
fn cases_met(cards: impl Iterator<Item = Vec<u8>>) -> BTreeMap<String, usize> {
    let mut met = BTreeMap::new();
    for bytes in cards {
        let (outcome, notes) = with_notes(|| outcome(&bytes));
        let cases = cases::of_card(&bytes, &outcome, &notes);
        for case in cases.into_iter().map(str::to_string).chain([end_of(&outcome)]) {
            *met.entry(case).or_default() += 1;
        }
    }
    met
}

#[track_caller]
fn at_least(met: &BTreeMap<String, usize>, least: usize, cases: &[&str]) {
    let times = |case: &str| met.get(case).copied().unwrap_or(0);
    let seldom: Vec<_> = cases.iter().filter(|case| times(case) < least).map(|&case| (case, times(case))).collect();
    assert!(seldom.is_empty(), "{seldom:#?}");
}

/// What an inversion can meet, in kind 3 and in kind 6.
const INVERSIONS: &[&str] = &[
    "a tie of pivots",
    "a tie of pivots after the first column",
    "rows exchanged",
    "no row exchanged, accepted",
    "a pivot at the threshold",
    "a pivot one float above the threshold",
    "a pivot one float below the threshold",
    "a pivot up to twice the threshold, accepted",
    "a pivot from half the threshold on, refused",
    "a pivot of zero",
    "an infinite pivot",
    "an infinite pivot, accepted",
    "a NaN as pivot",
    "a NaN as pivot, the others too small",
    "NaNs tie as pivots",
    "infinities tie as pivots",
    "not finite in between, accepted",
    "not finite in between, refused as singular",
    "refused 3 after the inversion",
    "refused 3 after a finite inversion",
    "-0 in the result",
    "a subnormal in the result",
    "accepted",
    "refused 2",
    "refused 15",
];
const PROCESSES: &[&str] =
    &["not finite in an input", "not finite in an output", "refused 1", "refused 3", "refused 4", "refused 5", "refused 11"];
const GAUGES: &[&str] = &[
    "d 0",
    "d 16",
    "no effects",
    "no gates",
    "8 gates",
    "a name of zero",
    "a repeated name",
    "not finite in the state",
    "not finite in an effect",
    "not finite in a gate",
    "not finite in the transform",
    "a transform of zeros",
    "a threshold that rounds to zero",
    "refused 3",
    "refused 10",
    "refused 13",
];

const TESTS: &[&str] = &[
    "a tie of the largest entries",
    "the largest entry at the limit",
    "the largest entry one float below the limit",
    "the largest entry one float above the limit",
    "a limit of zero",
    "no rotation",
    "200 rotations or more",
    "not finite while rotating",
    "a NaN magnitude",
    "an eigenvalue at minus the tolerance",
    "an eigenvalue one float above minus the tolerance",
    "an eigenvalue one float below minus the tolerance",
    "a NaN as eigenvalue",
    "equal eigenvalues",
    "physical 1 1 1",
    "physical 1 1 0",
    "physical 1 0 1",
    "physical 0 1 1",
    "physical 0 0 0",
    "just enough rotations",
    "one rotation too few",
    "a difference at the tolerance",
    "a difference one float above the tolerance",
    "accepted",
    "refused 1",
    "refused 2",
    "refused 3",
    "refused 5",
    "refused 12",
    "refused 15",
];

const FITS: &[&str] = &[
    "R 1, the gradient",
    "R 2, the objective",
    "R 3, iterations",
    "R 4, stalled",
    "R 1 at the start",
    "R 1 after steps, before point I",
    "R 1 at point I instead of R 3",
    "R 2 at the first step",
    "R 2 after more steps",
    "R 2 at point I",
    "R 4 at the start, B trials made",
    "R 4 after steps",
    "both probes",
    "one probe, above",
    "one probe, below",
    "no probe: derivative 0",
    "one probe, the other beyond the tolerance",
    "one probe, counted zeros on the way",
    "no probe, both beyond the tolerance",
    "probes of equal objectives",
    "accepted at the first trial",
    "accepted at the last trial of several",
    "trials passed over before one is accepted",
    "trials not below before one is accepted",
    "both sorts of trials before one is accepted",
    "a trial equal in objective",
    "a trial whose objective is a NaN",
    "a norm at the tolerance",
    "a norm one float above the tolerance",
    "point I: the last norm at the tolerance",
    "point I: the last norm one float above the tolerance",
    "a drop at the tolerance",
    "a drop one float above the tolerance",
    "an infinite norm before a search",
    "an infinite norm on the sheet",
    "an infinite deviance on the sheet",
    "two coordinates for one entry",
    "two coordinates for one entry, steps made",
    "1 backtrack",
    "2 backtracks",
    "3 backtracks",
    "255 backtracks",
    "anchor 0",
    "anchor -0",
    "anchor positive",
    "coordinates of the state",
    "coordinates of an effect",
    "coordinates of a gate",
    "d 1, a fit",
    "d 2, a fit",
    "d 3, a fit",
    "d 4, a fit",
    "d 5, a fit",
    "d 6, a fit",
    "d 7, a fit",
    "d 8, a fit",
    "d 9, a fit",
    "d 10, a fit",
    "d 11, a fit",
    "d 12, a fit",
    "d 13, a fit",
    "d 14, a fit",
    "d 15, a fit",
    "d 16, a fit",
    "13 1",
    "13 2",
    "13 3",
    "13 4",
    "13 5",
    "13 6",
    "13 1 by max_iterations",
    "13 1 by initial_step",
    "13 1 by finite_difference_step",
    "13 1 by gradient_tolerance",
    "13 1 by objective_tolerance",
    "13 1 by probability_tolerance",
    "13 1 by max_backtracks",
    "13 1 by anchor_strength",
    "the state (3) before a later fault",
    "no effects (2) before a later fault",
    "an effect or a gate (3) before a later fault",
    "a name (13 6) before a later fault",
    "controls (13 1) before a later fault",
    "no records (13 2) before a later fault",
    "no coordinates (13 3) before a later fault",
    "a coordinate (13 4 or 14) before a later fault",
    "14 before a repeat",
    "13 4 before an absent entry",
    "7 at the first evaluation",
    "8 at the first evaluation",
    "9 at the first evaluation",
    "two faults in two records",
    "3 by a probe",
    "3 by a probe, after others",
    "3 by the probe above",
    "3 by the probe below",
    "3 by a trial",
    "13 5 by an objective that is not finite",
    "13 5 by a quotient",
    "13 5 after other coordinates",
    "accepted",
    "refused 2",
    "refused 3",
    "refused 7",
    "refused 8",
    "refused 9",
    "refused 13",
    "refused 14",
    "refused 15",
];
/// Their cost keeps them few.
const LARGE_FITS: &[&str] = &["64 coordinates", "100 records or more", "16 effects", "8 gates", "12 steps or more"];
const DIAGNOSTICS: &[&str] = &[
    "counts add up to 2^64",
    "counts add up to more than 2^64",
    "counts add up to 2^64 - 1",
    "a count above 2^53",
    "a count above 2^53 that is no float",
    "a total that is no float",
    "a probability one float above minus the tolerance",
    "a probability at minus the tolerance",
    "a probability one float below minus the tolerance",
    "a probability one float below 1 plus the tolerance",
    "a probability at 1 plus the tolerance",
    "a probability one float above 1 plus the tolerance",
    "a sum one float nearer to 1 than the tolerance",
    "a sum as far from 1 as the tolerance",
    "a sum one float farther from 1 than the tolerance",
    "a probability that is not finite",
    "a probability clamped",
    "a clamped probability of 0 with a positive count",
    "a total of zero",
    "an absent gate at the start",
    "an absent gate after others",
    "two absent gates in a record",
    "two faults in two records",
    "two faults in two records, of two numbers",
    "a bad tolerance beside a fault of a record",
    "infinite deviance",
    "no records",
    "no records beside a bad tolerance",
    "a sequence of 64",
    "d 0",
    "d 16",
    "no effects",
    "no gates",
    "8 gates",
    "a name of zero",
    "a repeated name",
    "not finite in the state",
    "not finite in an effect",
    "not finite in a gate",
    "accepted",
    "refused 2",
    "refused 3",
    "refused 5",
    "refused 7",
    "refused 8",
    "refused 9",
    "refused 13",
    "refused 15",
];

#[test]
fn random_fits_meet_every_case() {
    let mut rng = Rng::new(43);
    let met = cases_met((0..20_000).map(|_| makers::card(5, &mut rng)));
    at_least(&met, 20, FITS);
    at_least(&met, 5, LARGE_FITS);
}

#[test]
fn random_diagnostics_meet_every_case() {
    let mut rng = Rng::new(47);
    let met = cases_met((0..20_000).map(|_| makers::card(7, &mut rng)));
    at_least(&met, 30, DIAGNOSTICS);
    at_least(&met, 5, &["200 records"]);
}

/// A fit that ends before its limit is the same at any later one, but for R, which is 3 or 1 at the limit itself.
#[test]
fn one_card_at_1_to_12_iterations() {
    let mut rng = Rng::new(53);
    let mut longest = 0;
    for _ in 0..200 {
        let mut before: Option<([u64; 4], Vec<u64>)> = None;
        for (words, limit) in makers::fits::series(&mut rng).iter().zip(1..) {
            assert_eq!(words[1], limit);
            let Outcome::Accepted { header, words, .. } = sheet(words) else { break };
            let steps = header[1];
            assert!(steps <= limit);
            longest = longest.max(steps);
            if let Some((last, sheet)) = before.filter(|(last, _)| last[1] + 1 < limit) {
                assert_eq!((last, &sheet), (header, &words));
            }
            before = Some((header, words));
        }
    }
    assert_eq!(longest, 12);
}

#[test]
fn random_tests_of_transfer_matrices_meet_every_case() {
    let mut rng = Rng::new(41);
    let met = cases_met((0..20_000).map(|_| makers::card(4, &mut rng)));
    at_least(&met, 30, TESTS);
}

#[test]
fn random_cards_meet_every_case() {
    for (kind, own) in [(3, PROCESSES), (6, GAUGES)] {
        let mut rng = Rng::new(29);
        let met = cases_met((0..20_000).map(|_| makers::card(kind, &mut rng)));
        at_least(&met, 30, INVERSIONS);
        at_least(&met, 30, own);
    }
}

#[test]
fn fixed_cards_meet_most_cases() {
    let inversions = ["a tie of pivots", "a pivot at the threshold", "an infinite pivot, accepted", "a NaN as pivot"];
    let beside = ["a pivot one float above the threshold", "a pivot one float below the threshold"];
    for (kind, own) in [(3, PROCESSES), (6, GAUGES)] {
        let met = cases_met(fixed::edges(kind).into_iter().chain(fixed::sweep(&fixed::base(kind))));
        at_least(&met, 1, &inversions);
        at_least(&met, 1, &beside);
        at_least(&met, 1, own);
    }
}

#[test]
fn random_gauges_have_every_shape() {
    let mut rng = Rng::new(31);
    let mut shapes = [[0; 17]; 3];
    for _ in 0..20_000 {
        let bytes = makers::card(6, &mut rng);
        if matches!(outcome(&bytes), Outcome::Accepted { .. }) {
            let head = Head::of(crate::card::whole_words(&bytes)[0]);
            shapes[0][head.d] += 1;
            shapes[1][head.effects] += 1;
            shapes[2][head.gates] += 1;
        }
    }
    assert!(shapes[0][1..].iter().all(|&times| times > 30), "{shapes:?}");
    assert!(shapes[1][1..].iter().all(|&times| times > 30), "{shapes:?}");
    assert!(shapes[2][..=8].iter().all(|&times| times > 30), "{shapes:?}");
}

/// What a call returns, answers and writes.
fn called(call: Call) -> (u64, [u64; 5], Vec<u64>) {
    let outcome = call.outcome();
    let answer = outcome.answer();
    match outcome {
        Outcome::Accepted { words, .. } => (0, answer, words),
        Outcome::Refused(refusal) => (refusal.n, answer, vec![]),
    }
}

#[test]
fn library_calls() {
    let one = 1f64.to_bits();
    let (code, answer, words) = called(Call::Probes { n: 1 });
    assert_eq!((code, answer), (0, [8, 4, 0, 0, 0]));
    let wanted = [1., 0., 0., 1., 1., 0., 0., -1., 1., 1., 0., 0., 1., 0., 1., 0.].map(f64::to_bits);
    assert_eq!(words, wanted);
    assert_eq!(called(Call::Probes { n: 3 }).1, [8, 64, 0, 0, 0]);
    for n in [0, 4, 64, (1 << 32) + 1, u64::MAX] {
        assert_eq!(called(Call::Probes { n }), (1, [0, 1, 0, 0, 0], vec![]));
        assert_eq!(called(Call::Setting { n, index: u64::MAX }), (1, [0, 1, 0, 0, 0], vec![]));
    }
    assert_eq!(called(Call::Setting { n: 3, index: 0 }), (0, [9, 3, 0, 0, 0], vec![1, 1, 1]));
    assert_eq!(called(Call::Setting { n: 3, index: 1 }).2, [1, 1, 2]);
    assert_eq!(called(Call::Setting { n: 3, index: 26 }).2, [3, 3, 3]);
    assert_eq!(called(Call::Setting { n: 2, index: 5 }).2, [2, 3]);
    for (n, index) in [(1, 3), (2, 9), (3, 27), (3, 1 << 32), (1, u64::MAX)] {
        assert_eq!(called(Call::Setting { n, index }), (15, [0, 15, index, 0, 0], vec![]));
    }
    let apply = |n, values: &[f64], input: &[f64]| {
        called(Call::Apply { n, values: values.to_vec(), input: input.to_vec() })
    };
    let identity = diagonal(&[1.0; 4]);
    assert_eq!(apply(1, &identity, &[1.0; 4]), (0, [10, 4, 0, 0, 0], vec![one; 4]));
    assert_eq!(apply(2, &[0.0; 256], &[-1.0; 16]), (0, [10, 16, 0, 0, 0], vec![1 << 63; 16]));
    assert_eq!(apply(1, &[f64::MAX; 16], &[2.0, 2.0, -2.0, 2.0]).2, [0x7ff8000000000000; 4]);
    assert_eq!(apply(1, &[f64::MAX; 16], &[-1.0, -1.0, 1.0, 1.0]).2, [f64::NEG_INFINITY.to_bits(); 4]);
    // The order of refusals.
    let nan = f64::NAN;
    for n in [0, 3, u64::MAX] {
        assert_eq!(apply(n, &[nan], &[nan]).1, [0, 1, 0, 0, 0]);
        assert_eq!(called(Call::Choi { n, values: vec![nan] }).1, [0, 1, 0, 0, 0]);
    }
    let choi = |n, values: &[f64]| called(Call::Choi { n, values: values.to_vec() });
    // The state (|00> + |11>)/sqrt 2 for the identity.
    let half = 0.5f64.to_bits();
    let mut wanted = vec![0; 32];
    for place in [0, 6, 24, 30] {
        wanted[place] = half;
    }
    assert_eq!(choi(1, &identity), (0, [11, 4, 0, 0, 0], wanted));
    assert_eq!(choi(2, &[0.0; 256]), (0, [11, 16, 0, 0, 0], vec![0; 512]));
    assert_eq!(choi(1, &[nan; 15]).1, [0, 2, 16, 15, 0]);
    assert_eq!(choi(2, &identity).1, [0, 2, 256, 16, 0]);
    assert_eq!(choi(1, &[f64::INFINITY; 16]).1, [0, 3, 0, 0, 0]);
    assert_eq!(apply(1, &[nan; 15], &[nan]).1, [0, 2, 16, 15, 0]);
    assert_eq!(apply(2, &identity, &[nan]).1, [0, 2, 256, 16, 0]);
    assert_eq!(apply(1, &[nan; 16], &[nan]).1, [0, 3, 0, 0, 0]);
    assert_eq!(apply(1, &identity, &[nan]).1, [0, 2, 4, 1, 0]);
    assert_eq!(apply(1, &identity, &[0.0, 0.0, 0.0, f64::INFINITY]).1, [0, 3, 0, 0, 0]);
}

#[test]
fn random_calls_meet_every_case() {
    let mut met = BTreeMap::new();
    for entry in ["probes", "setting", "apply", "choi", "probabilities"] {
        let mut rng = Rng::new(37);
        for _ in 0..20_000 {
            let call = calls::call(entry, &mut rng);
            let outcome = call.outcome();
            for case in cases::of_call(&call, &outcome) {
                *met.entry(format!("{entry}: {case}")).or_default() += 1;
            }
            *met.entry(format!("{entry}: {}", end_of(&outcome))).or_default() += 1;
        }
    }
    let cases = [
        "probes: accepted",
        "probes: refused 1",
        "probes: -0 in the result",
        "setting: accepted",
        "setting: refused 1",
        "setting: refused 15",
        "apply: accepted",
        "apply: refused 1",
        "apply: refused 2",
        "apply: -0 in the result",
        "apply: a subnormal in the result",
        "apply: an infinity in the result",
        "apply: a NaN in the result",
        "apply: a wrong length beside numbers that are not finite",
        "apply: not finite in the values",
        "apply: not finite in the input",
        "choi: accepted",
        "choi: refused 1",
        "choi: refused 2",
        "choi: refused 3",
        "choi: a subnormal in the result",
        "choi: the largest finite numbers, accepted",
        "choi: a wrong length beside numbers that are not finite",
        "probabilities: accepted",
        "probabilities: refused 2",
        "probabilities: refused 3",
        "probabilities: refused 7",
        "probabilities: refused 13",
        "probabilities: refused 15",
        "probabilities: -0 in the result",
        "probabilities: a subnormal in the result",
        "probabilities: an infinity in the result",
        "probabilities: a NaN in the result",
        "probabilities: d 0",
        "probabilities: d 16",
        "probabilities: d above 16",
        "probabilities: no effects",
        "probabilities: effects above 16",
        "probabilities: no gates",
        "probabilities: 8 gates",
        "probabilities: names above 8",
        "probabilities: a name of zero",
        "probabilities: a repeated name",
        "probabilities: not finite in the state",
        "probabilities: not finite in an effect",
        "probabilities: not finite in a gate",
        "probabilities: an empty sequence",
        "probabilities: a sequence of 64",
        "probabilities: a sequence above 64",
        "probabilities: an absent gate after others",
        "probabilities: two absent gates",
        "probabilities: a fault of the model beside an absent gate",
        "probabilities: a wrong length beside numbers that are not finite",
    ];
    at_least(&met, 30, &cases);
}

#[test]
fn order_in_probabilities() {
    let numbers = [1.0, 0.25, 0.5, 0.5, 0.5, -0.5, 1.0, 0.0, 0.125, 0.75];
    let of = |d, effects, names: &[u64], numbers: &[f64], sequence: &[u64]| {
        let (names, numbers, sequence) = (names.to_vec(), numbers.to_vec(), sequence.to_vec());
        called(Call::Probabilities { d, effects, names, numbers, sequence })
    };
    let (code, answer, words) = of(2, 2, &[5], &numbers, &[]);
    assert_eq!((code, answer), (0, [12, 2, 0, 0, 0]));
    assert_eq!(words, [0.625, 0.375].map(f64::to_bits));
    assert_eq!(of(2, 2, &[5], &numbers, &[0]).2, [0.65625, 0.34375].map(f64::to_bits));
    let nan = f64::NAN;
    for (d, effects, names, length) in [(17, 0, 1, 0), (0, 17, 1, 0), (0, 0, 9, 0), (0, 0, 1, 65), (u64::MAX, 1, 1, 1)] {
        assert_eq!(of(d, effects, &vec![0; names], &[nan], &vec![9; length]).1, [0, 15, 0, 0, 0]);
    }
    assert_eq!(of(2, 2, &[0], &[nan; 9], &[9]).1, [0, 2, 10, 9, 0]);
    assert_eq!(of(0, 0, &[0], &[nan], &[9]).1, [0, 2, 0, 1, 0]);
    assert_eq!(of(0, 0, &[0], &[], &[9]).1, [0, 3, 0, 0, 0]);
    assert_eq!(of(2, 0, &[0], &[1.0, nan, 1.0, 1.0, 1.0, 1.0], &[9]).1, [0, 3, 0, 0, 0]);
    assert_eq!(of(2, 0, &[0], &[1.0, 1.0, nan, 1.0, 1.0, 1.0], &[9]).1, [0, 2, 2, 0, 0]);
    for place in 0..10 {
        let mut changed = numbers;
        changed[place] = f64::INFINITY;
        assert_eq!(of(2, 2, &[0], &changed, &[9]).1, [0, 3, 0, 0, 0]);
    }
    assert_eq!(of(2, 2, &[0], &numbers, &[9]).1, [0, 13, 6, 0, 0]);
    assert_eq!(of(2, 2, &[5], &numbers, &[0, 1, 9]).1, [0, 7, 1, 0, 0]);
    assert_eq!(of(2, 2, &[5], &numbers, &[0, u64::MAX, 1]).1, [0, 7, u64::MAX, 0, 0]);
    assert_eq!(of(1, 1, &[], &[f64::MAX, 2.0], &[]).2, [f64::INFINITY.to_bits()]);
    // A stored call's words.
    let call = Call::Probabilities { d: 1, effects: 1, names: vec![7], numbers: vec![1.0, 2.0, 3.0], sequence: vec![0, 4] };
    let [one, two, three] = [1.0f64, 2.0, 3.0].map(f64::to_bits);
    assert_eq!(call.words(), [12, 1, 1, 1, 7, 3, one, two, three, 0, 4]);
    let call = Call::Probabilities { d: 1, effects: 1, names: vec![7], numbers: vec![1.0, 2.0, 3.0], sequence: vec![0] };
    assert_eq!(print(&call.outcome()), "probabilities 1\n4018000000000000\n");
}

#[test]
fn stored_calls() {
    let list = calls::stored();
    let printed: Vec<String> = list.iter().map(|call| print(&call.outcome())).collect();
    assert!((120..=170).contains(&list.len()), "{}", list.len());
    assert_eq!(printed.iter().filter(|text| text.starts_with("probes 64\n")).count(), 1);
    let starts = ["probes 4\n", "probes 16\n", "setting 1\n", "setting 2\n", "setting 3\n", "applied 4\n", "applied 16\n"];
    for start in starts.into_iter().chain(["choi 4\n", "choi 16\n", "probabilities 1\n", "probabilities 2\n"]) {
        assert!(printed.iter().any(|text| text.starts_with(start)), "{start}");
    }
    for start in ["refused 1 ", "refused 2 ", "refused 3 ", "refused 7 ", "refused 13 ", "refused 15 "] {
        assert!(printed.iter().any(|text| text.starts_with(start)), "{start}");
    }
    for word in ["7ff8000000000000", "7ff0000000000000", "fff0000000000000", "8000000000000000"] {
        for entry in ["applied", "probabilities"] {
            let shown = |text: &String| text.starts_with(entry) && text.lines().any(|line| line == word);
            assert!(printed.iter().any(shown), "{entry} {word}");
        }
    }
    assert_eq!(print(&Call::Setting { n: 2, index: 5 }.outcome()), "setting 2\n0000000000000002\n0000000000000003\n");
    let apply = Call::Apply { n: 1, values: vec![1.0], input: vec![-0.0] };
    assert_eq!(apply.words(), [10, 1, 1, 1f64.to_bits(), 1 << 63]);
    assert_eq!(print(&apply.outcome()), "refused 2 0000000000000010 0000000000000001\n");
}
