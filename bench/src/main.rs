//! The port and the Rust on the same cards and calls, in one process: `bench [ROUNDS [KIND..]]`. KIND is 1 to 7, `probes`,
//! `apply`, `choi`, `probabilities`, `sqrt`, `ln`, `growth` or `plain`.
//!
//! A round runs a batch of each in turn, so that a slower or faster stretch of the machine meets all of them. The median
//! over the rounds is printed, in processor time.
//!
//! `bench list` prints the cards and calls with their numbers; `bench calls NUMBER SIDE COUNT` makes COUNT calls of one side
//! (`port`, `alone`, `words` or `refused`) and prints nothing, for a count of instructions.

mod cards;
#[cfg(plain)]
mod plain;

use reference::card::{self, Job};
use reference::hooks::with_rotations;
use reference::library::{self, Call};
use reference::ln::ln;
use reference::port::{self, ANSWER_WORDS, RESULT_WORDS, WORK_WORDS};
use reference::random::Rng;
use reference::sheet::{self, Outcome};
use reference::tomography::{
    linear_inversion, process_linear_inversion, product_probe_expectations, project_density_with_tolerance,
    reconstruct_gate_set, Complex64, LocalPauliPlan, Operator, PauliTransferMatrix,
};
use reference::BUILT;
use std::hint::black_box;

/// A batch lasts about this long.
const BATCH_NS: f64 = 1e6;
/// Length of the arrays of `sqrt` and `ln`.
const NUMBERS: usize = 4096;
/// All rounds of one row last about this long at most, if there are enough of them.
const ROW_NS: f64 = 8e9;
const LEAST_ROUNDS: usize = 9;
const USAGE: &str = "bench [ROUNDS [1..7 | probes | apply | choi | probabilities | sqrt | ln | growth | plain]..]
bench list
bench calls NUMBER port|alone|words|refused COUNT";
const GROUPS: [&str; 15] =
    ["1", "2", "3", "4", "5", "6", "7", "probes", "apply", "choi", "probabilities", "sqrt", "ln", "growth", "plain"];
/// The sides in the order of a card's runs.
const SIDES: [&str; 4] = ["port", "alone", "words", "refused"];
/// What is timed, with the name that is printed.
type Run = (&'static str, Box<dyn FnMut()>);

/// The Rust's function alone on values that are parsed and built before the clock starts. A new kind needs an arm here
/// and a card in cards.rs.
fn rust_alone(job: Job) -> Box<dyn FnMut()> {
    match job {
        Job::Density { n, tolerance, expectations } => Box::new(move || {
            black_box(linear_inversion(black_box(n), black_box(&expectations), black_box(tolerance))).unwrap();
        }),
        Job::Projection { d, tolerance, rotations, estimate } => {
            let estimate = estimate.into_iter().map(|(re, im)| Complex64::new(re, im)).collect();
            let estimate = Operator::try_new(d, estimate).unwrap();
            Box::new(move || {
                let run = || project_density_with_tolerance(black_box(&estimate), black_box(tolerance));
                black_box(with_rotations(rotations, run)).unwrap();
            })
        }
        Job::Process { n, tolerance, inputs, outputs } => Box::new(move || {
            black_box(process_linear_inversion(n, black_box(&inputs), black_box(&outputs), tolerance)).unwrap();
        }),
        Job::Physical { n, tolerance, rotations, values } => {
            let transfer = PauliTransferMatrix::try_new(n, values).unwrap();
            Box::new(move || {
                black_box(black_box(&transfer).is_trace_preserving(tolerance)).unwrap();
                black_box(black_box(&transfer).is_unital(tolerance)).unwrap();
                black_box(with_rotations(rotations, || black_box(&transfer).is_completely_positive(tolerance))).unwrap();
            })
        }
        Job::Fit { controls, model, records, coordinates } => {
            let names = sheet::gate_names(&model);
            let (records, parameters) =
                (sheet::records_of(&records, &names), sheet::parameters_of(&coordinates, &names));
            let (model, config) = (sheet::model_of(&model).unwrap(), sheet::config_of(&controls));
            Box::new(move || {
                black_box(reconstruct_gate_set(black_box(&model), black_box(&records), &parameters, config)).unwrap();
            })
        }
        Job::Gauge { model, transform } => {
            let model = sheet::model_of(&model).unwrap();
            Box::new(move || {
                black_box(black_box(&model).gauge_transform(black_box(&transform))).unwrap();
            })
        }
        Job::Diagnostics { tolerance, model, records } => {
            let records = sheet::records_of(&records, &sheet::gate_names(&model));
            let model = sheet::model_of(&model).unwrap();
            Box::new(move || {
                black_box(black_box(&model).fit_diagnostics_with_tolerance(black_box(&records), tolerance)).unwrap();
            })
        }
    }
}

/// The card with a NaN as its last number, on both sides: read and tested as before, and refused before anything is
/// computed. Of the kinds whose function itself tests the last number of the card.
fn uncomputed_runs(words: &[u64]) -> Vec<Run> {
    let mut words = words.to_vec();
    *words.last_mut().expect("a card has words") = f64::NAN.to_bits();
    let bytes = card::bytes_of(&words);
    // A NaN where a coordinate or a count should be is a fault of the card.
    let Ok(job) = card::read(&bytes) else { return Vec::new() };
    let alone: Box<dyn FnMut()> = match job {
        Job::Process { n, tolerance, inputs, outputs } => Box::new(move || {
            black_box(process_linear_inversion(n, black_box(&inputs), black_box(&outputs), tolerance)).unwrap_err();
        }),
        Job::Gauge { model, transform } => {
            let model = sheet::model_of(&model).unwrap();
            Box::new(move || {
                black_box(black_box(&model).gauge_transform(black_box(&transform))).unwrap_err();
            })
        }
        _ => return Vec::new(),
    };
    assert_eq!(sheet::outcome(&bytes).answer(), [0, 3, 0, 0, 0], "refused as not finite");
    vec![("port, last number a NaN", port_sheet(bytes)), ("Rust alone, last number a NaN", alone)]
}

/// The Rust's function of a library call alone, its arguments built before the clock starts.
fn rust_call_alone(call: Call) -> Box<dyn FnMut()> {
    match call {
        Call::Probes { n } => Box::new(move || {
            black_box(product_probe_expectations(black_box(n as usize))).unwrap();
        }),
        Call::Setting { n, .. } => Box::new(move || {
            black_box(LocalPauliPlan::complete(black_box(n as usize))).unwrap();
        }),
        Call::Apply { n, values, input } => {
            let transfer = PauliTransferMatrix::try_new(n as usize, values).unwrap();
            Box::new(move || {
                black_box(black_box(&transfer).apply_expectations(black_box(&input))).unwrap();
            })
        }
        Call::Choi { n, values } => {
            let transfer = PauliTransferMatrix::try_new(n as usize, values).unwrap();
            Box::new(move || {
                black_box(black_box(&transfer).normalized_choi()).unwrap();
            })
        }
        Call::Probabilities { d, effects, names, numbers, sequence } => {
            let model = library::model_of_call(d, effects, &names, &numbers).unwrap();
            // The names live as long as the process, so that the sequence can be made before the clock starts.
            let names: Vec<&'static str> = sheet::gate_names(&model).into_iter().map(|name| &*name.leak()).collect();
            let sequence: Vec<&str> = sequence.iter().map(|&gate| names[gate as usize]).collect();
            let model = sheet::model_of(&model).unwrap();
            Box::new(move || {
                black_box(black_box(&model).probabilities(black_box(&sequence))).unwrap();
            })
        }
    }
}

/// What the port writes to. Every call clears the whole work slice; that is part of its time.
struct Lent {
    result: Vec<u64>,
    work: Vec<u64>,
    answer: Vec<u64>,
}

impl Lent {
    fn new() -> Self {
        Lent { result: vec![0; RESULT_WORDS], work: vec![0; WORK_WORDS], answer: vec![0; ANSWER_WORDS] }
    }

    fn sheet(&mut self, bytes: &[u8]) -> u64 {
        port::sheet(bytes, &mut self.result, &mut self.work, &mut self.answer)
    }

    fn call(&mut self, call: &Call) -> u64 {
        port::call(call, &mut self.result, &mut self.work, &mut self.answer)
    }

    /// A time without a check of the result would be worth nothing.
    fn check(&self, outcome: Outcome) {
        assert_eq!(self.answer, outcome.answer(), "the port answers as the Rust does");
        match outcome {
            Outcome::Accepted { words, .. } => assert!(self.result.starts_with(&words), "the port's words are the Rust's"),
            Outcome::Refused(refusal) => panic!("refused: {refusal:?}"),
        }
    }
}

fn port_sheet(bytes: Vec<u8>) -> Box<dyn FnMut()> {
    let mut lent = Lent::new();
    Box::new(move || {
        black_box(lent.sheet(black_box(&bytes)));
    })
}

fn port_call(call: Call) -> Box<dyn FnMut()> {
    let mut lent = Lent::new();
    Box::new(move || {
        black_box(lent.call(black_box(&call)));
    })
}

/// As Linux has it on 64-bit machines.
#[repr(C)]
struct Timespec {
    seconds: i64,
    nanoseconds: i64,
}

extern "C" {
    fn clock_gettime(clock: i32, time: *mut Timespec) -> i32;
}

const CLOCK_THREAD_CPUTIME_ID: i32 = 3;

/// The processor time of this thread. On a busy machine a clock on the wall also counts what others run in between, and
/// more of it in a longer batch: that would favour the faster side.
fn processor_ns() -> f64 {
    let mut time = Timespec { seconds: 0, nanoseconds: 0 };
    // SAFETY: the call writes one Timespec.
    let failed = unsafe { clock_gettime(CLOCK_THREAD_CPUTIME_ID, &mut time) };
    assert_eq!(failed, 0, "the thread has a clock");
    time.seconds as f64 * 1e9 + time.nanoseconds as f64
}

fn batch_ns(f: &mut dyn FnMut(), calls: u64) -> f64 {
    let start = processor_ns();
    for _ in 0..calls {
        f();
    }
    processor_ns() - start
}

/// How many calls make a batch. The first batch also warms up.
fn calls_in_a_batch(f: &mut dyn FnMut()) -> u64 {
    let mut calls = 1;
    while batch_ns(f, calls) < BATCH_NS && calls < 1 << 24 {
        calls *= 2;
    }
    calls
}

fn median(mut times: Vec<f64>) -> f64 {
    times.sort_by(f64::total_cmp);
    times[times.len() / 2]
}

/// The median time of a call of each, in ns, and over how many rounds.
fn medians(runs: &mut [Run], rounds: usize) -> (Vec<f64>, usize) {
    let calls: Vec<u64> = runs.iter_mut().map(|(_, f)| calls_in_a_batch(f)).collect();
    let round: f64 = runs.iter_mut().zip(&calls).map(|((_, f), &calls)| batch_ns(f, calls)).sum();
    let rounds = rounds.min(((ROW_NS / round) as usize).max(LEAST_ROUNDS));
    let mut times = vec![Vec::with_capacity(rounds); runs.len()];
    for _ in 0..rounds {
        for (k, (_, f)) in runs.iter_mut().enumerate() {
            times[k].push(batch_ns(f, calls[k]) / calls[k] as f64);
        }
    }
    (times.into_iter().map(median).collect(), rounds)
}

/// Times the runs and prints the median of each.
fn median_report(title: &str, mut runs: Vec<Run>, rounds: usize) -> Vec<f64> {
    let (medians, rounds) = medians(&mut runs, rounds);
    println!("{title} ({rounds} rounds, median ns a call)");
    for ((label, _), ns) in runs.iter().zip(&medians) {
        println!("  {label:37}{ns:12.1}");
    }
    medians
}

/// The port's run is the first, and how often its time goes into that of the next two is printed.
fn report(title: &str, runs: Vec<Run>, rounds: usize) {
    let medians = median_report(title, runs, rounds);
    println!("  Rust alone / port                    {:12.2}", medians[1] / medians[0]);
    println!("  Rust to words / port                 {:12.2}", medians[2] / medians[0]);
    if let [port, alone, _, _, port_uncomputed, alone_uncomputed] = medians[..] {
        println!("  computing alone, Rust / port         {:12.2}", (alone - alone_uncomputed) / (port - port_uncomputed));
    }
}

/// A card's or a call's runs: the port, the Rust's function alone, the Rust to words, and what the port's call costs at least.
fn card_runs(words: &[u64]) -> Vec<Run> {
    let bytes = card::bytes_of(words);
    let mut lent = Lent::new();
    lent.sheet(&bytes);
    lent.check(sheet::outcome(&bytes));
    let job = card::read(&bytes).expect("the card is accepted");
    let whole = bytes.clone();
    let mut runs: Vec<Run> = vec![
        ("port, card to result", port_sheet(bytes)),
        ("Rust function alone, values parsed", rust_alone(job)),
        ("Rust, card to result words", Box::new(move || {
            black_box(sheet::outcome(black_box(&whole)));
        })),
        // An unknown kind is refused at once: what remains is the call and clearing work.
        ("port, refused at word 0", port_sheet(vec![0; 8])),
    ];
    runs.extend(uncomputed_runs(words));
    runs
}

fn call_runs(call: Call) -> Vec<Run> {
    let mut lent = Lent::new();
    lent.call(&call);
    lent.check(call.outcome());
    let (timed, whole) = (call.clone(), call.clone());
    vec![
        ("port, arguments to result", port_call(timed)),
        ("Rust function alone", rust_call_alone(call)),
        ("Rust, arguments to result words", Box::new(move || {
            black_box(black_box(&whole).outcome());
        })),
        ("port, refused by its qubits", port_call(Call::Probes { n: 0 })),
    ]
}

/// What is timed as a card or as a call.
enum Timed {
    Card(Vec<u64>),
    Call(Call),
}

impl Timed {
    fn runs(self) -> Vec<Run> {
        match self {
            Timed::Card(words) => card_runs(&words),
            Timed::Call(call) => call_runs(call),
        }
    }
}

/// Group, title and card or call, of what the port has.
fn all() -> Vec<(String, String, Timed)> {
    let mut list = Vec::new();
    for (name, words) in cards::cards() {
        let kind = card::Head::of(words[0]).kind;
        if BUILT.contains(&kind) {
            list.push((kind.to_string(), format!("kind {kind}, {name}"), Timed::Card(words)));
        }
    }
    for (name, call) in cards::calls() {
        let entry = call.entry().0;
        if port::ENTRIES.contains(&entry) {
            list.push((entry.to_string(), format!("{entry}, {name}"), Timed::Call(call)));
        }
    }
    list
}

/// How a fit's cost grows with its records, its coordinates and d, one of them at a time.
fn growth(rounds: usize) {
    println!("growth of a fit: us a call, the port's ns for one evaluation of one record");
    println!("   d records coordinates evaluations       port      alone      words  alone/port  words/port  ns/record");
    let records = [25, 50, 100, 200].map(|records| (4, records, 36));
    let coordinates = [4, 9, 18, 36].map(|coordinates| (4, 100, coordinates));
    let sizes = [2, 4, 8, 16].map(|d| (d, 50, 6));
    for (d, records, coordinates) in records.into_iter().chain(coordinates).chain(sizes) {
        let words = cards::fit(d, records, coordinates);
        let evaluations = match sheet::outcome(&card::bytes_of(&words)) {
            Outcome::Accepted { header, .. } => header[2],
            Outcome::Refused(refusal) => panic!("refused: {refusal:?}"),
        };
        let mut runs = card_runs(&words);
        runs.truncate(3);
        let (medians, _) = medians(&mut runs, rounds);
        let [port, alone, words] = [medians[0], medians[1], medians[2]];
        println!(
            "{d:4} {records:7} {coordinates:11} {evaluations:11} {:10.1} {:10.1} {:10.1} {:11.2} {:11.2} {:10.1}",
            port / 1e3,
            alone / 1e3,
            words / 1e3,
            alone / port,
            words / port,
            port / (evaluations * records as u64) as f64,
        );
    }
}

/// Positive numbers from 2^-64 to 2^64, every exponent and all digits alike.
fn generic_numbers() -> Vec<u64> {
    let mut rng = Rng::new(11);
    (0..NUMBERS).map(|_| rng.between(1023 - 64, 1023 + 63) << 52 | rng.below(1 << 52)).collect()
}

/// f in a loop over the numbers. As f is known here, the loop is compiled for it.
fn rust_loop(f: impl Fn(f64) -> f64 + 'static) -> Box<dyn FnMut()> {
    let x: Vec<f64> = generic_numbers().into_iter().map(f64::from_bits).collect();
    let mut out = vec![0.0; NUMBERS];
    Box::new(move || {
        for (out, &x) in out.iter_mut().zip(black_box(&x)) {
            *out = f(x);
        }
        black_box(&mut out);
    })
}

fn port_loop(all: fn(&[u64], &mut [u64]) -> usize) -> Box<dyn FnMut()> {
    let (x, mut out) = (generic_numbers(), vec![0; NUMBERS]);
    Box::new(move || {
        black_box(all(black_box(&x), &mut out));
        black_box(&mut out);
    })
}

/// The port's function on many numbers beside others; the first of them is what it is held to.
fn leaf(name: &str, all: fn(&[u64], &mut [u64]) -> usize, held_to: fn(f64) -> f64, others: Vec<Run>, rounds: usize) {
    let (x, mut out) = (generic_numbers(), vec![0; NUMBERS]);
    assert_eq!(all(&x, &mut out), NUMBERS);
    let wanted: Vec<u64> = x.iter().map(|&bits| held_to(f64::from_bits(bits)).to_bits()).collect();
    assert_eq!(out, wanted, "the port's numbers are the Rust's");

    let mut runs: Vec<Run> = vec![("port", port_loop(all))];
    runs.extend(others);
    let (medians, rounds) = medians(&mut runs, rounds);
    println!("{name}, {NUMBERS} numbers ({rounds} rounds, median ns a number)");
    for ((label, _), ns) in runs.iter().zip(&medians) {
        println!("  {label:36} {:12.2}", ns / NUMBERS as f64);
    }
    for ((label, _), ns) in runs.iter().zip(&medians).skip(1) {
        println!("  {:36} {:12.2}", format!("{label} / port"), ns / medians[0]);
    }
}

/// One side alone, so that a tool can count its instructions.
fn only_calls(arguments: &[String]) {
    let [number, side, count] = arguments else { panic!("{USAGE}") };
    let side = SIDES.iter().position(|name| name == side).expect(USAGE);
    let (_, _, timed) = all().into_iter().nth(number.parse().expect(USAGE)).expect(USAGE);
    let (_, f) = &mut timed.runs()[side];
    for _ in 0..count.parse().expect(USAGE) {
        f();
    }
}

fn main() {
    let arguments: Vec<String> = std::env::args().skip(1).collect();
    match arguments.first().map(String::as_str) {
        Some("list") => {
            for (number, (_, title, _)) in all().iter().enumerate() {
                println!("{number} {title}");
            }
            return;
        }
        Some("calls") => return only_calls(&arguments[1..]),
        _ => {}
    }
    let rounds: usize = arguments.first().map_or(201, |rounds| rounds.parse().expect(USAGE));
    assert!(rounds > 0, "{USAGE}");
    let asked = arguments.get(1..).unwrap_or_default();
    assert!(asked.iter().all(|kind| GROUPS.contains(&kind.as_str())), "{USAGE}");
    let wanted = |kind: &str| asked.is_empty() || asked.iter().any(|name| name == kind);
    for (group, title, timed) in all() {
        if wanted(&group) {
            report(&title, timed.runs(), rounds);
        }
    }
    #[cfg(plain)]
    if wanted("plain") {
        for (_, title, timed) in all() {
            if let Timed::Card(words) = timed {
                plain::report(&title, &words, rounds);
            }
        }
    }
    if BUILT.contains(&5) && wanted("growth") {
        growth(rounds);
    }
    if wanted("sqrt") {
        let others: Vec<Run> = vec![("f64::sqrt in a loop", rust_loop(f64::sqrt))];
        leaf("sqrt", port::sqrt_all, f64::sqrt, others, rounds);
    }
    if wanted("ln") {
        let others: Vec<Run> =
            vec![("document 01's ln in Rust", rust_loop(ln)), ("f64::ln (another function)", rust_loop(f64::ln))];
        leaf("ln", port::ln_all, ln, others, rounds);
    }
}
