//! Compares the port with the Rust: `compare COUNT SEED [GROUP..]`.
//!
//! A group is a kind (1 to 7) of the sheet entry, `read`, a library entry (`probes`, `setting`, `apply`, `choi`,
//! `probabilities`), `sqrt` or `ln`; without one all are run. Each has its fixed cards or calls and COUNT random ones; `sqrt`
//! and `ln` have fixed numbers and 100 times COUNT random ones. Kind 5 has a fifth of COUNT, and for each hundred of these one
//! card that is tried at 1 to 12 iterations. Then the cases are counted that kinds 3 to 7 and the library entries met. The
//! exit status is 1 if anything differs.

use reference::card::{self, bytes_of, Refusal};
use reference::cases::{self, Cases};
use reference::hooks::with_notes;
use reference::library::Call;
use reference::ln::ln;
use reference::makers::{self, arguments, calls, fits, fixed};
use reference::port::{self, ANSWER_WORDS, RESULT_WORDS, WORK_WORDS};
use reference::random::Rng;
use reference::sheet::{self, Outcome};
use reference::BUILT;
use std::collections::BTreeMap;
use std::hint::black_box;
use std::process::ExitCode;

/// Words before and after each lent slice that must stay as they are.
const GUARD: usize = 16;
const SHOWN: usize = 5;

const USAGE: &str = "compare COUNT SEED [1..7 | read | probes | setting | apply | choi | probabilities | sqrt | ln]..
  COUNT random cards for each kind but 5, a fifth of COUNT for kind 5, COUNT for read and for each library entry,
  100 times COUNT random numbers for sqrt and for ln";
const GROUPS: [&str; 15] =
    ["1", "2", "3", "4", "5", "6", "7", "read", "probes", "setting", "apply", "choi", "probabilities", "sqrt", "ln"];
const ENTRIES: [&str; 5] = ["probes", "setting", "apply", "choi", "probabilities"];

/// A fit takes longer: one for so many random cards of another kind.
const FIT_SHARE: u64 = 5;
/// Random fits for each card that is tried at 1 to 12 iterations.
const CARDS_PER_SERIES: u64 = 100;
/// Random numbers of `sqrt` and `ln` for each random card of another group.
const NUMBERS_PER_COUNT: u64 = 100;
/// Most numbers in one call.
const BATCH: usize = 4096;
/// What the summary of `sqrt` and `ln` counts apart.
const SORTS: [&str; 6] = ["normal", "subnormal", "zero", "+infinity", "below zero", "NaN"];

/// A function of one number: the port's on many at once, and the one that it is held to.
struct Leaf {
    name: &'static str,
    port: fn(&[u64], &mut [u64]) -> usize,
    rust: fn(f64) -> f64,
    fixed: fn(&mut Rng) -> Vec<u64>,
}

const LEAVES: [Leaf; 2] = [
    Leaf { name: "sqrt", port: port::sqrt_all, rust: f64::sqrt, fixed: arguments::for_sqrt },
    Leaf { name: "ln", port: port::ln_all, rust: ln, fixed: arguments::for_ln },
];

/// What a slice holds before the call.
#[derive(Clone, Copy)]
enum Garbage {
    Same(u64),
    Changing(u64),
}

impl Garbage {
    fn any(rng: &mut Rng) -> Self {
        match rng.below(8) {
            0 => Garbage::Same(0x7ff8000000000000),
            1 => Garbage::Same(0xfff0000000000001),
            2 => Garbage::Same(u64::MAX),
            3 => Garbage::Same(0x8000000000000000),
            4 => Garbage::Same(1),
            _ => Garbage::Changing(rng.next()),
        }
    }

    fn at(self, place: usize) -> u64 {
        match self {
            Garbage::Same(word) => word,
            Garbage::Changing(seed) => seed ^ (place as u64).wrapping_mul(0x9e37_79b9_7f4a_7c15),
        }
    }
}

/// A lent slice between two guards.
struct Lent {
    words: Vec<u64>,
    length: usize,
    garbage: Garbage,
}

impl Lent {
    fn new() -> Self {
        Lent { words: Vec::new(), length: 0, garbage: Garbage::Same(0) }
    }

    fn fill(&mut self, length: usize, rng: &mut Rng) {
        let garbage = Garbage::any(rng);
        self.words.resize(length + 2 * GUARD, 0);
        for (place, word) in self.words.iter_mut().enumerate() {
            *word = garbage.at(place);
        }
        (self.length, self.garbage) = (length, garbage);
    }

    fn slice(&mut self) -> &mut [u64] {
        &mut self.words[GUARD..GUARD + self.length]
    }

    /// Guards untouched, `wanted` from word 0, and `rest` after it (or what was there before the call).
    fn check(&self, name: &str, wanted: &[u64], rest: Option<u64>) -> Result<(), String> {
        let found = |place: usize| self.words[GUARD + place];
        for (place, &word) in wanted.iter().enumerate() {
            if found(place) != word {
                return Err(format!("{name} word {place} is {:016x}, wanted {word:016x}", found(place)));
            }
        }
        for place in wanted.len()..self.length {
            let word = rest.unwrap_or_else(|| self.garbage.at(GUARD + place));
            if found(place) != word {
                return Err(format!("{name} word {place} is {:016x}, wanted {word:016x} there", found(place)));
            }
        }
        let ends = (0..GUARD).chain(GUARD + self.length..self.words.len());
        for place in ends {
            if self.words[place] != self.garbage.at(place) {
                return Err(format!("a word outside {name} was written"));
            }
        }
        Ok(())
    }
}

/// Lengths of the lent slices.
#[derive(Clone, Copy)]
struct Lengths {
    result: usize,
    work: usize,
    answer: usize,
}

impl Lengths {
    /// Mostly the least or a little more, sometimes too short.
    fn any(rng: &mut Rng) -> Self {
        let mut length = |least: usize| match rng.below(200) {
            0 => 0,
            1 => 1,
            2 => least - 1,
            3 => rng.index(least),
            4..=20 => least + rng.index(70),
            _ => least,
        };
        Lengths { result: length(RESULT_WORDS), work: length(WORK_WORDS), answer: length(ANSWER_WORDS) }
    }

    fn short(self) -> bool {
        self.result < RESULT_WORDS || self.work < WORK_WORDS || self.answer < ANSWER_WORDS
    }
}

struct Compare {
    rng: Rng,
    result: Lent,
    work: Lent,
    answer: Lent,
    card: Vec<u8>,
    numbers: Vec<u64>,
    agreed: BTreeMap<String, u64>,
    cases: BTreeMap<String, u64>,
    differing: usize,
}

impl Compare {
    fn new(seed: u64) -> Self {
        Compare {
            rng: Rng::new(seed ^ 0x5eed),
            result: Lent::new(),
            work: Lent::new(),
            answer: Lent::new(),
            card: Vec::new(),
            numbers: Vec::new(),
            agreed: BTreeMap::new(),
            cases: BTreeMap::new(),
            differing: 0,
        }
    }

    /// The card at an odd place in memory as often as not.
    fn lend_card(&mut self, bytes: &[u8]) -> usize {
        let shift = self.rng.index(8);
        self.card.clear();
        self.card.resize(shift, 0xaa);
        self.card.extend_from_slice(bytes);
        shift
    }

    fn note(&mut self, label: String, given: &[u8], wanted: String, found: String, difference: Result<(), String>) {
        match difference {
            Ok(()) => *self.agreed.entry(label).or_default() += 1,
            Err(difference) => {
                self.differing += 1;
                if self.differing <= SHOWN {
                    println!("{label} differs: {difference}");
                    println!("  given: {}", hexadecimal(given));
                    println!("  the Rust: {wanted}");
                    println!("  the port: {found}");
                }
            }
        }
    }

    /// Result, work and answer with garbage in them.
    fn lend(&mut self) -> Lengths {
        let lengths = Lengths::any(&mut self.rng);
        self.result.fill(lengths.result, &mut self.rng);
        self.work.fill(lengths.work, &mut self.rng);
        self.answer.fill(lengths.answer, &mut self.rng);
        lengths
    }

    /// What a call returned and wrote, beside the Rust's outcome. `kept` tells whether what it was given is as before.
    fn judge(
        &mut self,
        label: String,
        given: &[u8],
        lent: Lengths,
        returned: u64,
        outcome: &Outcome,
        kept: Result<(), String>,
    ) {
        let (label, code, written): (String, u64, &[u64]) = match outcome {
            Outcome::Accepted { words, .. } => (format!("{label}, accepted"), 0, words),
            Outcome::Refused(refusal) => (format!("{label}, refused {:2}", refusal.n), refusal.n, &[]),
        };
        let head = outcome.answer();
        let answered: &[u64] = if lent.answer < ANSWER_WORDS { &[] } else { &head };
        let difference = check_code(returned, code)
            .and_then(|()| self.answer.check("answer", answered, None))
            .and_then(|()| self.result.check("result", written, None))
            .and_then(|()| self.work.check("work", &[], Some(0)))
            .and(kept);
        // Texts only for what is shown: they would take most of the time.
        let (wanted, found) = if difference.is_ok() {
            (String::new(), String::new())
        } else {
            let shown = written.len().max(8).min(lent.result);
            let Lengths { result, work, answer } = lent;
            (
                format!("answer {}, result {}", words(&head), words(written)),
                format!(
                    "answer {}, result {} .. (lent {result} result, {work} work and {answer} answer words)",
                    words(self.answer.slice()),
                    words(&self.result.slice()[..shown]),
                ),
            )
        };
        self.note(label, given, wanted, found, difference);
    }

    fn count_cases(&mut self, label: &str, cases: Cases) {
        for case in cases {
            *self.cases.entry(format!("{label}: {case}")).or_default() += 1;
        }
    }

    fn sheet(&mut self, bytes: &[u8]) {
        let lent = self.lend();
        let shift = self.lend_card(bytes);
        let returned =
            port::sheet(&self.card[shift..], self.result.slice(), self.work.slice(), self.answer.slice());
        let kind = kind_label(bytes);
        let outcome = if lent.short() {
            Outcome::Refused(Refusal::new(16, 0, 0))
        } else {
            let (outcome, notes) = with_notes(|| sheet::built_outcome(bytes));
            // Cards of a kind that the port lacks are all one refusal.
            if BUILT.iter().any(|built| built.to_string() == kind) {
                self.count_cases(&format!("kind {kind}"), cases::of_card(bytes, &outcome, &notes));
            }
            outcome
        };
        let kept = check_kept("card", &self.card[shift..], bytes);
        self.judge(format!("sheet, kind {kind}"), bytes, lent, returned, &outcome, kept);
    }

    fn read(&mut self, bytes: &[u8]) {
        let answer = Lengths::any(&mut self.rng).answer;
        self.answer.fill(answer, &mut self.rng);
        let shift = self.lend_card(bytes);
        let returned = port::read(&self.card[shift..], self.answer.slice());

        let reading = if answer < ANSWER_WORDS { Err(Refusal::new(16, 0, 0)) } else { sheet::reading(bytes) };
        let (label, code, head) = match reading {
            Ok(kind) => (format!("read, kind {kind}, accepted"), 0, [u64::from(kind), 0, 0, 0, 0]),
            Err(r) => (format!("read, kind {}, refused {:2}", kind_label(bytes), r.n), r.n, [0, r.n, r.a, r.b, 0]),
        };
        let answered: &[u64] = if answer < ANSWER_WORDS { &[] } else { &head };
        let difference = check_code(returned, code)
            .and_then(|()| self.answer.check("answer", answered, None))
            .and_then(|()| check_kept("card", &self.card[shift..], bytes));
        let found = format!("{} (lent {answer} answer words)", words(self.answer.slice()));
        self.note(label, bytes, words(&head), found, difference);
    }

    /// A library call. Beyond its values and its input stand NaNs, so that a longer reading shows.
    fn call(&mut self, call: &Call) {
        let lent = self.lend();
        let (result, work, answer) = (self.result.slice(), self.work.slice(), self.answer.slice());
        let (returned, kept) = match call {
            Call::Apply { n, values, input } => {
                let beyond = [f64::NAN; GUARD];
                let whole = [&beyond, &values[..], &beyond, &input[..], &beyond].concat();
                let (values, input) =
                    (&whole[GUARD..][..values.len()], &whole[2 * GUARD + values.len()..][..input.len()]);
                let bits: Vec<u64> = whole.iter().map(|x| x.to_bits()).collect();
                let returned = port::apply(*n, values, input, result, work, answer);
                let after: Vec<u64> = black_box(&whole).iter().map(|x| x.to_bits()).collect();
                (returned, check_kept("values and input", &after, &bits))
            }
            Call::Choi { n, values } => {
                let beyond = [f64::NAN; GUARD];
                let whole = [&beyond, &values[..], &beyond].concat();
                let bits: Vec<u64> = whole.iter().map(|x| x.to_bits()).collect();
                let returned = port::choi(*n, &whole[GUARD..][..values.len()], result, work, answer);
                let after: Vec<u64> = black_box(&whole).iter().map(|x| x.to_bits()).collect();
                (returned, check_kept("values", &after, &bits))
            }
            Call::Probabilities { d, effects, names, numbers, sequence } => {
                let beyond = [f64::NAN; GUARD];
                let whole = [&beyond, &numbers[..], &beyond].concat();
                let bits: Vec<u64> = whole.iter().map(|x| x.to_bits()).collect();
                let given = [&names[..], &sequence[..]].concat();
                let (named, applied) = given.split_at(names.len());
                let numbers = &whole[GUARD..][..numbers.len()];
                let returned =
                    port::probabilities(*d, *effects, named, numbers, applied, result, work, answer);
                let after: Vec<u64> = black_box(&whole).iter().map(|x| x.to_bits()).collect();
                let kept = check_kept("numbers", &after, &bits)
                    .and(check_kept("names and sequence", black_box(&given), &[&names[..], &sequence[..]].concat()));
                (returned, kept)
            }
            other => (port::call(other, result, work, answer), Ok(())),
        };
        let name = call.entry().0;
        let outcome = if lent.short() {
            Outcome::Refused(Refusal::new(16, 0, 0))
        } else {
            let outcome = call.outcome();
            self.count_cases(name, cases::of_call(call, &outcome));
            outcome
        };
        self.judge(name.to_string(), &bytes_of(&call.words()), lent, returned, &outcome, kept);
    }

    /// All of `source`, in batches of any length.
    fn numbers(&mut self, leaf: &Leaf, mut source: impl Iterator<Item = u64>) {
        let mut shown = 0;
        let mut next = Vec::new();
        loop {
            let length = match self.rng.below(32) {
                0 => 0,
                1 => self.rng.index(20),
                2 => self.rng.index(BATCH),
                _ => BATCH,
            };
            let lacking = length.saturating_sub(next.len());
            next.extend(source.by_ref().take(lacking));
            if next.is_empty() && length > 0 {
                break;
            }
            let x = &next[..length.min(next.len())];
            let out = match self.rng.below(16) {
                0 => 0,
                1 => x.len().saturating_sub(1),
                2..=4 => self.rng.index(x.len() + 1),
                5..=9 => x.len() + 1 + self.rng.index(70),
                _ => x.len(),
            };
            for difference in self.batch(leaf, x, out).iter().take(SHOWN - shown) {
                println!("{} differs: {difference} (lent {} numbers and {out} words)", leaf.name, x.len());
                shown += 1;
            }
            // What did not fit into out comes again.
            next.drain(..out.min(x.len()));
        }
    }

    /// One call, with `out` words lent. NaNs count as equal. Returns what to show.
    fn batch(&mut self, leaf: &Leaf, x: &[u64], out: usize) -> Vec<String> {
        self.result.fill(out, &mut self.rng);
        let shift = self.rng.index(8);
        self.numbers.clear();
        self.numbers.resize(shift, 0x7ff8_aaaa_aaaa_aaaa);
        self.numbers.extend_from_slice(x);
        let returned = (leaf.port)(&self.numbers[shift..], self.result.slice());

        let done = x.len().min(out);
        let found = self.result.slice()[..done].to_vec();
        let mut differences = Vec::new();
        let mut agreed = [0; SORTS.len()];
        for (&bits, &found) in x.iter().zip(&found) {
            let wanted = (leaf.rust)(f64::from_bits(bits));
            if found == wanted.to_bits() || wanted.is_nan() && f64::from_bits(found).is_nan() {
                agreed[sort_of(bits)] += 1;
                continue;
            }
            self.differing += 1;
            if differences.len() < SHOWN {
                let (x, wanted) = (f64::from_bits(bits), wanted.to_bits());
                differences.push(format!("of {bits:016x} ({x:e}) the port has {found:016x}, the Rust {wanted:016x}"));
            }
        }
        for (sort, agreed) in SORTS.iter().zip(agreed).filter(|(_, agreed)| *agreed > 0) {
            *self.agreed.entry(format!("{}, {sort}", leaf.name)).or_default() += agreed;
        }
        let rest = check_code(returned as u64, done as u64)
            .and_then(|()| self.result.check("out", &found, None))
            .and_then(|()| check_kept("x", &self.numbers[shift..], x));
        if let Err(rest) = rest {
            self.differing += 1;
            differences.insert(0, rest);
        }
        differences
    }
}

/// Its place in SORTS.
fn sort_of(bits: u64) -> usize {
    let x = f64::from_bits(bits);
    if x.is_nan() {
        5
    } else if x < 0.0 {
        4
    } else if x == f64::INFINITY {
        3
    } else if x == 0.0 {
        2
    } else if x.is_subnormal() {
        1
    } else {
        0
    }
}

fn check_code(found: u64, wanted: u64) -> Result<(), String> {
    if found == wanted {
        Ok(())
    } else {
        Err(format!("returned {found}, wanted {wanted}"))
    }
}

fn check_kept<T: PartialEq>(name: &str, found: &[T], wanted: &[T]) -> Result<(), String> {
    if found == wanted {
        Ok(())
    } else {
        Err(format!("{name}: written to"))
    }
}

/// The kind that word 0 names, for the summary.
fn kind_label(bytes: &[u8]) -> String {
    match bytes.first().map(|byte| byte >> 4) {
        Some(kind) if bytes.len() >= 8 && (1..=7).contains(&kind) => kind.to_string(),
        _ => "?".to_string(),
    }
}

fn words(list: &[u64]) -> String {
    list.iter().map(|word| format!("{word:016x}")).collect::<Vec<_>>().join(" ")
}

/// The whole words, then the bytes of a cut one; long cards are shortened to what the layout can hold.
fn hexadecimal(bytes: &[u8]) -> String {
    let whole = card::whole_words(bytes);
    let cut: String = bytes[8 * whole.len()..].iter().map(|byte| format!("{byte:02x}")).collect();
    if whole.len() <= 700 {
        format!("{} {cut}", words(&whole))
    } else {
        format!("{} .. ({} bytes in all)", words(&whole[..700]), bytes.len())
    }
}

fn main() -> ExitCode {
    let arguments: Vec<String> = std::env::args().skip(1).collect();
    let numbers: Option<(u64, u64)> = match arguments.as_slice() {
        [count, seed, ..] => count.parse().ok().zip(seed.parse().ok()),
        _ => None,
    };
    let Some((count, seed)) = numbers else {
        eprintln!("{USAGE}");
        return ExitCode::from(2);
    };
    let groups = &arguments[2..];
    if !groups.iter().all(|group| GROUPS.contains(&group.as_str())) {
        eprintln!("{USAGE}");
        return ExitCode::from(2);
    }
    let wanted = |group: &str| groups.is_empty() || groups.iter().any(|name| name == group);
    let mut compare = Compare::new(seed);

    for kind in 1..=7u8 {
        if !wanted(&kind.to_string()) {
            continue;
        }
        let mut rng = Rng::new(seed.wrapping_mul(8).wrapping_add(u64::from(kind)));
        let built = BUILT.contains(&kind);
        for bytes in fixed::edges(kind).iter().chain(&fixed::sweep(&fixed::base(kind))) {
            compare.sheet(bytes);
        }
        let share = match kind {
            5 => FIT_SHARE,
            _ => 1,
        };
        // Kinds that the port lacks are all one refusal.
        for _ in 0..if built { count / share } else { count / 50 } {
            compare.sheet(&makers::card(kind, &mut rng));
        }
        if kind == 5 && built {
            for _ in 0..count / share / CARDS_PER_SERIES {
                for words in fits::series(&mut rng) {
                    compare.sheet(&bytes_of(&words));
                }
                compare.count_cases("kind 5", vec!["one card at 1 to 12 iterations"]);
            }
        }
    }
    if wanted("read") {
        let mut rng = Rng::new(seed.wrapping_mul(8));
        for (bytes, _) in fixed::traps() {
            compare.read(&bytes);
            compare.sheet(&bytes);
        }
        for kind in 1..=7 {
            for bytes in fixed::edges(kind).iter().chain(&fixed::sweep(&fixed::base(kind))) {
                compare.read(bytes);
            }
            for bytes in fixed::sweep(&makers::readings::accepted(kind, &mut Rng::new(3))) {
                compare.read(&bytes);
            }
        }
        for k in 0..count {
            if k % 8 == 0 {
                let kind = rng.between(1, 7) as u8;
                let words = makers::card_of_kind(kind, &mut rng);
                compare.read(&bytes_of(&words));
            } else {
                compare.read(&makers::readings::reading(&mut rng));
            }
        }
    }

    for (place, &entry) in ENTRIES.iter().enumerate().filter(|(_, entry)| wanted(entry)) {
        if !port::ENTRIES.contains(&entry) {
            println!("{entry}: not in the port");
            continue;
        }
        let mut rng = Rng::new(seed.wrapping_mul(8).wrapping_add(place as u64) ^ 0xca11);
        for call in calls::fixed(entry) {
            compare.call(&call);
        }
        for _ in 0..count {
            compare.call(&calls::call(entry, &mut rng));
        }
    }

    for leaf in LEAVES.iter().filter(|leaf| wanted(leaf.name)) {
        let mut rng = Rng::new(seed);
        compare.numbers(leaf, (leaf.fixed)(&mut rng).into_iter());
        compare.numbers(leaf, (0..count.saturating_mul(NUMBERS_PER_COUNT)).map(|_| arguments::any(&mut rng)));
    }

    for (label, agreed) in &compare.agreed {
        println!("{label}: {agreed} agreed");
    }
    for (case, met) in &compare.cases {
        println!("{case}: {met} times");
    }
    let agreed: u64 = compare.agreed.values().sum();
    println!("{agreed} agreed, {} differ", compare.differing);
    if compare.differing == 0 {
        ExitCode::SUCCESS
    } else {
        ExitCode::FAILURE
    }
}
