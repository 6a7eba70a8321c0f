//! Writes the stored cards and library calls and the Rust's answers: `answers DIR`.
//!
//! DIR/data/cards and DIR/data/readings hold each card after its length in bytes (8 bytes, highest first), and so
//! DIR/data/calls the words of each library call. DIR/stdout holds the sheets of the cards, the readings, a line each, and
//! the outcomes of the calls.

use reference::card::bytes_of;
use reference::cases;
use reference::hooks::with_notes;
use reference::makers::{self, calls, fixed, readings};
use reference::random::Rng;
use reference::sheet::{self, Outcome};
use reference::tomography::product_probe_expectations;
use reference::BUILT;
use std::collections::BTreeMap;
use std::path::Path;
use std::{env, fs, io};

/// Of each kind that the port has, kind 5 aside.
const SHEETS: usize = 300;
/// Of kind 5: so many in all, most of them no larger and with no more evaluations than this.
const FITS: usize = 150;
const FIT_BYTES: usize = 700;
const FIT_EVALUATIONS: u64 = 300;
/// Each case of a fit that a random card meets is stored so often.
const EACH_CASE: usize = 2;
/// Random fits that are looked through.
const FITS_TRIED: usize = 40_000;
const SHEET_BYTES: usize = 150_000;
const READINGS: usize = 700;
/// A card and its answer that are always small enough.
const LEAST: usize = 160;
/// Of the readings' cards, the largest one aside.
const READING_BYTES: usize = 80_000;

fn shuffled<T>(mut list: Vec<T>, rng: &mut Rng) -> Vec<T> {
    for k in (1..list.len()).rev() {
        list.swap(k, rng.index(k + 1));
    }
    list
}

/// Cards with their texts, under a limit of bytes.
struct Stored {
    cards: Vec<u8>,
    text: String,
    count: usize,
    print: fn(&[u8]) -> String,
}

impl Stored {
    fn new(print: fn(&[u8]) -> String) -> Self {
        Stored { cards: Vec::new(), text: String::new(), count: 0, print }
    }

    fn bytes(&self) -> usize {
        self.cards.len() + self.text.len()
    }

    fn put(&mut self, card: &[u8]) {
        self.text.push_str(&(self.print)(card));
        self.cards.extend((card.len() as u64).to_be_bytes());
        self.cards.extend(card);
        self.count += 1;
    }

    /// Cards by turns from the fixed lists and from `make`, until there are `count`. Most stay near the size that the
    /// limit leaves for each; a few may be larger.
    fn fill(
        &mut self,
        count: usize,
        limit: usize,
        fixed: Vec<Vec<Vec<u8>>>,
        make: impl Fn(&mut Rng) -> Vec<u8>,
        rng: &mut Rng,
    ) {
        let mut fixed: Vec<_> = fixed.into_iter().map(|list| shuffled(list, rng).into_iter()).collect();
        for turn in 0.. {
            if self.count >= count {
                return;
            }
            assert!(turn < 1_000_000, "the limit of bytes is too low");
            let sources = fixed.len() + 3;
            let card = fixed.get_mut(turn % sources).and_then(|list| list.next()).unwrap_or_else(|| make(rng));
            let usual = limit.saturating_sub(self.bytes()) / (count - self.count);
            let most = if rng.chance(10) { 10 * usual } else { (3 * usual / 2).max(LEAST) };
            if card.len() + 8 <= most && card.len() + 8 + (self.print)(&card).len() <= most {
                self.put(&card);
            }
        }
    }
}

/// Cards of the largest shapes, above the size of the others.
fn large(kind: u8) -> Vec<Vec<u64>> {
    let mut rng = Rng::new(2023);
    let mut list = Vec::new();
    match kind {
        3 => {
            let probes = product_probe_expectations(2).expect("n is 2");
            let mut outputs = probes.clone();
            for x in outputs.iter_mut().flat_map(|row| row.iter_mut().skip(1)) {
                *x = 0.9 * *x + 0.01 * rng.signed();
            }
            list.push(fixed::process(2, 1e-9, &probes.concat(), &outputs.concat()));
            list.push(fixed::process(2, 1e-9, &outputs.concat(), &probes.concat()));
            list.push(fixed::process(2, 1e-9, &vec![1.0; 256], &probes.concat()));
        }
        4 => {
            let values: Vec<f64> =
                (0..256).map(|k| if k % 17 == 0 { 0.9 } else { 0.01 * rng.signed() }).collect();
            list.push(fixed::physical(2, 1e-9, 16_384, &values));
            list.push(fixed::physical(2, 1e-9, 40, &values));
            let wild: Vec<f64> = (0..256).map(|_| rng.signed()).collect();
            list.push(fixed::physical(2, 1e-12, 16_384, &wild));
        }
        6 => {
            let model = fixed::model_of_size(16, 4, 2, &mut rng);
            let mut near_one = fixed::diagonal(&[1.0; 16]);
            near_one.iter_mut().for_each(|x| *x += 0.05 * rng.signed());
            list.push(fixed::gauge(&model, &near_one));
            list.push(fixed::gauge(&fixed::model_of_size(5, 3, 8, &mut rng), &near_one[..25]));
        }
        _ => {}
    }
    list
}

fn sheets() -> Stored {
    let mut stored = Stored::new(|card| sheet::print(&sheet::built_outcome(card)));
    let mut rng = Rng::new(2024);
    for (words, _) in fixed::stars() {
        stored.put(&bytes_of(&words));
    }
    for kind in 1..=7 {
        stored.put(&bytes_of(&fixed::base(kind)));
    }
    for size in [0, 1, 7, 8] {
        stored.put(&vec![0x11; size]);
    }
    for &kind in BUILT {
        if kind == 5 {
            fits(&mut stored);
            continue;
        }
        for words in large(kind) {
            stored.put(&bytes_of(&words));
        }
        let (count, limit) = (stored.count + SHEETS, stored.bytes() + SHEET_BYTES);
        let fixed = vec![fixed::edges(kind), fixed::sweep(&fixed::base(kind))];
        stored.fill(count, limit, fixed, |rng| makers::card(kind, rng), &mut rng);
    }
    stored
}

/// Fits by the cases that they meet: a card is stored if one of its cases is still wanted. Small cards first, so that larger
/// ones are taken only for what no small one meets; then one card at 1 to 12 iterations, and any others.
fn fits(stored: &mut Stored) {
    let mut rng = Rng::new(2026);
    let first = stored.count;
    let mut met: BTreeMap<String, usize> = BTreeMap::new();
    let cards: Vec<Vec<u8>> = (0..FITS_TRIED).map(|_| makers::card(5, &mut rng)).collect();
    for (bytes, evaluations, wanted) in
        [(FIT_BYTES, FIT_EVALUATIONS, EACH_CASE), (4 * FIT_BYTES, 2 * FIT_EVALUATIONS, 1), (20 * FIT_BYTES, u64::MAX, 1)]
    {
        for card in cards.iter().filter(|card| card.len() <= bytes && !card.is_empty() && card[0] >> 4 == 5) {
            let (outcome, notes) = with_notes(|| sheet::built_outcome(card));
            let (end, cost) = match &outcome {
                Outcome::Accepted { header, .. } => ("accepted".to_string(), header[2]),
                Outcome::Refused(refusal) => (format!("refused {}", refusal.n), 0),
            };
            let cases = cases::of_card(card, &outcome, &notes).into_iter().map(str::to_string).chain([end]);
            let cases: Vec<String> = cases.collect();
            let lacking = |case: &String| met.get(case).copied().unwrap_or(0) < wanted;
            if cost <= evaluations && cases.iter().any(lacking) {
                stored.put(card);
                cases.into_iter().for_each(|case| *met.entry(case).or_default() += 1);
            }
        }
    }
    let small = |cards: &Vec<Vec<u64>>| cards[0].len() <= FIT_BYTES / 8;
    let twelve = (0..1000).map(|_| makers::fits::series(&mut rng)).find(|cards| small(cards) && makes_steps(&cards[11]));
    for words in twelve.expect("some series is small") {
        stored.put(&bytes_of(&words));
    }
    for card in cards.iter().filter(|card| card.len() <= FIT_BYTES / 2) {
        if stored.count - first < FITS {
            stored.put(card);
        }
    }
}

/// The fit still makes steps at its limit.
fn makes_steps(words: &[u64]) -> bool {
    matches!(sheet::outcome(&bytes_of(words)), Outcome::Accepted { header: [3, ..], .. })
}

fn readings() -> Stored {
    let mut stored = Stored::new(|card| sheet::print_reading(&sheet::reading(card)));
    let mut rng = Rng::new(2025);
    let (mut large, mut small) = (Vec::new(), Vec::new());
    for (card, _) in fixed::traps() {
        if card.len() > 60_000 {
            large.push(card);
        } else {
            small.push(card);
        }
    }
    for card in small.iter().filter(|card| card.len() <= 400) {
        stored.put(card);
    }
    for kind in 1..=7 {
        stored.put(&bytes_of(&fixed::base(kind)));
        let (count, limit) = (READINGS * kind as usize / 7, READING_BYTES * kind as usize / 7);
        let (count, limit) = (count.max(stored.count + 40), limit.max(stored.bytes() + 6_000));
        let fixed = vec![fixed::sweep(&fixed::base(kind))];
        stored.fill(count, limit, fixed, readings::reading, &mut rng);
    }
    // One card above the largest size; the others are as large and are compared from memory.
    let longer = large.iter().find(|card| card.len() == 65_537).expect("the traps have this size");
    stored.put(longer);
    stored
}

/// The calls, their outcomes and how many.
fn library_calls() -> (Vec<u8>, String, usize) {
    let list = calls::stored();
    let stored = |words: Vec<u64>| bytes_of(&[&[8 * words.len() as u64], &words[..]].concat());
    let bytes = list.iter().flat_map(|call| stored(call.words())).collect();
    let text = list.iter().map(|call| sheet::print(&call.outcome())).collect();
    (bytes, text, list.len())
}

fn main() -> io::Result<()> {
    let Some(folder) = env::args().nth(1) else {
        eprintln!("answers DIR");
        std::process::exit(2);
    };
    let (folder, sheets, readings) = (Path::new(&folder), sheets(), readings());
    fs::create_dir_all(folder.join("data"))?;
    fs::write(folder.join("data/cards"), &sheets.cards)?;
    fs::write(folder.join("data/readings"), &readings.cards)?;
    let (calls, outcomes, count) = library_calls();
    fs::write(folder.join("data/calls"), calls)?;
    fs::write(folder.join("stdout"), sheets.text + &readings.text + &outcomes)?;
    println!("{} cards, {} readings, {count} calls", sheets.count, readings.count);
    Ok(())
}
