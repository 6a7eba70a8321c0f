//! Cards of random and damaged bytes through the port, each slice beside a page that may not be touched: `guard COUNT SEED`.
//! `guard before` and `guard after` touch such a page, and so must not come to an end.
//!
//! A slice ends where the page after it begins, or begins where the page before it ends, by turns; a reading or writing outside
//! ends the process. Among the COUNT cards come library calls with random arguments, one for seven cards, between such pages
//! too. Nothing is compared with the Rust but what every call promises: the code and the answer agree, a refusal writes no
//! result word, and work is all +0. The last line is printed only if every call came to an end.

use reference::card::{bytes_of, MOST_BACKTRACKS, MOST_ITERATIONS, MOST_WORDS};
use reference::library::Call;
use reference::makers::{self, calls, readings};
use reference::port::{self, ANSWER_WORDS, RESULT_WORDS, WORK_WORDS};
use reference::random::Rng;
use std::collections::BTreeMap;
use std::ffi::c_void;

extern "C" {
    fn mmap(address: *mut c_void, length: usize, protection: i32, flags: i32, file: i32, offset: i64) -> *mut c_void;
    fn mprotect(address: *mut c_void, length: usize, protection: i32) -> i32;
}

// As Linux has them on x86-64.
const PROT_NONE: i32 = 0;
const PROT_READ_WRITE: i32 = 1 | 2;
const MAP_PRIVATE_ANONYMOUS: i32 = 2 | 32;
const PAGE: usize = 4096;

/// Larger cards than this are all refused alike.
const MOST_BYTES: usize = 8 * MOST_WORDS + 64;
/// Numbers in one argument of a library call.
const MOST_ARGUMENTS: usize = 20_000;
/// A fit may ask for so much that one card takes minutes; few steps and trials reach the same code.
const FEW: u64 = 6;

/// Bytes with a page before them and one after them that may not be touched.
struct Room {
    first: *mut u8,
    size: usize,
}

impl Room {
    fn new(least: usize) -> Self {
        let size = least.next_multiple_of(PAGE);
        // SAFETY: a new mapping of our own; only its middle is opened.
        let first = unsafe {
            let all = mmap(std::ptr::null_mut(), size + 2 * PAGE, PROT_NONE, MAP_PRIVATE_ANONYMOUS, -1, 0);
            assert!(all as isize != -1, "the mapping is made");
            let first = all.cast::<u8>().add(PAGE);
            assert_eq!(mprotect(first.cast(), size, PROT_READ_WRITE), 0, "its middle is opened");
            first
        };
        Room { first, size }
    }

    /// Its last bytes, or its first.
    fn bytes(&mut self, length: usize, at_end: bool) -> &mut [u8] {
        assert!(length <= self.size);
        let shift = if at_end { self.size - length } else { 0 };
        // SAFETY: within the open middle, which lives as long as the process; the borrow keeps it single.
        unsafe { std::slice::from_raw_parts_mut(self.first.add(shift), length) }
    }

    /// The numbers, put there.
    fn numbers(&mut self, values: &[f64], at_end: bool) -> &[f64] {
        let words = self.words(values.len(), at_end);
        words.iter_mut().zip(values).for_each(|(word, x)| *word = x.to_bits());
        // SAFETY: a word has the size and alignment of a number.
        unsafe { std::slice::from_raw_parts(words.as_ptr().cast(), values.len()) }
    }

    /// The same in words. A page is a whole number of words.
    fn words(&mut self, length: usize, at_end: bool) -> &mut [u64] {
        let bytes = self.bytes(8 * length, at_end);
        // SAFETY: both ends of the room and the length are multiples of 8 bytes.
        unsafe { std::slice::from_raw_parts_mut(bytes.as_mut_ptr().cast(), length) }
    }
}

/// Random bytes, mostly behind a word 0 that has a kind; or a card with faults of words and bytes.
fn card(rng: &mut Rng) -> Vec<u8> {
    let style = rng.below(10);
    let mut bytes = match style {
        0 => (0..rng.index(300)).map(|_| rng.next() as u8).collect(),
        1 => {
            // Any size up to the largest, a little more too.
            let size = rng.index(MOST_BYTES) >> rng.below(8);
            bytes_of(&(0..size / 8 + 1).map(|_| rng.next()).collect::<Vec<_>>())[..size].to_vec()
        }
        2 | 3 => {
            // The right layout with random words in all places, or in most of them.
            let mut words = readings::accepted(rng.between(1, 7) as u8, rng);
            if style == 3 {
                for _ in 0..rng.below(6) {
                    let place = rng.index(words.len());
                    words[place] = rng.next();
                }
            }
            bytes_of(&words)
        }
        4 => readings::reading(rng),
        _ => makers::card(rng.between(1, 7) as u8, rng),
    };
    for _ in 0..rng.pick(&[0, 0, 0, 1, 1, 2, 8]) {
        if !bytes.is_empty() {
            let place = rng.index(bytes.len());
            bytes[place] = rng.pick(&[0, 0xff, 0x7f, 0x80, rng.clone().next() as u8]);
        }
    }
    if rng.chance(20) {
        bytes = makers::damage::damage(bytes, rng);
    }
    bytes.truncate(MOST_BYTES);
    shorten_fit(&mut bytes);
    bytes
}

/// Fewer iterations and backtracks, where both are within their limits.
fn shorten_fit(bytes: &mut [u8]) {
    if bytes.len() >= 64 && bytes[0] >> 4 == 5 {
        for (place, most) in [(1, MOST_ITERATIONS), (7, MOST_BACKTRACKS)] {
            let word = u64::from_be_bytes(bytes[8 * place..][..8].try_into().expect("eight bytes"));
            if (FEW..=most).contains(&word) {
                bytes[8 * place..][..8].copy_from_slice(&FEW.to_be_bytes());
            }
        }
    }
}

/// Mostly the least, sometimes shorter or longer.
fn length(least: usize, longest: usize, rng: &mut Rng) -> usize {
    match rng.below(100) {
        0 => 0,
        1 => least - 1,
        2 => rng.index(least),
        3..=9 => least + rng.index(longest - least + 1),
        _ => least,
    }
}

/// One byte outside a room.
fn touch(after: bool) {
    let room = Room::new(PAGE);
    // SAFETY: none; the process has to end here.
    let byte = unsafe { room.first.offset(if after { room.size as isize } else { -1 }).read_volatile() };
    println!("a byte outside was read: {byte}");
}

/// Rooms for the arguments of library calls.
struct Arguments {
    numbers: [Room; 2],
    words: [Room; 2],
}

impl Arguments {
    fn new() -> Self {
        let room = || Room::new(8 * MOST_ARGUMENTS);
        Arguments { numbers: [room(), room()], words: [room(), room()] }
    }

    fn call(&mut self, call: &Call, ends: u64, result: &mut [u64], work: &mut [u64], answer: &mut [u64]) -> u64 {
        let [first, second] = &mut self.numbers;
        let [names_room, sequence_room] = &mut self.words;
        let at_end = |bit: u64| ends >> bit & 3 != 0;
        match call {
            Call::Apply { n, values, input } => {
                let (values, input) = (first.numbers(values, at_end(16)), second.numbers(input, at_end(18)));
                port::apply(*n, values, input, result, work, answer)
            }
            Call::Choi { n, values } => port::choi(*n, first.numbers(values, at_end(16)), result, work, answer),
            Call::Probabilities { d, effects, names, numbers, sequence } => {
                let given = names_room.words(names.len(), at_end(18));
                given.copy_from_slice(names);
                let applied = sequence_room.words(sequence.len(), at_end(20));
                applied.copy_from_slice(sequence);
                let numbers = first.numbers(numbers, at_end(16));
                port::probabilities(*d, *effects, given, numbers, applied, result, work, answer)
            }
            other => port::call(other, result, work, answer),
        }
    }
}

/// A call of any entry that the port has, with no argument longer than a room.
fn library_call(rng: &mut Rng) -> Call {
    loop {
        let call = calls::call(rng.pick(port::ENTRIES), rng);
        if call.words().len() <= MOST_ARGUMENTS {
            return call;
        }
    }
}

fn main() {
    match std::env::args().nth(1).as_deref() {
        Some("before") => return touch(false),
        Some("after") => return touch(true),
        _ => {}
    }
    let arguments: Vec<u64> = std::env::args().skip(1).map(|word| word.parse().expect("guard COUNT SEED")).collect();
    let [count, seed] = arguments[..] else { panic!("guard COUNT SEED") };
    let mut rng = Rng::new(seed ^ 0x9a4d);
    let (more_result, more_work, more_answer) = (RESULT_WORDS + 100, WORK_WORDS + 100, ANSWER_WORDS + 20);
    let mut card_room = Room::new(MOST_BYTES);
    let mut result_room = Room::new(8 * more_result);
    let mut work_room = Room::new(8 * more_work);
    let mut answer_room = Room::new(8 * more_answer);
    let mut met: BTreeMap<String, u64> = BTreeMap::new();

    let mut arguments = Arguments::new();
    let (mut cards, mut calls) = (0, 0);
    while cards < count {
        let ends = rng.next();
        let result = result_room.words(length(RESULT_WORDS, more_result, &mut rng), ends & 12 != 0);
        let work = work_room.words(length(WORK_WORDS, more_work, &mut rng), ends & 48 != 0);
        let answer = answer_room.words(length(ANSWER_WORDS, more_answer, &mut rng), ends & 192 != 0);
        let garbage = rng.next();
        result.fill(garbage);
        work.fill(garbage);
        answer.fill(garbage);

        let (label, given, returned) = match ends >> 8 & 7 {
            0 => {
                calls += 1;
                let call = library_call(&mut rng);
                let returned = arguments.call(&call, ends, result, work, answer);
                (call.entry().0.to_string(), bytes_of(&call.words()), returned)
            }
            entry => {
                cards += 1;
                let given = card(&mut rng);
                let bytes = card_room.bytes(given.len(), ends & 3 != 0);
                bytes.copy_from_slice(&given);
                let (name, returned) = if entry == 1 {
                    // The reader is lent neither.
                    work.fill(0);
                    ("read", port::read(bytes, answer))
                } else {
                    ("sheet", port::sheet(bytes, result, work, answer))
                };
                assert!(bytes == &given[..], "the card is kept: {given:02x?}");
                let kind = match given.first().map(|byte| byte >> 4) {
                    Some(kind) if given.len() >= 8 && (1..=7).contains(&kind) => kind.to_string(),
                    _ => "?".to_string(),
                };
                (format!("{name}, kind {kind}"), given, returned)
            }
        };
        assert!(work.iter().all(|&word| word == 0), "work is cleared: {given:02x?}");
        assert!(returned == 0 || result.iter().all(|&word| word == garbage), "no result word: {given:02x?}");
        if answer.len() >= ANSWER_WORDS {
            let agree = if returned == 0 { answer[0] != 0 } else { answer[..2] == [0, returned] };
            assert!(agree, "code {returned}, answer {:x?}: {given:02x?}", &answer[..ANSWER_WORDS]);
        } else {
            assert!(returned == 16 && answer.iter().all(|&word| word == garbage), "16: {given:02x?}");
        }
        let end = if returned == 0 { "accepted".to_string() } else { format!("refused {returned:2}") };
        *met.entry(format!("{label}, {end}")).or_default() += 1;
    }
    for (label, times) in &met {
        println!("{label}: {times}");
    }
    println!("{cards} cards and {calls} calls, none touched a guard page");
}
