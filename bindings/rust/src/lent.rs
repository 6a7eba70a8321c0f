//! The library's functions on lent slices, as include/mintshuttle.h has them: no allocation, and every length is checked by
//! the library itself (refusal 16). `answer` gets five words, which [`crate::Answer`] says in words.
//!
//! They are safe: a slice of Rust is aligned, its pointer is not null, and what is written is borrowed by the call alone.

/// How many words a result slice has at least.
pub const RESULT_WORDS: usize = 4096;
/// How many numbers a work slice has at least.
pub const WORK_NUMBERS: usize = 8192;
/// How many words an answer has at least.
pub const ANSWER_WORDS: usize = 5;

extern "C" {
    fn mintshuttle_sheet(
        card: *const u8,
        card_len: usize,
        result: *mut u64,
        result_len: usize,
        work: *mut f64,
        work_len: usize,
        answer: *mut u64,
        answer_len: usize,
    ) -> u64;

    fn mintshuttle_read(card: *const u8, card_len: usize, answer: *mut u64, answer_len: usize) -> u64;

    fn mintshuttle_probes(
        n: u64,
        result: *mut u64,
        result_len: usize,
        work: *mut f64,
        work_len: usize,
        answer: *mut u64,
        answer_len: usize,
    ) -> u64;

    fn mintshuttle_setting(
        n: u64,
        index: u64,
        result: *mut u64,
        result_len: usize,
        work: *mut f64,
        work_len: usize,
        answer: *mut u64,
        answer_len: usize,
    ) -> u64;

    fn mintshuttle_apply(
        n: u64,
        values: *const f64,
        values_len: usize,
        input: *const f64,
        input_len: usize,
        result: *mut u64,
        result_len: usize,
        work: *mut f64,
        work_len: usize,
        answer: *mut u64,
        answer_len: usize,
    ) -> u64;

    fn mintshuttle_choi(
        n: u64,
        values: *const f64,
        values_len: usize,
        result: *mut u64,
        result_len: usize,
        work: *mut f64,
        work_len: usize,
        answer: *mut u64,
        answer_len: usize,
    ) -> u64;

    fn mintshuttle_probabilities(
        d: u64,
        effects: u64,
        names: *const u64,
        names_len: usize,
        numbers: *const f64,
        numbers_len: usize,
        sequence: *const u64,
        sequence_len: usize,
        result: *mut u64,
        result_len: usize,
        work: *mut f64,
        work_len: usize,
        answer: *mut u64,
        answer_len: usize,
    ) -> u64;

    fn mintshuttle_sqrt_all(x: *const f64, x_len: usize, out: *mut f64, out_len: usize) -> usize;

    fn mintshuttle_ln_all(x: *const f64, x_len: usize, out: *mut f64, out_len: usize) -> usize;
}

/// The sheet of a card: 0, or the refusal's number.
pub fn sheet(card: &[u8], result: &mut [u64], work: &mut [f64], answer: &mut [u64]) -> u64 {
    // SAFETY: each pointer comes with its slice's length, and the slices that are written are borrowed by this call alone. The
    // same holds of every call below.
    unsafe {
        mintshuttle_sheet(
            card.as_ptr(),
            card.len(),
            result.as_mut_ptr(),
            result.len(),
            work.as_mut_ptr(),
            work.len(),
            answer.as_mut_ptr(),
            answer.len(),
        )
    }
}

/// What the reader says of a card: 0, and its kind in the answer's first word, or the refusal's number.
pub fn read(card: &[u8], answer: &mut [u64]) -> u64 {
    // SAFETY: as for `sheet`.
    unsafe { mintshuttle_read(card.as_ptr(), card.len(), answer.as_mut_ptr(), answer.len()) }
}

/// The probe design of n qubits, 1 to 3.
pub fn probes(n: u64, result: &mut [u64], work: &mut [f64], answer: &mut [u64]) -> u64 {
    // SAFETY: as for `sheet`.
    unsafe {
        mintshuttle_probes(
            n,
            result.as_mut_ptr(),
            result.len(),
            work.as_mut_ptr(),
            work.len(),
            answer.as_mut_ptr(),
            answer.len(),
        )
    }
}

/// Measurement setting `index` of n qubits, 1 to 3.
pub fn setting(n: u64, index: u64, result: &mut [u64], work: &mut [f64], answer: &mut [u64]) -> u64 {
    // SAFETY: as for `sheet`.
    unsafe {
        mintshuttle_setting(
            n,
            index,
            result.as_mut_ptr(),
            result.len(),
            work.as_mut_ptr(),
            work.len(),
            answer.as_mut_ptr(),
            answer.len(),
        )
    }
}

/// A transfer matrix applied to expectations.
pub fn apply(n: u64, values: &[f64], input: &[f64], result: &mut [u64], work: &mut [f64], answer: &mut [u64]) -> u64 {
    // SAFETY: as for `sheet`; `values` and `input` are only read.
    unsafe {
        mintshuttle_apply(
            n,
            values.as_ptr(),
            values.len(),
            input.as_ptr(),
            input.len(),
            result.as_mut_ptr(),
            result.len(),
            work.as_mut_ptr(),
            work.len(),
            answer.as_mut_ptr(),
            answer.len(),
        )
    }
}

/// The normalized Choi matrix of a transfer matrix.
pub fn choi(n: u64, values: &[f64], result: &mut [u64], work: &mut [f64], answer: &mut [u64]) -> u64 {
    // SAFETY: as for `sheet`.
    unsafe {
        mintshuttle_choi(
            n,
            values.as_ptr(),
            values.len(),
            result.as_mut_ptr(),
            result.len(),
            work.as_mut_ptr(),
            work.len(),
            answer.as_mut_ptr(),
            answer.len(),
        )
    }
}

/// The probabilities of a gate sequence.
#[allow(clippy::too_many_arguments)]
pub fn probabilities(
    d: u64,
    effects: u64,
    names: &[u64],
    numbers: &[f64],
    sequence: &[u64],
    result: &mut [u64],
    work: &mut [f64],
    answer: &mut [u64],
) -> u64 {
    // SAFETY: as for `sheet`; `names`, `numbers` and `sequence` are only read.
    unsafe {
        mintshuttle_probabilities(
            d,
            effects,
            names.as_ptr(),
            names.len(),
            numbers.as_ptr(),
            numbers.len(),
            sequence.as_ptr(),
            sequence.len(),
            result.as_mut_ptr(),
            result.len(),
            work.as_mut_ptr(),
            work.len(),
            answer.as_mut_ptr(),
            answer.len(),
        )
    }
}

/// The square root of each number of `x`, in `out`, as far as both go; how many.
pub fn sqrt_all(x: &[f64], out: &mut [f64]) -> usize {
    // SAFETY: as for `sheet`.
    unsafe { mintshuttle_sqrt_all(x.as_ptr(), x.len(), out.as_mut_ptr(), out.len()) }
}

/// The natural logarithm of each number of `x`, in `out`, as far as both go; how many.
pub fn ln_all(x: &[f64], out: &mut [f64]) -> usize {
    // SAFETY: as for `sheet`.
    unsafe { mintshuttle_ln_all(x.as_ptr(), x.len(), out.as_mut_ptr(), out.len()) }
}
