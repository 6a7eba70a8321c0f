//! The port's entry points in its static library. Nothing checks these declarations against the port's source.

use crate::library::Call;

extern "C" {
    fn mintshuttle_sheet(
        card: *const u8,
        card_len: usize,
        result: *mut u64,
        result_len: usize,
        work: *mut f64,
        work_len: usize,
        answer: *mut u64,
        answer_len: usize,
    ) -> u64;

    fn mintshuttle_read(card: *const u8, card_len: usize, answer: *mut u64, answer_len: usize) -> u64;

    fn mintshuttle_probes(
        n: u64,
        result: *mut u64,
        result_len: usize,
        work: *mut f64,
        work_len: usize,
        answer: *mut u64,
        answer_len: usize,
    ) -> u64;

    fn mintshuttle_setting(
        n: u64,
        index: u64,
        result: *mut u64,
        result_len: usize,
        work: *mut f64,
        work_len: usize,
        answer: *mut u64,
        answer_len: usize,
    ) -> u64;

    fn mintshuttle_apply(
        n: u64,
        values: *const f64,
        values_len: usize,
        input: *const f64,
        input_len: usize,
        result: *mut u64,
        result_len: usize,
        work: *mut f64,
        work_len: usize,
        answer: *mut u64,
        answer_len: usize,
    ) -> u64;

    fn mintshuttle_choi(
        n: u64,
        values: *const f64,
        values_len: usize,
        result: *mut u64,
        result_len: usize,
        work: *mut f64,
        work_len: usize,
        answer: *mut u64,
        answer_len: usize,
    ) -> u64;

    fn mintshuttle_probabilities(
        d: u64,
        effects: u64,
        names: *const u64,
        names_len: usize,
        numbers: *const f64,
        numbers_len: usize,
        sequence: *const u64,
        sequence_len: usize,
        result: *mut u64,
        result_len: usize,
        work: *mut f64,
        work_len: usize,
        answer: *mut u64,
        answer_len: usize,
    ) -> u64;

    fn mintshuttle_sqrt_all(x: *const f64, x_len: usize, out: *mut f64, out_len: usize) -> usize;

    fn mintshuttle_ln_all(x: *const f64, x_len: usize, out: *mut f64, out_len: usize) -> usize;
}

/// The library entries that the port has; calls of others are passed over.
pub const ENTRIES: &[&str] = &["probes", "setting", "apply", "choi", "probabilities"];

/// The least lengths of the lent slices.
pub const RESULT_WORDS: usize = 4096;
pub const WORK_WORDS: usize = 8192;
pub const ANSWER_WORDS: usize = 5;

/// The sheet of a card. `work` holds the bits of floats, so that any NaN can be lent.
pub fn sheet(card: &[u8], result: &mut [u64], work: &mut [u64], answer: &mut [u64]) -> u64 {
    // SAFETY: each pointer comes with its slice's length, and f64 has the size and alignment of u64.
    unsafe {
        mintshuttle_sheet(
            card.as_ptr(),
            card.len(),
            result.as_mut_ptr(),
            result.len(),
            work.as_mut_ptr().cast::<f64>(),
            work.len(),
            answer.as_mut_ptr(),
            answer.len(),
        )
    }
}

/// The reader alone.
pub fn read(card: &[u8], answer: &mut [u64]) -> u64 {
    // SAFETY: each pointer comes with its slice's length.
    unsafe { mintshuttle_read(card.as_ptr(), card.len(), answer.as_mut_ptr(), answer.len()) }
}

/// The probe design of n qubits.
pub fn probes(n: u64, result: &mut [u64], work: &mut [u64], answer: &mut [u64]) -> u64 {
    // SAFETY: as for the sheet.
    unsafe {
        mintshuttle_probes(
            n,
            result.as_mut_ptr(),
            result.len(),
            work.as_mut_ptr().cast::<f64>(),
            work.len(),
            answer.as_mut_ptr(),
            answer.len(),
        )
    }
}

/// One setting of n qubits.
pub fn setting(n: u64, index: u64, result: &mut [u64], work: &mut [u64], answer: &mut [u64]) -> u64 {
    // SAFETY: as for the sheet.
    unsafe {
        mintshuttle_setting(
            n,
            index,
            result.as_mut_ptr(),
            result.len(),
            work.as_mut_ptr().cast::<f64>(),
            work.len(),
            answer.as_mut_ptr(),
            answer.len(),
        )
    }
}

/// A transfer matrix on a vector of expectations.
pub fn apply(
    n: u64,
    values: &[f64],
    input: &[f64],
    result: &mut [u64],
    work: &mut [u64],
    answer: &mut [u64],
) -> u64 {
    // SAFETY: as for the sheet.
    unsafe {
        mintshuttle_apply(
            n,
            values.as_ptr(),
            values.len(),
            input.as_ptr(),
            input.len(),
            result.as_mut_ptr(),
            result.len(),
            work.as_mut_ptr().cast::<f64>(),
            work.len(),
            answer.as_mut_ptr(),
            answer.len(),
        )
    }
}

/// The normalized Choi matrix of a transfer matrix.
pub fn choi(n: u64, values: &[f64], result: &mut [u64], work: &mut [u64], answer: &mut [u64]) -> u64 {
    // SAFETY: as for the sheet.
    unsafe {
        mintshuttle_choi(
            n,
            values.as_ptr(),
            values.len(),
            result.as_mut_ptr(),
            result.len(),
            work.as_mut_ptr().cast::<f64>(),
            work.len(),
            answer.as_mut_ptr(),
            answer.len(),
        )
    }
}

/// The probabilities of a gate sequence.
#[allow(clippy::too_many_arguments)]
pub fn probabilities(
    d: u64,
    effects: u64,
    names: &[u64],
    numbers: &[f64],
    sequence: &[u64],
    result: &mut [u64],
    work: &mut [u64],
    answer: &mut [u64],
) -> u64 {
    // SAFETY: as for the sheet.
    unsafe {
        mintshuttle_probabilities(
            d,
            effects,
            names.as_ptr(),
            names.len(),
            numbers.as_ptr(),
            numbers.len(),
            sequence.as_ptr(),
            sequence.len(),
            result.as_mut_ptr(),
            result.len(),
            work.as_mut_ptr().cast::<f64>(),
            work.len(),
            answer.as_mut_ptr(),
            answer.len(),
        )
    }
}

/// Any library call.
pub fn call(call: &Call, result: &mut [u64], work: &mut [u64], answer: &mut [u64]) -> u64 {
    match call {
        Call::Probes { n } => probes(*n, result, work, answer),
        Call::Setting { n, index } => setting(*n, *index, result, work, answer),
        Call::Apply { n, values, input } => apply(*n, values, input, result, work, answer),
        Call::Choi { n, values } => choi(*n, values, result, work, answer),
        Call::Probabilities { d, effects, names, numbers, sequence } => {
            probabilities(*d, *effects, names, numbers, sequence, result, work, answer)
        }
    }
}

/// The root of each number of `x`, in `out`, as far as both go; how many. Both hold the bits of floats.
pub fn sqrt_all(x: &[u64], out: &mut [u64]) -> usize {
    // SAFETY: as for the sheet.
    unsafe { mintshuttle_sqrt_all(x.as_ptr().cast(), x.len(), out.as_mut_ptr().cast(), out.len()) }
}

/// The same with the logarithm.
pub fn ln_all(x: &[u64], out: &mut [u64]) -> usize {
    // SAFETY: as for the sheet.
    unsafe { mintshuttle_ln_all(x.as_ptr().cast(), x.len(), out.as_mut_ptr().cast(), out.len()) }
}
