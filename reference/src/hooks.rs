//! What the changed Rust asks from outside and tells to outside. It has no argument for either, so both stand beside it.

use crate::leaves::Leaves;
use crate::open_quantum_systems::Complex64;
use core::cmp::Ordering;
use std::cell::{Cell, RefCell};

thread_local! {
    static ROTATIONS: Cell<Option<usize>> = const { Cell::new(None) };
    static EVALUATIONS: Cell<u64> = const { Cell::new(0) };
    static WATCHED: Cell<bool> = const { Cell::new(false) };
    static NOTES: RefCell<Notes> = RefCell::new(Notes::default());
}

/// What happened inside the Rust's functions.
#[derive(Default)]
pub struct Notes {
    pub pivots: Vec<Pivot>,
    pub turns: Vec<Turn>,
    /// Of the last `eig` that came to an end.
    pub eigenvalues: Vec<f64>,
    pub fit: Vec<Event>,
    pub likelihood: Likelihood,
}

/// What happens in a fit, in its order.
#[derive(Clone, Copy, Debug)]
pub enum Event {
    /// A gradient begins.
    Gradient,
    /// The objectives of one coordinate's probes; none where the probabilities failed.
    Probes { above: Option<f64>, below: Option<f64> },
    /// The norm of a gradient, before it is tested at a point where steps are left.
    Norm(f64),
    /// A trial's objective beside the present one; none where its probabilities failed.
    Trial { objective: Option<f64>, present: f64 },
}

/// What evaluations of the likelihood met, of all records.
#[derive(Clone, Copy, Debug, Default)]
pub struct Likelihood {
    /// A number beside its limit: one float inside, at it, one float outside. The limits are minus the tolerance, 1 plus the
    /// tolerance, and the tolerance for the distance of the sum from 1.
    pub low: [bool; 3],
    pub high: [bool; 3],
    pub sum: [bool; 3],
    pub not_finite: bool,
    /// Below 0 or above 1.
    pub outside: bool,
    pub zero_total: bool,
    /// A clamped probability of zero and a positive count.
    pub zero_counted: bool,
}

/// A pivot as the Rust's elimination chose it, before it is tested.
#[derive(Clone, Copy, Debug)]
pub struct Pivot {
    pub size: f64,
    pub threshold: f64,
    /// The largest number of the other rows at or below the diagonal; NaN if there is none or one is a NaN.
    pub next: f64,
    /// A row at or below the diagonal is as large.
    pub tie: bool,
    /// It comes from a lower row.
    pub moved: bool,
    /// Both matrices are finite so far.
    pub finite: bool,
}

/// A turn of `eig`'s loop, before it tests whether another rotation is needed.
#[derive(Clone, Copy, Debug)]
pub struct Turn {
    /// The largest magnitude above the diagonal, and what it is compared with.
    pub best: f64,
    pub limit: f64,
    /// Another entry above the diagonal is as large.
    pub tie: bool,
    /// A magnitude above the diagonal is a NaN.
    pub nan: bool,
    /// Every part of the matrix is finite.
    pub finite: bool,
}

/// Runs `f` with this limit of rotations for every `eig` inside.
pub fn with_rotations<T>(limit: usize, f: impl FnOnce() -> T) -> T {
    let before = ROTATIONS.replace(Some(limit));
    let value = f();
    ROTATIONS.set(before);
    value
}

/// Runs `f` and tells how often it evaluated the likelihood.
pub fn with_evaluations<T>(f: impl FnOnce() -> T) -> (T, u64) {
    EVALUATIONS.set(0);
    let value = f();
    (value, EVALUATIONS.get())
}

/// Runs `f` and tells what was noted inside; nothing without the feature `watch`.
pub fn with_notes<T>(f: impl FnOnce() -> T) -> (T, Notes) {
    NOTES.take();
    WATCHED.set(true);
    let value = f();
    WATCHED.set(false);
    (value, NOTES.take())
}

/// The pivots of every elimination inside `f`.
pub fn with_pivots<T>(f: impl FnOnce() -> T) -> (T, Vec<Pivot>) {
    let (value, notes) = with_notes(f);
    (value, notes.pivots)
}

pub(crate) fn rotation_limit() -> usize {
    ROTATIONS.get().expect("every call of eig is given its limit")
}

pub(crate) fn count_evaluation() {
    EVALUATIONS.set(EVALUATIONS.get() + 1);
}

/// Step k of an elimination of `left` beside `right`, both n by n.
#[inline(always)]
pub(crate) fn note_pivot(left: &[f64], right: &[f64], n: usize, k: usize, pivot: usize, threshold: f64) {
    if cfg!(feature = "watch") && WATCHED.get() {
        keep_pivot(left, right, n, k, pivot, threshold);
    }
}

#[cold]
fn keep_pivot(left: &[f64], right: &[f64], n: usize, k: usize, pivot: usize, threshold: f64) {
    let size = |row: usize| left[row * n + k].abs();
    let others = || (k..n).filter(|&row| row != pivot).map(size);
    let noted = Pivot {
        size: size(pivot),
        threshold,
        next: others().max_by(|a, b| a.order_by_document_01(b)).unwrap_or(f64::NAN),
        tie: others().any(|other| other.order_by_document_01(&size(pivot)) == Ordering::Equal),
        moved: pivot != k,
        finite: left.iter().chain(right).all(|x| x.is_finite()),
    };
    NOTES.with_borrow_mut(|notes| notes.pivots.push(noted));
}

/// A turn of `eig` on the n by n matrix a.
#[inline(always)]
pub(crate) fn note_turn(a: &[Complex64], n: usize, best: f64, limit: f64) {
    if cfg!(feature = "watch") && WATCHED.get() {
        keep_turn(a, n, best, limit);
    }
}

#[cold]
fn keep_turn(a: &[Complex64], n: usize, best: f64, limit: f64) {
    let above = || (0..n).flat_map(|i| (i + 1..n).map(move |j| a[i * n + j].norm()));
    let noted = Turn {
        best,
        limit,
        tie: above().filter(|&size| size == best).count() > 1,
        nan: above().any(f64::is_nan),
        finite: a.iter().all(|z| z.re.is_finite() && z.im.is_finite()),
    };
    NOTES.with_borrow_mut(|notes| notes.turns.push(noted));
}

/// The eigenvalues of an `eig` that came to an end.
#[inline(always)]
pub(crate) fn note_eigenvalues(eigenvalues: &[f64]) {
    if cfg!(feature = "watch") && WATCHED.get() {
        NOTES.with_borrow_mut(|notes| notes.eigenvalues = eigenvalues.to_vec());
    }
}

/// An event of a fit.
#[inline(always)]
pub(crate) fn note_fit(event: Event) {
    if cfg!(feature = "watch") && WATCHED.get() {
        NOTES.with_borrow_mut(|notes| notes.fit.push(event));
    }
}

/// A record's probabilities, before they are tested.
#[inline(always)]
pub(crate) fn note_probabilities(probabilities: &[f64], tolerance: f64) {
    if cfg!(feature = "watch") && WATCHED.get() {
        keep_probabilities(probabilities, tolerance);
    }
}

#[cold]
fn keep_probabilities(probabilities: &[f64], tolerance: f64) {
    let (least, most) = (-tolerance, 1.0 + tolerance);
    let low = [least.next_up(), least, least.next_down()];
    let high = [most.next_down(), most, most.next_up()];
    let far = [tolerance.next_down(), tolerance, tolerance.next_up()];
    let distance = (probabilities.iter().sum::<f64>() - 1.0).abs();
    NOTES.with_borrow_mut(|notes| {
        let found = &mut notes.likelihood;
        for k in 0..3 {
            found.low[k] |= probabilities.contains(&low[k]);
            found.high[k] |= probabilities.contains(&high[k]);
            found.sum[k] |= distance == far[k];
        }
        found.not_finite |= probabilities.iter().any(|p| !p.is_finite());
        found.outside |= probabilities.iter().any(|p| *p < 0.0 || *p > 1.0);
    });
}

/// A record without counts.
#[inline(always)]
pub(crate) fn note_zero_total() {
    if cfg!(feature = "watch") && WATCHED.get() {
        NOTES.with_borrow_mut(|notes| notes.likelihood.zero_total = true);
    }
}

/// A clamped probability of zero that meets a positive count.
#[inline(always)]
pub(crate) fn note_zero_counted() {
    if cfg!(feature = "watch") && WATCHED.get() {
        NOTES.with_borrow_mut(|notes| notes.likelihood.zero_counted = true);
    }
}
