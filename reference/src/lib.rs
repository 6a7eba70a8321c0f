//! The Rust as the oracle of the port: the original functions with document 01's stand-ins, a reader of cards and a
//! printer of sheets of their own, library calls, makers of cards, and the port's entry points (feature `port`).

pub mod card;
pub mod cases;
pub mod hooks;
pub mod leaves;
pub mod library;
pub mod ln;
pub mod makers;
pub mod open_quantum_systems;
#[cfg(feature = "port")]
pub mod port;
pub mod random;
pub mod series;
pub mod sheet;
pub mod substitute;

/// The kinds that the port's sheet entry has.
pub const BUILT: &[u8] = &[1, 2, 3, 4, 5, 6, 7];

/// The Rust with its substitutions.
#[allow(clippy::all)]
pub mod tomography {
    use crate::leaves::Leaves;
    use crate::open_quantum_systems;
    include!(concat!(env!("OUT_DIR"), "/tomography.rs"));
}

#[cfg(test)]
mod tests;
