//! Document 01 written a second time, in plain Rust and without sight of the proved code, so that the two can be compared.
pub mod played;
pub mod printed;
pub mod rules;
