//! What the differential run and the benchmark share.

pub mod caches;
pub mod grid;
pub mod leaves;
pub mod plates;
pub mod random;
