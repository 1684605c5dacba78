//! What the benchmarks and the check of their baseline share: the three contestants and the cases.

#[path = "../../tests/tests/library/mod.rs"]
pub mod library;

pub mod cases;
pub mod live;
pub mod times;
pub mod tuned;
