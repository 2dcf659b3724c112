//! What the library promises to its callers, tried on many plans and files.
//!
//! Every expected answer is worked out here from `docs/RULES.md`, by code that shares nothing with the library. What is tried,
//! and from which seeds, is printed: `cargo test --release -- --nocapture`. FIRNOLVAG_SEED, a number, gives other seeds.

mod calls;
mod campuses;
mod checks;
mod damaged;
mod judge;
mod least;
mod limits;
mod plan;
mod plans;
mod random;
mod reader;
mod refusals;
mod routes;
mod rows;
mod tables;
mod wrapper;
