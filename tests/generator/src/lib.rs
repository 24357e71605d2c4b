//! Models, logs, damage and amendments from a seed.

mod amend;
mod cases;
mod chains;
mod conclude;
mod damage;
mod explain;
mod long;
mod models;
mod proofs;
mod random;
mod reshape;
mod search;
mod sweep;
mod walk;
mod wide;

pub use cases::{Case, Cases};
pub use long::{long_log, long_proof, long_sum_proof};
pub use models::any_row;
pub use proofs::proofs;
pub use random::Random;
pub use sweep::sweep;
