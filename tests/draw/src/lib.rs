//! What the comparison and the benchmark draw by chance.

mod kinds;
mod rng;

pub use kinds::{BEGIN, END, TEXT, nested};
pub use rng::Rng;
