//! The cards that the tests drive: the reference engine and, where it exists, the proved library.

pub mod build;
pub mod c;
mod call;
mod rng;
mod upper;

pub use call::Call;
pub use reference::Outcome;
pub use rng::Rng;
pub use upper::{proved, Card, Reference};
