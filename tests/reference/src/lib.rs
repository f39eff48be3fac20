//! An ordinary Rust engine for the card of documents 01 and 02, working on the lent state of docs/STATE.md.

pub mod accept;
pub mod answer;
pub mod card;
pub mod control;
pub mod layout;
pub mod listing;
pub mod pages;
pub mod query;
pub mod queues;
pub mod record;
pub mod replay;
pub mod send;
pub mod turns;

pub use accept::{accepts, fault, Fault};
pub use answer::{Outcome, Refusal, Status};
pub use card::{Card, Pair, Region};
pub use control::{ack_need, control, ACK_BYTES};
pub use pages::register_pages;
pub use queues::{flush, poll, post_receive, reset};
pub use send::post_send;
pub use turns::{enqueue, turn};
