//! Named lists of calls with the answers that documents 01 and 02 give them. Each runs on any card and, unless it has page lists, enqueues
//! or turns, can be written as a replay tape.

mod control;
mod errors;
pub mod fair;
pub mod lent;
mod lent_pages;
mod lent_turns;
mod pages;
mod pages_moves;
mod posting;
mod queues;
mod rights;
mod run;
mod script;
mod tape;
mod traps;
mod turns;
mod turns_between;

pub use run::run;
pub use script::{Case, Script, Step, Wanted};

/// Every case; names are unique.
pub fn all() -> Vec<Case> {
    let groups = [
        control::cases(),
        posting::cases(),
        queues::cases(),
        errors::cases(),
        rights::cases(),
        pages::cases(),
        pages_moves::cases(),
        turns::cases(),
        turns_between::cases(),
        traps::cases(),
        tape::cases(),
    ];
    groups.into_iter().flatten().collect()
}
