//! Compares the lower part of a card with the reference's through the calls: the state test, the search for numbers, and the layouts of
//! records and state. Each call is made on both with the same bytes lent; answer, status, and every byte of state, memory and buffer must
//! be the same.
//!
//! usage: lower [SEED]

mod both;
mod fixture;
mod records;
mod states;
mod tally;

use both::Both;
use cards::{proved, Card, Reference, Rng};
use std::process::ExitCode;

fn main() -> ExitCode {
    let seed = match std::env::args().nth(1).map(|word| word.parse()) {
        None => 1,
        Some(Ok(seed)) => seed,
        Some(Err(_)) => {
            eprintln!("usage: lower [SEED]");
            return ExitCode::from(2);
        }
    };
    let other: &dyn Card = proved().unwrap_or(&Reference);
    println!("lower part: {} against {}, seed {seed}", Reference.name(), other.name());
    let mut both = Both::new(other);
    let mut rng = Rng::new(seed);
    states::compare(&mut both, &mut rng);
    records::compare(&mut both, &mut rng);
    if both.tally.report() {
        ExitCode::SUCCESS
    } else {
        ExitCode::FAILURE
    }
}
