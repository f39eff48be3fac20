//! Times the state test of the proved library (libengine.a) against the reference's, on the same bytes: a poll without a buffer, which ends
//! right after the test.
//!
//! usage: state [CALLS]

use bench::fixture::Regions;
use bench::work::state_tests;
use bench::{compare, fixture, heading};
use cards::{proved, Card, Reference};

fn main() {
    let calls = std::env::args().nth(1).and_then(|word| word.parse().ok()).unwrap_or(1_000_000);
    let first: &dyn Card = proved().unwrap_or(&Reference);
    heading(first.name(), Reference.name());
    let mut unread = fixture::full(Regions::Adjacent);
    fixture::fill_queues(&mut unread);
    let mut queued = fixture::full(Regions::Adjacent);
    fixture::fill_sends(&mut queued);
    for (name, state) in [
        ("thin tables", fixture::thin(Regions::Adjacent)),
        ("full tables", fixture::full(Regions::Adjacent)),
        ("full tables, 128 unread", unread),
        ("full tables, 64 queued", queued),
    ] {
        compare(&format!("state test, {name}"), calls, state_tests(first, &state), state_tests(&Reference, &state));
    }
    println!("The states are made once, before the timing; nothing is cleared or copied in it.");
}
