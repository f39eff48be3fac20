//! Times the calls of the proved library (libengine.a) against the reference: unsignaled writes, enqueues, turns and polls that succeed.
//!
//! usage: calls [CALLS]

use bench::fixture::Regions;
use bench::work::{enqueues, polls, turns, writes};
use bench::{compare, fixture, heading};
use cards::{proved, Card, Reference};

fn main() {
    let calls = std::env::args().nth(1).and_then(|word| word.parse().ok()).unwrap_or(1_000_000);
    let first: &dyn Card = proved().unwrap_or(&Reference);
    heading(first.name(), Reference.name());
    for (tables, state) in [("thin", fixture::thin(Regions::Adjacent)), ("full", fixture::full(Regions::Adjacent))] {
        for (name, record) in [
            ("64 bytes", fixture::write(64, 1)),
            ("4,096 bytes", fixture::write(4096, 1)),
            ("4,096 bytes in four pieces", fixture::write(4096, 4)),
            ("64 inline bytes", fixture::inline_write(64)),
            ("512 inline bytes", fixture::inline_write(512)),
        ] {
            let (ours, theirs) = (writes(first, &state, &record), writes(&Reference, &state, &record));
            compare(&format!("write {name}, {tables}"), calls, ours, theirs);
        }
        let mut queued = state.clone();
        fixture::fill_sends(&mut queued);
        compare(&format!("enqueue, {tables}"), calls, enqueues(first, &state), enqueues(&Reference, &state));
        compare(&format!("turn of 64 bytes, {tables}"), calls, turns(first, &queued), turns(&Reference, &queued));
        let mut unread = state;
        fixture::fill_queues(&mut unread);
        compare(&format!("poll, {tables}"), calls, polls(first, &unread), polls(&Reference, &unread));
    }
    println!("Lent buffers are made once and never cleared in the timing. The reference copies one piece, and inline bytes, in place and");
    println!("clears a staging array of 4,096 bytes only for several pieces. Refilling the queues before polls and turns,");
    println!("and emptying them before enqueues, isn't timed.");
}
