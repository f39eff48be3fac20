//! Times the proved library (libengine.a) against both yardsticks in one run, for the figures that document 02 asks for in M-107: unsignaled writes of 64 and
//! 4,096 bytes with status 0, and polls answered 0; enqueues and turns of 64 bytes; and the state test alone, which also stands against a 4,096-byte copy. All of it with regions of adjacent
//! bytes, and with regions over 16 pages each. The yardsticks are the reference and the tuned engine. A call that is not answered as it should be ends the run.
//! Of 100,000 calls and more, work that takes above twice the reference's time is named on standard error, and the exit status is 1.
//!
//! usage: yardsticks [CALLS]

use bench::fixture::Regions;
use bench::tuned::Tuned;
use bench::{fixture, ratios, work, Work};
use cards::{proved, Card, Reference};
use std::process::ExitCode;

/// The most of the reference's time: M-107's for writes and polls, taken for the state test too. The fewest calls by which it is judged: with
/// few rounds, other work on the machine would decide.
const MOST_RATIO: f64 = 2.0;
const LEAST_JUDGED: u32 = 100_000;

fn main() -> ExitCode {
    let calls = std::env::args().nth(1).and_then(|word| word.parse().ok()).unwrap_or(1_000_000);
    let first: &dyn Card = proved().unwrap_or(&Reference);
    let cards = [first, &Reference, &Tuned];
    println!("first: {}, second: {}, third: {}, fourth: a 4,096-byte copy", first.name(), Reference.name(), Tuned.name());
    println!("{:<36}{:>9}  {:<32}first over each other, with the middle half", "work", "calls", "nanoseconds, medians");
    let mut slow = Vec::new();
    for regions in [Regions::Adjacent, Regions::Paged] {
        for (tables, state) in [("thin", fixture::thin(regions)), ("full", fixture::full(regions))] {
            slow.extend(lines(calls, cards, regions, tables, &state));
        }
    }
    println!("Lent buffers are made once and never cleared in the timing; refilling or emptying queues before polls, turns and enqueues isn't timed.");
    if calls < LEAST_JUDGED || slow.is_empty() {
        return ExitCode::SUCCESS;
    }
    eprintln!("yardsticks: above twice the reference's time: {}", slow.join("; "));
    ExitCode::FAILURE
}

/// The lines of a state; gives back the work that is too slow.
fn lines(calls: u32, cards: [&dyn Card; 3], regions: Regions, tables: &str, state: &[u8]) -> Vec<String> {
    let pages = if regions == Regions::Paged { ", pages" } else { "" };
    let mut unread = state.to_vec();
    fixture::fill_queues(&mut unread);
    let mut slow = vec![state_line(format!("state test, {tables}{pages}"), calls, cards, state)];
    let mut queued = state.to_vec();
    fixture::fill_sends(&mut queued);
    if tables == "full" {
        slow.push(state_line(format!("state test, full, 128 unread{pages}"), calls, cards, &unread));
        slow.push(state_line(format!("state test, full, 64 queued{pages}"), calls, cards, &queued));
    }
    let mut records = vec![("64 bytes", fixture::write(64, 1)), ("4,096 bytes", fixture::write(4096, 1))];
    if regions == Regions::Paged {
        records.push(("4,096 over ends", fixture::write_from(2048)));
    }
    for (name, record) in records {
        slow.push(line(format!("write {name}, {tables}{pages}"), calls, cards.map(|card| work::writes(card, state, &record))));
    }
    slow.push(line(format!("enqueue, {tables}{pages}"), calls, cards.map(|card| work::enqueues(card, state))));
    slow.push(line(format!("turn of 64 bytes, {tables}{pages}"), calls, cards.map(|card| work::turns(card, &queued))));
    slow.push(line(format!("poll, {tables}{pages}"), calls, cards.map(|card| work::polls(card, &unread))));
    slow.into_iter().flatten().collect()
}

fn state_line(name: String, calls: u32, cards: [&dyn Card; 3], state: &[u8]) -> Option<String> {
    let [first, second, third] = cards.map(|card| work::state_tests(card, state));
    line(name, calls, [first, second, third, work::copies()])
}

/// A line of the table: nanoseconds of each, and the first's time over each other's with the middle half. Gives back the name if that over
/// the second's is above the most.
fn line<const N: usize>(name: String, calls: u32, mut works: [Work; N]) -> Option<String> {
    let (times, over) = ratios(calls, &mut works);
    let slow = over[1][1] > MOST_RATIO;
    let times: String = times.iter().map(|time| format!("{time:<8.1}")).collect();
    let over: String = over[1..].iter().map(|[low, middle, high]| format!("{middle:<6.2}{low:.2} to {high:<8.2}")).collect();
    println!("{name:<36}{calls:>9}  {times:<32}{over}");
    slow.then(|| name)
}
