//! Compares the reference with the proved library, call by call, and prints what the calls covered; or holds each of the two to what turns and domains
//! promise.
//!
//! usage: differential [CALLS [SEED]]            the comparison
//!        differential --turns [TURNS [SEED]]    each card by itself: turns are fair, and are post sends of what they run
//!        differential --domains [SENDS [SEED]]  each card by itself: what is outside its domain does not change what a send does

use cards::{proved, Card, Reference};
use differential::domains;
use std::process::ExitCode;

/// How many differences end the run.
const MOST_DIFFERENCES: usize = 5;

fn main() -> ExitCode {
    let words: Vec<String> = std::env::args().skip(1).collect();
    let (mode, rest) = match words.split_first() {
        Some((mode, rest)) if mode.starts_with("--") => (mode.as_str(), rest),
        _ => ("", &words[..]),
    };
    let numbers: Option<Vec<u64>> = rest.iter().map(|word| word.parse().ok()).collect();
    let (count, seed) = match numbers.as_deref() {
        Some([]) => (200_000, 1),
        Some([count]) => (*count, 1),
        Some([count, seed]) => (*count, *seed),
        _ => return usage(),
    };
    match mode {
        "" => compare(count, seed),
        "--turns" => each(|card| fair_turns(card, count, seed)),
        "--domains" => each(|card| one_domain(card, count, seed)),
        _ => usage(),
    }
}

fn usage() -> ExitCode {
    eprintln!("usage: differential [CALLS [SEED]] | --turns [TURNS [SEED]] | --domains [SENDS [SEED]]");
    ExitCode::from(2)
}

fn compare(calls: u64, seed: u64) -> ExitCode {
    let other: &'static dyn Card = proved().unwrap_or(&Reference);
    println!("calls: {} against {}, {calls} calls, seed {seed}", Reference.name(), other.name());
    let report = differential::run(other, calls, seed, MOST_DIFFERENCES);
    let missing = report.coverage.print();
    for difference in &report.differences {
        println!("DIFFERS {difference}");
    }
    println!("{} calls, {} differences, {missing} cells never seen", report.calls, report.differences.len());
    if missing == 0 && report.differences.is_empty() {
        ExitCode::SUCCESS
    } else {
        ExitCode::FAILURE
    }
}

/// The reference and, where it is linked, the proved library; how many faults they have.
fn each(faults: impl Fn(&dyn Card) -> usize) -> ExitCode {
    let cards = [Some(&Reference as &dyn Card), proved()];
    match cards.into_iter().flatten().map(faults).sum::<usize>() {
        0 => ExitCode::SUCCESS,
        _ => ExitCode::FAILURE,
    }
}

/// A panic says what is unfair.
fn fair_turns(card: &dyn Card, turns: u64, seed: u64) -> usize {
    let seen = cases::fair::run(card, turns, seed);
    println!(
        "{}: {} turns served, {} answered 9, all fair, each the post send of its record",
        card.name(),
        seen.served,
        seen.nothing
    );
    println!(
        "  served after 0 to 7 others while it could run: {:?}; flushed {}, failed {}",
        seen.waited, seen.flushed, seen.failed
    );
    usize::from(seen.waited.contains(&0))
}

fn one_domain(card: &dyn Card, sends: u64, seed: u64) -> usize {
    let seen = match domains::run(card, sends, seed) {
        Ok(seen) => seen,
        Err(difference) => {
            println!("DIFFERS {difference}");
            return 1;
        }
    };
    println!("{}: {} sends, each on two cards that differ outside one domain: the same came of both", card.name(), seen.sends);
    println!(
        "  regions differ in {}, pairs in {}, completion queues in {}, memory in {}; a live peer in {}, bytes written in {}",
        seen.regions, seen.pairs, seen.completions, seen.bytes, seen.joined, seen.wrote
    );
    for ((answer, status), count) in &seen.outcomes {
        println!("  answer {answer:>2} status {status}{count:>10}");
    }
    let missing = seen.missing();
    missing.iter().for_each(|what| println!("NEVER SEEN {what}"));
    missing.len()
}
