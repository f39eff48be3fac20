//! Plays the named cases, the checks of lent states, turns and domains, and the comparison on wrong cards; each must be found out.
//!
//! usage: mutants               each card up to what finds it out first, in that order
//!        mutants --compare     each card through the comparison alone: those that it does not find out
//!        mutants --all [TEXT]  each card, or those with the text in their names, through all: what fails, and after how many calls
//!        mutants --trace FILE  whether what the lines of docs/TRACE.md name fails on the cards that break them

mod trace;

use cards::{card_of, Card};
use std::panic::{catch_unwind, set_hook, AssertUnwindSafe};
use std::process::ExitCode;

const CALLS: u64 = 200_000;

include!(concat!(env!("OUT_DIR"), "/all.rs"));

/// A named case, or a check.
struct Named {
    name: String,
    passes: Box<dyn Fn(&dyn Card) -> bool>,
}

impl Named {
    fn all() -> Vec<Named> {
        let cases = cases::all().into_iter();
        let cases =
            cases.map(|case| Named { name: case.name.clone(), passes: Box::new(move |card| cases::run(&case, card).is_ok()) });
        let domains = ("a_domain_decides_alone", differential::domains::a_domain_decides_alone as fn(&dyn Card));
        let checks = cases::lent::CHECKS.into_iter().chain([domains]).map(|(name, check)| Named {
            name: name.into(),
            passes: Box::new(move |card| {
                check(card);
                true
            }),
        });
        cases.chain(checks).collect()
    }

    /// A panic is a failure too. A card has no state of its own, so it leaves none broken.
    fn fails(&self, card: &dyn Card) -> bool {
        !matches!(catch_unwind(AssertUnwindSafe(|| (self.passes)(card))), Ok(true))
    }
}

fn main() -> ExitCode {
    // The message of a panic would only be in the way.
    set_hook(Box::new(|_| {}));
    let words: Vec<String> = std::env::args().skip(1).collect();
    let words: Vec<&str> = words.iter().map(String::as_str).collect();
    let faults = match words[..] {
        [] => first(&Named::all()),
        ["--compare"] => compare(),
        ["--all"] => all(&Named::all(), ""),
        ["--all", text] => all(&Named::all(), text),
        ["--trace", file] => trace::check(file, &Named::all()),
        _ => {
            eprintln!("usage: mutants [--compare | --all [TEXT] | --trace FILE]");
            return ExitCode::from(2);
        }
    };
    if faults == 0 {
        ExitCode::SUCCESS
    } else {
        ExitCode::FAILURE
    }
}

/// Up to what finds each card out; gives back how many nothing does.
fn first(named: &[Named]) -> usize {
    let mut survivors = 0;
    println!("{:<64}found by", "wrong card");
    for &(card, _) in ALL {
        let found = named.iter().find(|named| named.fails(card)).map(|named| named.name.clone());
        let found = found.or_else(|| compared(card).map(|call| format!("call {call} of the comparison")));
        survivors += usize::from(found.is_none());
        println!("{:<64}{}", card.name(), found.unwrap_or("NOT FOUND".into()));
    }
    println!("{} wrong cards, {survivors} not found", ALL.len());
    survivors
}

/// Through the comparison alone; gives back no fault, since others find out what it does not.
fn compare() -> usize {
    let missed: Vec<&str> = ALL.iter().filter(|(card, _)| compared(*card).is_none()).map(|(card, _)| card.name()).collect();
    missed.iter().for_each(|name| println!("{name}"));
    println!("{} wrong cards, {} not found by {CALLS} calls", ALL.len(), missed.len());
    0
}

/// Through everything; gives back how many the comparison does not find out.
fn all(named: &[Named], text: &str) -> usize {
    let cards: Vec<_> = ALL.iter().filter(|(card, _)| card.name().contains(text)).collect();
    let mut survivors = 0;
    for &&(card, _) in &cards {
        let call = compared(card);
        survivors += usize::from(call.is_none());
        println!("{}: call {} of the comparison", card.name(), call.unwrap_or("NOT FOUND".into()));
        for named in named.iter().filter(|named| named.fails(card)) {
            println!("    {}", named.name);
        }
    }
    println!("{} wrong cards, {survivors} not found by the comparison", cards.len());
    survivors
}

/// The call at which the comparison finds the card out.
fn compared(card: &'static dyn Card) -> Option<String> {
    match catch_unwind(AssertUnwindSafe(|| differential::run(card, CALLS, 1, 1))) {
        Ok(report) => report.differences.first().map(|difference| first_call(difference)),
        Err(_) => Some("with a panic".into()),
    }
}

fn first_call(difference: &str) -> String {
    difference.trim_start_matches("call ").split(':').next().unwrap_or_default().into()
}
