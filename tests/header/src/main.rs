//! The C header against the reference and the specification.
//!
//! usage: header records [SEED [VALUES]]   every put and get against the reference, on random values
//!        header state [SEED [CALLS]]      every peek against the reference, along lists of calls
//!        header states FILE               the same on the states that a file holds
//!        header numbers                   every number against the specification
//!        header page                      the tables of docs/STATE.md against the specification
//!        header names                     what numbers.txt can name
//!
//! A difference is told, and the exit status is not 0.

mod c;
mod numbers;
mod page;
mod records;
mod specs;
mod state;

use cards::Rng;
use std::path::Path;
use std::process::ExitCode;

fn main() -> ExitCode {
    let words: Vec<String> = std::env::args().skip(1).collect();
    let number = |n: usize, default: u64| words.get(n).map_or(Ok(default), |word| word.parse::<u64>());
    let root = Path::new(env!("CARGO_MANIFEST_DIR")).join("../..");
    match (words.first().map(String::as_str), number(1, 1), number(2, 5000)) {
        (Some("states"), ..) if words.len() == 2 => return compare_file(&words[1]),
        (Some("records"), Ok(seed), Ok(values)) => compare_records(seed, values),
        (Some("state"), Ok(seed), Ok(calls)) => compare_states(seed, calls),
        (Some("numbers"), ..) => return compare_numbers(&root),
        (Some("page"), ..) => return compare_page(&root),
        (Some("names"), ..) => return show_names(&root),
        _ => {
            eprintln!("usage: header records [SEED [VALUES]] | state [SEED [CALLS]] | states FILE | numbers | page | names");
            return ExitCode::from(2);
        }
    }
    ExitCode::SUCCESS
}

fn compare_records(seed: u64, values: u64) {
    let mut rng = Rng::new(seed);
    records::sizes();
    for _ in 0..values {
        records::sges(&mut rng);
        records::sends(&mut rng);
        records::too_many(&mut rng);
        records::receives(&mut rng);
        records::completions(&mut rng);
        records::number_commands(&mut rng);
        records::register(&mut rng);
        records::create_qp(&mut rng);
        records::modify_qp(&mut rng);
        records::acks(&mut rng);
        records::query_acks(&mut rng);
        records::ack_needs(&mut rng);
    }
    println!("{values} values of each record: put, get and the reference agree");
}

fn compare_states(seed: u64, calls: u64) {
    state::other_lengths();
    for list in 0..calls / 500 {
        state::along(seed + list, 500);
    }
    println!("the peeks agree after each of {} calls", calls / 500 * 500);
}

fn compare_file(name: &str) -> ExitCode {
    match std::fs::read(name) {
        Ok(states) => println!("the peeks agree on {} states", state::each(&states)),
        Err(error) => {
            eprintln!("{name}: {error}");
            return ExitCode::FAILURE;
        }
    }
    ExitCode::SUCCESS
}

fn compare_numbers(root: &Path) -> ExitCode {
    match numbers::compare(root) {
        Ok(count) => {
            println!("{count} numbers agree with the specification; each of them, changed by one, is noticed");
            ExitCode::SUCCESS
        }
        Err(lines) => {
            lines.iter().for_each(|line| println!("{line}"));
            ExitCode::FAILURE
        }
    }
}

fn compare_page(root: &Path) -> ExitCode {
    match page::compare(root) {
        Ok(count) => println!("docs/STATE.md has the {count} tables of the specification"),
        Err(difference) => {
            println!("docs/STATE.md: {difference}");
            return ExitCode::FAILURE;
        }
    }
    ExitCode::SUCCESS
}

fn show_names(root: &Path) -> ExitCode {
    match numbers::names(root) {
        Ok(lines) => lines.iter().for_each(|line| println!("{line}")),
        Err(error) => println!("{error}"),
    }
    ExitCode::SUCCESS
}
