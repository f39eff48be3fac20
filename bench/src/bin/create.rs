//! Times the creation that takes the last free number of a table, by the proved library (libengine.a): nanoseconds per call, a line for each
//! creation. `bench/last_region` runs it linked to two libraries in turn.
//!
//! usage: create [CALLS]

use bench::{fixture, opaque, Work};
use cards::build::*;
use cards::{proved, Card};
use reference::{Outcome, ACK_BYTES};
use std::cell::RefCell;
use std::process::ExitCode;
use std::rc::Rc;

fn main() -> ExitCode {
    let calls = std::env::args().nth(1).and_then(|word| word.parse().ok()).unwrap_or(20_000);
    let card = match proved() {
        Some(card) => card,
        None => {
            eprintln!("create: there is no proved library to time (LESUNGKAP_LIB)");
            return ExitCode::FAILURE;
        }
    };
    let region = register(0, 7, 0, 1, 0);
    time("last region, full tables", calls, card, &fixture::all_but_one_region(), &region);
    for (name, command) in [
        ("last region", region),
        ("last domain", create_domain()),
        ("last completion queue", create_queue(1)),
        ("last queue pair", create_pair(0, 2, 0, 0, 0)),
    ] {
        time(name, calls, card, &fixture::once_more(&command), &command);
    }
    ExitCode::SUCCESS
}

fn time(name: &str, calls: u32, card: &dyn Card, state: &[u8], command: &[u8]) {
    let mut work = creations(card, state, command);
    work.sample(calls / 10);
    println!("{name}: {:.1}", work.sample(calls));
}

/// The command on each of some copies of the state; they are made again before each run.
fn creations<'a>(card: &'a dyn Card, state: &'a [u8], command: &'a [u8]) -> Work<'a> {
    const COPIES: usize = 64;
    let copies = Rc::new(RefCell::new(vec![state.to_vec(); COPIES]));
    let used = copies.clone();
    let prepare = move || used.borrow_mut().iter_mut().for_each(|copy| copy.copy_from_slice(state));
    let run = move || {
        let mut ack = [0; ACK_BYTES];
        for copy in copies.borrow_mut().iter_mut() {
            assert_eq!(card.control(opaque(copy), opaque(command), opaque(&mut ack)), Outcome::DONE);
        }
    };
    Work { calls: COPIES as u32, prepare: Box::new(prepare), run: Box::new(run) }
}
