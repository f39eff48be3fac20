//! The calls that are timed. Each must be answered as it should be.

use crate::{fixture, opaque, Work};
use cards::Card;
use reference::layout::{COMPLETION_BYTES, MOST_MESSAGE, MOST_PLACES, MOST_QUEUED, QUEUES};
use reference::{Outcome, Refusal};
use std::cell::RefCell;

/// Polls without a buffer, which end right after the state test.
pub fn state_tests<'a>(card: &'a dyn Card, state: &[u8]) -> Work<'a> {
    let calls = 250;
    let mut state = state.to_vec();
    let run = move || {
        for _ in 0..calls {
            let outcome = card.poll(opaque(&mut state), 0, &mut []);
            assert_eq!(outcome, Refusal::BufferTooShort.into());
        }
    };
    Work { calls, prepare: Box::new(|| {}), run: Box::new(run) }
}

/// Post sends of a record that succeeds without a completion.
pub fn writes<'a>(card: &'a dyn Card, state: &[u8], record: &'a [u8]) -> Work<'a> {
    let calls = 250;
    let mut state = state.to_vec();
    let mut memory: Vec<u8> = (0..fixture::MEMORY).map(|n| n as u8).collect();
    let run = move || {
        for _ in 0..calls {
            let outcome = card.post_send(opaque(&mut state), opaque(&mut memory), 0, opaque(record));
            assert_eq!(outcome, Outcome::DONE);
        }
    };
    Work { calls, prepare: Box::new(|| {}), run: Box::new(run) }
}

/// Empties the queues of four cards; they are filled again before each run.
pub fn polls<'a>(card: &'a dyn Card, full: &[u8]) -> Work<'a> {
    let full = full.to_vec();
    let queues: Vec<u32> =
        (0..QUEUES as u32).filter(|&n| reference::poll(&mut full.clone(), n, &mut [0; COMPLETION_BYTES]).answer == 0).collect();
    let calls = (4 * MOST_PLACES * queues.len()) as u32;
    let (states, prepare) = renewed(&full);
    let mut buffer = [0; COMPLETION_BYTES];
    let run = move || {
        for state in states.borrow_mut().iter_mut() {
            for &cqn in &queues {
                for _ in 0..MOST_PLACES {
                    let outcome = card.poll(opaque(state), cqn, opaque(&mut buffer));
                    assert_eq!(outcome, Outcome::DONE);
                }
            }
        }
    };
    Work { calls, prepare, run: Box::new(run) }
}

/// States that are made anew before each run.
fn renewed<'a>(fresh: &[u8]) -> (std::rc::Rc<RefCell<Vec<Vec<u8>>>>, Box<dyn FnMut() + 'a>) {
    let fresh = fresh.to_vec();
    let states = std::rc::Rc::new(RefCell::new(vec![fresh.clone(); 4]));
    let renewed = states.clone();
    (states, Box::new(move || renewed.borrow_mut().iter_mut().for_each(|state| state.copy_from_slice(&fresh))))
}

/// Fills the queues of four cards with writes of 64 bytes; they are emptied before each run.
pub fn enqueues<'a>(card: &'a dyn Card, state: &[u8]) -> Work<'a> {
    let records: Vec<(u32, Vec<u8>)> = fixture::live_pairs(state).into_iter().map(|n| (n, fixture::write_on(n))).collect();
    let calls = (4 * MOST_QUEUED * records.len()) as u32;
    let memory = vec![0; fixture::MEMORY];
    let (states, prepare) = renewed(state);
    let run = move || {
        for state in states.borrow_mut().iter_mut() {
            for _ in 0..MOST_QUEUED {
                for (qpn, record) in &records {
                    let outcome = card.enqueue(opaque(state), opaque(&memory), *qpn, opaque(record));
                    assert_eq!(outcome, Outcome::DONE);
                }
            }
        }
    };
    Work { calls, prepare, run: Box::new(run) }
}

/// Empties the queues of four cards; they are filled again before each run.
pub fn turns<'a>(card: &'a dyn Card, full: &[u8]) -> Work<'a> {
    let pairs = fixture::live_pairs(full);
    let calls = (4 * MOST_QUEUED * pairs.len()) as u32;
    let mut memory: Vec<u8> = (0..fixture::MEMORY).map(|n| n as u8).collect();
    let (states, prepare) = renewed(full);
    let run = move || {
        for state in states.borrow_mut().iter_mut() {
            for _ in 0..MOST_QUEUED {
                for &qpn in &pairs {
                    let outcome = card.turn(opaque(state), opaque(&mut memory));
                    assert_eq!(outcome, Outcome { served: qpn as u8, ..Outcome::DONE });
                }
            }
        }
    };
    Work { calls, prepare, run: Box::new(run) }
}

/// Three pages, so that where two ranges stand to each other does not hang on the allocator.
#[repr(align(4096))]
struct Pages([u8; 3 * MOST_MESSAGE]);

/// Copies of 4,096 bytes to a range one and a half pages further on: what a time is set against that is no card's.
pub fn copies<'a>() -> Work<'a> {
    let calls = 250;
    let mut pages = Box::new(Pages([7; 3 * MOST_MESSAGE]));
    let run = move || {
        let (from, to) = pages.0.split_at_mut(MOST_MESSAGE + MOST_MESSAGE / 2);
        for _ in 0..calls {
            opaque(&mut to[..MOST_MESSAGE]).copy_from_slice(opaque(&from[..MOST_MESSAGE]));
        }
    };
    Work { calls, prepare: Box::new(|| {}), run: Box::new(run) }
}
