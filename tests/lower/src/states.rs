//! The test of answer 15, the search for free numbers and for what is in use, and the state's layout: on reached, damaged and random states.

use crate::both::Both;
use crate::fixture::control;
use cards::build::*;
use cards::{Call, Rng};
use generator::{damage, fields, reached_state, region_slots};
use reference::layout::*;
use reference::listing::Listing;
use reference::record::SEND_IMMEDIATE;
use reference::{fault, Fault};

const REACHED: usize = 120;
const DAMAGED: usize = 500;
const RANDOM: usize = 20_000;
const TABLES: [(&str, usize); 4] = [("pd", DOMAINS), ("cq", QUEUES), ("mr", REGIONS), ("qp", PAIRS)];

pub fn compare(both: &mut Both, rng: &mut Rng) {
    for fault in Fault::ALL {
        both.tally.require("accepts", format!("{fault:?}"));
    }
    both.tally.require("accepts", "accepted");
    for (table, count) in TABLES {
        both.tally.require("free", format!("{table} none"));
        both.tally.require("free", format!("{table} 0"));
        both.tally.require("free", format!("{table} {}", count - 1));
    }
    for (check, answers) in [("destroy", &[0, 2, 10][..]), ("poll", &[0, 2, 9]), ("flush", &[0, 2, 3, 6, 9])] {
        for answer in answers {
            both.tally.require(check, format!("answer {answer}"));
        }
    }
    for (check, outcomes) in [
        ("send", &["0", "0 status 4", "2", "3", "5", "6", "10"][..]),
        ("receive", &["0", "0 status 4", "2", "3", "6", "8"]),
        ("enqueue", &["0", "2", "3", "8"]),
        ("turn", &["0", "0 status 3", "0 status 4", "9"]),
    ] {
        for outcome in outcomes {
            both.tally.require(check, format!("answer {outcome}"));
        }
    }
    for n in 0..REACHED {
        let state = reached_state(rng.word(), if n % 4 == 0 { 20 * n } else { 10 + 5 * n });
        one(both, &state, Some(&every(REGIONS)));
        each_field(both, &state, &region_slots(rng, &state));
        for n in 0..DAMAGED {
            let slots = region_slots(rng, &state);
            one(both, &damage(rng, &state), if n % 10 == 0 { Some(&slots) } else { None });
        }
    }
    full_tables(both);
    full_queues(both);
    for waiting in [0, 1] {
        one(both, &error_without_a_place(waiting), Some(&[0]));
    }
    lengths(both, &reached_state(rng.word(), 400));
    random(both, rng);
}

/// The state test and, on an accepted state, each creation and, where region slots are given, the calls on each object that need no
/// record, of regions those of the slots.
fn one(both: &mut Both, state: &[u8], slots: Option<&[usize]>) {
    accepted(both, state);
    if let Some(card) = Listing::of(state) {
        creations(both, state, &card);
        if let Some(slots) = slots {
            each_object(both, state, slots);
        }
    }
}

/// Every number of a table, and the one past it.
fn every(count: usize) -> Vec<usize> {
    (0..=count).collect()
}

/// A poll without a buffer answers 15 where the state is not accepted, else 12, and changes nothing.
fn accepted(both: &mut Both, state: &[u8]) {
    let mut copy = state.to_vec();
    accepted_in_place(both, &mut copy);
    stays(both, &copy, state);
}

fn accepted_in_place(both: &mut Both, state: &mut [u8]) {
    let wanted = fault(state);
    both.tally.count("accepts", wanted.map_or("accepted".into(), |fault| format!("{fault:?}")));
    let outcome = both.refused("accepts", &Call::Poll { cqn: 0, buffer: 0 }, state);
    assert_eq!(outcome.answer, if wanted.is_none() { 12 } else { 15 });
}

fn stays(both: &mut Both, found: &[u8], wanted: &[u8]) {
    if found != wanted {
        both.tally.differ("accepts", "a poll without a buffer changes the state");
    }
}

/// A creation in each table takes the lowest free number, or there is none.
fn creations(both: &mut Both, state: &[u8], card: &Listing) {
    let domain = card.domains.iter().position(|&live| live).unwrap_or(0) as u32;
    let queue = card.queues.iter().position(Option::is_some).unwrap_or(0) as u32;
    let commands =
        [create_domain(), create_queue(3), register(domain, 5, 0, 1, 1 << 40), create_pair(domain, 2, 1, queue, queue)];
    for ((table, _), command) in TABLES.into_iter().zip(commands) {
        let left = both.make("free", &control(command), state, &[]);
        both.tally.count(
            "free",
            match left.outcome.answer {
                0 => format!("{table} {}", get32(&left.buffer, 1)),
                8 => format!("{table} none"),
                answer => format!("{table} answer {answer}"),
            },
        );
    }
}

/// Every object, and the number past each table, destroyed, polled, flushed and given a send, posted and queued, and a receive of no bytes; and a
/// turn. Of regions those of the given slots.
fn each_object(both: &mut Both, state: &[u8], slots: &[usize]) {
    let memory = vec![0; get64(state, MEMORY_LENGTH) as usize];
    let (send, receive) = (Send::new(1, SEND_IMMEDIATE).immediate(2).bytes(), receive(3, &[piece(4, 5, 6)]));
    both.count("turn", &Call::Turn { memory: memory.len() }, state, &memory);
    for &slot in slots {
        both.count("destroy", &control(deregister(slot as u32)), state, &[]);
    }
    for number in 0..=QUEUES as u32 {
        both.count("destroy", &control(destroy_domain(number)), state, &[]);
        both.count("destroy", &control(destroy_queue(number)), state, &[]);
        both.count("destroy", &control(destroy_pair(number)), state, &[]);
        both.count("poll", &Call::Poll { cqn: number, buffer: COMPLETION_BYTES + 1 }, state, &[]);
        both.count("flush", &Call::Flush { qpn: number }, state, &[]);
        both.count("send", &Call::Send { qpn: number, record: send.clone(), memory: memory.len() }, state, &memory);
        both.count("enqueue", &Call::Enqueue { qpn: number, record: send.clone(), memory: memory.len() }, state, &memory);
        both.count("receive", &Call::Receive { qpn: number, record: receive.clone() }, state, &[]);
    }
}

/// Each field in turn at each of its values, with the rest as it is; of regions those of the given slots.
fn each_field(both: &mut Both, state: &[u8], slots: &[usize]) {
    let mut copy = state.to_vec();
    fields(state, slots, &mut |field| {
        for &value in field.values {
            field.set(&mut copy, value);
            accepted_in_place(both, &mut copy);
        }
        copy[field.at..field.at + field.width].copy_from_slice(&state[field.at..field.at + field.width]);
        stays(both, &copy, state);
    });
}

/// Tables with their first `n` numbers live, and with all live but number `n`.
fn full_tables(both: &mut Both) {
    for (table, (_, count)) in TABLES.into_iter().enumerate() {
        for n in 0..=count {
            let live: Vec<bool> = (0..count).map(|k| k < n).collect();
            let slots = [n.saturating_sub(1), n, n + 1];
            one(both, &with_live(table, &live), Some(&slots));
            let live: Vec<bool> = (0..count).map(|k| k != n).collect();
            one(both, &with_live(table, &live), Some(&slots));
        }
    }
}

/// A state in which the named table's rows are live as told; domain 0 and queue 0 are live for those that name them.
fn with_live(table: usize, live: &[bool]) -> Vec<u8> {
    let mut state = vec![0; STATE_BYTES];
    reference::reset(&mut state, 4096);
    if table > 1 {
        state[DOMAIN_FLAGS] = 1;
        state[QUEUE_FLAGS] = 1;
        state[queue_row(0) + QUEUE_PLACES] = 1;
    }
    let (flags, _) = FLAGS[table];
    for n in (0..live.len()).filter(|&n| live[n]) {
        state[flags + n] = 1;
        match table {
            0 => {}
            1 => state[queue_row(n) + QUEUE_PLACES] = 1 + n as u8,
            2 => {
                state[region_row(n) + REGION_VARIANT] = 1;
                state[region_row(n) + REGION_KIND] = if n % 3 == 2 { PAGED } else { ADJACENT };
                put64(&mut state, region_row(n) + REGION_LENGTH, 1);
            }
            _ => state[pair_row(n) + PAIR_DESTINATION] = NO_DESTINATION,
        }
    }
    state
}

/// Queues of 0 to 8 sends in states 3 and 6, from each place of their rings on, by the turn place; and every byte of the header, of the heads, of the
/// kinds and of the records damaged.
fn full_queues(both: &mut Both) {
    for count in 0..=MOST_QUEUED as u8 {
        for first in 0..MOST_QUEUED as u8 {
            let mut state = with_live(3, &[true; PAIRS]);
            for n in 0..PAIRS {
                state[pair_row(n) + PAIR_STATE] = if n % 3 == 2 { ERROR } else { READY_TO_SEND };
                state[pair_row(n) + PAIR_DESTINATION] = n as u8 ^ 1;
                state[sends_row(n) + SENDS_FIRST] = first;
                state[sends_row(n) + SENDS_COUNT] = count.saturating_sub(n as u8 % 3);
            }
            state[TURN] = first;
            one(both, &state, Some(&[0]));
            if matches!((first, count), (6, 5) | (3, 8)) {
                every_byte(both, &state);
            }
        }
    }
}

/// The state test with each byte of the new tables changed, the others as they are.
fn every_byte(both: &mut Both, state: &[u8]) {
    let mut copy = state.to_vec();
    for at in (TURN..DOMAIN_FLAGS).chain(SENDS_ROWS..STATE_BYTES) {
        let values: &[u8] = if at < RECORD_ROWS { &[0, 1, 2, 4, 5, 7, 8, 9, 15, 16, 24, 128, 255] } else { &[0, 255] };
        for &value in values {
            copy[at] = value;
            accepted_in_place(both, &mut copy);
        }
        copy[at] = state[at];
    }
    stays(both, &copy, state);
}

/// A pair in error with this many receives waiting, and no place for a completion.
fn error_without_a_place(waiting: u8) -> Vec<u8> {
    let mut state = with_live(3, &[true]);
    state[pair_row(0) + PAIR_STATE] = ERROR;
    state[waiting_row(0) + WAITING_COUNT] = waiting;
    state[queue_row(0) + QUEUE_COUNT] = 1;
    state
}

fn lengths(both: &mut Both, state: &[u8]) {
    let longer = [state, &[0; 64]].concat();
    let mut copy = longer.clone();
    for length in 0..=longer.len() {
        accepted_in_place(both, &mut copy[..length]);
    }
    stays(both, &copy, &longer);
}

fn random(both: &mut Both, rng: &mut Rng) {
    let mut state = vec![0; STATE_BYTES];
    for n in 0..RANDOM {
        rng.fill(&mut state);
        if n % 2 == 0 {
            put64(&mut state, MEMORY_LENGTH, 1 + rng.below(MOST_MEMORY));
            for (at, length) in FLAGS {
                state[at..at + length].iter_mut().for_each(|byte| *byte &= 1);
            }
        }
        if n % 4 == 0 {
            state[QUEUE_FLAGS..][..QUEUES].fill(0);
        }
        accepted(both, &state);
    }
}
