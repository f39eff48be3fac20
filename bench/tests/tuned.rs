//! The tuned engine answers as the reference does, and leaves the same bytes: on the calls that are timed, and after one byte of the record or
//! of the state has changed (`changed` says which).

use bench::fixture::{self, Regions};
use bench::tuned::Tuned;
use cards::{Card, Outcome, Reference};
use reference::layout::*;

/// What a byte of the state is changed to.
const VALUES: [u8; 14] = [0, 1, 2, 3, 4, 5, 6, 7, 8, 9, 15, 16, 17, 255];

/// What is lent to a call.
#[derive(Clone, PartialEq)]
struct Lent {
    state: Vec<u8>,
    memory: Vec<u8>,
    buffer: [u8; COMPLETION_BYTES],
}

fn lent(state: &[u8]) -> Lent {
    let memory = (0..fixture::MEMORY).map(|n| (n / 7) as u8).collect();
    Lent { state: state.to_vec(), memory, buffer: [9; COMPLETION_BYTES] }
}

/// Thin, full, full with unread completions, and both with queued sends, of regions of each kind.
fn states() -> Vec<Vec<u8>> {
    let states = [Regions::Adjacent, Regions::Paged].map(|regions| {
        let mut unread = fixture::full(regions);
        fixture::fill_queues(&mut unread);
        let (mut thin, mut full) = (fixture::thin(regions), fixture::full(regions));
        fixture::fill_sends(&mut thin);
        fixture::fill_sends(&mut full);
        [fixture::thin(regions), fixture::full(regions), unread, thin, full]
    });
    states.concat()
}

/// The call's outcome, the same of both.
fn same(lent: &mut Lent, call: impl Fn(&dyn Card, &mut Lent) -> Outcome) -> Outcome {
    let mut other = lent.clone();
    let outcome = call(&Reference, lent);
    assert_eq!(outcome, call(&Tuned, &mut other));
    assert!(*lent == other, "the bytes differ");
    outcome
}

fn write(card: &dyn Card, lent: &mut Lent, qpn: u32, record: &[u8]) -> Outcome {
    card.post_send(&mut lent.state, &mut lent.memory, qpn, record)
}

fn poll(card: &dyn Card, lent: &mut Lent, cqn: u32) -> Outcome {
    card.poll(&mut lent.state, cqn, &mut lent.buffer)
}

#[test]
fn tuned_engine_writes_as_the_reference() {
    for state in states() {
        for record in [0, 1, 64, 4096, 4097, 8192].map(|length| fixture::write(length, 1)) {
            for qpn in 0..=PAIRS as u32 {
                same(&mut lent(&state), |card, lent| write(card, lent, qpn, &record));
            }
        }
        let done = same(&mut lent(&state), |card, lent| write(card, lent, 0, &fixture::write(64, 1)));
        let free = state[queue_row(0) + QUEUE_COUNT] < state[queue_row(0) + QUEUE_PLACES];
        assert_eq!(done == Outcome::DONE, free && state[sends_row(0) + SENDS_COUNT] == 0);
        for record in [fixture::write(4096, 4), fixture::inline_write(64), vec![0; 592], vec![0; 576], vec![]] {
            same(&mut lent(&state), |card, lent| write(card, lent, 0, &record));
        }
        for offset in [1, 2047, 4095, 4096, 4097, 8191, 61440, 61441, 65535] {
            same(&mut lent(&state), |card, lent| write(card, lent, 0, &fixture::write_from(offset)));
        }
    }
}

#[test]
fn tuned_engine_follows_every_byte_of_a_write() {
    let record = fixture::write(64, 1);
    for state in [fixture::thin(Regions::Adjacent), fixture::full(Regions::Adjacent), fixture::thin(Regions::Paged)] {
        let base = lent(&state);
        for at in (0..48).chain(556..record.len()) {
            for value in VALUES {
                let mut record = record.clone();
                record[at] = value;
                same(&mut base.clone(), |card, lent| write(card, lent, 0, &record));
            }
        }
    }
}

fn enqueue(card: &dyn Card, lent: &mut Lent, qpn: u32, record: &[u8]) -> Outcome {
    card.enqueue(&mut lent.state, &lent.memory, qpn, record)
}

fn turn(card: &dyn Card, lent: &mut Lent) -> Outcome {
    card.turn(&mut lent.state, &mut lent.memory)
}

/// Until the queues are full, and until they are empty; records of every kind, and with each byte that tells changed.
#[test]
fn tuned_engine_queues_and_takes_turns_as_the_reference() {
    for state in states() {
        let mut lent = lent(&state);
        let records = [
            fixture::write(64, 1),
            fixture::write(4096, 4),
            fixture::inline_write(512),
            fixture::write(4097, 1),
            vec![0; 576],
            vec![0; 592],
            vec![],
        ];
        for n in 0..100 {
            let record = &records[if n < 90 { n % 2 } else { n % records.len() }];
            same(&mut lent, |card, lent| enqueue(card, lent, n as u32 % 9, record));
            if n % 3 == 0 {
                same(&mut lent, turn);
            }
        }
        while same(&mut lent, turn) != reference::Refusal::Nothing.into() {}
        same(&mut lent, |card, lent| card.turn(&mut lent.state, &mut lent.memory[1..]));
        same(&mut lent, |card, lent| card.enqueue(&mut lent.state, &lent.memory[1..], 0, &records[0]));
    }
    let record = fixture::write(64, 1);
    let base = lent(&fixture::thin(Regions::Adjacent));
    for at in (0..48).chain(556..record.len()) {
        for value in VALUES {
            let (mut record, mut lent) = (record.clone(), base.clone());
            record[at] = value;
            same(&mut lent, |card, lent| enqueue(card, lent, 0, &record));
            same(&mut lent, turn);
        }
    }
}

#[test]
fn tuned_engine_polls_as_the_reference() {
    for state in states() {
        let mut lent = lent(&state);
        for cqn in 0..=QUEUES as u32 {
            while same(&mut lent, |card, lent| poll(card, lent, cqn)) == Outcome::DONE {}
        }
        same(&mut lent, |card, lent| card.poll(&mut lent.state, 0, &mut []));
        same(&mut lent, |card, lent| card.poll(&mut lent.state[1..], 0, &mut lent.buffer));
    }
}

/// The bytes to change: all of a state whose regions are of adjacent bytes, but few of those that nobody looks at, page numbers and places of queues;
/// the regions' of one whose regions lie over pages, and few others; with queued sends the turn place and the pairs', and few others.
fn changed(state: &[u8], at: usize) -> bool {
    let paged = state[region_row(0) + REGION_KIND] == PAGED;
    let queued = state[sends_row(0) + SENDS_COUNT] != 0;
    let numbers = (PAGE_ROWS..PAIR_FLAGS).contains(&at);
    match at {
        RECORD_ROWS.. => at % 977 == 0,
        _ if at % 61 == 0 || at == TURN => true,
        _ if queued => at >= PAIR_FLAGS && (at < RECEIVE_ROWS || at >= SENDS_ROWS),
        KIND_ROWS.. => false,
        _ if paged => (REGION_FLAGS..PAGE_ROWS).contains(&at) || numbers && at % 5 == 0,
        _ => !numbers,
    }
}

#[test]
fn tuned_engine_accepts_as_the_reference() {
    let record = fixture::write(64, 1);
    let (mut accepted, mut refused) = (0, 0);
    // Where no region is live, only the pairs name domains.
    let mut pairs_alone = fixture::full(Regions::Adjacent);
    pairs_alone[REGION_FLAGS..REGION_FLAGS + REGIONS].fill(0);
    // Page numbers past the memory that some regions do not need, and a region of each kind among eight.
    let mut mixed = fixture::full(Regions::Paged);
    for n in (0..REGIONS).step_by(3) {
        put64(&mut mixed, region_row(n) + REGION_LENGTH, 1 + 4096 * (n as u64 % 16));
        mixed[page_row(n, 1 + n % 16)..page_row(n + 1, 0)].fill(0xff);
    }
    for n in (0..REGIONS).step_by(5) {
        put64(&mut mixed, region_row(n) + REGION_LENGTH, 1024);
        mixed[region_row(n) + REGION_KIND] = ADJACENT;
    }
    for state in states().into_iter().chain([pairs_alone, mixed]) {
        assert!(reference::accepts(&state));
        let mut lent = Lent { memory: vec![0; fixture::MEMORY], ..lent(&state) };
        for at in (0..STATE_BYTES).filter(|&at| changed(&state, at)) {
            for value in VALUES {
                lent.state[at] = value;
                let outcome = same_in_place(&mut lent, |card, lent| write(card, lent, 0, &record));
                same_in_place(&mut lent, |card, lent| poll(card, lent, 1));
                if (PAIR_FLAGS..RECORD_ROWS).contains(&at) || at == TURN {
                    same_in_place(&mut lent, |card, lent| enqueue(card, lent, 1, &record));
                    same_in_place(&mut lent, turn);
                }
                if outcome.answer == reference::Refusal::BadState as u8 {
                    refused += 1;
                } else {
                    accepted += 1;
                }
            }
            lent.state[at] = state[at];
        }
    }
    assert!(accepted > 10_000 && refused > 1_000, "{accepted} accepted, {refused} refused");
}

/// As `same`, with the lent bytes as they were afterwards. Both write few bytes, which are put back.
fn same_in_place(lent: &mut Lent, call: impl Fn(&dyn Card, &mut Lent) -> Outcome) -> Outcome {
    let before = lent.state.clone();
    let outcome = call(&Reference, lent);
    let after = std::mem::replace(&mut lent.state, before.clone());
    let buffer = lent.buffer;
    assert_eq!(outcome, call(&Tuned, lent));
    assert!(lent.state == after && lent.buffer == buffer, "the bytes differ");
    lent.state = before;
    outcome
}
