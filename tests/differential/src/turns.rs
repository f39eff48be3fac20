//! What enqueues, turns and direct sends beside queues a run has seen.

use generator::head_held;
use reference::layout::*;
use reference::listing::{Listing, PairListing};
use reference::record::SendRecord;
use reference::Outcome;

/// Why a visit goes past a pair: it is not live, its queue is empty, or its head is held, in state 3 or in state 6.
const PASSED: [&str; 11] = [
    "not live",
    "empty",
    "no destination",
    "peer not live",
    "peer not ready",
    "peer names another",
    "no receive waiting",
    "no place in the send queue",
    "no place in the receive queue",
    "no two places in a shared queue",
    "in error, no place",
];

/// Every opcode with each status that a turn can give it.
const ENDS: [(u8, &[u8]); 5] =
    [(0, &[0, 1, 3, 4, 8]), (1, &[0, 1, 3, 4, 8]), (2, &[0, 1, 3, 4, 7]), (3, &[0, 1, 3, 4, 7]), (4, &[0, 1, 3, 4, 8])];

const OTHERS: [&str; 23] = [
    "9, nothing queued",
    "9, every head held",
    "9, a head held in state 3 and one in state 6",
    "served inline",
    "served without a piece",
    "served one piece",
    "served two pieces",
    "served three pieces",
    "served four pieces",
    "served a peer with a queue",
    "enqueued in state 3",
    "enqueued in state 6",
    "enqueued without a live peer",
    "enqueued without a place",
    "enqueued over the ring's end",
    "8 in state 3",
    "8 in state 6",
    "10 in state 3, it could run",
    "10 in state 3, it would be held",
    "10 in state 6, a place",
    "10 in state 6, no place",
    "a move to 0 drops a queue",
    "a destruction drops a queue",
];

/// All of them: what is passed over at each seat from the turn place on, where a turn begins and whom it serves, and the others.
pub fn cells() -> Vec<String> {
    let seats = |what: &str| -> Vec<String> { (0..PAIRS).map(|n| format!("turn: seat {n}, {what}")).collect() };
    let passed = PASSED.iter().flat_map(|what| seats(what));
    let numbers = (0..PAIRS).flat_map(|n| [format!("turn: place {n}"), format!("turn: serves {n}"), format!("turn: behind {n}")]);
    let ends = ENDS.iter().flat_map(|(opcode, list)| list.iter().map(move |k| format!("turn: opcode {opcode} status {k}")));
    passed.chain(seats("served")).chain(numbers).chain(ends).chain(OTHERS.iter().map(|name| format!("turn: {name}"))).collect()
}

fn named(seen: &[(&str, bool)]) -> Vec<String> {
    seen.iter().filter(|(_, seen)| *seen).map(|(name, _)| format!("turn: {name}")).collect()
}

/// A turn that was served, or answered 9.
pub fn of_turn(card: &Listing, outcome: Outcome) -> Vec<String> {
    if !matches!(outcome.answer, 0 | 9) {
        return vec![];
    }
    let served = (outcome.answer == 0).then_some(usize::from(outcome.served));
    let mut cells = vec![format!("turn: place {}", card.turn)];
    let mut held = Vec::new();
    for seat in 0..PAIRS {
        let number = (card.turn + seat) % PAIRS;
        if served == Some(number) {
            cells.push(format!("turn: seat {seat}, served"));
            break;
        }
        let cause = match &card.pairs[number] {
            None => "not live",
            Some(pair) if pair.queued.is_empty() => "empty",
            Some(_) => head_held(card, number).unwrap_or("runs, and was passed over"),
        };
        held.extend((!matches!(cause, "not live" | "empty")).then_some(cause));
        cells.push(format!("turn: seat {seat}, {cause}"));
    }
    let in_error = held.iter().filter(|cause| **cause == "in error, no place").count();
    match served.and_then(|number| card.pairs[number].as_ref().map(|pair| (number, pair))) {
        Some((number, pair)) => cells.extend(of_served(card, number, pair, outcome.status)),
        None => cells.extend(named(&[
            ("9, nothing queued", held.is_empty()),
            ("9, every head held", !held.is_empty()),
            ("9, a head held in state 3 and one in state 6", in_error > 0 && in_error < held.len()),
        ])),
    }
    cells
}

fn of_served(card: &Listing, number: usize, pair: &PairListing, status: u8) -> Vec<String> {
    let head = match pair.queued.first() {
        Some(head) => head,
        None => return vec!["turn: serves an empty queue".into()],
    };
    let form = match (&head.inline, head.pieces.len()) {
        (Some(_), _) => "served inline",
        (None, count) => {
            ["served without a piece", "served one piece", "served two pieces", "served three pieces", "served four pieces"]
                [count]
        }
    };
    let peer = card.pairs.get(usize::from(pair.pair.destination)).and_then(Option::as_ref);
    let mut cells = vec![format!("turn: serves {number}"), format!("turn: opcode {} status {status}", head.opcode)];
    cells.extend(named(&[(form, true), ("served a peer with a queue", peer.map_or(false, |peer| !peer.queued.is_empty()))]));
    cells
}

/// An enqueue; `first` is where the pair's ring begins.
pub fn of_enqueue(card: &Listing, qpn: u32, first: u8, answer: u8) -> Vec<String> {
    let pair = match card.pairs.get(qpn as usize).and_then(Option::as_ref) {
        Some(pair) => pair,
        None => return vec![],
    };
    let in_error = pair.pair.state == ERROR;
    let full = card.queues[usize::from(pair.pair.send_queue)].as_ref().map_or(true, |queue| queue.unread.len() == queue.places);
    let no_peer = card.pairs.get(usize::from(pair.pair.destination)).map_or(true, Option::is_none);
    let mut cells = named(&[
        ("enqueued in state 3", answer == 0 && !in_error),
        ("enqueued in state 6", answer == 0 && in_error),
        ("enqueued without a live peer", answer == 0 && !in_error && no_peer),
        ("enqueued without a place", answer == 0 && full),
        ("enqueued over the ring's end", answer == 0 && usize::from(first) + pair.queued.len() >= MOST_QUEUED),
        ("8 in state 3", answer == 8 && !in_error),
        ("8 in state 6", answer == 8 && in_error),
    ]);
    if answer == 0 {
        cells.push(format!("turn: behind {}", pair.queued.len()));
    }
    cells
}

/// A direct send that is answered 10.
pub fn of_direct(card: &Listing, qpn: u32, record: &[u8]) -> Vec<String> {
    let mut without = card.clone();
    let pair = match without.pairs.get_mut(qpn as usize).and_then(Option::as_mut) {
        Some(pair) => pair,
        None => return vec![],
    };
    let in_error = pair.pair.state == ERROR;
    // the send itself, as if it were the head
    if let (Ok(send), Some(head)) = (SendRecord::read(record), pair.queued.first_mut()) {
        head.opcode = send.opcode;
    }
    let held = head_held(&without, qpn as usize).is_some();
    named(&[
        ("10 in state 3, it could run", !in_error && !held),
        ("10 in state 3, it would be held", !in_error && held),
        ("10 in state 6, a place", in_error && !held),
        ("10 in state 6, no place", in_error && held),
    ])
}

/// A move to 0 or a destruction of a pair with a queue.
pub fn of_drop(card: &Listing, number: u32, destroyed: bool) -> Vec<String> {
    let has_queue = card.pairs.get(number as usize).and_then(Option::as_ref).map_or(false, |pair| !pair.queued.is_empty());
    named(&[("a move to 0 drops a queue", has_queue && !destroyed), ("a destruction drops a queue", has_queue && destroyed)])
}
