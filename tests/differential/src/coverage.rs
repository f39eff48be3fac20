//! Which answers, statuses, completions and steps a run has seen.

use crate::side::Done;
use crate::{pages, turns};
use cards::build::MASK_ACCESS;
use cards::Call;
use reference::layout::*;
use reference::listing::{Listing, PairListing};
use reference::record::*;
use reference::Pair;
use std::collections::BTreeMap;

#[derive(Default)]
pub struct Coverage {
    cells: BTreeMap<String, u64>,
}

/// Every answer that each call can give.
const ANSWERS: [(&str, &[u8]); 9] = [
    ("reset", &[0, 11, 15]),
    ("control", &[0, 1, 2, 3, 4, 8, 10, 11, 12, 13, 15]),
    ("register pages", &[0, 1, 2, 4, 8, 11, 12, 13, 15]),
    ("send", &[0, 1, 2, 3, 4, 5, 6, 7, 10, 15]),
    ("enqueue", &[0, 1, 2, 3, 4, 7, 8, 15]),
    ("turn", &[0, 7, 9, 15]),
    ("receive", &[0, 1, 2, 3, 4, 6, 8, 15]),
    ("flush", &[0, 2, 3, 6, 9, 15]),
    ("poll", &[0, 2, 9, 12, 15]),
];

/// Every answer that each command can give when the record, the buffers and the state pass.
const COMMANDS: [(u8, &[u8]); 11] = [
    (0, &[0, 1]),
    (1, &[0, 1]),
    (2, &[0, 1, 4, 8]),
    (3, &[0, 1, 2, 10]),
    (4, &[0, 1, 8]),
    (5, &[0, 1, 2, 10]),
    (7, &[0, 1, 2, 4, 8, 11]),
    (8, &[0, 1, 2]),
    (9, &[0, 1, 2, 4, 8]),
    (10, &[0, 1, 2, 3, 4]),
    (12, &[0, 1, 2]),
];

/// Both sides of what the ack of a query needs, and of what it does not need.
const QUERIES: [&str; 10] = [
    "device, ack of 128 bytes, answer 12",
    "device, ack of 129 bytes, answer 0",
    "device with data, ack of 13 to 128, answer 12",
    "device with data, ack of 129 on, answer 1",
    "port, ack of 32 bytes, answer 12",
    "port, ack of 33 bytes, answer 0",
    "port with data, ack of 13 to 32, answer 12",
    "port with data, ack of 33 on, answer 1",
    "one byte, ack of 13 to 128, answer 1",
    "another class, ack of 13 to 32, answer 13",
];

/// Whether a registration with this access can be done: remote write (2) needs local write (1).
const ACCESSES: [(u8, &[u8]); 8] = [(0, &[0]), (1, &[0]), (2, &[4]), (3, &[0]), (4, &[0]), (5, &[0]), (6, &[4]), (7, &[0])];

/// Every status of each opcode.
const STATUSES: [(u8, &[u8]); 5] =
    [(0, &[0, 1, 3, 4, 8]), (1, &[0, 1, 3, 4, 8]), (2, &[0, 1, 3, 4, 7]), (3, &[0, 1, 3, 4, 7]), (4, &[0, 1, 3, 4, 8])];

/// Every status of each completion opcode.
const COMPLETIONS: [(u8, &[u8]); 5] =
    [(0, &[0, 1, 3, 4, 7]), (1, &[0, 1, 3, 4, 8]), (2, &[0, 1, 3, 4, 8]), (3, &[0, 1, 3, 4]), (4, &[0])];

/// What comes of work posted on a pair in error.
const ERRORS: [&str; 17] = [
    "send flushed",
    "send flushed unsignaled",
    "send flushed, no destination",
    "send flushed, peer not live",
    "send flushed, peer not ready",
    "send flushed, peer ready",
    "send flushed past waiting receives",
    "send held with 6",
    "receive flushed",
    "receive flushed, the send queue full",
    "receive held with 6",
    "receive joins behind 1",
    "receive joins behind 2",
    "receive joins behind 3",
    "receive joins without a place",
    "receive 8",
    "receive 8 without a place",
];

/// How access flags are set, and what they and the region say of a remote range.
const RIGHTS: [&str; 18] = [
    "set with state 0",
    "set with state 1",
    "set with state 2",
    "set with state 3",
    "set with state 6",
    "above 7, answer 4",
    "above 7 without bit 2, answer 0",
    "write granted by region and flags",
    "write granted by the region alone",
    "write granted by the flags alone",
    "write of no bytes without flags",
    "write with immediate, the flags alone refuse",
    "read granted by region and flags",
    "read granted by the region alone",
    "read granted by the flags alone",
    "read of no bytes without flags",
    "send to a peer without flags",
    "the sender's flags lack what the peer's grant",
];

const STEPS: [&str; 21] = [
    "1 no destination",
    "1 peer not live",
    "1 peer not ready",
    "1 peer names another",
    "1 no receive waiting",
    "2 no place in the send queue",
    "2 no place in the receive queue",
    "2 no two places in a shared queue",
    "6 no bytes",
    "6 inline",
    "6 one piece",
    "6 two pieces",
    "6 three pieces",
    "6 four pieces",
    "6 total 4096",
    "6 peer in another domain",
    "6 peer in state 2",
    "6 shared queue",
    "6 list of two pieces",
    "6 with a zero-length piece",
    "6 unsignaled",
];

impl Coverage {
    /// A call on the state that the listing is of, if it is accepted.
    pub(crate) fn count(&mut self, card: Option<&Listing>, state: &[u8], call: &Call, done: &Done) {
        let answer = done.outcome.answer;
        self.add(format!("{} answer {answer}", call.name()));
        match call {
            Call::Control { command, ack } => {
                self.count_command(command, *ack, answer);
                if let (Some(card), 0) = (card, answer) {
                    self.count_drop(card, command);
                }
            }
            Call::Pages { command, pages, ack } => {
                if let Some(card) = card {
                    for cell in pages::of_registration(card, command, pages, *ack, answer) {
                        self.add(format!("pages: {cell}"));
                    }
                }
            }
            Call::Send { qpn, record, .. } => {
                if answer == 0 {
                    self.add(format!("opcode {} status {}", record[8], done.outcome.status));
                }
                if let Some(card) = card {
                    self.count_steps(card, *qpn, record, answer, done.outcome.status);
                    self.count_error(card, *qpn, Some(record), answer);
                    if answer == 10 {
                        self.extend(turns::of_direct(card, *qpn, record));
                    }
                }
            }
            Call::Enqueue { qpn, .. } => {
                if let Some(card) = card {
                    let first = state[sends_row(*qpn as usize % PAIRS) + SENDS_FIRST];
                    self.extend(turns::of_enqueue(card, *qpn, first, answer));
                }
            }
            Call::Turn { .. } => {
                if let Some(card) = card {
                    self.extend(turns::of_turn(card, done.outcome));
                }
            }
            Call::Receive { qpn, .. } => {
                if let Some(card) = card {
                    self.count_error(card, *qpn, None, answer);
                }
            }
            Call::Poll { .. } if answer == 0 => {
                let completion = Completion::read(&done.written, 0);
                self.add(format!("completion {} status {}", completion.opcode, completion.status));
            }
            _ => {}
        }
    }

    fn count_command(&mut self, command: &[u8], ack: usize, answer: u8) {
        if let [CONTROL_CLASS, number, ..] = command {
            self.add(format!("command {number} answer {answer}"));
        }
        match Command::read(command) {
            Ok(Command::Register(asked)) => self.add(format!("access {} answer {answer}", asked.access)),
            Ok(Command::ModifyPair { mask, state, access, .. }) => match (mask & MASK_ACCESS != 0, access > 7, answer) {
                (true, _, 0) => self.add(format!("rights set with state {state}")),
                (true, true, 4) => self.add("rights above 7, answer 4".into()),
                (false, true, 0) => self.add("rights above 7 without bit 2, answer 0".into()),
                _ => {}
            },
            _ => {}
        }
        let query = match (command, ack, answer) {
            ([CONTROL_CLASS, 0], 128, 12) => 0,
            ([CONTROL_CLASS, 0], 129, 0) => 1,
            ([CONTROL_CLASS, 0, _, ..], 13..=128, 12) => 2,
            ([CONTROL_CLASS, 0, _, ..], 129.., 1) => 3,
            ([CONTROL_CLASS, 1], 32, 12) => 4,
            ([CONTROL_CLASS, 1], 33, 0) => 5,
            ([CONTROL_CLASS, 1, _, ..], 13..=32, 12) => 6,
            ([CONTROL_CLASS, 1, _, ..], 33.., 1) => 7,
            ([CONTROL_CLASS], 13..=128, 1) => 8,
            ([_, 0 | 1, ..], 13..=32, 13) => 9,
            _ => return,
        };
        self.add(format!("query {}", QUERIES[query]));
    }

    fn count_drop(&mut self, card: &Listing, command: &[u8]) {
        match Command::read(command) {
            Ok(Command::ModifyPair { number, state: RESET, .. }) => self.extend(turns::of_drop(card, number, false)),
            Ok(Command::DestroyPair { number }) => self.extend(turns::of_drop(card, number, true)),
            _ => {}
        }
    }

    fn extend(&mut self, cells: Vec<String>) {
        cells.into_iter().for_each(|cell| self.add(cell));
    }

    fn add(&mut self, cell: String) {
        *self.cells.entry(cell).or_default() += 1;
    }

    fn count_steps(&mut self, card: &Listing, qpn: u32, record: &[u8], answer: u8, status: u8) {
        let sender = card.pairs.get(qpn as usize).and_then(Option::as_ref);
        let (sender, send) = match (sender, SendRecord::read(record)) {
            (Some(sender), Ok(send)) if sender.pair.state == READY_TO_SEND => (sender, send),
            _ => return,
        };
        let peer = card.pairs.get(usize::from(sender.pair.destination)).and_then(Option::as_ref);
        match (answer, peer) {
            (5, _) => self.add(format!("step {}", hold_of_peer(qpn, sender, peer))),
            (6, Some(peer)) => self.add(format!("step {}", hold_of_place(card, &send, sender, peer))),
            (0, Some(peer)) => {
                for cell in pages::of_send(card, &send, peer, status) {
                    self.add(format!("pages: {cell}"));
                }
                self.count_rights(card, &send, sender, peer, status);
                if status == 0 {
                    self.count_success(&send, sender, peer);
                }
            }
            _ => {}
        }
    }

    /// What region and flags say of a request that came as far as step 4.
    fn count_rights(&mut self, card: &Listing, send: &SendRecord, sender: &PairListing, peer: &PairListing, status: u8) {
        let (name, right) = match send.opcode {
            WRITE | WRITE_IMMEDIATE => ("write", REMOTE_WRITE),
            READ => ("read", REMOTE_READ),
            _ if status == 0 && peer.pair.access == 0 => return self.add("rights send to a peer without flags".into()),
            _ => return,
        };
        let region = card.regions.get((send.key >> 8) as usize).copied().flatten();
        let in_region = region.map_or(false, |region| {
            let key_fits = u32::from(region.variant) == send.key & 0xff && region.domain == peer.pair.domain;
            let offset = send.address.checked_sub(region.virt);
            let within = offset.map_or(false, |at| at < region.length && send.total() as u64 <= region.length - at);
            key_fits && within && region.access & right != 0
        });
        let in_flags = peer.pair.access & right != 0;
        match (send.total(), status, in_region, in_flags) {
            (0, 0, _, _) if peer.pair.access == 0 => self.add(format!("rights {name} of no bytes without flags")),
            (0, ..) => {}
            (_, 0, true, true) => {
                self.add(format!("rights {name} granted by region and flags"));
                if sender.pair.access & right == 0 {
                    self.add("rights the sender's flags lack what the peer's grant".into());
                }
            }
            (_, 8, true, false) => {
                self.add(format!("rights {name} granted by the region alone"));
                if send.opcode == WRITE_IMMEDIATE {
                    self.add("rights write with immediate, the flags alone refuse".into());
                }
            }
            (_, 8, false, true) => self.add(format!("rights {name} granted by the flags alone")),
            _ => {}
        }
    }

    /// Work posted on a pair in error: a send with its record, or a receive.
    fn count_error(&mut self, card: &Listing, qpn: u32, send: Option<&[u8]>, answer: u8) {
        let pair = match card.pairs.get(qpn as usize).and_then(Option::as_ref) {
            Some(pair) if pair.pair.state == ERROR => pair,
            _ => return,
        };
        let (waiting, place) = (pair.waiting.len(), !is_full(card, pair.pair.receive_queue));
        let seen = match (send, answer) {
            (Some(record), 0) => {
                let unsignaled = pair.pair.signal == 1 && record[9] & SIGNALED == 0;
                vec![
                    ("send flushed", true),
                    ("send flushed unsignaled", unsignaled),
                    (flushed_past(card, qpn, pair), true),
                    ("send flushed past waiting receives", waiting > 0),
                ]
            }
            (Some(_), 6) => vec![("send held with 6", true)],
            (None, 0) if waiting == 0 => {
                vec![("receive flushed", true), ("receive flushed, the send queue full", is_full(card, pair.pair.send_queue))]
            }
            (None, 0) => {
                let behind = ["receive joins behind 1", "receive joins behind 2", "receive joins behind 3"];
                vec![(behind[waiting - 1], true), ("receive joins without a place", !place)]
            }
            (None, 6) => vec![("receive held with 6", true)],
            (None, 8) => vec![("receive 8", place), ("receive 8 without a place", !place)],
            _ => vec![],
        };
        for (name, _) in seen.into_iter().filter(|(_, seen)| *seen) {
            self.add(format!("error: {name}"));
        }
    }

    fn count_success(&mut self, send: &SendRecord, sender: &PairListing, peer: &PairListing) {
        let form = match send.local {
            Local::Inline(_) => "inline",
            Local::Pieces { count, .. } => ["no bytes", "one piece", "two pieces", "three pieces", "four pieces"][count],
        };
        let empty_piece = match &send.local {
            Local::Pieces { pieces, count } => {
                pieces[..*count].iter().any(|piece| piece.length == 0) && total(&pieces[..*count]) > 0
            }
            Local::Inline(_) => false,
        };
        let list = peer.waiting.first().map_or(0, |receive| receive.pieces.len());
        let seen = [
            (form, true),
            ("no bytes", send.total() == 0),
            ("total 4096", send.total() == MOST_MESSAGE as u64),
            ("peer in another domain", sender.pair.domain != peer.pair.domain),
            ("peer in state 2", peer.pair.state == READY_TO_RECEIVE),
            ("shared queue", send.takes_receive() && sender.pair.send_queue == peer.pair.receive_queue),
            ("list of two pieces", matches!(send.opcode, 2 | 3) && list == 2),
            ("with a zero-length piece", empty_piece),
            ("unsignaled", sender.pair.signal == 1 && send.flags & 2 == 0 && send.opcode <= READ),
        ];
        for (name, _) in seen.into_iter().filter(|(_, seen)| *seen) {
            self.add(format!("step 6 {name}"));
        }
    }

    /// Prints the table; gives back how many reachable cells were never seen.
    pub fn print(&self) -> usize {
        let mut missing = 0;
        for (title, cells) in groups() {
            println!("{title}");
            for cell in cells {
                let count = self.cells.get(&cell).copied().unwrap_or(0);
                missing += usize::from(count == 0);
                println!("  {cell:<60}{count:>10}{}", if count == 0 { "  NEVER SEEN" } else { "" });
            }
        }
        missing
    }
}

fn groups() -> Vec<(&'static str, Vec<String>)> {
    let cells = |name: &str, what: &str, table: &[(u8, &[u8])]| -> Vec<String> {
        table.iter().flat_map(|(n, list)| list.iter().map(move |k| format!("{name} {n} {what} {k}"))).collect()
    };
    let answers = ANSWERS.iter().flat_map(|(call, list)| list.iter().map(move |k| format!("{call} answer {k}"))).collect();
    vec![
        ("answers of each call", answers),
        ("answers of each command", cells("command", "answer", &COMMANDS)),
        ("acks of queries", QUERIES.iter().map(|query| format!("query {query}")).collect()),
        ("registrations with each access", cells("access", "answer", &ACCESSES)),
        ("statuses of each opcode", cells("opcode", "status", &STATUSES)),
        ("completions polled", cells("completion", "status", &COMPLETIONS)),
        ("access flags", RIGHTS.iter().map(|name| format!("rights {name}")).collect()),
        ("work posted in error", ERRORS.iter().map(|name| format!("error: {name}")).collect()),
        ("page lists", pages::CELLS.iter().map(|cell| format!("pages: {cell}")).collect()),
        ("steps of post send", STEPS.iter().map(|step| format!("step {step}")).collect()),
        ("queues and turns", turns::cells()),
    ]
}

/// Why step 1 holds.
fn hold_of_peer(qpn: u32, sender: &PairListing, peer: Option<&PairListing>) -> &'static str {
    match peer {
        _ if sender.pair.destination == NO_DESTINATION => "1 no destination",
        None => "1 peer not live",
        Some(peer) if !matches!(peer.pair.state, READY_TO_RECEIVE | READY_TO_SEND) => "1 peer not ready",
        Some(peer) if u32::from(peer.pair.destination) != qpn => "1 peer names another",
        Some(_) => "1 no receive waiting",
    }
}

/// The peer that a flushed send does not look at.
fn flushed_past(card: &Listing, qpn: u32, sender: &PairListing) -> &'static str {
    match card.pairs.get(usize::from(sender.pair.destination)).and_then(Option::as_ref).map(|peer| peer.pair) {
        _ if sender.pair.destination == NO_DESTINATION => "send flushed, no destination",
        None => "send flushed, peer not live",
        Some(Pair { state: READY_TO_RECEIVE | READY_TO_SEND, destination, .. }) if u32::from(destination) == qpn => {
            "send flushed, peer ready"
        }
        Some(_) => "send flushed, peer not ready",
    }
}

fn is_full(card: &Listing, queue: u8) -> bool {
    card.queues[usize::from(queue)].as_ref().map_or(false, |queue| queue.unread.len() == queue.places)
}

/// Why step 2 holds.
fn hold_of_place(card: &Listing, send: &SendRecord, sender: &PairListing, peer: &PairListing) -> &'static str {
    if is_full(card, sender.pair.send_queue) {
        "2 no place in the send queue"
    } else if send.takes_receive() && sender.pair.send_queue == peer.pair.receive_queue {
        "2 no two places in a shared queue"
    } else {
        "2 no place in the receive queue"
    }
}
