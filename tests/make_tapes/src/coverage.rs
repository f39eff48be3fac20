//! Which answers, statuses and completions the tapes show.

use reference::layout::get16;
use reference::replay::{next_record, Kind, HEADER_BYTES};
use std::collections::BTreeMap;

#[derive(Default)]
pub struct Coverage {
    cells: BTreeMap<String, u64>,
}

/// Every answer that a tape can show of each kind of record: not 7, 12 and 15, which come of what is lent.
const ANSWERS: [(&str, &[u8]); 6] = [
    ("control", &[0, 1, 2, 3, 4, 8, 10, 11, 13]),
    ("send", &[0, 1, 2, 3, 4, 5, 6]),
    ("receive", &[0, 1, 2, 3, 4, 6, 8]),
    ("poll", &[0, 2, 9]),
    ("flush", &[0, 2, 3, 6, 9]),
    ("bad record", &[14]),
];
/// Every length of what a control command writes: refused or without data, a number, keys, the reports of a port and of a device.
const ACKS: [usize; 5] = [1, 5, 13, 33, 129];
/// Every status of a work request and of a receive that is done.
const STATUSES: [(&str, &[u8]); 2] = [("send", &[0, 1, 3, 4, 7, 8]), ("receive", &[0, 4])];
const COMPLETIONS: [(u8, &[u8]); 5] =
    [(0, &[0, 1, 3, 4, 7]), (1, &[0, 1, 3, 4, 8]), (2, &[0, 1, 3, 4, 8]), (3, &[0, 1, 3, 4]), (4, &[0])];

impl Coverage {
    pub fn count(&mut self, tape: &[u8], output: &[u8]) {
        let (mut calls, mut answers) = (tape, output);
        while answers.len() >= HEADER_BYTES {
            let (header, rest) = answers.split_at(HEADER_BYTES);
            let (bytes, rest) = rest.split_at(get16(header, 4).into());
            answers = rest;
            let (answer, status) = (header[2], header[3]);
            let record = next_record(&mut calls);
            let kind = record.map_or("bad record", |record| match record.kind {
                Kind::Control => "control",
                Kind::Send => "send",
                Kind::Receive => "receive",
                Kind::Poll => "poll",
                Kind::Flush => "flush",
            });
            self.add(format!("{kind} answer {answer}"));
            if kind == "control" {
                self.add(format!("ack of {} bytes", bytes.len()));
            }
            if answer == 0 {
                self.add(format!("{kind} status {status}"));
            }
            if kind == "poll" && answer == 0 {
                self.add(format!("completion {} status {}", bytes[9], bytes[8]));
            }
        }
    }

    fn add(&mut self, cell: String) {
        *self.cells.entry(cell).or_default() += 1;
    }

    /// Prints the listing; gives back how many cells were never seen.
    pub fn report(&self) -> usize {
        let answers = ANSWERS.iter().flat_map(|(kind, list)| list.iter().map(move |answer| format!("{kind} answer {answer}")));
        let acks = ACKS.iter().map(|length| format!("ack of {length} bytes"));
        let statuses = STATUSES.iter().flat_map(|(kind, list)| list.iter().map(move |status| format!("{kind} status {status}")));
        let completions = COMPLETIONS
            .iter()
            .flat_map(|(opcode, list)| list.iter().map(move |status| format!("completion {opcode} status {status}")));
        let mut missing = 0;
        for cell in answers.chain(acks).chain(statuses).chain(completions) {
            let count = self.cells.get(&cell).copied().unwrap_or(0);
            missing += usize::from(count == 0);
            println!("  {cell:<28}{count:>8}{}", if count == 0 { "  NEVER SEEN" } else { "" });
        }
        missing
    }
}
