//! The layouts of send, receive and command records, on built, changed and random records of every length.

use crate::both::{Both, Left};
use crate::fixture::*;
use cards::build::*;
use cards::{Call, Rng};
use reference::layout::KIND_ROWS;
use reference::record::*;
use reference::ACK_BYTES;
use std::ops::Range;

/// The call that hands in a record.
type Handed = fn(Vec<u8>) -> Call;

const SENDS: Handed = |record| Call::Send { qpn: SENDER, record, memory: MEMORY };
const ENQUEUES: Handed = |record| Call::Enqueue { qpn: SENDER, record, memory: MEMORY };
const RECEIVES: Handed = |record| Call::Receive { qpn: RECEIVER, record };
const LISTS: Handed = |record| Call::Pages { command: record, pages: vec![4096, 0], ack: ACK_BYTES };

/// Records handed in by one call, on the card of the fixture.
struct Records<'b, 'a> {
    check: &'static str,
    hand: Handed,
    /// Whether a turn is to run what was handed in.
    turned: bool,
    both: &'b mut Both<'a>,
    state: Vec<u8>,
    memory: Vec<u8>,
}

pub fn compare(both: &mut Both, rng: &mut Rng) {
    for outcome in ["0", "0 status 1", "0 status 3", "0 status 7", "0 status 8", "1", "4"] {
        both.tally.require("send record", format!("answer {outcome}"));
    }
    for outcome in ["0", "0 status 1", "0 status 3", "0 status 7", "0 status 8"] {
        both.tally.require("turn of a record", format!("answer {outcome}"));
    }
    for answer in [0, 1, 4] {
        both.tally.require("queued record", format!("answer {answer}"));
    }
    for answer in [0, 1, 4] {
        both.tally.require("receive record", format!("answer {answer}"));
    }
    for answer in [0, 1, 2, 4, 10, 11, 13] {
        both.tally.require("command", format!("answer {answer}"));
    }
    for answer in [0, 1, 12, 13] {
        both.tally.require("ack", format!("answer {answer}"));
        both.tally.require("ack of a page list", format!("answer {answer}"));
    }
    for answer in [0, 1, 2, 4, 11, 13] {
        both.tally.require("page list", format!("answer {answer}"));
    }
    let (state, memory) = (state(), memory(rng));
    let mut records = Records { check: "send record", hand: SENDS, turned: false, both, state, memory };
    sends(&mut records, rng);
    records = Records { check: "queued record", hand: ENQUEUES, turned: true, ..records };
    sends(&mut records, rng);
    every_byte_is_kept(&mut records);
    records = Records { check: "receive record", hand: RECEIVES, turned: false, ..records };
    receives(&mut records, rng);
    records = Records { check: "command", hand: control, ..records };
    commands(&mut records, rng);
    acks(&mut records);
    records = Records { check: "page list", hand: LISTS, ..records };
    page_lists(&mut records, rng);
}

impl Records<'_, '_> {
    /// What came of the record; where it was queued what came of its turn, without the places of the queues.
    fn check(&mut self, record: &[u8]) -> Left {
        let left = self.both.count(self.check, &(self.hand)(record.to_vec()), &self.state, &self.memory);
        if !self.turned || left.outcome.answer != 0 {
            return left;
        }
        let mut left = self.both.count("turn of a record", &Call::Turn { memory: MEMORY }, &left.state, &left.memory);
        left.state.truncate(KIND_ROWS);
        left
    }

    /// The record as it is, and cut or lengthened to every length up to `most`.
    fn check_lengths(&mut self, record: &[u8], most: usize) {
        for length in 0..=most {
            let mut changed = record.to_vec();
            changed.resize(length, 0);
            self.check(&changed);
        }
    }

    /// Every value of the named bytes.
    fn check_values(&mut self, record: &[u8], places: &[usize]) {
        for &at in places {
            for value in 0..=255 {
                let mut changed = record.to_vec();
                changed[at] = value;
                self.check(&changed);
            }
        }
    }

    /// Each bit changed: something else comes of it exactly for the bytes of the fields, of a record that is done.
    fn check_fields(&mut self, record: &[u8], fields: &[Range<usize>]) {
        let plain = self.check(record);
        assert_eq!((plain.outcome.answer, plain.outcome.status), (0, 0), "{}", (self.hand)(record.to_vec()));
        for at in 0..record.len() {
            let mut tells = false;
            for bit in 0..8 {
                let mut changed = record.to_vec();
                changed[at] ^= 1 << bit;
                tells |= self.check(&changed) != plain;
            }
            if tells != fields.iter().any(|field| field.contains(&at)) {
                let what = if tells { "tells, and is no field" } else { "is a field, and does not tell" };
                self.both.tally.differ(self.check, format!("byte {at} {what}, on {}", (self.hand)(record.to_vec())));
            }
        }
    }
}

// ---- send records

/// wr_id, opcode, flags; immediate; remote address and key; piece count, or inline length.
const HEAD: Range<usize> = 0..10;
const IMMEDIATE: Range<usize> = 12..16;
const REMOTE_RANGE: Range<usize> = 16..28;
const COUNT: Range<usize> = 560..564;
const INLINE_LENGTH: Range<usize> = 560..562;

/// A send that is done and completes, of this opcode.
fn good_send(opcode: u8) -> Send {
    Send::new(0x0102_0304_0506_0708, opcode).flags(SIGNALED).immediate(0xa1b2_c3d4).remote(REMOTE + 300, REMOTE_KEY)
}

fn with_pieces(opcode: u8, count: usize) -> Vec<u8> {
    let pieces = (0..count as u64).map(|n| piece(LOCAL + 20 + 700 * n, 40 + 16 * n as u32, LOCAL_KEY)).collect();
    Send { pieces, ..good_send(opcode) }.bytes()
}

fn send_fields(records: &mut Records, rng: &mut Rng) {
    for (opcode, used) in [
        (WRITE, &[HEAD, REMOTE_RANGE][..]),
        (WRITE_IMMEDIATE, &[HEAD, IMMEDIATE, REMOTE_RANGE]),
        (SEND, &[HEAD]),
        (SEND_IMMEDIATE, &[HEAD, IMMEDIATE]),
        (READ, &[HEAD, REMOTE_RANGE]),
    ] {
        for count in [1, 4] {
            let record = with_pieces(opcode, count);
            let fields = [used, &[COUNT, SEND_BYTES..record.len()]].concat();
            records.check_fields(&record, &fields);
        }
        for length in [64, 512] {
            if opcode == READ {
                continue;
            }
            let mut bytes = vec![0; length];
            rng.fill(&mut bytes);
            let fields = [used, &[INLINE_LENGTH, INLINE_AT..INLINE_AT + length]].concat();
            records.check_fields(&good_send(opcode).inline(&bytes).bytes(), &fields);
        }
    }
}

fn random_send(rng: &mut Rng) -> Vec<u8> {
    let mut send = Send::new(rng.word(), rng.below(6) as u8).remote(rng.word(), rng.word() as u32).immediate(rng.word() as u32);
    send.flags = rng.below(18) as u8;
    send.inline = vec![rng.word() as u8; rng.pick(&[0, 1, 4, 5, 255, 256, 511, 512, 513, 1000])];
    for _ in 0..rng.below(6) {
        send.pieces.push(Piece { address: rng.word(), length: rng.word() as u32, key: rng.word() as u32 });
    }
    if rng.percent(50) {
        send = send.remote(REMOTE + rng.below(5000), REMOTE_KEY);
        for piece in &mut send.pieces {
            *piece = Piece { address: LOCAL + rng.below(5000), length: rng.below(1100) as u32, key: LOCAL_KEY };
        }
    }
    let mut record = send.bytes();
    rng.fill(&mut record[10..12]);
    rng.fill(&mut record[28..48]);
    rng.fill(&mut record[564..576]);
    record
}

fn sends(records: &mut Records, rng: &mut Rng) {
    send_fields(records, rng);
    for n in 0..20_000 {
        let mut record = random_send(rng);
        match n % 4 {
            0 | 1 => {}
            2 => record.resize(rng.index(680), 0),
            _ => record[COUNT_AT + rng.index(4)] = rng.word() as u8,
        }
        records.check(&record);
    }
    for count in 0..=6 {
        let mut record = Send { pieces: vec![Piece::default(); count], ..Send::new(1, 0) }.bytes();
        rng.fill(&mut record[SEND_BYTES..]);
        records.check_lengths(&record, 700);
    }
    records.check_lengths(&good_send(WRITE).inline(&[7; 100]).bytes(), 700);
    for length in 0..=513 {
        records.check(&good_send(SEND).inline(&vec![length as u8; length]).bytes());
    }
    records.check_values(&with_pieces(WRITE, 1), &[8, 9, 560, 561, 562, 563]);
}

/// A record stands in its queue with every byte, of whatever meaning.
fn every_byte_is_kept(records: &mut Records) {
    records.turned = false;
    for record in [with_pieces(WRITE, 0), with_pieces(READ, 4), good_send(SEND).inline(&[7; 512]).bytes()] {
        let length = record.len();
        records.check_fields(&record, &[0..length]);
    }
}

// ---- receive records

fn receives(records: &mut Records, rng: &mut Rng) {
    for count in 0..=2 {
        let mut record = receive(0x0102_0304_0506_0708, &vec![piece(0x1112_1314_1516_1718, 0x2122_2324, 0x3132_3334); count]);
        rng.fill(&mut record[12..24]);
        let length = record.len();
        records.check_fields(&record, &[0..12, RECEIVE_BYTES..length]);
    }
    for n in 0..20_000 {
        let mut pieces = vec![Piece::default(); rng.index(4)];
        for piece in &mut pieces {
            *piece = Piece { address: rng.word(), length: rng.word() as u32, key: rng.word() as u32 };
        }
        let mut record = receive(rng.word(), &pieces);
        rng.fill(&mut record[12..24]);
        match n % 3 {
            0 => {}
            1 => record.resize(rng.index(80), 0),
            _ => record[8 + rng.index(4)] = rng.below(4) as u8,
        }
        records.check(&record);
    }
    for count in 0..4 {
        let mut record = receive(1, &vec![Piece::default(); count]);
        rng.fill(&mut record[12..]);
        records.check_lengths(&record, 100);
    }
    records.check_values(&receive(1, &[Piece::default()]), &[8, 9, 10, 11]);
}

// ---- commands

fn command_fields(records: &mut Records) {
    for command in [
        query_device(),
        query_port(),
        create_queue(5),
        destroy_queue(SPARE),
        create_domain(),
        destroy_domain(SPARE),
        register(0, 5, 64, 128, 3 << 32),
        deregister(SPARE),
        join(SPARE, SENDER),
        destroy_pair(SPARE),
    ] {
        let length = command.len();
        records.check_fields(&command, &[0..length]);
    }
    // without their mask bits destination and access flags are ignored
    let fails = Modify { access: ALL_RIGHTS, ..to_state(SPARE, 6) };
    records.check_fields(&fails.bytes(), &[0..14]);
    records.check_fields(&fails.access(2).bytes(), &[0..14, 18..22]);
    records.check_fields(&to_peer(SPARE, SENDER).bytes(), &[0..18]);
    // bytes 8 and 9 of create QP are ignored
    records.check_fields(&create_pair(0, 2, 1, 0, 1), &[0..8, 10..18]);
}

fn commands(records: &mut Records, rng: &mut Rng) {
    command_fields(records);
    let mut bytes = [0; 48];
    for class in [0, 5, 6, 7, 255] {
        for number in 0..=255 {
            rng.fill(&mut bytes);
            bytes[..2].copy_from_slice(&[class, number]);
            records.check_lengths(&bytes, 48);
        }
    }
    for _ in 0..5_000 {
        let (a, b) = (rng.below(4) as u32, rng.below(4) as u32);
        let record = match rng.below(4) {
            0 => register(a, rng.below(9) as u32, rng.below(9000), rng.below(9000), rng.word()),
            1 => create_pair(a, rng.below(4) as u8, rng.below(3) as u8, b, rng.below(4) as u32),
            2 => {
                let (state, padding) = (rng.below(8) as u8, [0, 0, rng.percent(10).into()]);
                let any = rng.word() as u32;
                let mask =
                    rng.pick(&[0, MASK_STATE, MASK_STATE, MASK_STATE | MASK_DESTINATION, any]) ^ rng.pick(&[0, MASK_ACCESS]);
                let access = rng.pick(&[0, 1, 2, 4, 6, 7, 8, any]);
                Modify { qpn: a, mask, state, padding, destination: b, access }.bytes()
            }
            _ => number_command(rng.pick(&[2, 3, 5, 8, 12]), rng.below(40) as u32),
        };
        records.check(&record);
    }
}

/// Queries and what looks like them, with ack buffers of every length up to some past the longest ack.
fn acks(records: &mut Records) {
    for command in
        [&[6, 0][..], &[6, 0, 0], &[6, 1], &[6, 1, 1, 1, 1, 1], &[6, 2, 1, 0, 0, 0], &[6, 4], &[6], &[5, 0], &[7, 1], &[]]
    {
        for ack in 0..=140 {
            let call = Call::Control { command: command.to_vec(), ack };
            records.both.count("ack", &call, &records.state, &records.memory);
        }
    }
}

// ---- page lists

/// Every field of the record, every bit of an entry, lists of 0 to 20 entries and of those with higher bits in their number, and random ones;
/// records of other commands.
fn page_lists(records: &mut Records, rng: &mut Rng) {
    let command = register(0, 5, 4095, 2, 3 << 32);
    records.check_fields(&command, &[0..command.len()]);
    let mut bytes = [0; 48];
    for class in [5, 6, 7] {
        for number in 0..=16 {
            rng.fill(&mut bytes);
            bytes[..2].copy_from_slice(&[class, number]);
            records.check_lengths(&bytes, 48);
        }
    }
    let mut list = |start: u64, length: u64, pages: Vec<u64>| {
        let call = Call::Pages { command: register(0, 5, start, length, 3 << 32), pages, ack: ACK_BYTES };
        records.both.count("page list", &call, &records.state, &records.memory);
    };
    for place in 0..3 {
        for bit in 0..64 {
            let mut pages = vec![4096, 0, 4096];
            pages[place] ^= 1 << bit;
            list(100, 8192, pages);
        }
    }
    for length in [1, 4096, 4097, 8192, 8193, 61440, 61441, 65535, 65536, 65537, 69632, u64::MAX] {
        for start in [0, 1, 4095, 4096] {
            (0..=20).chain(256..=273).chain([65537, 65552]).for_each(|count| list(start, length, vec![4096; count]));
        }
    }
    for _ in 0..20_000 {
        let (start, length) = (rng.below(4200), rng.below(20_000));
        let need = (start + length + 4095) / 4096;
        let count = if rng.percent(80) { need } else { rng.below(18) };
        list(start, length, (0..count).map(|_| rng.pick(&[0, 0, 4096, 4096, 4096, 8192, 4095, u64::MAX - 4095])).collect());
    }
    for command in [&[6, 0][..], &[6, 1], &[6, 0, 0], &[6, 4], &[6], &[5, 7], &[], &command] {
        for ack in 0..=140 {
            let call = Call::Pages { command: command.to_vec(), pages: vec![0, 0], ack };
            records.both.count("ack of a page list", &call, &records.state, &records.memory);
        }
    }
}
