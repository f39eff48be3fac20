//! The replay of a tape: records of calls in, records of answers out.

use crate::answer::{Outcome, Refusal};
use crate::layout::{get16, COMPLETION_BYTES, STATE_BYTES};
use crate::query::{DEVICE_ACK_BYTES, PORT_ACK_BYTES};
use crate::{control, flush, poll, post_receive, post_send, reset, ACK_BYTES};

pub const MARK: [u8; 2] = [0x52, 0x4b];
pub const ANSWER_MARK: [u8; 2] = [0x72, 0x6b];
pub const HEADER_BYTES: usize = 6;
pub const MOST_BODY: usize = 640;
pub const MEMORY: usize = 4096;

/// One call of a tape.
#[derive(Clone, Copy, Debug, PartialEq, Eq)]
pub struct TapeRecord<'a> {
    pub kind: Kind,
    pub number: u8,
    pub body: &'a [u8],
}

#[derive(Clone, Copy, Debug, PartialEq, Eq)]
pub enum Kind {
    Control,
    Send,
    Receive,
    Poll,
    Flush,
}

impl Kind {
    fn from_byte(byte: u8) -> Option<Kind> {
        [Kind::Control, Kind::Send, Kind::Receive, Kind::Poll, Kind::Flush].into_iter().find(|&kind| kind as u8 + 1 == byte)
    }

    pub fn byte(self) -> u8 {
        self as u8 + 1
    }
}

/// Takes the next record off the tape; None if it is bad or cut.
pub fn next_record<'a>(tape: &mut &'a [u8]) -> Option<TapeRecord<'a>> {
    let (header, rest) = split(tape, HEADER_BYTES)?;
    if header[..2] != MARK {
        return None;
    }
    let kind = Kind::from_byte(header[2])?;
    let length = usize::from(get16(header, 4));
    let most = if matches!(kind, Kind::Poll | Kind::Flush) { 0 } else { MOST_BODY };
    if length > most {
        return None;
    }
    let (body, rest) = split(rest, length)?;
    *tape = rest;
    Some(TapeRecord { kind, number: header[3], body })
}

/// The first `length` bytes and the rest, if there are so many.
fn split(bytes: &[u8], length: usize) -> Option<(&[u8], &[u8])> {
    (length <= bytes.len()).then(|| bytes.split_at(length))
}

/// The answers to a whole tape.
pub fn replay(tape: &[u8]) -> Vec<u8> {
    let mut state = vec![0; STATE_BYTES];
    let mut memory = vec![0; MEMORY];
    reset(&mut state, MEMORY as u64);
    let mut rest = tape;
    let mut output = Vec::new();
    while !rest.is_empty() {
        match next_record(&mut rest) {
            Some(record) => play(&mut state, &mut memory, &record, &mut output),
            None => {
                write_answer(&mut output, Refusal::BadTapeRecord.into(), &[]);
                break;
            }
        }
    }
    output
}

fn play(state: &mut [u8], memory: &mut [u8], record: &TapeRecord, output: &mut Vec<u8>) {
    let number = u32::from(record.number);
    let mut buffer = [0; DEVICE_ACK_BYTES];
    let outcome = match record.kind {
        Kind::Control => control(state, record.body, &mut buffer),
        Kind::Send => post_send(state, memory, number, record.body),
        Kind::Receive => post_receive(state, number, record.body),
        Kind::Poll => poll(state, number, &mut buffer[..COMPLETION_BYTES]),
        Kind::Flush => flush(state, number),
    };
    write_answer(output, outcome, &buffer[..written(record, outcome.answer)]);
}

/// How many bytes a call wrote: an ack with its data, or a completion.
fn written(record: &TapeRecord, answer: u8) -> usize {
    match (record.kind, answer) {
        (Kind::Control, 0) => match record.body[1] {
            0 => DEVICE_ACK_BYTES,
            1 => PORT_ACK_BYTES,
            2 | 4 | 9 => 5,
            7 => ACK_BYTES,
            _ => 1,
        },
        (Kind::Control, _) => 1,
        (Kind::Poll, 0) => COMPLETION_BYTES,
        _ => 0,
    }
}

fn write_answer(output: &mut Vec<u8>, outcome: Outcome, bytes: &[u8]) {
    output.extend(ANSWER_MARK);
    output.extend([outcome.answer, outcome.status]);
    output.extend((bytes.len() as u16).to_le_bytes());
    output.extend(bytes);
}
