//! One call as a value: what the generator makes, the cases are written in and the comparison plays.

use crate::Card;
use reference::layout::COMPLETION_BYTES;
use reference::replay::{Kind, MARK, MEMORY, MOST_BODY};
use reference::{ack_need, Outcome};
use std::fmt;

/// A call with all that is lent to it but the state and the memory's content; of buffers the lengths.
#[derive(Clone, Debug)]
pub enum Call {
    Reset { memory_length: u64 },
    Control { command: Vec<u8>, ack: usize },
    Pages { command: Vec<u8>, pages: Vec<u64>, ack: usize },
    Send { qpn: u32, record: Vec<u8>, memory: usize },
    Enqueue { qpn: u32, record: Vec<u8>, memory: usize },
    Turn { memory: usize },
    Receive { qpn: u32, record: Vec<u8> },
    Flush { qpn: u32 },
    Poll { cqn: u32, buffer: usize },
}

impl Call {
    pub fn name(&self) -> &'static str {
        match self {
            Call::Reset { .. } => "reset",
            Call::Control { .. } => "control",
            Call::Pages { .. } => "register pages",
            Call::Send { .. } => "send",
            Call::Enqueue { .. } => "enqueue",
            Call::Turn { .. } => "turn",
            Call::Receive { .. } => "receive",
            Call::Flush { .. } => "flush",
            Call::Poll { .. } => "poll",
        }
    }

    /// How many bytes are lent for what it writes beside state and memory.
    pub fn buffer(&self) -> usize {
        match self {
            Call::Control { ack: length, .. } | Call::Pages { ack: length, .. } | Call::Poll { buffer: length, .. } => *length,
            _ => 0,
        }
    }

    /// Whether a refusal other than 12 and 15 writes 1 to the buffer.
    pub fn has_ack(&self) -> bool {
        matches!(self, Call::Control { .. } | Call::Pages { .. })
    }

    /// How long a memory is lent to it, if one is.
    pub fn memory(&self) -> Option<usize> {
        match self {
            Call::Send { memory, .. } | Call::Enqueue { memory, .. } | Call::Turn { memory } => Some(*memory),
            _ => None,
        }
    }

    /// Makes the call. Memory and buffer have the lengths that it says.
    pub fn make(&self, card: &dyn Card, state: &mut [u8], memory: &mut [u8], buffer: &mut [u8]) -> Outcome {
        match self {
            Call::Reset { memory_length } => card.reset(state, *memory_length),
            Call::Control { command, .. } => card.control(state, command, buffer),
            Call::Pages { command, pages, .. } => card.register_pages(state, command, pages, buffer),
            Call::Send { qpn, record, .. } => card.post_send(state, memory, *qpn, record),
            Call::Enqueue { qpn, record, .. } => card.enqueue(state, memory, *qpn, record),
            Call::Turn { .. } => card.turn(state, memory),
            Call::Receive { qpn, record } => card.post_receive(state, *qpn, record),
            Call::Flush { qpn } => card.flush(state, *qpn),
            Call::Poll { cqn, .. } => card.poll(state, *cqn, buffer),
        }
    }

    /// Whether a replay tape has a kind for it.
    pub fn has_tape_kind(&self) -> bool {
        !matches!(self, Call::Pages { .. } | Call::Enqueue { .. } | Call::Turn { .. })
    }

    /// The record of a replay tape, if a tape can hold the call.
    pub fn tape_record(&self) -> Option<Vec<u8>> {
        let (kind, number, body): (Kind, u32, &[u8]) = match self {
            Call::Control { command, ack } if *ack >= ack_need(command) => (Kind::Control, 0, command),
            Call::Send { qpn, record, memory: MEMORY } => (Kind::Send, *qpn, record),
            Call::Receive { qpn, record } => (Kind::Receive, *qpn, record),
            Call::Poll { cqn, buffer } if *buffer >= COMPLETION_BYTES => (Kind::Poll, *cqn, &[]),
            Call::Flush { qpn } => (Kind::Flush, *qpn, &[]),
            _ => return None,
        };
        let number = u8::try_from(number).ok()?;
        if body.len() > MOST_BODY {
            return None;
        }
        let [low, high] = (body.len() as u16).to_le_bytes();
        Some([&MARK[..], &[kind.byte(), number, low, high], body].concat())
    }
}

impl fmt::Display for Call {
    fn fmt(&self, f: &mut fmt::Formatter) -> fmt::Result {
        let hex = |bytes: &[u8]| -> String { bytes.iter().map(|byte| format!("{byte:02x}")).collect() };
        match self {
            Call::Reset { memory_length } => write!(f, "reset, memory length {memory_length}"),
            Call::Control { command, ack } => write!(f, "control {}, ack of {ack} bytes", hex(command)),
            Call::Pages { command, pages, ack } => {
                write!(f, "register pages {}, pages {pages:x?}, ack of {ack} bytes", hex(command))
            }
            Call::Send { qpn, record, memory } => {
                write!(f, "send on {qpn}, memory of {memory} bytes, record {}", hex(record))
            }
            Call::Enqueue { qpn, record, memory } => {
                write!(f, "enqueue on {qpn}, memory of {memory} bytes, record {}", hex(record))
            }
            Call::Turn { memory } => write!(f, "turn, memory of {memory} bytes"),
            Call::Receive { qpn, record } => write!(f, "receive on {qpn}, record {}", hex(record)),
            Call::Flush { qpn } => write!(f, "flush of {qpn}"),
            Call::Poll { cqn, buffer } => write!(f, "poll of {cqn}, buffer of {buffer} bytes"),
        }
    }
}
