//! The second yardstick: poll, post send, enqueue and turn in safe Rust written for speed, on the lent state of docs/STATE.md. It knows the state by
//! `reference::layout` alone, and what is off its quick way goes to the reference, whose answers it must give.

mod accept;
mod send;
mod turns;

pub use accept::accepts;

use cards::Card;
use reference::layout::*;
use reference::{Outcome, Refusal};

pub type State = [u8; STATE_BYTES];

/// The engine as a card: poll, post send, enqueue and turn.
pub struct Tuned;

impl Card for Tuned {
    fn name(&self) -> &'static str {
        "tuned engine"
    }

    fn post_send(&self, state: &mut [u8], memory: &mut [u8], qpn: u32, record: &[u8]) -> Outcome {
        send::post_send(state, memory, qpn, record)
    }

    fn enqueue(&self, state: &mut [u8], memory: &[u8], qpn: u32, record: &[u8]) -> Outcome {
        turns::enqueue(state, memory, qpn, record)
    }

    fn turn(&self, state: &mut [u8], memory: &mut [u8]) -> Outcome {
        turns::turn(state, memory)
    }

    fn poll(&self, state: &mut [u8], cqn: u32, buffer: &mut [u8]) -> Outcome {
        poll(state, cqn, buffer)
    }
}

fn poll(state: &mut [u8], cqn: u32, buffer: &mut [u8]) -> Outcome {
    let state: &mut State = match state.try_into() {
        Ok(state) => state,
        Err(_) => return Refusal::BadState.into(),
    };
    if !accepts(state) {
        return Refusal::BadState.into();
    }
    let buffer: &mut [u8; COMPLETION_BYTES] = match buffer.get_mut(..COMPLETION_BYTES) {
        Some(buffer) => buffer.try_into().unwrap(),
        None => return Refusal::BufferTooShort.into(),
    };
    let number = cqn as usize;
    if number >= QUEUES || state[QUEUE_FLAGS + number] != 1 {
        return Refusal::NotLive.into();
    }
    let row = queue_row(number);
    let head = get32(state, row);
    let (first, count) = (byte(head, QUEUE_FIRST), byte(head, QUEUE_COUNT));
    if count == 0 {
        return Refusal::Nothing.into();
    }
    let entry: &[u8; COMPLETION_BYTES] = part(state, completion_row(number, first as usize));
    *buffer = *entry;
    buffer[COMPLETION_ZERO..COMPLETION_ZERO + 2].fill(0);
    let next = (first + 1) % MOST_PLACES as u32;
    let head = byte(head, QUEUE_PLACES) << (8 * QUEUE_PLACES) | next << (8 * QUEUE_FIRST) | (count - 1) << (8 * QUEUE_COUNT);
    state[row..row + 4].copy_from_slice(&head.to_le_bytes());
    Outcome::DONE
}

// ---- numbers in bytes

/// The `N` bytes from `at` on.
#[inline(always)]
fn part<const N: usize>(bytes: &[u8], at: usize) -> &[u8; N] {
    bytes[at..at + N].try_into().unwrap()
}

#[inline(always)]
fn get32(bytes: &[u8], at: usize) -> u32 {
    u32::from_le_bytes(*part(bytes, at))
}

#[inline(always)]
fn get64(bytes: &[u8], at: usize) -> u64 {
    u64::from_le_bytes(*part(bytes, at))
}

/// Byte `at` of a row read as one word.
#[inline(always)]
fn byte(word: u32, at: usize) -> u32 {
    word >> (8 * at) & 0xff
}
