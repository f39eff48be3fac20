//! Enqueue, and a turn. The quick way of a turn is a head that is a write of one piece and succeeds without a completion.

use super::accept::kind_ok;
use super::send::{is_silent, write_one_piece, ONE_PIECE};
use super::{accepts, get32, get64, part, State};
use reference::layout::*;
use reference::record::*;
use reference::Outcome;

pub fn enqueue(state: &mut [u8], memory: &[u8], qpn: u32, record: &[u8]) -> Outcome {
    match quick_enqueue(state, memory, qpn as usize, record) {
        Some(()) => Outcome::DONE,
        None => any_enqueue(state, memory, qpn, record),
    }
}

#[cold]
#[inline(never)]
fn any_enqueue(state: &mut [u8], memory: &[u8], qpn: u32, record: &[u8]) -> Outcome {
    reference::enqueue(state, memory, qpn, record)
}

/// The record queued, or nothing done.
#[inline(always)]
fn quick_enqueue(state: &mut [u8], memory: &[u8], number: usize, record: &[u8]) -> Option<()> {
    let state: &mut State = state.try_into().ok()?;
    let length = memory.len() as u64;
    if !accepts(state) || length != get64(state, MEMORY_LENGTH) || number >= PAIRS || record.len() < SEND_BYTES {
        return None;
    }
    let (opcode, flags) = (record[OPCODE_AT], record[FLAGS_AT]);
    let inline = flags & INLINE != 0;
    let count = if inline { get32(record, COUNT_AT) & 0xffff } else { get32(record, COUNT_AT) };
    let kind = u32::from(opcode) << (8 * KIND_OPCODE) | u32::from(flags) << (8 * KIND_FLAGS) | count << (8 * KIND_COUNT);
    let pieces = if inline { 0 } else { count as usize };
    if count > 0xffff || !kind_ok(kind) || record.len() != SEND_BYTES + pieces * PIECE_BYTES {
        return None;
    }
    let head = sends_row(number);
    let (first, queued) = (state[head + SENDS_FIRST], state[head + SENDS_COUNT]);
    let phase = state[pair_row(number) + PAIR_STATE];
    if state[PAIR_FLAGS + number] != 1 || !matches!(phase, READY_TO_SEND | ERROR) || queued >= MOST_QUEUED as u8 {
        return None;
    }
    let place = usize::from(first + queued);
    state[record_row(number, place)..][..record.len()].copy_from_slice(record);
    state[kind_row(number, place)..][..KIND_ROW].copy_from_slice(&kind.to_le_bytes());
    state[head + SENDS_COUNT] = queued + 1;
    Some(())
}

pub fn turn(state: &mut [u8], memory: &mut [u8]) -> Outcome {
    match quick_turn(state, memory) {
        Some(served) => Outcome { served, ..Outcome::DONE },
        None => any_turn(state, memory),
    }
}

#[cold]
#[inline(never)]
fn any_turn(state: &mut [u8], memory: &mut [u8]) -> Outcome {
    reference::turn(state, memory)
}

/// The first queue's head done, or nothing done.
#[inline(always)]
fn quick_turn(state: &mut [u8], memory: &mut [u8]) -> Option<u8> {
    let state: &mut State = state.try_into().ok()?;
    if !accepts(state) || memory.len() as u64 != get64(state, MEMORY_LENGTH) {
        return None;
    }
    let next = usize::from(state[TURN]);
    let has_queue = |n: &usize| state[PAIR_FLAGS + n] == 1 && state[sends_row(*n) + SENDS_COUNT] != 0;
    let number = (0..PAIRS).map(|seat| (next + seat) % PAIRS).find(has_queue)?;
    let head = sends_row(number);
    let first = state[head + SENDS_FIRST];
    let kind = kind_row(number, first.into());
    let one_piece = u16::from_le_bytes(*part(state, kind + KIND_COUNT)) == 1;
    if !one_piece || !is_silent(state[kind + KIND_OPCODE], state[kind + KIND_FLAGS]) {
        return None;
    }
    let record: &[u8; ONE_PIECE] = part(state, record_row(number, first.into()));
    write_one_piece(state, memory, number, record)?;
    state[head + SENDS_FIRST] = (first + 1) % MOST_QUEUED as u8;
    state[head + SENDS_COUNT] -= 1;
    state[TURN] = ((number + 1) % PAIRS) as u8;
    Some(number as u8)
}
