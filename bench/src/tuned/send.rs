//! Post send. The quick way is a write of one piece that succeeds without a completion; it changes no byte of the state.

use super::{accepts, byte, get32, get64, part, State};
use reference::layout::*;
use reference::record::*;
use reference::Outcome;

/// A record with one piece.
pub(super) const ONE_PIECE: usize = SEND_BYTES + PIECE_BYTES;

pub fn post_send(state: &mut [u8], memory: &mut [u8], qpn: u32, record: &[u8]) -> Outcome {
    if quick_write(state, memory, qpn, record).is_some() {
        return Outcome::DONE;
    }
    any_send(state, memory, qpn, record)
}

#[cold]
#[inline(never)]
fn any_send(state: &mut [u8], memory: &mut [u8], qpn: u32, record: &[u8]) -> Outcome {
    reference::post_send(state, memory, qpn, record)
}

/// The write done, or nothing done.
#[inline(always)]
fn quick_write(state: &[u8], memory: &mut [u8], qpn: u32, record: &[u8]) -> Option<()> {
    let state: &State = state.try_into().ok()?;
    if !accepts(state) {
        return None;
    }
    let record: &[u8; ONE_PIECE] = record.try_into().ok()?;
    let number = qpn as usize;
    if memory.len() as u64 != get64(state, MEMORY_LENGTH) || number >= PAIRS || get32(record, COUNT_AT) != 1 {
        return None;
    }
    if !is_silent(record[OPCODE_AT], record[FLAGS_AT]) || state[sends_row(number) + SENDS_COUNT] != 0 {
        return None;
    }
    write_one_piece(state, memory, number, record)
}

/// Whether a request is a write without a completion of its success.
#[inline(always)]
pub(super) fn is_silent(opcode: u8, flags: u8) -> bool {
    opcode == WRITE && flags & !(FENCE | SOLICITED) == 0
}

/// Such a write of one piece done, or nothing done.
#[inline(always)]
pub(super) fn write_one_piece(state: &State, memory: &mut [u8], number: usize, record: &[u8; ONE_PIECE]) -> Option<()> {
    let (own, far) = ends(state, number)?;
    let piece = Piece { address: get64(record, 576), length: get32(record, 584), key: get32(record, 588) };
    let length = piece.length as usize;
    if length.wrapping_sub(1) >= MOST_MESSAGE {
        return None;
    }
    let from = place(state, own, 0, piece.address, length, piece.key)?;
    let to = place(state, far, REMOTE_WRITE, get64(record, 16), length, get32(record, 24))?;
    if from.run < length || to.run < length {
        return staged(memory, from, to, length);
    }
    if from.start.max(to.start) + length > memory.len() {
        return None;
    }
    memory.copy_within(from.start..from.start + length, to.start);
    Some(())
}

/// Where a range begins in memory, how many of its bytes stand there, and where the others do if a page ends between them.
#[derive(Clone, Copy)]
struct Place {
    start: usize,
    run: usize,
    then: usize,
}

/// All bytes are read before any is written; a page ends among them on one side or on both.
#[inline(never)]
fn staged(memory: &mut [u8], from: Place, to: Place, length: usize) -> Option<()> {
    let mut staging = [0; MOST_MESSAGE];
    let bytes = staging.get_mut(..length)?;
    let (first, others) = bytes.split_at_mut(from.run.min(length));
    first.copy_from_slice(memory.get(from.start..from.start + first.len())?);
    others.copy_from_slice(memory.get(from.then..from.then + others.len())?);
    let (first, others) = bytes.split_at(to.run.min(length));
    if to.start + first.len() > memory.len() || to.then + others.len() > memory.len() {
        return None;
    }
    memory[to.start..to.start + first.len()].copy_from_slice(first);
    memory[to.then..to.then + others.len()].copy_from_slice(others);
    Some(())
}

/// The domains of a sender that asks for no completion of a success, and of its peer, which grants writes.
#[inline(always)]
fn ends(state: &State, number: usize) -> Option<(u32, u32)> {
    if number >= PAIRS || state[PAIR_FLAGS + number] != 1 {
        return None;
    }
    let own = get64(state, pair_row(number));
    let destination = field(own, PAIR_DESTINATION) as usize;
    if field(own, PAIR_STATE) != READY_TO_SEND.into() || field(own, PAIR_SIGNAL) != 1 || destination >= PAIRS {
        return None;
    }
    let far = get64(state, pair_row(destination));
    let ready = field(far, PAIR_STATE) & !1 == READY_TO_RECEIVE.into() && field(far, PAIR_DESTINATION) as usize == number;
    let grants = field(far, PAIR_ACCESS) & u32::from(REMOTE_WRITE) != 0;
    let queue = get32(state, queue_row(field(own, PAIR_SEND_QUEUE) as usize % QUEUES));
    let room = byte(queue, QUEUE_COUNT) < byte(queue, QUEUE_PLACES);
    if !ready || !grants || !room || state[PAIR_FLAGS + destination] != 1 {
        return None;
    }
    Some((field(own, PAIR_DOMAIN), field(far, PAIR_DOMAIN)))
}

#[inline(always)]
fn field(pair: u64, at: usize) -> u32 {
    (pair >> (8 * at)) as u32 & 0xff
}

/// Where a range that isn't empty stands in memory, if every byte of it is permitted.
#[inline(always)]
fn place(state: &State, domain: u32, right: u8, address: u64, length: usize, key: u32) -> Option<Place> {
    let slot = (key >> 8) as usize;
    if slot >= REGIONS || state[REGION_FLAGS + slot] != 1 {
        return None;
    }
    let row: &[u8; region_row(1) - region_row(0)] = part(state, region_row(slot));
    let fits = row[REGION_VARIANT] == key as u8 && u32::from(row[REGION_DOMAIN]) == domain && row[REGION_ACCESS] & right == right;
    let offset = address.wrapping_sub(get64(row, REGION_VIRT));
    let room = get64(row, REGION_LENGTH);
    if !fits || offset >= room || length as u64 > room - offset {
        return None;
    }
    let offset = get64(row, REGION_START) + offset;
    if row[REGION_KIND] == ADJACENT {
        return Some(Place { start: offset as usize, run: length, then: 0 });
    }
    let (at, place) = (offset % PAGE_BYTES, (offset / PAGE_BYTES) as usize % MOST_PAGES);
    let run = (PAGE_BYTES - at) as usize;
    let then = if run < length { page(state, slot, place + 1) } else { 0 };
    Some(Place { start: page(state, slot, place) + at as usize, run, then })
}

/// The first byte of a region's page.
#[inline(always)]
fn page(state: &State, slot: usize, place: usize) -> usize {
    PAGE_BYTES as usize * usize::from(u16::from_le_bytes(*part(state, page_row(slot, place % MOST_PAGES))))
}
