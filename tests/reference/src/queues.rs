//! Reset, post receive, flush and poll.

use crate::answer::{Outcome, Refusal, Status};
use crate::card::Card;
use crate::layout::*;
use crate::record::{Completion, ReceiveRecord};

pub const RECEIVED: u8 = 3;

/// Makes a fresh card over a memory of this length, whatever the state held.
pub fn reset(state: &mut [u8], memory_length: u64) -> Outcome {
    if state.len() != STATE_BYTES {
        return Refusal::BadState.into();
    }
    if memory_length == 0 || memory_length > MOST_MEMORY {
        return Refusal::Range.into();
    }
    state.fill(0);
    put64(state, MEMORY_LENGTH, memory_length);
    Outcome::DONE
}

pub fn post_receive(state: &mut [u8], qpn: u32, record: &[u8]) -> Outcome {
    try_post_receive(state, qpn, record).into()
}

fn try_post_receive(state: &mut [u8], qpn: u32, record: &[u8]) -> Result<Status, Refusal> {
    let mut card = Card::open(state)?;
    let receive = ReceiveRecord::read(record)?;
    let number = card.pair_number(qpn)?;
    let pair = card.pair(number);
    if pair.state == RESET {
        return Err(Refusal::WrongState);
    }
    // in error it is flushed at once, unless older ones wait
    if pair.state == ERROR && card.waiting(number) == 0 {
        complete_flushed(&mut card, number, pair.receive_queue.into(), receive.wr_id)?;
        return Ok(Status::Flushed);
    }
    if card.waiting(number) == MOST_WAITING {
        return Err(Refusal::Full);
    }
    card.put_receive(number, &receive);
    Ok(Status::Success)
}

/// A receive's flushed completion, if there is a place for it.
fn complete_flushed(card: &mut Card, owner: usize, queue: usize, wr_id: u64) -> Result<(), Refusal> {
    if card.free_places(queue) == 0 {
        return Err(Refusal::NoPlace);
    }
    let status = Status::Flushed as u8;
    card.put_completion(queue, &Completion { wr_id, status, opcode: RECEIVED, length: 0, immediate: 0, owner: owner as u32 });
    Ok(())
}

/// Completes the oldest receive of a queue pair in error.
pub fn flush(state: &mut [u8], qpn: u32) -> Outcome {
    try_flush(state, qpn).into()
}

fn try_flush(state: &mut [u8], qpn: u32) -> Result<(), Refusal> {
    let mut card = Card::open(state)?;
    let number = card.pair_number(qpn)?;
    let pair = card.pair(number);
    if pair.state != ERROR {
        return Err(Refusal::WrongState);
    }
    if card.waiting(number) == 0 {
        return Err(Refusal::Nothing);
    }
    let oldest = card.receive(number, 0).wr_id;
    complete_flushed(&mut card, number, pair.receive_queue.into(), oldest)?;
    card.drop_receive(number);
    Ok(())
}

/// Takes the oldest completion of a queue.
pub fn poll(state: &mut [u8], cqn: u32, buffer: &mut [u8]) -> Outcome {
    try_poll(state, cqn, buffer).into()
}

fn try_poll(state: &mut [u8], cqn: u32, buffer: &mut [u8]) -> Result<(), Refusal> {
    let mut card = Card::open(state)?;
    if buffer.len() < COMPLETION_BYTES {
        return Err(Refusal::BufferTooShort);
    }
    let number = card.queue(cqn)?;
    if card.unread(number) == 0 {
        return Err(Refusal::Nothing);
    }
    card.completion(number, 0).write(buffer, 0);
    card.drop_completion(number);
    Ok(())
}
