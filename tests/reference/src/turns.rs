//! Enqueue, and the turn that runs the oldest send of one of the queues.

use crate::answer::{Outcome, Refusal, Status};
use crate::card::Card;
use crate::layout::*;
use crate::record::SendRecord;
use crate::send::{run, sending_pair};

/// Lets a send wait in its pair's queue. Of the memory only the length is looked at.
pub fn enqueue(state: &mut [u8], memory: &[u8], qpn: u32, record: &[u8]) -> Outcome {
    try_enqueue(state, memory, qpn, record).into()
}

fn try_enqueue(state: &mut [u8], memory: &[u8], qpn: u32, record: &[u8]) -> Result<(), Refusal> {
    let mut card = Card::open(state)?;
    if memory.len() as u64 != card.memory_length() {
        return Err(Refusal::MemoryLength);
    }
    let kind = SendRecord::read(record)?.kind();
    let number = sending_pair(&card, qpn)?;
    if card.queued(number) == MOST_QUEUED {
        return Err(Refusal::Full);
    }
    card.put_send(number, kind, record);
    Ok(())
}

/// Runs the oldest send of the first pair, from the turn place on, on which it is not held.
pub fn turn(state: &mut [u8], memory: &mut [u8]) -> Outcome {
    try_turn(state, memory).into()
}

fn try_turn(state: &mut [u8], memory: &mut [u8]) -> Result<(usize, Status), Refusal> {
    let mut card = Card::open(state)?;
    if memory.len() as u64 != card.memory_length() {
        return Err(Refusal::MemoryLength);
    }
    let next = card.turn();
    for seat in 0..PAIRS {
        let number = (next + seat) % PAIRS;
        if let Some(Ok(status)) = run_oldest(&mut card, memory, number) {
            card.drop_send(number);
            card.set_turn((number + 1) % PAIRS);
            return Ok((number, status));
        }
    }
    Err(Refusal::Nothing)
}

/// What comes of a pair's oldest queued send, if there is one.
fn run_oldest(card: &mut Card, memory: &mut [u8], number: usize) -> Option<Result<Status, Refusal>> {
    if !card.live_pair(number) || card.queued(number) == 0 {
        return None;
    }
    let (kind, bytes) = card.queued_send(number, 0);
    let copy = *bytes;
    Some(run(card, memory, number, SendRecord::of(kind, &copy)))
}
