//! The second registration: command 7 with a list of pages beside it.

use crate::accept::pages_needed;
use crate::answer::{Outcome, Refusal};
use crate::card::Card;
use crate::control::{acknowledge, register, ACK_BYTES};
use crate::layout::PAGE_BYTES;
use crate::record::Registration;

/// Registers a region over the pages that begin at the listed bytes of the memory, and writes the ack.
pub fn register_pages(state: &mut [u8], command: &[u8], pages: &[u64], ack: &mut [u8]) -> Outcome {
    let mut card = match Card::open(state) {
        Ok(card) => card,
        Err(refusal) => return refusal.into(),
    };
    if ack.len() < ACK_BYTES {
        return Refusal::BufferTooShort.into();
    }
    acknowledge(ack, Registration::of_command(command).and_then(|asked| register(&mut card, asked, Some(pages))))
}

/// Whether the list has just the pages that the bytes need from this offset into the first one on, each whole in the memory.
pub fn pages_fit(pages: &[u64], start: u64, length: u64, memory: u64) -> bool {
    let fits = |page: &u64| page % PAGE_BYTES == 0 && page.checked_add(PAGE_BYTES).map_or(false, |end| end <= memory);
    start < PAGE_BYTES && pages_needed(start, length) == Some(pages.len()) && pages.iter().all(fits)
}
