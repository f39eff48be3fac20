//! The objects of an accepted state, with nothing that has no meaning: neither the bytes of free slots nor the rings' first places.

use crate::accept::pages_needed;
use crate::card::{Card, Pair, Region};
use crate::layout::*;
use crate::record::{Completion, Local, Piece, SendRecord, SIGNALED};
use std::fmt::Debug;

#[derive(Clone, Debug, PartialEq, Eq)]
pub struct Listing {
    pub memory_length: u64,
    /// The pair that the next turn visits first.
    pub turn: usize,
    pub domains: Vec<bool>,
    pub queues: Vec<Option<QueueListing>>,
    pub variants: Vec<u8>,
    pub regions: Vec<Option<Region>>,
    /// The first bytes of the pages of each region over pages; none of other slots.
    pub pages: Vec<Vec<u64>>,
    pub pairs: Vec<Option<PairListing>>,
}

#[derive(Clone, Debug, PartialEq, Eq)]
pub struct QueueListing {
    pub places: usize,
    pub unread: Vec<Completion>,
}

#[derive(Clone, Debug, PartialEq, Eq)]
pub struct PairListing {
    pub pair: Pair,
    pub waiting: Vec<ReceiveListing>,
    pub queued: Vec<SendListing>,
}

#[derive(Clone, Debug, PartialEq, Eq)]
pub struct ReceiveListing {
    pub wr_id: u64,
    pub pieces: Vec<Piece>,
}

/// A queued send: either its inline bytes or its pieces.
#[derive(Clone, Debug, PartialEq, Eq)]
pub struct SendListing {
    pub wr_id: u64,
    pub opcode: u8,
    pub signaled: bool,
    pub immediate: u32,
    pub address: u64,
    pub key: u32,
    pub inline: Option<Vec<u8>>,
    pub pieces: Vec<Piece>,
}

impl SendListing {
    fn of(send: SendRecord) -> SendListing {
        let (inline, pieces) = match send.local {
            Local::Inline(bytes) => (Some(bytes.to_vec()), vec![]),
            Local::Pieces { pieces, count } => (None, pieces[..count].to_vec()),
        };
        let SendRecord { wr_id, opcode, immediate, address, key, .. } = send;
        SendListing { wr_id, opcode, signaled: send.flags & SIGNALED != 0, immediate, address, key, inline, pieces }
    }

    /// Opcodes 1, 2 and 3 use up one of the peer's receives.
    pub fn takes_receive(&self) -> bool {
        (1..=3).contains(&self.opcode)
    }
}

impl Listing {
    /// None if the state is not accepted.
    pub fn of(state: &[u8]) -> Option<Listing> {
        let mut copy = state.to_vec();
        let card = Card::open(&mut copy).ok()?;
        Some(Listing {
            memory_length: card.memory_length(),
            turn: card.turn(),
            domains: (0..DOMAINS).map(|n| card.domain(n as u32).is_ok()).collect(),
            queues: (0..QUEUES).map(|n| queue(&card, n)).collect(),
            variants: (0..REGIONS).map(|n| card.region(n).variant).collect(),
            regions: (0..REGIONS).map(|n| card.live_region(n).then(|| card.region(n))).collect(),
            pages: (0..REGIONS).map(|n| pages(&card, n)).collect(),
            pairs: (0..PAIRS).map(|n| pair(&card, n)).collect(),
        })
    }

    /// The first object that the other listing has otherwise.
    pub fn difference(&self, other: &Listing) -> Option<String> {
        differing("memory length", &[self.memory_length], &[other.memory_length])
            .or_else(|| differing("turn place", &[self.turn], &[other.turn]))
            .or_else(|| differing("domain", &self.domains, &other.domains))
            .or_else(|| differing("queue", &self.queues, &other.queues))
            .or_else(|| differing("variant", &self.variants, &other.variants))
            .or_else(|| differing("region", &self.regions, &other.regions))
            .or_else(|| differing("pages of region", &self.pages, &other.pages))
            .or_else(|| differing("pair", &self.pairs, &other.pairs))
    }
}

fn differing<T: PartialEq + Debug>(what: &str, ours: &[T], theirs: &[T]) -> Option<String> {
    let n = ours.iter().zip(theirs).position(|(a, b)| a != b)?;
    Some(format!("{what} {n}: {:?}, other {:?}", ours[n], theirs[n]))
}

fn queue(card: &Card, number: usize) -> Option<QueueListing> {
    card.queue(number as u32).ok()?;
    let unread = (0..card.unread(number)).map(|index| card.completion(number, index)).collect();
    Some(QueueListing { places: card.places(number), unread })
}

fn pages(card: &Card, number: usize) -> Vec<u64> {
    let region = card.region(number);
    if !card.live_region(number) || !region.paged {
        return Vec::new();
    }
    let count = pages_needed(region.start, region.length).unwrap_or(0);
    (0..count).map(|place| card.page(number, place)).collect()
}

fn pair(card: &Card, number: usize) -> Option<PairListing> {
    card.pair_number(number as u32).ok()?;
    let receive = |index| {
        let receive = card.receive(number, index);
        ReceiveListing { wr_id: receive.wr_id, pieces: receive.pieces().to_vec() }
    };
    let send = |index| {
        let (kind, record) = card.queued_send(number, index);
        SendListing::of(SendRecord::of(kind, record))
    };
    Some(PairListing {
        pair: card.pair(number),
        waiting: (0..card.waiting(number)).map(receive).collect(),
        queued: (0..card.queued(number)).map(send).collect(),
    })
}
