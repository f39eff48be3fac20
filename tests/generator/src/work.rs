//! Sends and receives that the card can deliver.

use crate::{pairs_where, queues_where, regions_of, Generator};
use cards::build::{receive, Send};
use cards::Call;
use reference::layout::*;
use reference::listing::{Listing, PairListing};
use reference::record::*;
use reference::Region;

impl Generator {
    /// A send of a pair that is ready or in error, or the receive that it needs.
    pub(crate) fn send_or_receive(&mut self, card: &Listing) -> Call {
        let ready = pairs_where(card, |pair| pair.pair.state == READY_TO_SEND);
        let joined: Vec<usize> = ready.iter().copied().filter(|&n| peer_of(card, n).is_some()).collect();
        let candidates = if joined.is_empty() || self.rng.percent(4) { &ready } else { &joined };
        let number = match (self.failed_pair(card, 15), self.rng.choose(candidates)) {
            (Some(number), _) => number,
            (None, Some(number)) if self.rng.percent(98) => number,
            _ => self.rng.index(PAIRS),
        };
        self.send_on(card, number)
    }

    /// `part` times in a hundred a pair in error, if there is one.
    pub(crate) fn failed_pair(&mut self, card: &Listing, part: u64) -> Option<usize> {
        let failed = pairs_where(card, |pair| pair.pair.state == ERROR);
        if self.rng.percent(part) {
            self.rng.choose(&failed)
        } else {
            None
        }
    }

    /// Work on a pair in error one of whose queues is full, if there is one.
    pub(crate) fn held_in_error(&mut self, card: &Listing) -> Option<Call> {
        let full = queues_where(card, |queue| queue.unread.len() == queue.places);
        let is_full = |queue: u8| full.contains(&queue.into());
        let held = |pair: &PairListing| is_full(pair.pair.send_queue) || is_full(pair.pair.receive_queue);
        let number = self.rng.choose(&pairs_where(card, |pair| pair.pair.state == ERROR && held(pair)))?;
        Some(if self.rng.percent(70) { self.receive(card, Some(number)) } else { self.send_on(card, number) })
    }

    /// A direct send on this pair, now and then with another memory length; None where it should be given a receive first.
    pub fn send_from(&mut self, card: &Listing, number: usize) -> Option<Call> {
        match self.send_on(card, number) {
            Call::Send { qpn, record, .. } if self.rng.percent(3) => {
                Some(Call::Send { qpn, record, memory: card.memory_length as usize + 1 })
            }
            Call::Send { qpn, record, memory } => Some(Call::Send { qpn, record, memory }),
            _ => None,
        }
    }

    pub(crate) fn send_on(&mut self, card: &Listing, number: usize) -> Call {
        let opcode = self.rng.below(5) as u8;
        let peer = peer_of(card, number);
        let needs_receive = matches!(opcode, WRITE_IMMEDIATE | SEND | SEND_IMMEDIATE);
        if let Some((peer, pair)) = peer {
            if needs_receive && pair.waiting.is_empty() && self.rng.percent(90) {
                return self.receive(card, Some(peer));
            }
        }
        let mut send = self.good_send(card, number, opcode, peer.map(|(_, pair)| pair));
        if self.rng.percent(self.changed) {
            self.change_send(&mut send, card, number);
        }
        let mut record = send.bytes();
        if self.rng.percent(50) {
            self.fill_reserved(&mut record);
        }
        if self.rng.percent(self.changed / 3) {
            self.change_send_record(&mut record);
        }
        Call::Send { qpn: number as u32, record, memory: card.memory_length as usize }
    }

    fn good_send(&mut self, card: &Listing, number: usize, opcode: u8, peer: Option<&PairListing>) -> Send {
        let mut send = Send::new(self.next_wr_id(), opcode);
        send.flags = self.rng.below(8) as u8;
        send.immediate = self.rng.word() as u32;
        let (sender, peer) = match (&card.pairs[number], peer) {
            (Some(sender), Some(peer)) => (sender, peer),
            _ => return send.remote(self.rng.word(), self.rng.word() as u32),
        };
        let mut limit = MOST_MESSAGE as u64;
        let right = match opcode {
            WRITE | WRITE_IMMEDIATE => REMOTE_WRITE,
            READ => REMOTE_READ,
            _ => 0,
        };
        let remote =
            self.rng.choose(&regions_of(card, peer.pair.domain, right)).and_then(|slot| card.regions[slot].map(|r| (slot, r)));
        if right == 0 {
            limit = limit.min(peer.waiting.first().map_or(0, |list| total(&list.pieces)));
        } else {
            limit = limit.min(remote.map_or(0, |(_, region)| region.length));
        }
        let bytes = self.total_up_to(limit);
        if let Some((slot, region)) = remote {
            send = send.remote(self.address_in(&region, bytes), key_of(slot, &region));
        }
        if opcode != READ && bytes <= MOST_INLINE as u64 && self.rng.percent(25) {
            let mut inline = vec![0; bytes as usize];
            self.rng.fill(&mut inline);
            return send.inline(&inline);
        }
        let right = if opcode == READ { LOCAL_WRITE } else { 0 };
        send.pieces = self.split(card, sender.pair.domain, right, bytes, MOST_PIECES);
        send
    }

    fn total_up_to(&mut self, limit: u64) -> u64 {
        let wanted = match self.rng.below(20) {
            0 => 0,
            1..=3 => limit,
            4..=9 => 1 + self.rng.below(16),
            10..=15 => 1 + self.rng.below(512),
            _ => 1 + self.rng.below(MOST_MESSAGE as u64),
        };
        wanted.min(limit)
    }

    /// An address from which `length` bytes lie in the region, often at one of its ends.
    pub(crate) fn address_in(&mut self, region: &Region, length: u64) -> u64 {
        if let Some(offset) = self.offset_at_page_end(region, length) {
            return region.virt + offset;
        }
        let spare = region.length.saturating_sub(length);
        let offset = match self.rng.below(4) {
            0 => 0,
            1 => spare,
            _ => self.rng.below(spare + 1),
        };
        region.virt + offset
    }

    /// Pieces in a domain's regions that make up `bytes`, or less if the regions are too short.
    fn split(&mut self, card: &Listing, domain: u8, right: u8, bytes: u64, most: usize) -> Vec<Piece> {
        let slots = regions_of(card, domain, right);
        let count = 1 + self.rng.index(most);
        let mut pieces = Vec::new();
        let mut left = bytes;
        for n in 0..count {
            let slot = match self.rng.choose(&slots) {
                Some(slot) => slot,
                None => break,
            };
            let region = match card.regions[slot] {
                Some(region) => region,
                None => break,
            };
            let wanted = if n + 1 == count { left } else { self.rng.below(left + 1) };
            if let Some(piece) = self.a_page_away(pieces.last(), card, wanted) {
                pieces.push(piece);
                left -= wanted;
                continue;
            }
            let length = wanted.min(region.length);
            pieces.push(Piece { address: self.address_in(&region, length), length: length as u32, key: key_of(slot, &region) });
            left -= length;
        }
        pieces
    }

    /// A receive on the given pair, or on one that takes it.
    pub(crate) fn receive(&mut self, card: &Listing, pair: Option<usize>) -> Call {
        let open = pairs_where(card, |pair| !matches!(pair.pair.state, RESET | ERROR));
        let pair = pair.or_else(|| self.failed_pair(card, 40));
        let qpn = match pair.or_else(|| self.rng.choose(&open)) {
            Some(number) if self.rng.percent(95) => number as u32,
            _ => self.number(PAIRS),
        };
        let domain = card.pairs.get(qpn as usize).and_then(Option::as_ref).map_or(0, |pair| pair.pair.domain);
        let bytes = self.total_up_to(MOST_MESSAGE as u64 + 100);
        let mut pieces = self.split(card, domain, LOCAL_WRITE, bytes, MOST_RECEIVE_PIECES);
        if self.rng.percent(self.changed / 2) {
            self.change_pieces(&mut pieces, card);
        }
        let mut record = receive(self.next_wr_id(), &pieces);
        self.rng.fill(&mut record[12..24]);
        if self.rng.percent(self.changed / 3) {
            self.change_receive_record(&mut record);
        }
        Call::Receive { qpn, record }
    }
}

/// The peer that a pair's sends reach now.
pub(crate) fn peer_of(card: &Listing, number: usize) -> Option<(usize, &PairListing)> {
    let destination = usize::from(card.pairs[number].as_ref()?.pair.destination);
    let peer = card.pairs.get(destination)?.as_ref()?;
    let ready = matches!(peer.pair.state, READY_TO_RECEIVE | READY_TO_SEND);
    (ready && usize::from(peer.pair.destination) == number).then_some((destination, peer))
}

pub(crate) fn key_of(slot: usize, region: &Region) -> u32 {
    256 * slot as u32 + u32::from(region.variant)
}
