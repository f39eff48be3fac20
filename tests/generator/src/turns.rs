//! Sends that wait in the queues of their pairs, and turns.

use crate::work::peer_of;
use crate::{pairs_where, Generator};
use cards::Call;
use reference::layout::*;
use reference::listing::{Listing, PairListing, SendListing};

impl Generator {
    /// A turn, the sooner the more waits; or a send for a queue, or the receive that it needs. None if the list has no queues, or other work
    /// is due.
    pub(crate) fn turn_or_enqueue(&mut self, card: &Listing) -> Option<Call> {
        let part = self.queued.filter(|&part| part > 0)?;
        let waiting: usize = card.pairs.iter().flatten().map(|pair| pair.queued.len()).sum();
        let runnable =
            pairs_where(card, |pair| !pair.queued.is_empty()).into_iter().filter(|&n| head_held(card, n).is_none()).count();
        let in_error = (0..PAIRS).any(|n| head_held(card, n) == Some(IN_ERROR));
        let soon = match (waiting, runnable) {
            (0, _) => 1,
            _ if in_error => 40,
            (_, 0) => 6,
            (1..=8, _) => 15,
            _ => 30,
        };
        if self.rng.percent(soon) {
            return Some(Call::Turn { memory: card.memory_length as usize });
        }
        if waiting > 0 && runnable == 0 && self.rng.percent(25) {
            return self.release(card);
        }
        if !self.rng.percent(part / 3) {
            return None;
        }
        let open = pairs_where(card, |pair| matches!(pair.pair.state, READY_TO_SEND | ERROR));
        let number = match self.failed_pair(card, 30).or_else(|| self.rng.choose(&open)) {
            Some(number) if self.rng.percent(97) => number,
            _ => self.rng.index(PAIRS),
        };
        Some(match self.send_on(card, number) {
            Call::Send { qpn, record, memory } => Call::Enqueue { qpn, record, memory },
            other => other,
        })
    }

    /// What a held head waits for: a receive at its peer, or a place.
    fn release(&mut self, card: &Listing) -> Option<Call> {
        let held = pairs_where(card, |pair| !pair.queued.is_empty());
        let number = self.rng.choose(&held)?;
        let pair = card.pairs[number].as_ref()?;
        let full = |queue: u8| free_places(card, queue) == 0;
        match peer_of(card, number) {
            _ if full(pair.pair.send_queue) => Some(Call::Poll { cqn: pair.pair.send_queue.into(), buffer: COMPLETION_BYTES }),
            Some((_, peer)) if full(peer.pair.receive_queue) => {
                Some(Call::Poll { cqn: peer.pair.receive_queue.into(), buffer: COMPLETION_BYTES })
            }
            Some((peer, _)) => Some(self.receive(card, Some(peer))),
            None => None,
        }
    }
}

/// Why the head of a pair in error is held.
pub const IN_ERROR: &str = "in error, no place";

/// Why the oldest queued send of a pair is held, by the words of the paper, if it has one and it is.
pub fn head_held(card: &Listing, number: usize) -> Option<&'static str> {
    let pair = card.pairs.get(number)?.as_ref()?;
    held(card, number, pair, pair.queued.first()?)
}

fn held(card: &Listing, number: usize, pair: &PairListing, head: &SendListing) -> Option<&'static str> {
    let own = free_places(card, pair.pair.send_queue);
    if pair.pair.state == ERROR {
        return (own == 0).then_some(IN_ERROR);
    }
    let peer = match card.pairs.get(usize::from(pair.pair.destination)).map(Option::as_ref) {
        None => return Some("no destination"),
        Some(None) => return Some("peer not live"),
        Some(Some(peer)) => peer,
    };
    let theirs = free_places(card, peer.pair.receive_queue);
    match peer.pair.state {
        READY_TO_RECEIVE | READY_TO_SEND if usize::from(peer.pair.destination) != number => Some("peer names another"),
        READY_TO_RECEIVE | READY_TO_SEND if head.takes_receive() && peer.waiting.is_empty() => Some("no receive waiting"),
        READY_TO_RECEIVE | READY_TO_SEND if own == 0 => Some("no place in the send queue"),
        READY_TO_RECEIVE | READY_TO_SEND if !head.takes_receive() => None,
        READY_TO_RECEIVE | READY_TO_SEND if pair.pair.send_queue == peer.pair.receive_queue => {
            (own < 2).then_some("no two places in a shared queue")
        }
        READY_TO_RECEIVE | READY_TO_SEND => (theirs == 0).then_some("no place in the receive queue"),
        _ => Some("peer not ready"),
    }
}

fn free_places(card: &Listing, queue: u8) -> usize {
    card.queues[usize::from(queue)].as_ref().map_or(0, |queue| queue.places - queue.unread.len())
}
