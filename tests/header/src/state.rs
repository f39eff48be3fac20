//! Every peek against the reference's listing, on states that calls have left and on lengths that are no state's.

use crate::c;
use crate::records::completion_of;
use generator::Generator;
use reference::layout::*;
use reference::listing::{Listing, PairListing, QueueListing, SendListing};
use reference::record::{Piece, SIGNALED};

const BAD_STATE: u32 = 15;
const NOT_LIVE: u32 = 2;
const NOTHING: u32 = 9;

/// Compares the peeks on the states that a list of calls on the reference leaves.
pub fn along(seed: u64, calls: usize) {
    let mut generator = Generator::new(seed);
    let length = generator.begin();
    let mut state = vec![0; STATE_BYTES];
    let mut memory = vec![0; length as usize];
    reference::reset(&mut state, length);
    for _ in 0..calls {
        let listing = Listing::of(&state).expect("calls leave an accepted state");
        compare(&state, &listing);
        let call = generator.next(&listing);
        let (outcome, written) = generator::play(&call, &mut state, &mut memory);
        generator.observe(&call, outcome, &written);
    }
}

/// Compares the peeks on states that stand one after another, and gives back how many there are.
pub fn each(states: &[u8]) -> usize {
    let states = states.chunks(STATE_BYTES);
    let count = states.len();
    for state in states {
        compare(state, &Listing::of(state).expect("calls leave an accepted state"));
    }
    count
}

/// The numbers of a table, and some past its end.
fn numbers(count: usize) -> impl Iterator<Item = usize> {
    (0..count + 2).chain([255, 256, u32::MAX as usize])
}

fn compare(state: &[u8], listing: &Listing) {
    assert_eq!(c::peek_memory(state), Ok(listing.memory_length));
    assert_eq!(c::peek_turn(state), Ok(listing.turn as u32));
    for n in numbers(DOMAINS) {
        let live = listing.domains.get(n) == Some(&true);
        assert_eq!(c::peek_pd(state, n as u32), live.then_some(()).ok_or(NOT_LIVE), "domain {n}");
    }
    for n in numbers(QUEUES) {
        queue(state, n as u32, listing.queues.get(n).and_then(Option::as_ref));
    }
    for n in numbers(REGIONS) {
        let region = listing.regions.get(n).and_then(Option::as_ref).map(|region| c::Mr {
            pdn: region.domain.into(),
            access: region.access.into(),
            key: 256 * n as u32 + u32::from(region.variant),
            kind: if region.paged { PAGED } else { ADJACENT },
            pages: listing.pages[n].len() as u8,
            start: region.start,
            length: region.length,
            virt: region.virt,
        });
        assert_eq!(c::peek_mr(state, n as u32), region.ok_or(NOT_LIVE), "region {n}");
        for index in [0, 1, 2, 3, 15, 16, u32::MAX] {
            let page = region.ok_or(NOT_LIVE).and_then(|_| listing.pages[n].get(index as usize).copied().ok_or(NOTHING));
            assert_eq!(c::peek_page(state, n as u32, index), page, "page {index} of region {n}");
        }
    }
    for n in numbers(PAIRS) {
        pair(state, n as u32, listing.pairs.get(n).and_then(Option::as_ref));
        sends(state, n as u32, listing.pairs.get(n).and_then(Option::as_ref));
    }
}

fn queue(state: &[u8], n: u32, listing: Option<&QueueListing>) {
    let queue = listing.map(|queue| c::Cq { places: queue.places as u8, unread: queue.unread.len() as u8 });
    assert_eq!(c::peek_cq(state, n), queue.ok_or(NOT_LIVE), "completion queue {n}");
    for index in [0, 1, 2, 15, 16, u32::MAX] {
        let wanted = match listing {
            None => Err(NOT_LIVE),
            Some(queue) => queue.unread.get(index as usize).map(completion_of).ok_or(NOTHING),
        };
        assert_eq!(c::peek_completion(state, n, index), wanted, "completion {index} of queue {n}");
    }
}

fn pair(state: &[u8], n: u32, listing: Option<&PairListing>) {
    let pair = listing.map(|listing| c::Qp {
        pdn: listing.pair.domain.into(),
        signal: listing.pair.signal,
        send_cqn: listing.pair.send_queue.into(),
        receive_cqn: listing.pair.receive_queue.into(),
        state: listing.pair.state,
        destination: listing.pair.destination.into(),
        access_flags: listing.pair.access,
        waiting: listing.waiting.len() as u8,
        queued: listing.queued.len() as u8,
    });
    assert_eq!(c::peek_qp(state, n), pair.ok_or(NOT_LIVE), "queue pair {n}");
    for index in [0, 1, 2, 3, 4, u32::MAX] {
        let found = c::peek_receive(state, n, index);
        match listing.map(|listing| listing.waiting.get(index as usize)) {
            None => assert_eq!(found, Err(NOT_LIVE)),
            Some(None) => assert_eq!(found, Err(NOTHING)),
            Some(Some(waiting)) => {
                let found = found.expect("a waiting receive");
                let list = &found.sges[..found.count as usize];
                let wanted: Vec<c::Sge> = waiting
                    .pieces
                    .iter()
                    .map(|piece| c::Sge { address: piece.address, length: piece.length, key: piece.key })
                    .collect();
                assert_eq!((found.wr_id, list), (waiting.wr_id, &wanted[..]), "receive {index} of queue pair {n}");
            }
        }
    }
}

fn sends(state: &[u8], n: u32, listing: Option<&PairListing>) {
    for index in [0, 1, 2, 3, 4, 5, 6, 7, 8, u32::MAX] {
        let found = c::peek_send(state, n, index);
        match listing.map(|listing| listing.queued.get(index as usize)) {
            None => assert_eq!(found, Err(NOT_LIVE)),
            Some(None) => assert_eq!(found, Err(NOTHING)),
            Some(Some(queued)) => {
                let (found, inline) = found.expect("a queued send");
                let count = if inline.is_some() { 0 } else { found.count as usize };
                let pieces =
                    found.sges[..count].iter().map(|sge| Piece { address: sge.address, length: sge.length, key: sge.key });
                let found = SendListing {
                    wr_id: found.wr_id,
                    opcode: found.opcode,
                    signaled: found.flags & SIGNALED != 0,
                    immediate: found.immediate,
                    address: found.remote_address,
                    key: found.remote_key,
                    pieces: pieces.collect(),
                    inline,
                };
                assert_eq!(found, *queued, "send {index} of queue pair {n}");
            }
        }
    }
}

/// A length that is no state's.
pub fn other_lengths() {
    for length in [0, 1, STATE_BYTES - 1, STATE_BYTES + 1] {
        let state = vec![0xff; length];
        assert_eq!(c::peek_memory(&state), Err(BAD_STATE));
        assert_eq!(c::peek_pd(&state, 0), Err(BAD_STATE));
        assert_eq!(c::peek_cq(&state, 0), Err(BAD_STATE));
        assert_eq!(c::peek_mr(&state, 0), Err(BAD_STATE));
        assert_eq!(c::peek_page(&state, 0, 0), Err(BAD_STATE));
        assert_eq!(c::peek_qp(&state, 0), Err(BAD_STATE));
        assert_eq!(c::peek_completion(&state, 0, 0), Err(BAD_STATE));
        assert_eq!(c::peek_receive(&state, 0, 0), Err(BAD_STATE));
        assert_eq!(c::peek_send(&state, 0, 0), Err(BAD_STATE));
        assert_eq!(c::peek_turn(&state), Err(BAD_STATE));
    }
}
