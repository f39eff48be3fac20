//! Post send: the tests, and what a turn shares with it, the delivery and its completions.

use crate::answer::{Outcome, Refusal, Status};
use crate::card::{Card, Pair};
use crate::layout::*;
use crate::queues::RECEIVED;
use crate::record::*;

const SENT: u8 = 0;
const WRITTEN: u8 = 1;
const WAS_READ: u8 = 2;
const RECEIVED_WITH_WRITE: u8 = 4;

/// Memory bytes `start` to `start + length`.
#[derive(Clone, Copy, Default)]
struct Run {
    start: usize,
    length: usize,
}

/// Where the bytes of a range stand: in one run, and where a page ends among them in a second one.
#[derive(Clone, Copy, Default)]
struct Span {
    runs: [Run; 2],
}

impl Span {
    /// Its one run, if it has no second.
    fn only_run(&self) -> Option<Run> {
        (self.runs[1].length == 0).then_some(self.runs[0])
    }
}

/// The two sides of a request that is neither refused nor held.
struct Request<'a> {
    record: SendRecord<'a>,
    sender: usize,
    sender_pair: Pair,
    peer: usize,
    peer_pair: Pair,
}

/// The receiver's end of a failed step 5.
struct ReceiverFailed(Status);

pub fn post_send(state: &mut [u8], memory: &mut [u8], qpn: u32, record: &[u8]) -> Outcome {
    try_post_send(state, memory, qpn, record).into()
}

fn try_post_send(state: &mut [u8], memory: &mut [u8], qpn: u32, record: &[u8]) -> Result<Status, Refusal> {
    let mut card = Card::open(state)?;
    if memory.len() as u64 != card.memory_length() {
        return Err(Refusal::MemoryLength);
    }
    let record = SendRecord::read(record)?;
    let sender = sending_pair(&card, qpn)?;
    if card.queued(sender) > 0 {
        return Err(Refusal::InUse);
    }
    run(&mut card, memory, sender, record)
}

/// A live pair that takes sends: ready, or in error.
pub fn sending_pair(card: &Card, qpn: u32) -> Result<usize, Refusal> {
    let sender = card.pair_number(qpn)?;
    match card.pair(sender).state {
        READY_TO_SEND | ERROR => Ok(sender),
        _ => Err(Refusal::WrongState),
    }
}

/// Runs a request of such a pair to its end, or holds it and changes nothing.
pub fn run(card: &mut Card, memory: &mut [u8], sender: usize, record: SendRecord) -> Result<Status, Refusal> {
    let sender_pair = card.pair(sender);
    if sender_pair.state == ERROR {
        return flush_at_once(card, sender, &sender_pair, &record);
    }
    let peer = ready_peer(card, sender, &sender_pair, record.takes_receive())?;
    let request = Request { record, sender, sender_pair, peer, peer_pair: card.pair(peer) };
    need_places(card, &request)?;
    let status = request.deliver(card, memory);
    if status != Status::Success {
        card.set_pair_state(sender, ERROR);
    }
    Ok(status)
}

/// A request of a pair in error: it asks for one place and completes there, whatever its peer, its keys and its length are.
fn flush_at_once(card: &mut Card, sender: usize, pair: &Pair, record: &SendRecord) -> Result<Status, Refusal> {
    if card.free_places(pair.send_queue.into()) == 0 {
        return Err(Refusal::NoPlace);
    }
    complete_sender(card, sender, pair, record, Status::Flushed, 0);
    Ok(Status::Flushed)
}

/// Step 1: the peer, ready and naming the sender back.
fn ready_peer(card: &Card, sender: usize, pair: &Pair, takes_receive: bool) -> Result<usize, Refusal> {
    let peer = card.pair_number(pair.destination.into()).map_err(|_| Refusal::PeerNotReady)?;
    let peer_pair = card.pair(peer);
    let ready = matches!(peer_pair.state, READY_TO_RECEIVE | READY_TO_SEND);
    let names_back = usize::from(peer_pair.destination) == sender;
    if !ready || !names_back || takes_receive && card.waiting(peer) == 0 {
        return Err(Refusal::PeerNotReady);
    }
    Ok(peer)
}

/// Step 2: places for the completions, put or not.
fn need_places(card: &Card, request: &Request) -> Result<(), Refusal> {
    let send_queue = request.sender_pair.send_queue.into();
    let receive_queue = request.peer_pair.receive_queue.into();
    let enough = match (request.record.takes_receive(), send_queue == receive_queue) {
        (false, _) => card.free_places(send_queue) >= 1,
        (true, true) => card.free_places(send_queue) >= 2,
        (true, false) => card.free_places(send_queue) >= 1 && card.free_places(receive_queue) >= 1,
    };
    if enough {
        Ok(())
    } else {
        Err(Refusal::NoPlace)
    }
}

impl Request<'_> {
    /// Steps 3 to 6 and the completions.
    fn deliver(&self, card: &mut Card, memory: &mut [u8]) -> Status {
        let total = self.record.total();
        if total > MOST_MESSAGE as u64 {
            return self.fail(card, Status::LocalLength);
        }
        let total = total as usize;
        let (local, count) = match self.local_spans(card) {
            Some(spans) => spans,
            None => return self.fail(card, Status::LocalProtection),
        };
        let local = &local[..count];
        match self.record.opcode {
            SEND | SEND_IMMEDIATE => match self.receive_spans(card, total) {
                Ok((target, count)) => {
                    self.move_out(memory, local, &target[..count]);
                    self.succeed(card, total)
                }
                Err(ReceiverFailed(status)) => self.fail_both(card, status),
            },
            READ => match remote_span(card, &self.peer_pair, REMOTE_READ, self.record.address, total, self.record.key) {
                Some(source) => {
                    copy(memory, &[source], local);
                    self.succeed(card, total)
                }
                None => self.fail(card, Status::RemoteAccess),
            },
            _ => match remote_span(card, &self.peer_pair, REMOTE_WRITE, self.record.address, total, self.record.key) {
                Some(target) => {
                    self.move_out(memory, local, &[target]);
                    self.succeed(card, total)
                }
                None => self.fail(card, Status::RemoteAccess),
            },
        }
    }

    /// Step 3: where the sender's pieces stand. Inline bytes need no key.
    fn local_spans(&self, card: &Card) -> Option<([Span; MOST_PIECES], usize)> {
        let mut spans = [Span::default(); MOST_PIECES];
        let (pieces, count) = match &self.record.local {
            Local::Pieces { pieces, count } => (pieces, count),
            Local::Inline(_) => return Some((spans, 0)),
        };
        let right = if self.record.opcode == READ { LOCAL_WRITE } else { 0 };
        for (place, piece) in spans.iter_mut().zip(&pieces[..*count]) {
            *place = span(card, &self.sender_pair, right, piece.address, piece.length as usize, piece.key)?;
        }
        Some((spans, *count))
    }

    /// Step 5: where the first `total` bytes of the peer's oldest receive stand.
    fn receive_spans(&self, card: &Card, total_bytes: usize) -> Result<([Span; MOST_RECEIVE_PIECES], usize), ReceiverFailed> {
        let receive = card.receive(self.peer, 0);
        if total_bytes as u64 > total(receive.pieces()) {
            return Err(ReceiverFailed(Status::LocalLength));
        }
        let mut spans = [Span::default(); MOST_RECEIVE_PIECES];
        let mut left = total_bytes;
        for (place, piece) in spans.iter_mut().zip(receive.pieces()) {
            let used = left.min(piece.length as usize);
            *place = span(card, &self.peer_pair, LOCAL_WRITE, piece.address, used, piece.key)
                .ok_or(ReceiverFailed(Status::LocalProtection))?;
            left -= used;
        }
        Ok((spans, receive.count))
    }

    /// Step 6 for a write or a send.
    fn move_out(&self, memory: &mut [u8], local: &[Span], target: &[Span]) {
        match self.record.local {
            Local::Inline(bytes) => scatter(memory, target, bytes),
            Local::Pieces { .. } => copy(memory, local, target),
        }
    }

    fn succeed(&self, card: &mut Card, total: usize) -> Status {
        if self.sender_pair.signal == 0 || self.record.flags & SIGNALED != 0 {
            self.complete_sender(card, Status::Success, total);
        }
        if self.record.takes_receive() {
            self.complete_receiver(card, Status::Success, total);
        }
        Status::Success
    }

    fn fail(&self, card: &mut Card, status: Status) -> Status {
        self.complete_sender(card, status, 0);
        status
    }

    /// A send that the receive cannot take.
    fn fail_both(&self, card: &mut Card, receiver: Status) -> Status {
        self.complete_sender(card, Status::RemoteInvalid, 0);
        self.complete_receiver(card, receiver, 0);
        card.set_pair_state(self.peer, ERROR);
        Status::RemoteInvalid
    }

    fn complete_sender(&self, card: &mut Card, status: Status, length: usize) {
        complete_sender(card, self.sender, &self.sender_pair, &self.record, status, length);
    }

    /// Uses up the peer's oldest receive.
    fn complete_receiver(&self, card: &mut Card, status: Status, length: usize) {
        let with_immediate = status == Status::Success && matches!(self.record.opcode, WRITE_IMMEDIATE | SEND_IMMEDIATE);
        let completion = Completion {
            wr_id: card.receive(self.peer, 0).wr_id,
            status: status as u8,
            opcode: if self.record.opcode == WRITE_IMMEDIATE { RECEIVED_WITH_WRITE } else { RECEIVED },
            length: length as u32,
            immediate: if with_immediate { self.record.immediate } else { 0 },
            owner: self.peer as u32,
        };
        card.drop_receive(self.peer);
        card.put_completion(self.peer_pair.receive_queue.into(), &completion);
    }
}

fn complete_sender(card: &mut Card, sender: usize, pair: &Pair, record: &SendRecord, status: Status, length: usize) {
    let opcode = match record.opcode {
        WRITE | WRITE_IMMEDIATE => WRITTEN,
        READ => WAS_READ,
        _ => SENT,
    };
    let completion = Completion {
        wr_id: record.wr_id,
        status: status as u8,
        opcode,
        length: length as u32,
        immediate: 0,
        owner: sender as u32,
    };
    card.put_completion(pair.send_queue.into(), &completion);
}

/// Where a range stands, if every byte of it is permitted. An empty range looks at no key.
fn span(card: &Card, pair: &Pair, right: u8, address: u64, length: usize, key: u32) -> Option<Span> {
    if length == 0 {
        return Some(Span::default());
    }
    let slot = (key >> 8) as usize;
    if slot >= REGIONS || !card.live_region(slot) {
        return None;
    }
    let region = card.region(slot);
    let key_fits = u32::from(region.variant) == key & 0xff;
    if !key_fits || region.domain != pair.domain || region.access & right != right {
        return None;
    }
    let offset = address.checked_sub(region.virt)?;
    if offset >= region.length || length as u64 > region.length - offset {
        return None;
    }
    let (start, run) = card.byte_of(slot, address, length);
    let mut span = Span { runs: [Run { start, length: run }, Run::default()] };
    if run < length {
        let (start, rest) = card.byte_of(slot, address + run as u64, length - run);
        span.runs[1] = Run { start, length: rest };
    }
    Some(span)
}

/// The same of a remote range, for which the pair's own access flags must grant the right too.
fn remote_span(card: &Card, pair: &Pair, right: u8, address: u64, length: usize, key: u32) -> Option<Span> {
    if length > 0 && pair.access & right != right {
        return None;
    }
    span(card, pair, right, address, length, key)
}

/// Copies the source's bytes to the target in order; all are read before any is written.
fn copy(memory: &mut [u8], source: &[Span], target: &[Span]) {
    if let ([from], [to]) = (source, target) {
        if let (Some(from), Some(to)) = (from.only_run(), to.only_run()) {
            memory.copy_within(from.start..from.start + from.length, to.start);
            return;
        }
    }
    let mut staging = [0; MOST_MESSAGE];
    let mut filled = 0;
    for span in source {
        for run in span.runs {
            staging[filled..filled + run.length].copy_from_slice(&memory[run.start..run.start + run.length]);
            filled += run.length;
        }
    }
    scatter(memory, target, &staging[..filled]);
}

/// Writes the bytes to the target in order, a later one over an earlier one.
fn scatter(memory: &mut [u8], target: &[Span], bytes: &[u8]) {
    let mut rest = bytes;
    for span in target {
        for run in span.runs {
            let (part, later) = rest.split_at(run.length);
            memory[run.start..run.start + run.length].copy_from_slice(part);
            rest = later;
        }
    }
}
