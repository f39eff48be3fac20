//! The test of answer 15.

use crate::layout::*;
use crate::record::{Kind, FENCE, INLINE, READ, SIGNALED, SOLICITED};

/// Why a lent state is not accepted.
#[derive(Clone, Copy, Debug, PartialEq, Eq, Hash, PartialOrd, Ord)]
pub enum Fault {
    StateLength,
    MemoryLength,
    TurnPlace,
    DomainFlag,
    QueueFlag,
    QueuePlaces,
    QueueFirst,
    QueueCount,
    CompletionStatus,
    CompletionOpcode,
    CompletionLength,
    CompletionOwner,
    RegionFlag,
    RegionAccess,
    RegionVariant,
    RegionDomain,
    RegionEmpty,
    RegionAddress,
    RegionKind,
    RegionMemory,
    RegionStart,
    RegionPages,
    RegionPage,
    PairFlag,
    PairDomain,
    PairSendQueue,
    PairReceiveQueue,
    PairSignal,
    PairState,
    PairDestination,
    PairNamesItself,
    PairAccess,
    WaitingFirst,
    WaitingCount,
    ReceivePieces,
    SendsFirst,
    SendsCount,
    SendsState,
    QueuedOpcode,
    QueuedFlags,
    QueuedInlineRead,
    QueuedInlineLength,
    QueuedPieces,
}

impl Fault {
    pub const ALL: [Fault; 43] = [
        Fault::StateLength,
        Fault::MemoryLength,
        Fault::TurnPlace,
        Fault::DomainFlag,
        Fault::QueueFlag,
        Fault::QueuePlaces,
        Fault::QueueFirst,
        Fault::QueueCount,
        Fault::CompletionStatus,
        Fault::CompletionOpcode,
        Fault::CompletionLength,
        Fault::CompletionOwner,
        Fault::RegionFlag,
        Fault::RegionAccess,
        Fault::RegionVariant,
        Fault::RegionDomain,
        Fault::RegionEmpty,
        Fault::RegionAddress,
        Fault::RegionKind,
        Fault::RegionMemory,
        Fault::RegionStart,
        Fault::RegionPages,
        Fault::RegionPage,
        Fault::PairFlag,
        Fault::PairDomain,
        Fault::PairSendQueue,
        Fault::PairReceiveQueue,
        Fault::PairSignal,
        Fault::PairState,
        Fault::PairDestination,
        Fault::PairNamesItself,
        Fault::PairAccess,
        Fault::WaitingFirst,
        Fault::WaitingCount,
        Fault::ReceivePieces,
        Fault::SendsFirst,
        Fault::SendsCount,
        Fault::SendsState,
        Fault::QueuedOpcode,
        Fault::QueuedFlags,
        Fault::QueuedInlineRead,
        Fault::QueuedInlineLength,
        Fault::QueuedPieces,
    ];
}

type State = [u8; STATE_BYTES];

/// Whether a call other than reset takes this state.
pub fn accepts(state: &[u8]) -> bool {
    fault(state).is_none()
}

/// The first fault found, if any.
pub fn fault(state: &[u8]) -> Option<Fault> {
    match state.try_into() {
        Ok(state) => check(state).err(),
        Err(_) => Some(Fault::StateLength),
    }
}

pub fn check(state: &State) -> Result<(), Fault> {
    let memory = get64(state, MEMORY_LENGTH);
    ensure((1..=MOST_MEMORY).contains(&memory), Fault::MemoryLength)?;
    ensure(usize::from(state[TURN]) < PAIRS, Fault::TurnPlace)?;
    flags(state, DOMAIN_FLAGS, DOMAINS, Fault::DomainFlag)?;
    for number in live(flags(state, QUEUE_FLAGS, QUEUES, Fault::QueueFlag)?) {
        check_queue(state, number)?;
    }
    for number in live(flags(state, REGION_FLAGS, REGIONS, Fault::RegionFlag)?) {
        check_region(state, number, memory)?;
    }
    for number in live(flags(state, PAIR_FLAGS, PAIRS, Fault::PairFlag)?) {
        check_pair(state, number)?;
    }
    Ok(())
}

/// A column of live flags, each 0 or 1.
fn flags(state: &State, at: usize, count: usize, fault: Fault) -> Result<&[u8], Fault> {
    let flags = &state[at..at + count];
    ensure(flags.iter().fold(0, |bits, flag| bits | flag) <= 1, fault)?;
    Ok(flags)
}

/// The numbers that it calls live.
fn live(flags: &[u8]) -> impl Iterator<Item = usize> + '_ {
    (0..flags.len()).filter(move |&number| flags[number] == 1)
}

fn check_queue(state: &State, number: usize) -> Result<(), Fault> {
    let row = queue_row(number);
    let (places, first, count) = (state[row + QUEUE_PLACES], state[row + QUEUE_FIRST], state[row + QUEUE_COUNT]);
    ensure((1..=MOST_PLACES).contains(&places.into()), Fault::QueuePlaces)?;
    ensure(usize::from(first) < MOST_PLACES, Fault::QueueFirst)?;
    ensure(count <= places, Fault::QueueCount)?;
    for unread in 0..count {
        check_completion(state, completion_row(number, usize::from(first + unread)))?;
    }
    Ok(())
}

fn check_completion(state: &State, row: usize) -> Result<(), Fault> {
    ensure(matches!(state[row + COMPLETION_STATUS], 0 | 1 | 3 | 4 | 7 | 8), Fault::CompletionStatus)?;
    ensure(state[row + COMPLETION_OPCODE] <= 4, Fault::CompletionOpcode)?;
    ensure(get32(state, row + COMPLETION_LENGTH) as usize <= MOST_MESSAGE, Fault::CompletionLength)?;
    ensure((get32(state, row + COMPLETION_OWNER) as usize) < PAIRS, Fault::CompletionOwner)
}

/// Whether a region may have this access: 1 local write, 4 remote read, and 2 remote write beside local write only.
pub fn access_ok(access: u32) -> bool {
    matches!(access, 0 | 1 | 3 | 4 | 5 | 7)
}

/// Whether a pair may have these access flags: the same three bits, in any combination.
pub fn access_flags_ok(flags: u32) -> bool {
    flags <= 7
}

fn check_region(state: &State, number: usize, memory: u64) -> Result<(), Fault> {
    let row = region_row(number);
    let start = get64(state, row + REGION_START);
    let length = get64(state, row + REGION_LENGTH);
    let virt = get64(state, row + REGION_VIRT);
    ensure(access_ok(state[row + REGION_ACCESS].into()), Fault::RegionAccess)?;
    ensure(state[row + REGION_VARIANT] != 0, Fault::RegionVariant)?;
    ensure(live_domain(state, state[row + REGION_DOMAIN]), Fault::RegionDomain)?;
    ensure(length != 0, Fault::RegionEmpty)?;
    ensure(virt <= u64::MAX - length, Fault::RegionAddress)?;
    match state[row + REGION_KIND] {
        ADJACENT => ensure(length <= memory && start <= memory - length, Fault::RegionMemory),
        PAGED => check_pages(state, number, start, length, memory),
        _ => Err(Fault::RegionKind),
    }
}

/// How many pages the bytes lie in that begin at this offset into the first of them; None if in more than a region may have.
pub fn pages_needed(start: u64, length: u64) -> Option<usize> {
    let end = start.checked_add(length)?;
    let pages = end / PAGE_BYTES + u64::from(end % PAGE_BYTES != 0);
    (pages <= MOST_PAGES as u64).then_some(pages as usize)
}

fn check_pages(state: &State, number: usize, start: u64, length: u64, memory: u64) -> Result<(), Fault> {
    ensure(start < PAGE_BYTES, Fault::RegionStart)?;
    let count = pages_needed(start, length).ok_or(Fault::RegionPages)?;
    let whole_pages = memory / PAGE_BYTES;
    let mut pages = state[page_row(number, 0)..page_row(number, count)].chunks_exact(PAGE_ROW);
    ensure(pages.all(|page| u64::from(get16(page, 0)) < whole_pages), Fault::RegionPage)
}

fn check_pair(state: &State, number: usize) -> Result<(), Fault> {
    let row = pair_row(number);
    let (phase, destination) = (state[row + PAIR_STATE], state[row + PAIR_DESTINATION]);
    ensure(live_domain(state, state[row + PAIR_DOMAIN]), Fault::PairDomain)?;
    ensure(state[row + PAIR_SIGNAL] <= 1, Fault::PairSignal)?;
    ensure(live_queue(state, state[row + PAIR_SEND_QUEUE]), Fault::PairSendQueue)?;
    ensure(live_queue(state, state[row + PAIR_RECEIVE_QUEUE]), Fault::PairReceiveQueue)?;
    ensure(matches!(phase, RESET | INIT | READY_TO_RECEIVE | READY_TO_SEND | ERROR), Fault::PairState)?;
    ensure(destination <= NO_DESTINATION, Fault::PairDestination)?;
    ensure(usize::from(destination) != number, Fault::PairNamesItself)?;
    ensure(access_flags_ok(state[row + PAIR_ACCESS].into()), Fault::PairAccess)?;
    check_waiting(state, number)?;
    check_sends(state, number, phase)
}

fn check_waiting(state: &State, number: usize) -> Result<(), Fault> {
    let row = waiting_row(number);
    let (first, count) = (state[row + WAITING_FIRST], state[row + WAITING_COUNT]);
    ensure(usize::from(first) < MOST_WAITING, Fault::WaitingFirst)?;
    ensure(usize::from(count) <= MOST_WAITING, Fault::WaitingCount)?;
    for waiting in 0..count {
        let receive = receive_row(number, usize::from(first + waiting));
        ensure(get32(state, receive + RECEIVE_COUNT) as usize <= MOST_RECEIVE_PIECES, Fault::ReceivePieces)?;
    }
    Ok(())
}

/// The queue of a pair in this state.
fn check_sends(state: &State, number: usize, phase: u8) -> Result<(), Fault> {
    let row = sends_row(number);
    let (first, count) = (state[row + SENDS_FIRST], state[row + SENDS_COUNT]);
    ensure(usize::from(first) < MOST_QUEUED, Fault::SendsFirst)?;
    ensure(usize::from(count) <= MOST_QUEUED, Fault::SendsCount)?;
    ensure(count == 0 || matches!(phase, READY_TO_SEND | ERROR), Fault::SendsState)?;
    for queued in 0..count {
        check_kind(&Kind::read(state, kind_row(number, usize::from(first + queued))))?;
    }
    Ok(())
}

/// What post send asks of a record but for its length, which its kind gives.
fn check_kind(kind: &Kind) -> Result<(), Fault> {
    ensure(kind.opcode <= READ, Fault::QueuedOpcode)?;
    ensure(kind.flags <= FENCE | SIGNALED | SOLICITED | INLINE, Fault::QueuedFlags)?;
    if kind.is_inline() {
        ensure(kind.opcode != READ, Fault::QueuedInlineRead)?;
        ensure(kind.count <= MOST_INLINE, Fault::QueuedInlineLength)
    } else {
        ensure(kind.count <= MOST_PIECES, Fault::QueuedPieces)
    }
}

fn live_domain(state: &State, number: u8) -> bool {
    usize::from(number) < DOMAINS && state[DOMAIN_FLAGS + usize::from(number)] == 1
}

fn live_queue(state: &State, number: u8) -> bool {
    usize::from(number) < QUEUES && state[QUEUE_FLAGS + usize::from(number)] == 1
}

fn ensure(holds: bool, fault: Fault) -> Result<(), Fault> {
    if holds {
        Ok(())
    } else {
        Err(fault)
    }
}
